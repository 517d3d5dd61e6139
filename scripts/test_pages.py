"""Tests of README and docs/: what they name is there, and what a script can read is as they say."""

import csv
import glob
import os
import re
import unittest

import pages
import words
from build import TOP, crates

PAGES = sorted([f"{TOP}/README.md", *glob.glob(f"{TOP}/docs/*.md")])
NAMED_IN_COURSE = ("home", "1 round", "10 rounds")  # columns of bench/others.csv
PART = r"((?:specs|src|proofs)/[\w/]+)`"
NAMED = [  # a file of a crate, in three forms: the crate and the part, one way round or the other
    (re.compile(rf"\b(\w+)`?,? `{PART}"), 1),
    (re.compile(rf"`(\w+)/{PART}"), 1),
    (re.compile(rf"`{PART} of (\w+)"), 2),
]
# A file beside the crates, but no page that is made.
FILE = re.compile(r"`((?:docs|scripts|bench|examples|tests)/[\w./-]+)`(?<!.html`)")
LIMIT = re.compile(r"^limit_maximum (\w+) = (\d+)$", re.M)
TERM = re.compile(r"`([A-Za-z]\w*[A-Za-z0-9])`")
# What defines a name that a page may cite: a clause, a function, a type, a field, a definition.
DEFINED = re.compile(
    r"\bensures (\w+) \{|\b(?:fn|record|struct|enum|trait|mod|data|abbrev pub) (\w+)"
    r"|^ *pub (?!fn|record|mod|struct|enum|trait|data)(\w+)\b",
    re.M,
)


def text_of(page):
    with open(page, encoding="utf-8") as file:
        return file.read()


def defined():
    """All names that code and definitions of crates define, those of crates, and words of ./pra."""
    found = {*crates(), *words.table()[0]}
    for crate in crates():
        for file in pages.files(crate):
            if "/proofs/" not in file:
                found.update(it for them in DEFINED.findall(text_of(file)) for it in them if it)
    return found


class Parts(unittest.TestCase):
    """What scripts/pages.py writes."""

    def test_written_parts_are_those_of_the_sources(self):
        for page in pages.PARTS:
            now, wanted = pages.page_now(page)
            self.assertEqual(now, wanted, f"{page}: python3 scripts/pages.py write")

    def test_each_crate_is_of_one_layer(self):
        listed = [it for _, them in pages.by_layers() for it in them]
        self.assertEqual(sorted(listed), sorted(crates()))

    def test_a_part_is_put_between_its_marks(self):
        first, last = pages.marks("laws")
        text = f"a\n{first}\nold\n{last}\nb\n"
        wanted = f"a\n{first}\n\nnew\n\n{last}\nb\n"
        self.assertEqual(pages.with_part(text, "laws", ["new"]), wanted)

    def test_the_first_sentence_of_a_head(self):
        head = ["//! Lists. (Short", "//! ones.)", "//!", "//! More."]
        self.assertEqual(pages.sentence(pages.comment(head)), "Lists.")
        self.assertEqual(pages.comment(["-- ---- names", "code"]), "")

    def test_laws_are_found_with_what_they_say(self):
        self.assertIn("duality", dict(pages.laws("net_dual")))


class Names(unittest.TestCase):
    """What pages name is there."""

    def test_files_of_crates(self):
        count = 0
        for page in PAGES:
            for pattern, crate_at in NAMED:
                for found in pattern.finditer(" ".join(text_of(page).split())):
                    crate, part = found[crate_at], found[3 - crate_at]
                    if crate in crates():
                        count += 1
                        names = glob.glob(f"{TOP}/crates/{crate}/{part.rstrip('/')}*")
                        self.assertTrue(names, f"{page}: {crate} {part}")
        self.assertGreater(count, 100)

    def test_wrong_bodies_that_are_cited(self):
        text = text_of(f"{TOP}/docs/PROVED.md")
        found = re.findall(r"(\w+) `((?:edits|must-fail)/\w+)`", text)
        self.assertTrue(found)
        for crate, name in found:
            self.assertTrue(os.path.isfile(f"{TOP}/crates/{crate}/{name}.edit"), f"{crate} {name}")

    def test_files_beside_the_crates(self):
        for page in PAGES:
            for name in FILE.findall(text_of(page)):
                self.assertTrue(os.path.exists(f"{TOP}/{name}"), f"{page}: {name}")

    def test_links(self):
        for page in PAGES:
            for target in re.findall(r"\]\(([^)#]+)", text_of(page)):
                name = f"{os.path.dirname(page)}/{target}"
                self.assertTrue(os.path.exists(name), f"{page}: {target}")

    def test_clauses_and_laws_that_are_cited(self):
        """What PROVED and README's part on proofs name is defined."""
        known = defined()
        readme = text_of(f"{TOP}/README.md")
        for text in (readme[readme.index("## What is proved") :], text_of(f"{TOP}/docs/PROVED.md")):
            for name in TERM.findall(text):
                self.assertIn(name, known)

    def test_laws_that_are_cited_are_laws(self):
        known = {name for crate in crates() for name, _ in pages.laws(crate)}
        text = text_of(f"{TOP}/README.md")
        for name in re.findall(r"law\w* ((?:`\w+`(?:, )?)+)", text):
            for it in TERM.findall(name):
                self.assertIn(it, known)


class Figures(unittest.TestCase):
    """What pages count, where a script can count it."""

    def test_vectors_and_wrong_bodies(self):
        for page in pages.COUNTING:
            text = text_of(f"{TOP}/{page}")
            how = f"{page}: python3 scripts/pages.py write"
            self.assertEqual(text, pages.with_counts(text), how)

    def test_counts_are_put_where_others_stood(self):
        text = "7 vectors, 1 stand in `edits/` and 2 in\n`must-fail/`"
        told = re.findall(r"\d+", pages.with_counts(text))
        known = ("docs/vectors/*.cert", "crates/*/edits/*", "crates/*/must-fail/*")
        self.assertEqual(told, [str(len(glob.glob(f"{TOP}/{it}"))) for it in known])

    def test_crates_of_many_functions(self):
        head = re.compile(r"^\s*(?:pub(?:\(\w+\))? )?(?:const )?fn \w+", re.M)
        many = set()
        for crate in crates():
            sources = (it for it in pages.files(crate) if f"/{crate}/src/" in it)
            if sum(len(head.findall(text_of(it))) for it in sources) > 100:
                many.add(crate)
        text = text_of(f"{TOP}/docs/DECISIONS.md")
        part = text[text.index("more than a hundred functions") :].split("\n- ")[0]
        self.assertEqual(set(re.findall(r"\w+_\w+", part)), many)

    def test_words_and_options_of_the_compiler(self):
        """README has each word, and each option with its default and the values it may have."""
        text, (known, options) = text_of(f"{TOP}/README.md"), words.table()
        own = [it for it in known.values() if it.script == "-"]
        rows = [it for it in text.splitlines() if it.startswith("| `--")]
        for word in own:
            self.assertIn(f"./pra {word.name} ", text)
        for name in {it for word in own for it in word.options}:
            option = options[f"--{name}"]
            (row,) = (it for it in rows if f"`{option.name} {option.value}`" in it)
            self.assertIn(option.default, row.split("|")[-2])
            if " to " in option.values:
                self.assertIn(option.values, row)

    def test_rules(self):
        """LANGUAGE has the rules of the checker, in their order."""
        source = text_of(f"{TOP}/crates/ob_check/src/rules.rt")
        body = source[source.index("pub enum Rule {") :].split("\n}")[0]
        known = re.findall(r"^    (\w+),$", body, re.M)
        table = text_of(f"{TOP}/docs/LANGUAGE.md")
        told = re.findall(r"^\| (\d+) \| (\w+) \|", table[table.index("## Rules") :], re.M)
        self.assertEqual(told[: len(known)], [(str(at), it) for at, it in enumerate(known, 1)])

    def test_limits(self):
        """LANGUAGE has the limits of the definition, with their maxima."""
        known = dict(LIMIT.findall(text_of(f"{TOP}/crates/pra_base/specs/Limits.antt")))
        self.assertTrue(known)
        table = text_of(f"{TOP}/docs/LANGUAGE.md")
        told = re.findall(r"^\| ([a-z-]+) \| (\d+) \|", table[table.index("## Limits") :], re.M)
        told = {"".join(it.title().split("-")): most for it, most in told}
        self.assertEqual({it: told[it] for it in known}, known)

    def quality(self, weights, seeds, part, rounds):
        """The sum of a column of bench/quality.csv over generated modules."""
        with open(f"{TOP}/bench/quality.csv", encoding="utf-8", newline="") as table:
            names = {f"generated_{it}" for it in seeds}
            rows = [it for it in csv.DictReader(table) if it["module"] in names]
        return sum(int(it[f"{part} {rounds}"]) for it in rows if it["weights"] == weights)

    def test_costs_and_bounds(self):
        text = text_of(f"{TOP}/docs/QUALITY.md")
        for title, seeds in (("1 to 5", range(1, 6)), ("11 to 15", range(11, 16))):
            table = text[text.index(f"| Modules {title}, rounds") :].split("\n\n")[0]
            rows = [it.strip("| ").split(" | ") for it in table.splitlines()[2:]]
            self.assertEqual(len(rows), 7)
            for rounds, *cells in rows:
                for weights, (cost, _, bound, _) in (("size", cells[:4]), ("speed", cells[4:])):
                    found = [self.quality(weights, seeds, it, rounds) for it in ("cost", "bound")]
                    self.assertEqual([int(cost), int(bound)], found)

    def test_closed_procedures(self):
        """In how many of the 40 procedures the cost is the bound."""
        with open(f"{TOP}/bench/quality.csv", encoding="utf-8", newline="") as table:
            rows = [it for it in csv.DictReader(table) if it["module"].startswith("generated")]
        text = " ".join(text_of(f"{TOP}/docs/QUALITY.md").split())
        ends = (("size", " of these 40 procedures by size"), ("speed", " by speed"))
        for weights, behind in ends:
            each = [it for it in rows if it["weights"] == weights]
            self.assertEqual(len(each), 40)
            counts = [
                sum(it[f"cost {at}"] == it[f"bound {at}"] for it in each)
                for at in (1, 5, 10, 20, 50, 200)
            ]
            self.assertIn(", ".join(map(str, counts)) + behind, text)

    def test_other_allocators(self):
        """The sums of bench/others.csv, and of its costs those of bench/quality.csv."""
        text = text_of(f"{TOP}/docs/QUALITY.md")
        with open(f"{TOP}/bench/others.csv", encoding="utf-8", newline="") as table:
            for row in csv.DictReader(table):
                if row["module"] == "all five":
                    found = [
                        self.quality(row["weights"], range(1, 6), "cost", it) for it in (1, 10, 20)
                    ]
                    rounds = ("1 round", "10 rounds", "20 rounds")
                    self.assertEqual([int(row[it]) for it in rounds], found)
                if row["module"].startswith("all "):
                    names = ("home", "linear scan", "with holes", "colouring", "1 round")
                    self.assertIn(" | ".join(row[it] for it in names) + ",", text)

    def test_exercises(self):
        """What COURSE says that rounds come to is what they do."""
        text = " ".join(text_of(f"{TOP}/docs/COURSE.md").split())
        with open(f"{TOP}/bench/others.csv", encoding="utf-8", newline="") as table:
            five = [it for it in csv.DictReader(table) if it["module"] == "all five"]
        size, speed = ({name: f"{int(it[name]):,}" for name in NAMED_IN_COURSE} for it in five)
        home, one, ten = ((size[it], speed[it]) for it in NAMED_IN_COURSE)
        self.assertIn("no register between visits: {} and {}".format(*home), text)
        self.assertIn("One round of the compiler comes to some {} and {}".format(*one), text)
        self.assertIn("and comes to some {} and {}".format(*ten), text)

    def test_code_beside_gcc(self):
        text = text_of(f"{TOP}/docs/QUALITY.md")
        with open(f"{TOP}/bench/beside_gcc.csv", encoding="utf-8", newline="") as table:
            for row in csv.reader(table):
                if row[1].startswith("all "):
                    self.assertIn(f"| {' | '.join(row[2:])} |", text)


class Form(unittest.TestCase):
    def test_lines_fit_into_a_hundred_columns(self):
        """But rows of tables, and lines that hold a link."""
        for page in PAGES:
            for number, line in enumerate(text_of(page).splitlines(), 1):
                if not line.startswith("|") and "](" not in line:
                    self.assertLessEqual(len(line), 100, f"{page}:{number}")


if __name__ == "__main__":
    unittest.main()
