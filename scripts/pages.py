#!/usr/bin/env python3
"""What pages tell of the sources, read off the sources.

    pages.py files [WORD ..]    a line for each file: the first sentence of its head
    pages.py laws [WORD ..]     a line for each law: the sentence before it
    pages.py write              puts crates into docs/ARCHITECTURE.md, laws into docs/PROVED.md, and
                                what is counted into the pages that tell how many there are

With WORDs only lines that have all of them are printed, in letters of either case. In a crate
`src/` has code and tests, `specs/` definitions and `proofs/` lemmas; lists of modules (`Lib.antt`)
are left out. A law is a public function of a module `laws`, or `.._laws`: its contract says it.
"""

import glob
import os
import re
import sys

import build
from build import TOP

ROOTS = ("src/lib.rt", "src/main.rt")
MARKS = re.compile(r"\s*(//[!/]?|--)( |$)")
SENTENCE = re.compile(r".*?[.](?=\s|$)")
LAW = re.compile(r"((?:^///.*\n)+)^pub fn (\w+)", re.M)
# The layers, by the begins of crates' names, in the order in which data goes through them.
LAYERS = (
    ("what all layers speak of", ("pra_list", "pra_packed", "pra_base", "pra_io")),
    ("`ob_`, the front: from bytes to a checked module, and what that means", ("ob_",)),
    ("`vc_`, selection: code over variables, whose places are still open", ("vc_",)),
    ("`net_`, the network of places that variables may be at", ("net_",)),
    ("`al_`, allocation: routes through that network", ("al_",)),
    ("`pl_`, placement: code whose variables have places", ("pl_",)),
    ("`ia_`, the machine: instructions, images and runs", ("ia_",)),
    ("`cert_`, certificates: costs and bounds that anybody can test", ("cert_",)),
    ("`pra_`, the whole: compiler, tool and program", ("pra",)),
    ("tests, what serves them, and measurements", ("",)),
)
SERVE_TESTS = ("ia_sketch",)  # whose names are those of a layer
PARTS = {  # what stands between two marks of a page
    "docs/ARCHITECTURE.md": "crates",
    "docs/PROVED.md": "laws",
}

COUNTING = ("docs/DECISIONS.md", "docs/CERTIFICATES.md")  # pages that tell how many there are


def comment(lines):
    """The text of the first comment, up to its first empty line; a heading is none."""
    found = []
    for line in lines:
        mark = MARKS.match(line)
        text = line[mark.end() :].strip() if mark else ""
        if found and not text:
            break
        if text and not text.startswith("----"):
            found.append(text)
    return " ".join(found)


def sentence(text):
    """The first sentence of a text, as a cell of a table."""
    first = SENTENCE.match(text)
    return (first[0] if first else text).replace("|", "\\|")


def about(file):
    with open(file, encoding="utf-8") as text:
        return sentence(comment(text))


def files(crate):
    """The files of a crate, the one to read first in front."""
    found = []
    for part in ("src", "specs", "proofs"):
        for folder, folders, names in os.walk(f"{TOP}/crates/{crate}/{part}"):
            if part == "proofs":
                folders[:] = [it for it in folders if it[0].isupper()]
            found += [f"{folder}/{it}" for it in names if it.endswith((".rt", ".antt"))]
    return sorted(
        (it for it in found if not it.endswith("/Lib.antt")),
        key=lambda it: (not it.endswith(ROOTS), "/src/" not in it, "/specs/" not in it, it),
    )


def laws(crate):
    """The laws of a crate: name and first sentence of each."""
    found = []
    for file in sorted(glob.glob(f"{TOP}/crates/{crate}/src/*laws.rt")):
        with open(file, encoding="utf-8") as text:
            for said, name in LAW.findall(text.read()):
                found.append((name, sentence(comment(said.splitlines()))))
    return found


def layer_of(crate):
    """The number of the layer that a crate is of."""
    for number, (_, begins) in enumerate(LAYERS):
        if crate not in SERVE_TESTS and any(crate.startswith(it) for it in begins):
            return number
    return len(LAYERS) - 1


def by_layers():
    """The layers, each with its crates in the order of crates.txt."""
    named = list(build.crates())
    for number, (title, _) in enumerate(LAYERS):
        yield title, [it for it in named if layer_of(it) == number]


def crates_table():
    linked = build.below(build.COMPILER, build.of_the_repository(build.crates()))
    rows, layers = ["| Crate | What it is |", "|---|---|"], list(by_layers())
    for title, crates in layers:
        rows.append(f"| | **{title}** |")
        for it in crates:
            is_aside = it not in [*linked, build.COMPILER] and crates is not layers[-1][1]
            aside = " *The program does not stand on it.*" * is_aside
            rows.append(f"| {it} | {about(files(it)[0])}{aside} |")
    return rows


def laws_table():
    rows = ["| Layer | Its laws, by crate |", "|---|---|"]
    for title, crates in by_layers():
        found = [(it, ", ".join(f"`{name}`" for name, _ in laws(it))) for it in crates]
        told = "; ".join(f"**{crate}** {names}" for crate, names in found if names)
        rows += [f"| {title} | {told} |"] * bool(told)
    return rows


def marks(part):
    """The lines between which a part of a page stands."""
    return f"<!-- {part}: written by scripts/pages.py -->", f"<!-- end of {part} -->"


def with_part(text, part, rows):
    """A page's text with rows between the marks of a part."""
    first, last = marks(part)
    before, rest = text.split(f"{first}\n", 1)
    return "\n".join([f"{before}{first}", "", *rows, "", ""]) + rest[rest.index(last) :]


def page_now(page):
    """What a page of which a part is written says now, and what it has to say."""
    with open(f"{TOP}/{page}", encoding="utf-8") as file:
        text = file.read()
    table = crates_table if PARTS[page] == "crates" else laws_table
    return text, with_part(text, PARTS[page], table())


def with_counts(text):
    """A page's text with how many vectors and wrong bodies there are now."""
    vectors = len(glob.glob(f"{TOP}/docs/vectors/*.cert"))
    kinds = ("edits", "must-fail")
    edits, must_fail = (len(glob.glob(f"{TOP}/crates/*/{it}/*.edit")) for it in kinds)
    text = re.sub(r"\d+( vectors)", rf"{vectors}\1", text)
    told = r"\d+( stand in `edits/` and )\d+( in\s+`must-fail/`)"
    return re.sub(told, rf"{edits}\g<1>{must_fail}\g<2>", text)


def write(page, text):
    with open(f"{TOP}/{page}", "w", encoding="utf-8") as file:
        file.write(text)


def print_lines(lines, words):
    for line in lines:
        if all(it.lower() in line.lower() for it in words):
            print(line)


def main(words):
    known = list(build.crates())
    if words[:1] == ["files"]:
        named = (it for crate in known for it in files(crate))
        lines = (f"{os.path.relpath(it, f'{TOP}/crates')}: {about(it)}" for it in named)
        print_lines(lines, words[1:])
    elif words[:1] == ["laws"]:
        found = ((crate, *it) for crate in known for it in laws(crate))
        print_lines((f"{crate} {name}: {said}" for crate, name, said in found), words[1:])
    elif words == ["write"]:
        for page in PARTS:
            write(page, page_now(page)[1])
        for page in COUNTING:
            with open(f"{TOP}/{page}", encoding="utf-8") as file:
                text = file.read()
            write(page, with_counts(text))
    else:
        print(__doc__, file=sys.stderr)
        return 2
    return 0


if __name__ == "__main__":
    sys.exit(main(sys.argv[1:]))
