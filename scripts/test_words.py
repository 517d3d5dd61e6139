"""Tests of the words of ./pra."""

import re
import unittest

import words

TOP = words.os.path.dirname(words.HERE)


class Table(unittest.TestCase):
    def test_each_word_has_a_script_or_is_the_compilers(self):
        known, _ = words.table()
        for it in known.values():
            script = f"{words.HERE}/{it.script}"
            self.assertTrue(it.script == "-" or words.os.path.isfile(script), it.name)

    def test_options_are_those_of_the_compiler(self):
        """Default, least and most stand in the compiler's own table too."""
        with open(f"{TOP}/crates/pra_words/src/words.rt", encoding="utf-8") as text:
            rows = re.findall(r"^/// \| `(--\w+)` \| (.*) \| (.*) \|$", text.read(), re.M)
        known = words.of_compiler(*words.table())
        self.assertEqual({name for name, *_ in rows}, set(known))
        for name, values, default in rows:
            self.assertEqual(known[name].default, default.strip("`"))
            if " to " in values:
                self.assertEqual(known[name].values, values)

    def test_options_of_words_are_in_the_table(self):
        known, options = words.table()
        for it in known.values():
            self.assertLessEqual(set(it.names), set(options), it.name)

    def test_screens_fit_into_a_hundred_columns(self):
        known, options = words.table()
        screens = [words.screen(), *(words.screen_of(it, options) for it in known.values())]
        for screen in screens:
            for line in "\n".join(screen).splitlines():
                self.assertLessEqual(len(line), 100)


class Wrong(unittest.TestCase):
    def told(self, *line):
        return list(words.wrong(line))

    def test_good_words_have_nothing_wrong(self):
        self.assertEqual(self.told("run", "a.ob", "--rounds", "5", "--cost=speed"), [])
        self.assertEqual(self.told("--gap", "0", "cert", "--", "-a.ob"), [])

    def test_a_mode_is_told_with_what_was_meant(self):
        (line,) = self.told("rnu", "a.ob")
        self.assertIn("'rnu' is none of run,", line)
        self.assertTrue(line.endswith("did you mean run?"))

    def test_an_option_and_its_value_are_one_fault(self):
        self.assertEqual(
            self.told("run", "a.ob", "--round", "3"),
            ["--round is no option; did you mean --rounds?"],
        )

    def test_values_are_told_with_what_they_may_be(self):
        for option, value, part in (
            ("--rounds", "1001", "0 to 1000, and not 1001"),
            ("--rounds", "-1", "its value is missing"),
            ("--size", "0", "1 to 200"),
            ("--cost", "spede", "did you mean speed?"),
            ("--from", "modul", "did you mean module?"),
            ("--image", "a.ob", "a.ob is FILE"),
        ):
            (line,) = self.told("compile", "a.ob", option, value)
            self.assertIn(part, line)

    def test_what_gen_writes_is_no_code(self):
        (line,) = self.told("gen", "a.ob", "--from", "code")
        self.assertIn("gen writes a module", line)
        self.assertEqual(self.told("gen", "a.ob", "--from", "module"), [])
        self.assertEqual(self.told("run", "a.ob", "--from", "code"), [])

    def test_what_is_missing_is_told(self):
        self.assertIn("FILE is missing", self.told("run")[0])
        self.assertIn("one word too many", self.told("run", "a", "b")[0])
        self.assertIn("stands twice", self.told("run", "a", "--gap", "1", "--gap", "1")[0])


if __name__ == "__main__":
    unittest.main()
