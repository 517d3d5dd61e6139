"""Tests of pages of certificates: of several of one module, and of one that is refused.

    python3 -m picture.certificates_tests
"""

import json
import os
import subprocess
import sys
import tempfile
import unittest

import needs
from picture import facts, wrong
from picture.compare import CHROMIUM, PATIENCE
from pranet.certificate import MEM, code_of
from pranet.network import Network

EAX, ECX = 0, 1
SHOW = f"{needs.TOP}/scripts/show.py"
MODULE = b"""MODULE M; VAR x: INTEGER;
PROCEDURE P(a, b: INTEGER); BEGIN WHILE a < b DO a := a + b; Write(a) END END P;
BEGIN Read(x); P(x, 5) END M.
"""


def code(variables, *blocks, args=0):
    value = {"args": args, "aggregates": 0, "vars": variables}
    return code_of(value | {"blocks": [list(it) for it in blocks]})


SUM = code(
    [["plain"], ["plain"]],
    [0, [["read", 0], ["read", 1], ["add", 0, 1]], ["jump", 1]],
    [0, [["write", 0]], ["return"]],
)


class Marked(unittest.TestCase):
    def marks(self, *routes):
        """The marks of routes of variable 0 in both blocks and of variable 1."""
        found = wrong.Marks(Network(SUM), list(routes), lambda v: f"v{v}").all()
        return sorted((block, v, layer) for block, v, layer, _ in found)

    def test_routes_that_are_admitted_have_no_marks(self):
        network = Network(SUM)
        self.assertEqual([len(it.masks) for it in network.strands], [6, 2, 2])
        good = [[EAX, ECX, ECX, ECX, ECX, ECX], [EAX, EAX], [ECX, EAX]]
        self.assertTrue(network.admits(good))
        self.assertEqual(self.marks(*good), [])

    def test_each_rule_marks_what_breaks_it(self):
        for routes, wanted in (
            ([[ECX] * 6, [EAX] * 2, [ECX, EAX]], [(0, 0, 2)]),  # what is read comes into eax
            ([[EAX, ECX, MEM, MEM, MEM, MEM], [EAX] * 2, [MEM, EAX]], [(0, 0, 4)]),  # across
            ([[EAX] * 6, [EAX] * 2, [EAX] * 2], [(0, 0, 4), (0, 0, 5), (0, 1, 4), (0, 1, 5)]),
            ([[EAX, MEM, MEM, MEM, MEM, MEM], [EAX, MEM], [MEM, EAX]], [(0, 0, 5), (0, 1, 5)]),
            ([[EAX, ECX, ECX, ECX, ECX, ECX], [EAX] * 2, [EAX, EAX]], [(0, 0, 7), (1, 0, 0)]),
        ):
            self.assertEqual(self.marks(*routes), wanted)

    def test_what_has_no_form_has_no_picture(self):
        for data in (b"{", b'{"kind": "x"}'):
            with self.assertRaises(wrong.NoPicture):
                wrong.reasons(data)


@needs.compiler
class Pages(unittest.TestCase):
    def setUp(self):
        room = tempfile.TemporaryDirectory(prefix="pra-certificates-")
        self.addCleanup(room.cleanup)
        self.room = room.name
        with open(f"{self.room}/m.ob", "wb") as file:
            file.write(MODULE)
        for rounds in ("0", "10"):
            words = [needs.program(), "cert", f"{self.room}/m.ob", "--rounds", rounds]
            with open(f"{self.room}/{rounds}.cert", "wb") as out:
                subprocess.run(words, stdout=out, check=True)

    def show(self, *names):
        """The status of show, its notes and the page's values."""
        command = [sys.executable, SHOW, *(f"{self.room}/{it}" for it in names)]
        command += ["--compiler", needs.program()]
        ran = subprocess.run(command, capture_output=True, check=False)
        page = f"{self.room}/{names[0]}.html"
        if not os.path.exists(page):
            return ran.returncode, ran.stderr.decode(), None
        with open(page, encoding="utf-8") as text:
            return ran.returncode, ran.stderr.decode(), facts.value_of(text.read())

    def spoil(self, change):
        """A certificate of ten rounds that was changed in its procedure 1."""
        with open(f"{self.room}/10.cert", encoding="utf-8") as text:
            value = json.load(text)
        change(value["procs"][1])
        with open(f"{self.room}/bad.cert", "w", encoding="utf-8") as out:
            json.dump(value, out)

    def test_certificates_of_one_module_share_a_page(self):
        status, _, page = self.show("0.cert", "10.cert")
        self.assertEqual((status, page["count"]), (0, 2))
        for it in page["procedures"]:
            one, other = it["states"]
            self.assertEqual((one["name"], other["name"]), ("0.cert", "10.cert"))
            told = sum(more - less for _, _, _, less, more in it["differs"])
            self.assertEqual(told, other["cost"] - one["cost"])
        lines = list(facts.lines(page, 1, []))
        self.assertRegex(lines[1], r"^10\.cert: cost \d+ bound \d+$")
        self.assertTrue(any("differs in block 1 of 10.cert: " in it for it in lines))

    def test_a_refused_certificate_has_a_page_with_what_is_wrong(self):
        self.spoil(lambda it: it["routes"][0].__setitem__(-1, MEM))
        status, notes, page = self.show("bad.cert")
        self.assertEqual((status, notes), (3, "fault certificate procedure 1 routes\n"))
        (state,) = page["procedures"][1]["states"]
        self.assertTrue(state["reasons"][0].startswith("routes: "))
        self.assertTrue(state["wrong"])
        lines = list(facts.lines(page, 1, []))
        self.assertTrue(any(it.startswith("bad.cert is refused, routes: ") for it in lines))
        self.assertFalse(page["procedures"][0]["states"][0]["wrong"])

    def test_what_can_not_be_drawn_is_refused_as_before(self):
        self.spoil(lambda it: it["routes"].pop())
        status, notes, page = self.show("bad.cert")
        self.assertEqual((status, page), (3, None))
        self.assertIn("pra: no page: procedure 1 has not one place for each strand", notes)

    @needs.chromium
    def test_the_browser_marks_what_differs_and_what_is_wrong(self):
        self.spoil(lambda it: it["routes"][0].__setitem__(-1, MEM))
        self.show("bad.cert", "10.cert")
        with tempfile.TemporaryDirectory() as user:
            command = [*CHROMIUM, f"--user-data-dir={user}", "--dump-dom"]
            command.append(f"file://{self.room}/bad.cert.html#all")
            ran = subprocess.run(command, capture_output=True, timeout=PATIENCE, check=False)
        document = ran.stdout.decode()
        self.assertIn('data-ready="yes"', document)
        self.assertIn(" wrong", document)
        self.assertIn('<span class="was">', document)
        self.assertIn("bad.cert is refused:", document)
        self.assertIn("What differs, and what it costs", document)


if __name__ == "__main__":
    unittest.main()
