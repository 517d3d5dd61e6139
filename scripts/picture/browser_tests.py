"""Tests of a page in the browser: what is drawn when, and what paper has.

    python3 -m picture.browser_tests
"""

import os
import re
import subprocess
import sys
import tempfile
import unittest

import needs
from picture.compare import CHROMIUM, PATIENCE

SHOW = f"{needs.TOP}/scripts/show.py"
# Opens all procedures, and has the page ready for paper; what is there then is told at the root.
PROBE = """<script>
const count = (selector) => document.querySelectorAll(selector).length;
const told = document.documentElement.dataset;
document.querySelector("[data-open]").click();
told.drawn = `${count("[data-drawn]")} of ${count("section.procedure")}`;
document.querySelectorAll("section.procedure details").forEach((it, at) => { it.open = at === 1; });
window.dispatchEvent(new Event("beforeprint"));
const blank = count(".is-open [data-grid]:not([data-printed])");
told.paper = `${count("section.is-open")} open ${blank} blank`;
</script></body>"""
# Has the module's body ready for paper; its layers, those of its strands, and what is printed.
PAPER = """<script>
const told = document.documentElement.dataset;
const body = document.querySelector("section.procedure"), count = (it) => body.querySelectorAll(it).length;
document.querySelectorAll("section.procedure details").forEach((it) => { it.open = it.parentNode === body; });
window.dispatchEvent(new Event("beforeprint"));
const blocks = JSON.parse(document.getElementById("data-0").textContent).blocks;
const sum = (them) => them.reduce((one, other) => one + other, 0);
const layers = sum(blocks.map((it) => 2 * it.code.length + 2));
const cells = sum(blocks.flatMap((it) => it.strands.map((strand) => strand[2].length)));
told.grids = [count(".grid"), layers, count("th.layer[scope=row]"), cells, count("td[data-l]")].join(" ");
told.machine = `${sum(blocks.flatMap((it) => it.machine.map((those) => those.length)))} ${count("tr.before .machine span")}`;
</script></body>"""


@needs.compiler
@needs.chromium
class Browser(unittest.TestCase):
    def document(self, room, probe):
        """The document of a page of ten procedures behind a probe."""
        words = [needs.program(), "gen", f"{room}/g.ob", "--size", "9", "--rounds", "0"]
        subprocess.run([*words, "--image", f"{room}/g.pri"], capture_output=True, check=False)
        command = [sys.executable, SHOW, f"{room}/g.ob", "--rounds", "1"]
        subprocess.run([*command, "--compiler", needs.program()], capture_output=True, check=True)
        with open(f"{room}/g.ob.html", encoding="utf-8") as text:
            page = text.read()
        with open(f"{room}/probe.html", "w", encoding="utf-8") as out:
            out.write(page.replace("</body>", probe))
        how = {"capture_output": True, "timeout": PATIENCE, "check": False}
        command = [*CHROMIUM, f"--user-data-dir={room}/user", "--dump-dom"]
        ran = subprocess.run([*command, f"file://{room}/probe.html"], **how)
        return page, ran.stdout.decode()

    def test_what_is_out_of_sight_is_not_drawn_and_paper_has_what_is_open(self):
        with tempfile.TemporaryDirectory(prefix="pra-browser-") as room:
            page, document = self.document(room, PROBE)
            self.assertTrue(os.path.exists(f"{room}/g.ob.html"))
        drawn, count = map(int, re.search(r'data-drawn="(\d+) of (\d+)"', document).groups())
        self.assertEqual(count, 10)
        self.assertLess(drawn, count)
        self.assertIn('data-paper="1 open 0 blank"', document)
        for name in ("Procedures, their costs and bounds", "What each event cost in the module"):
            self.assertIn(f'<caption class="heard">{name}</caption>', page)
        self.assertIn("<title>G by size, 1 round</title>", page)
        self.assertLess(page.index('class="procedure"'), page.index('id="reading"'))

    def test_paper_has_each_cell_once_and_no_instructions_without_one(self):
        with tempfile.TemporaryDirectory(prefix="pra-browser-") as room:
            _, document = self.document(room, PAPER)
        told = re.search(r'data-grids="([\d ]+)"', document)[1]
        grids, layers, rows, cells, printed = map(int, told.split())
        self.assertGreater(grids, 3)  # the variables of the body are more than a page is wide
        self.assertLess(rows, 1.5 * layers)
        self.assertEqual(printed, cells)
        machine, shown = re.search(r'data-machine="(\d+) (\d+)"', document).groups()
        self.assertEqual(machine, shown)


if __name__ == "__main__":
    unittest.main()
