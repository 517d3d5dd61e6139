"""Compares what pages show with the certificates of the same modules.

    python3 -m picture.compare [--compiler PROGRAM] [--cost size|speed] [--rounds N] [--data-alone]
        [FILE ..]

Of each FILE, or of each module of examples/, and of both weights or of the one that is named, a
page of 10 rounds, or of N, is made and read: as the values that it holds, and as the document that
headless Chromium makes of them, with all procedures open, once for each state of the slider. Both
are to show the routes, costs and bounds of the certificates after as many rounds, to the letter;
moves and extras are to add up to the cost; the prices are to be those of the last certificate, and
what the page's script works out of them the value that the checker in Python finds; level lines are
to be those of the values; and the browser's console is to hold no error. The browser is `chromium`,
and is left out with --data-alone. Before all that the colours are tried, light and dark: text is to
stand out from them, and each is to be told from each other by those who see no red or no green. The
status is 0 where nothing differs, and else 1.
"""

import glob
import json
import os
import re
import subprocess
import sys
import tempfile
from html.parser import HTMLParser
from itertools import combinations

from picture.facts import in_state, value_of
from picture.module import kept_rounds
from picture.prices import Prices
from pranet import certificate
from pranet.network import Network

TOP = os.path.dirname(os.path.dirname(os.path.dirname(os.path.realpath(__file__))))
# (without a sandbox, which the administrator's account does not have)
CHROMIUM = ["chromium", "--headless=new", "--no-sandbox", "--disable-gpu", "--hide-scrollbars"]
CHROMIUM += ["--disable-dev-shm-usage", "--enable-logging=stderr", "--virtual-time-budget=60000"]
PATIENCE = 600  # seconds for a page


# ---- colours


def channels(colour):
    """Red, green and blue as light, from 0 to 1."""
    digits = colour.lstrip("#")
    digits = "".join(it * 2 for it in digits) if len(digits) == 3 else digits
    values = [int(digits[at : at + 2], 16) / 255 for at in (0, 2, 4)]
    return [it / 12.92 if it <= 0.04045 else ((it + 0.055) / 1.055) ** 2.4 for it in values]


def contrast(one, two):
    """The contrast of two colours, as the guidelines for accessible content (WCAG 2) have it."""
    shades = (0.2126, 0.7152, 0.0722)
    dark, light = sorted(
        sum(a * b for a, b in zip(shades, channels(it), strict=True)) for it in (one, two)
    )
    return (light + 0.05) / (dark + 0.05)


# What is left of light without red or green cones, after Vienot, Brettel and Mollon (1999).
WITHOUT = {
    "red": ((0.1124, 0.8876, 0), (0.1124, 0.8876, 0), (0.004, -0.004, 1)),
    "green": ((0.2927, 0.7073, 0), (0.2927, 0.7073, 0), (-0.0223, 0.0223, 1)),
}


def seen(colour, cones):
    """Lightness and two differences of colours (CIELAB), as it is seen without some cones."""
    light = channels(colour)
    mixed = (sum(a * c for a, c in zip(row, light, strict=True)) for row in WITHOUT[cones])
    r, g, b = (max(0, it) for it in mixed)
    xyz = (
        (0.4124 * r + 0.3576 * g + 0.1805 * b) / 0.9505,
        0.2126 * r + 0.7152 * g + 0.0722 * b,
        (0.0193 * r + 0.1192 * g + 0.9505 * b) / 1.089,
    )
    x, y, z = (it ** (1 / 3) if it > 0.008856 else 7.787 * it + 16 / 116 for it in xyz)
    return 116 * y - 16, 500 * (x - y), 200 * (y - z)


LINES = ("cost", "bound", "scan", "holes", "colouring")  # of curves


def themes():
    """The colours of the style sheet by their names, in the light and in the dark."""
    with open(f"{TOP}/scripts/picture/page.css", encoding="utf-8") as text:
        light, dark = text.read().split("@media (prefers-color-scheme: dark)", 1)
    named = re.compile(r"--([a-z-]+): (#[0-9a-f]{3,6});")
    known = dict(named.findall(light))
    return {"light": known, "dark": known | dict(named.findall(dark.split("\n}\n", 1)[0]))}


def colour_faults():
    for theme, known in themes().items():
        for fault in theme_faults(known):
            yield f"{theme}: {fault}"


def theme_faults(known):
    for name in [it for it in known if f"on-{it}" in known]:
        if contrast(known[name], known[f"on-{name}"]) < 4.5:
            yield f"text on {name} stands out too little"
    for name in ("ink", "faint", "accent", "name-cost", "name-bound"):
        for ground in ("paper", "tint", "cell"):
            if contrast(known[name], known[ground]) < 4.5:
                yield f"{name} on {ground} has too little contrast"
    for ground in ("glow", "gap"):
        if contrast(known["ink"], known[ground]) < 4.5:
            yield f"ink on {ground} has too little contrast"
    for name in LINES:
        if contrast(known[name], known["paper"]) < 4.5:
            yield f"the line of {name} stands out too little"
    for alike in ([it for it in known if f"on-{it}" in known], LINES):
        for cones in WITHOUT:
            for one, two in combinations(alike, 2):
                far = zip(seen(known[one], cones), seen(known[two], cones), strict=True)
                if sum((a - b) ** 2 for a, b in far) ** 0.5 < 10:
                    yield f"without {cones} cones {one} and {two} look alike"


# ---- what a page shows


def shown_by_values(procedure, state):
    """Routes, cost and bound of a state, and what its moves and extras add up to. A procedure has
    no states behind that of its last round."""
    state = min(state, len(procedure["states"]) - 1)
    blocks, told = in_state(procedure, state), procedure["states"][state]
    routes = [
        [int(digit, 16) for digit in path] for block in blocks for *_, path in block["strands"]
    ]
    moves = sum(it[5] for block in blocks for it in block["moves"])
    extras = sum(it[3] for block in blocks for it in block["extras"])
    return routes, told["cost"], told["bound"], moves + extras


def prices_by_values(procedure):
    """The prices of registers and pairs, block by block, and the value that all prices give."""
    blocks = procedure["priced"]
    caps = [it["caps"] for it in blocks], [it["mems"] for it in blocks]
    return *caps, procedure["value"]


class Document(HTMLParser):
    """Gathers of each procedure its cells, what is paid in them, prices, and the table of
    events."""

    def __init__(self):
        super().__init__()
        self.cells, self.paid, self.sums, self.words, self.points = [], [], [], [], []
        self.levels, self.caps, self.mems, self.values = [], [], [], []
        self.block, self.wants, self.curve, self.is_ready = None, None, None, False

    def handle_starttag(self, tag, attributes):
        it = dict(attributes)
        kinds = it.get("class", "").split()
        self.is_ready |= tag == "html" and "data-ready" in it
        if tag == "section" and "procedure" in kinds:
            lists = self.cells, self.paid, self.points, self.levels, self.caps, self.mems
            for each in lists:
                each.append([])
            self.sums.append(None)
            self.values.append(None)
            self.words.append("")
        elif tag == "table" and "data-block" in it:
            self.block = int(it["data-block"])
        elif tag == "td" and "data-l" in it:
            place = next(int(kind[1], 16) for kind in kinds if len(kind) == 2 and kind[0] == "p")
            self.cells[-1].append((self.block, int(it["data-v"]), int(it["data-l"]), place))
        elif "data-cap" in it:
            self.caps[-1].append([self.block, *map(int, it["data-cap"].split())])
        elif "data-mem" in it:
            self.mems[-1].append([self.block, *map(int, it["data-mem"].split())])
        elif "data-value" in it:
            self.values[-1] = float(it["data-value"])
        elif tag == "td" and "data-w" in it:
            self.paid[-1].append(int(it["data-w"]))
        elif tag == "figure":
            self.curve = it.get("data-curve")
        elif "data-level" in it:
            self.levels[-1].append((self.curve, it["data-level"], int(it["data-cost"])))
        elif tag == "polyline":
            self.points[-1].append(len(it["points"].split()))
        elif "data-sum" in it:
            self.wants = "sum"
        elif "extra" in kinds or "sentence" in kinds:
            self.wants = kinds[0]

    def handle_data(self, text):
        if self.wants == "sum":
            self.sums[-1] = int(text)
        elif self.wants == "extra":
            self.paid[-1].append(int(text))
        elif self.wants == "sentence":
            self.words[-1] += text

    def handle_endtag(self, tag):
        if self.wants != "sentence" or tag == "p":
            self.wants = None

    def shown(self, number):
        """The routes, and what is paid."""
        by_block = sorted(self.cells[number], key=lambda it: (it[0], it[1], it[2]))
        strands, last = [], None
        for block, v, layer, place in by_block:
            if last != (block, v, layer - 1):
                strands.append((block, layer, v, []))
            strands[-1][3].append(place)
            last = block, v, layer
        routes = [path for *_, path in sorted(strands, key=lambda it: it[:3])]
        return routes, sum(self.paid[number])

    def told(self, number):
        """Cost and bound in words, the sum of the table of events, how many points each line of the
        curves has, and which level lines there are."""
        numbers = re.findall(r"(?:costs|less than) (\d+)", self.words[number])
        told = int(numbers[0]), int(numbers[-1]), self.sums[number]
        return told, self.points[number], sorted(self.levels[number])


def console(said):
    """What the browser's console holds of a page."""
    return re.findall(r".*CONSOLE.*", said.decode(errors="replace"))


def document_of(path, state):
    """The document that the browser makes of a page in a state, and what its console says."""
    with tempfile.TemporaryDirectory(prefix="chromium-") as room:
        command = [*CHROMIUM, f"--user-data-dir={room}", "--dump-dom", f"file://{path}#all@{state}"]
        ran = subprocess.run(command, capture_output=True, timeout=PATIENCE)
    document = Document()
    document.feed(ran.stdout.decode())
    return document, console(ran.stderr)


# ---- comparing


def certificates(compiler, file, cost, rounds):
    """The certificates of the numbers of rounds whose states a page shows."""
    for it in kept_rounds(int(rounds)):
        command = [compiler, "cert", file, "--cost", cost, "--rounds", str(it)]
        ran = subprocess.run(command, check=True, capture_output=True)
        yield json.loads(ran.stdout)["procs"], certificate.read(ran.stdout.decode())


def prices_wanted(procedure, value):
    """The same as of a page's values, of a certificate."""
    prices = Prices(Network(procedure), value["cost"])
    return prices.caps(), prices.mems(), prices.value


def faults_of(file, cost, rounds, compiler, room, with_browser):
    """What a page of a module shows that its certificates have not."""
    copy, options = f"{room}/{os.path.basename(file)}", ("--cost", cost, "--rounds", rounds)
    with open(file, "rb") as old, open(copy, "wb") as new:
        new.write(old.read())
    show = [sys.executable, f"{TOP}/scripts/show.py", copy, *options, "--compiler", compiler]
    subprocess.run(show, check=True, stdout=subprocess.DEVNULL)
    known = list(certificates(compiler, copy, cost, rounds))
    with open(f"{copy}.html", encoding="utf-8") as text:
        page = value_of(text.read())
    if any(len(page["procedures"]) != len(procedures) for procedures, _ in known):
        yield "the page has another number of procedures"
    for number, it in enumerate(page["procedures"]):
        for state, (procedures, _) in enumerate(known):
            wanted = procedures[number]
            wanted = wanted["routes"], wanted["total"], wanted["bound"], wanted["total"]
            if shown_by_values(it, state) != wanted:
                yield f"procedure {number}, state {state}: other values than the certificate"
        if prices_by_values(it) != prices_wanted(known[-1][1].procedures[number], page):
            yield f"procedure {number}: other prices than those of the certificate"
    if with_browser:
        for state, (procedures, _) in enumerate(known):
            is_last = state + 1 == len(known)
            yield from browser_faults(f"{copy}.html", page, state, procedures, is_last)


def browser_faults(path, page, state, wanted, is_last):
    document, said = document_of(path, state)
    yield from said
    if not document.is_ready or len(document.cells) != len(wanted):
        yield "the page was not drawn"
        return
    for number, it in enumerate(page["procedures"]):
        if document.shown(number) != (wanted[number]["routes"], wanted[number]["total"]):
            yield f"procedure {number}, state {state}: the page shows another allocation"
        if is_last:
            yield from last_faults(document, page, number, wanted[number])


def last_faults(document, page, number, wanted):
    """What a page shows of a procedure that does not depend on the state."""
    it = page["procedures"][number]
    told, points, levels = document.told(number)
    if told != (wanted["total"], wanted["bound"], wanted["total"]):
        yield f"procedure {number}: the page tells {told} of cost and bound"
    lines = [len(it["rounds"][cost]) for cost in sorted(it["rounds"], key=page["cost"].__ne__)]
    if points != [count for count in lines for _ in range(2)]:
        yield f"procedure {number}: the curves have {points} points"
    others = [(word, *each) for word, them in it["others"].items() for each in them.items()]
    if levels != sorted(each for each in others if each[2] is not None):
        yield f"procedure {number}: the level lines are {levels}"
    for key, shown in (("caps", document.caps[number]), ("mems", document.mems[number])):
        rows = [[at, *row] for at, block in enumerate(it["priced"]) for row in block[key]]
        if sorted(shown) != sorted(rows):
            yield f"procedure {number}: the page shows other {key}"
    if document.values[number] != it["value"]:
        yield f"procedure {number}: the page's script finds the value {document.values[number]}"


def main(words):
    costs, rounds, compiler, with_browser = ["size", "speed"], "10", f"{TOP}/pra", True
    files, words = [], iter(words)
    for word in words:
        if word == "--compiler":
            compiler = next(words)
        elif word == "--cost":
            costs = [next(words)]
        elif word == "--rounds":
            rounds = next(words)
        elif word == "--data-alone":
            with_browser = False
        else:
            files.append(word)
    faults = list(colour_faults())
    for fault in faults:
        print(fault)
    for file in files or sorted(glob.glob(f"{TOP}/examples/*.ob")):
        for cost in costs:
            with tempfile.TemporaryDirectory(prefix="pra-pages-") as room:
                found = list(faults_of(file, cost, rounds, compiler, room, with_browser))
            told = "; ".join(found) or "as certified"
            print(f"{os.path.basename(file)} by {cost}: {told}", flush=True)
            faults += found
    return 1 if faults else 0


if __name__ == "__main__":
    sys.exit(main(sys.argv[1:]))
