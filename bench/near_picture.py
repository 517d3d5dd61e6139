"""The picture of how many procedures are how near to their bounds, as SVG.

Each allocator, and each number of rounds, is a bar: its lowest part are the procedures that cost
their bound, and those above it the ones within 1, 2, 5 and 10 per cent. The rest, up to the frame,
costs more.
"""

SHARES = (0, 1, 2, 5, 10)  # per cent above the bound
SHADES = ("#08306b", "#2171b5", "#6baed6", "#9ecae1", "#deebf7")  # from the bound on
NAMES = {"pbqp": "PBQP", "with holes": "scan, holes"}
GROUPS = ("rounds of pra", "on the same network", "LLVM")
LLVM = ("fast", "basic", "pbqp", "greedy")
WIDE, PANEL, HIGH, TOP = 860, 300, 190, 46  # pixels; a panel, and the bars within it
LEFT, BAR, STEP, APART = 52, 26, 34, 22
FRAME = 'stroke="#8a857d"'
TITLE = 'font-size="13" font-weight="bold"'
STYLE = 'font-family="DejaVu Sans, Verdana, sans-serif" font-size="11" fill="#1c1b19"'


def group_of(name):
    """Of which group an allocator is."""
    if name.startswith("round "):
        return 0
    return 2 if name in LLVM else 1


def text(x, y, words, how=""):
    return f'<text x="{x:.1f}" y="{y:.1f}" {how}>{words}</text>'


def places(rows):
    """Where the bar of each row begins; groups are apart."""
    x, last = LEFT + 10, 0
    for row in rows:
        group = group_of(row["allocator"])
        x += APART if group != last else 0
        last = group
        yield x
        x += STEP


def bar(row, x, top):
    """The parts of a row's bar, from the bound up, with its name below it."""
    count, below = int(row["procedures"]), 0
    for share, shade in zip(SHARES, SHADES, strict=True):
        within = int(row[f"within {share}%"])
        low, high = top + HIGH * (1 - below / count), top + HIGH * (1 - within / count)
        told = f"{row['allocator']}: {within} of {count} within {share}% of the bound"
        yield (
            f'<rect x="{x:.1f}" y="{high:.1f}" width="{BAR}" height="{low - high:.1f}"'
            f' fill="{shade}"><title>{told}</title></rect>'
        )
        below = within
    yield f'<rect x="{x:.1f}" y="{top}" width="{BAR}" height="{HIGH}" fill="none" {FRAME}/>'
    name = row["allocator"].removeprefix("round ")
    middle, foot = x + BAR / 2, top + HIGH + 14
    if name.isdecimal():
        yield text(middle, foot, name, 'text-anchor="middle"')
    else:
        how = f'text-anchor="end" transform="rotate(-40 {middle + 4:.1f} {foot:.1f})"'
        yield text(middle + 4, foot, NAMES.get(name, name), how)


def axis(top):
    for share in (0, 25, 50, 75, 100):
        y = top + HIGH * (1 - share / 100)
        yield f'<line x1="{LEFT}" x2="{LEFT + 5}" y1="{y:.1f}" y2="{y:.1f}" stroke="#1c1b19"/>'
        yield text(LEFT - 5, y + 4, f"{share}%", 'text-anchor="end"')


def panel(rows, weights, top):
    """The bars by one of the weights."""
    here = [it for it in rows if it["weights"] == weights]
    begins, count = list(places(here)), int(here[0]["procedures"])
    yield text(LEFT, top - 26, f"By {weights}: {count} procedures", TITLE)
    yield from axis(top)
    for row, x in zip(here, begins, strict=True):
        yield from bar(row, x, top)
    for number, name in enumerate(GROUPS):
        bars = zip(here, begins, strict=True)
        mine = [x for row, x in bars if group_of(row["allocator"]) == number]
        if mine:
            yield text((mine[0] + mine[-1] + BAR) / 2, top - 8, name, 'text-anchor="middle"')


def legend(x, top):
    for at, (share, shade) in enumerate(zip(SHARES, SHADES, strict=True)):
        y = top + 20 * at
        told = "at the bound" if share == 0 else f"within {share}%"
        yield f'<rect x="{x}" y="{y}" width="14" height="14" fill="{shade}" {FRAME}/>'
        yield text(x + 20, y + 11, told)
    y = top + 20 * len(SHARES)
    yield f'<rect x="{x}" y="{y}" width="14" height="14" fill="#ffffff" {FRAME}/>'
    yield text(x + 20, y + 11, "more")


def picture(rows):
    """The picture as text."""
    weights = list(dict.fromkeys(it["weights"] for it in rows))
    high = PANEL * len(weights) + 10
    parts = [
        f'<svg xmlns="http://www.w3.org/2000/svg" viewBox="0 0 {WIDE} {high}" width="{WIDE}"'
        f' height="{high}" role="img" {STYLE}>',
        "<title>How many procedures cost how little more than their bounds</title>",
        f'<rect width="{WIDE}" height="{high}" fill="#ffffff"/>',
    ]
    for at, it in enumerate(weights):
        parts += panel(rows, it, TOP + PANEL * at)
    parts += legend(WIDE - 110, TOP)
    return "\n".join([*parts, "</svg>"]) + "\n"
