"""What a page says of one of its procedures, as lines of text.

    ./pra facts FILE.html NUMBER [--moves] [--others] [NAME ..]

The lines tell cost and bound, how often each event comes and what it costs, and of each variable
(of those that are named, or of all but constants) at how many layers of which places it is, and
what its moves and operands cost. With --moves they tell instead how each of them moves, and with
--others what allocators of the literature come to. A page of certificates has these of the first
one; in front stand the cost and bound of each and why it is refused, and behind them where the
others differ and what that costs, block by block. A variable may be named by v and its number too.
"""

import json
import re
import sys

import reading
from pranet.certificate import place_name

DATA = re.compile(r'<script type="application/json" id="data(?:-(\d+))?">(.*?)</script>', re.S)


def is_named(procedure):
    """Whether states are certificates, and not rounds."""
    return bool(procedure["states"][0].get("name"))


def in_state(procedure, at=None):
    """The blocks of a procedure with routes, moves and extras of one of its states."""
    states = procedure["states"]
    last = at if at is not None else 0 if is_named(procedure) else len(states) - 1
    blocks = []
    for number, block in enumerate(procedure["blocks"]):
        has = (it["blocks"].get(str(number)) for it in reversed(states[: last + 1]))
        drawn = next(it for it in has if it)
        strands = [
            [v, first, path]
            for (v, first, *_), path in zip(block["strands"], drawn["paths"], strict=True)
        ]
        blocks.append({**block, **drawn, "strands": strands})
    return blocks


def value_of(html):
    """The values that the page's script draws, of all procedures in their last states."""
    found = {number: json.loads(text) for number, text in DATA.findall(html)}
    page = found[""]
    page["procedures"] = [found[str(at)] for at in range(page["count"])]
    for it in page["procedures"]:
        it["priced"], it["blocks"] = it["blocks"], in_state(it)
    return page


def layers(procedure, v):
    """At how many layers a variable is at each place, most first."""
    counts = {}
    for block in procedure["blocks"]:
        for var, _, path in block["strands"]:
            if var == v:
                for digit in path:
                    name = place_name(int(digit, 16))
                    counts[name] = counts.get(name, 0) + 1
    return sorted(counts.items(), key=lambda it: (-it[1], it[0]))


def paid(procedure, v):
    """What the moves and the operands of a variable cost."""
    moves = (it for block in procedure["blocks"] for it in block["moves"] if it[1] == v)
    extras = (it for block in procedure["blocks"] for it in block["extras"] if it[1] == v)
    return sum(it[5] for it in moves) + sum(it[3] for it in extras)


def wanted(procedure, names):
    """The variables of these names, or all but constants where there are none."""
    for v, name in enumerate(procedure["names"]):
        if f"v{v}" in names and name not in names:
            yield v, f"v{v}"
        elif name in names or (not names and procedure["kinds"][v] != "co"):
            yield v, name


def certificates(procedure):
    """What certificates come to, and why they are refused."""
    for it in procedure["states"] if is_named(procedure) else []:
        yield f"{it['name']}: cost {it['cost']} bound {it['bound']}"
        yield from (f"{it['name']} is refused, {why}" for why in it["reasons"])
        for block, v, layer, why in it["wrong"]:
            name = procedure["names"][v]
            yield f"{it['name']}: {name} in block {block} at layer {layer} is wrong: {why}"


def differences(procedure, names):
    """Where other certificates than the first differ from it."""
    variables = dict(wanted(procedure, names))
    for state, block, v, one, other in procedure.get("differs", ()):
        if v in variables or not names:
            file, name = procedure["states"][state]["name"], procedure["names"][v]
            told = f"{other - one:+d}" if other != one else "as much"
            yield f"{name} differs in block {block} of {file}: {one}, {other}, {told}"


def lines(page, number, names):
    procedure = page["procedures"][number]
    yield from certificates(procedure)
    yield f"cost {procedure['total']} bound {procedure['bound']}"
    for event, count, total in procedure["paid"]:
        yield f"e{event} {page['events'][event]}: {count} time{'s' * (count > 1)}, {total}"
    for v, name in wanted(procedure, names):
        where = ", ".join(f"{place} {count}" for place, count in layers(procedure, v))
        if where:
            yield f"{name}: {where}; pays {paid(procedure, v)}"
    yield from differences(procedure, names)


def moves(page, number, names):
    procedure = page["procedures"][number]
    for v, name in wanted(procedure, names):
        for at, block in enumerate(procedure["blocks"]):
            for layer, var, origin, to, _, price in sorted(block["moves"]):
                if var == v:
                    way = f"from {place_name(origin)} to {place_name(to)}"
                    yield f"{name} in block {at}, before layer {layer}: {way}, +{price}"


def others(page, number, _):
    procedure = page["procedures"][number]
    for name, cost in procedure["others"].get(page["cost"], {}).items():
        yield f"{name} {'none' if cost is None else cost}"
    yield f"cost {procedure['total']} bound {procedure['bound']}"


def main(words):
    options = [it for it in words if it.startswith("--")]
    plain = [it for it in words if not it.startswith("--")]
    is_good = len(plain) >= 2 and plain[1].isdecimal() and {*options} <= {"--moves", "--others"}
    if not is_good:
        print(f"fault words\n{__doc__}", file=sys.stderr)
        return 6
    try:
        with open(plain[0], encoding="utf-8") as text:
            value = value_of(text.read())
        value["procedures"][int(plain[1])]
    except (OSError, UnicodeDecodeError) as error:
        return reading.tell(error, plain[0])
    except (TypeError, LookupError, ValueError):
        print(f"pra: {plain[0]} is no page with a procedure {plain[1]}", file=sys.stderr)
        return 3
    tell = moves if "--moves" in options else others if "--others" in options else lines
    for line in tell(value, int(plain[1]), plain[2:]):
        print(line)
    return 0
