"""The page: what stands in it without a script, and around the values that its script draws."""

import json
import os
from html import escape

from picture.data import module_paid
from picture.others import others_of_all
from picture.prices import UNITS as PRICE_UNITS
from picture.prices import Masks
from pranet.certificate import FIRST_BOTH, REGISTERS
from pranet.operands import BASE, EVENTS, TURNS

HERE = os.path.dirname(os.path.realpath(__file__))
UNIT = {"size": "bytes", "speed": "units of time"}
LONG_SOURCE = 60  # lines that are shown without being asked for
LONG_CODE = 200  # instructions of a procedure that is
SHORT_TABLE = 12  # procedures whose table is open

TEMPLATE = """<!DOCTYPE html>
<html lang="en">
<head>
<meta charset="utf-8">
<meta name="viewport" content="width=device-width, initial-scale=1">
<title>{title}</title>
<link rel="icon" href="data:,">
<style>
{css}</style>
</head>
<body>
<header>
<h1>{title}</h1>
<p class="lead">{sentence}</p>
<p class="faint">{made}</p>
{not_proved}</header>
<noscript>
<p>Grids and curves are drawn by a script in this page, which needs no network.</p>
</noscript>
<main>
<h2 id="procedures">Procedures</h2>
{procedures}
<p><button type="button" class="tool" data-open>Open all procedures</button>
{opened}<a href="#reading">How to read this page</a></p>
{sections}
<h2 id="source">Source</h2>
{source}
<h2 id="events">What each event cost in the module</h2>
{events}
<h2 id="reading">How to read this page</h2>
{reading}
</main>
{data}
<script>
{script}</script>
</body>
</html>
"""

READING = """
<p>The compiler turns each procedure into simple instructions over variables, and then decides where
each variable is before and after each instruction: in one of six registers, in memory, or in a
register and in memory both. Constants need no place until they are brought into a register.</p>
<ul class="legend">{legend}</ul>
<p>In the grid of a block a column is a variable, and a row a <em>layer</em>: the entry of the
block, before and after each instruction, and the exit. Between two instructions a variable may move
(<span class="place goes-sample">↓+3 e1</span>), which is a machine instruction of its own and
costs what is written there. An operand that is in memory, or a number in the instruction itself,
makes the instruction dearer: that is an <em>extra</em>, as the <span class="place p6">mem<span
class="extra-sample">+1</span></span> at an operand. The letter e and a number name the event in
the tables. Choose the head of a column, or a cell, to mark a variable in all blocks of its
procedure; the arrow keys go from cell to cell. A cell is empty where nobody needs the variable's
value. The column <em>live</em> counts the variables of a layer: where they are more than six, some
have to be in memory.</p>
<p>The slider shows the allocation after some of the rounds. A cell with a corner has another place
than in the state before.</p>
<p id="prices"><em>Prices</em> are why no allocation costs less than the bound: each register has a
price at each layer, each instruction with two operands of which one may be in memory has one, and so
has each place at which a variable goes from a block to the next. If everybody paid them, and took
the cheapest way for himself, the payments less all prices would come to the bound: nobody's way costs
less, and no register is paid twice. The heat map beside the layers shows the prices of the six
registers. Of the cell that is pointed at the line at the foot of the window tells what its way costs
with prices, and for each other place what the cheapest way through that place costs more or less
than its own.</p>
{found}
<p>The <em>cost</em> is the sum of all events: moves, memory operands and immediates. {unit} What
every allocation has to pay, such as the instructions themselves, is left out. The <em>bound</em> is
a number below which no allocation of this code can go, whatever it is; the compiler's checker has
tested it, and needs to know nothing of how the allocation was found. So the cost is at most the
difference between both above the best. A <em>round</em> tries to make the allocation cheaper, and
to raise the bound. Round 0 is the plain beginning: every variable lives in memory and visits a
register for each instruction that asks for one.</p>
<p id="levels">The level lines of a curve are what three allocators of the literature come to on the
same code: <em>linear scan</em> (Poletto and Sarkar 1999), the same where a variable has its
register only while it is needed (<em>with holes</em>; Mössenböck and Pfeiffer 2002), and graph
<em>colouring</em> (Chaitin 1982; Briggs, Cooper and Torczon 1994; George and Appel 1996). They know
the weights and the loops; each was tried by three measures of whom to send to memory, and the
cheapest counts. A variable that goes to memory visits a register for those instructions alone that
ask for one; another has its register as long as it lives, since none of the three splits it. The
scripts that made this page worked this out, and tested what was found by all rules of this code,
but nothing proves that they do as those papers say. Where the cost of round 0 is far above all
others it is told at the top.</p>
<p>Where blocks follow one another, a variable is at the same place at the exit of one and at the
entry of the next. A call may destroy eax, ecx and edx, a division works in eax and edx, and what is
read or written goes through eax. An instruction has at most one memory operand.</p>
"""
# What is found again of a source, by what that is.
FOUND = {
    "module": """\
<p>Lines beside the head of a block are those of the source from which its calls, comparisons,
divisions, tests of indexes, reads and writes come: the scripts find them again by their order.</p>
<p>Parameters have the names of the source, and so have locals where the scripts find them again by
the order of words. The others are called v and a number: the compiler has parted, merged and copied
the variables of the source before it allocates them.</p>""",
    "code": """\
<p>The source is code, written as <code>pra code --text</code> writes it. Beside the head of a block
is the line at which it begins there, and variables are called v and their number.</p>""",
    "certificate": "<p>Variables are called v and their number.</p>",
}
UNITS = {
    "size": "It is counted in bytes of code.",
    "speed": "It is counted in units of time: about one for an instruction, more where memory is"
    " asked, and eight times as much for each loop around it, since a loop is taken to turn eight"
    " times.",
}


def asset(name):
    with open(f"{HERE}/{name}", encoding="utf-8") as text:
        return text.read()


def at_most(cost, bound, unit):
    """How far at most an allocation is from the best."""
    if cost == bound:
        return f"It costs {cost} {unit}, and no allocation of this code costs less: it is the best."
    is_near = cost <= 2 * bound
    share = f" ({100 * (cost - bound) / bound:.0f} per cent)" if is_near else ""
    return (
        f"It costs {cost} {unit}, and no allocation of this code costs less than {bound}: it is at"
        f" most {cost - bound}{share} above the best."
    )


def legend():
    out = []
    for place, name in enumerate(REGISTERS):
        out.append(f'<li><span class="place p{place}">{name}</span> register</li>')
    out.append('<li><span class="place p6">mem</span> memory: its argument cell or stack slot</li>')
    both = f'<span class="place both p{FIRST_BOTH:x}">eax<b>m</b></span>'
    out.append(f"<li>{both} in a register and in memory</li>")
    out.append('<li><span class="place p7">con</span> a constant that is in no register</li>')
    return "".join(out)


def table(name, heads, rows, foot=None):
    """Rows of cells as HTML, with a name for those who hear it; a head that begins with # is of a
    column of numbers."""
    numbers = [it.startswith("#") for it in heads]

    def cells(row, tag, more=""):
        kinds = (f"<{tag}{more} class=number>" if it else f"<{tag}{more}>" for it in numbers)
        return "".join(f"{kind}{it}</{tag}>" for kind, it in zip(kinds, row, strict=True))

    head = cells([it.lstrip("#") for it in heads], "th", ' scope="col"')
    body = "".join(f"<tr>{cells(row, 'td')}</tr>" for row in rows)
    last = f"<tfoot><tr>{cells(foot, 'td')}</tr></tfoot>" if foot else ""
    return (
        f'<div class="wide"><table class="plain"><caption class="heard">{escape(name)}</caption>'
        f"<thead><tr>{head}</tr></thead>"
        f"<tbody>{body}</tbody>{last}</table></div>"
    )


def events_table(drawn, cost):
    heads = ["event", "what happens", "#weight", "#times", "#cost"]
    rows = [
        (f"e{event}", name, BASE[cost][event], count, total)
        for event, name, count, total in module_paid(drawn)
    ]
    foot = ("", "in all", "", sum(row[3] for row in rows), sum(row[4] for row in rows))
    note = ", eight times as much for each loop around it" if cost == "speed" else ""
    return f"<p>An event costs its weight each time that it comes{note}.</p>" + table(
        "What each event cost in the module", heads, rows, foot
    )


def compared_table(module):
    """The costs of each procedure by several certificates."""
    names = [it.name for it in module.read]
    heads = ["", "procedure", "#instructions", *(f"#{escape(it)}" for it in names), "#bound"]
    rows = []
    for it, reported in zip(module.drawn, reports_of(module), strict=True):
        link = f'<a href="#p{it.code.number}">{escape(reported.name)}</a>'
        count = sum(len(block.code) for block in it.code.blocks)
        costs = [state.cost for state in it.states]
        rows.append((it.code.number, link, count, *costs, it.code.bound))
    foot = ("", "all", *(sum(row[at] for row in rows) for at in range(2, len(heads))))
    name = "Procedures, and what they cost by each certificate"
    return folded(table(name, heads, rows, foot), rows)


def reports_of(module):
    return module.reports[module.certificate.cost].procedures


def folded(made, rows):
    """A table of procedures, which is closed at first where it is long."""
    if len(rows) <= SHORT_TABLE:
        return made
    return f"<details><summary>All {len(rows)} procedures</summary>{made}</details>"


def procedures_table(module):
    if module.is_compared:
        return compared_table(module)
    heads = ["", "procedure", "#instructions", "#round 0", "#cost", "#bound", "#at most above"]
    rows, cost, first = [], module.certificate.cost, heads.index("#round 0")
    for it, reported in zip(module.drawn, module.reports[cost].procedures, strict=True):
        number = it.code.number
        link = f'<a href="#p{number}">{escape(reported.name)}</a>'
        count = sum(len(block.code) for block in it.code.blocks)
        total, bound = it.total, it.code.bound
        rows.append((number, link, count, reported.rounds[0][0], total, bound, total - bound))
    lines = [heads, *rows, ("", "all", *(sum(row[at] for row in rows) for at in range(2, 7)))]
    if not module.source:  # a certificate has no rounds
        lines = [(*line[:first], *line[first + 1 :]) for line in lines]
    made = table("Procedures, their costs and bounds", lines[0], lines[1:-1], lines[-1])
    return folded(made, rows)


def source_lines(source):
    text = source.decode("utf-8", errors="replace").rstrip("\n")
    lines = text.split("\n")
    spans = "".join(f'<span id="L{n}">{escape(it)}</span>' for n, it in enumerate(lines, 1))
    is_open = " open" if len(lines) <= LONG_SOURCE else ""
    count = f"{len(lines)} lines" if len(lines) > 1 else "one line"
    return (
        f'<details class="source"{is_open}><summary>{count}</summary>'
        f'<pre class="source">{spans}</pre></details>'
    )


def where_from(module, number):
    """Which procedure it is, and where it begins."""
    line = module.headings[number].line
    is_body = number == 0 and module.kind != "code"
    kind = "The module's body" if is_body else f"Procedure {number}"
    return f'{kind}, from <a href="#L{line}">line {line}</a> on,' if line else f"{kind}"


def section(module, number):
    drawn, cost = module.drawn[number], module.certificate.cost
    reported = module.reports[cost].procedures[number]
    words = at_most(drawn.total, drawn.code.bound, UNIT[cost])
    if drawn.states[0].reasons:
        words = f"Its routes come to {drawn.total} {UNIT[cost]}, and are refused."
    frame = f" takes {reported.frame} bytes of stack a call." if reported.frame is not None else "."
    return (
        f'<section class="procedure" id="p{number}" data-number="{number}"><details>'
        f"<summary><h2>{escape(reported.name)}</h2></summary>"
        f'<p class="sentence">{where_from(module, number)}{frame} {words}</p>'
        '<div class="body"></div></details></section>'
    )


def made_of_certificates(module):
    """Which certificates a page is of, and whether they hold."""
    told = []
    for it in module.read:
        how = f"is refused: <code>{escape(it.line)}</code>" if it.line else "was tested and holds"
        told.append(f"The certificate {escape(it.name)} {how}.")
    return f"By <code>{escape(module.command)}</code>. {' '.join(told)}"


def made_words(module):
    if not module.source:
        return made_of_certificates(module)
    cost, command = module.certificate.cost, escape(module.command)
    report = module.reports[cost]
    ran = f" The run: <code>{escape(report.ending)}</code>." if report.ending else ""
    code = f"{report.code} bytes of code, " if report.code is not None else ""
    return (
        f"By <code>{command}</code>: {code}allocated to be cheap in {cost}."
        f" The certificate of these numbers was tested and holds.{ran}"
    )


def first_open(module):
    """The procedure that is open at first: the one with the dearest round 0, but no huge one."""
    reported = module.reports[module.certificate.cost].procedures
    if not module.source:
        return first_to_look_at(module.drawn)
    sizes = [sum(len(block.code) for block in it.code.blocks) for it in module.drawn]
    most = max(LONG_CODE, min(sizes))
    small = (at for at, size in enumerate(sizes) if size <= most)
    return max(small, key=lambda it: reported[it].rounds[0][0])


def opened(module):
    """Where the procedure is that is open at first, if others may stand before it."""
    if len(module.drawn) <= SHORT_TABLE:
        return ""
    number = first_open(module)
    return f'Open is <a href="#p{number}">{escape(reports_of(module)[number].name)}</a>. '


def first_to_look_at(drawn):
    """Of certificates the procedure that is refused, or where they differ most, or the dearest."""

    def weight(at):
        states = drawn[at].states
        costs = [it.cost for it in states]
        return any(it.reasons for it in states), max(costs) - min(costs), costs[0], -at

    return max(range(len(drawn)), key=weight)


def script_data(name, value):
    """A value for the page's script; no text in it ends the element."""
    text = json.dumps(value, separators=(",", ":")).replace("<", "\\u003c")
    return f'<script type="application/json" id="{name}">{text}</script>'


def data_of(module):
    """The values that the script draws: one of the page, and one of each procedure."""
    cost, masks = module.certificate.cost, Masks()
    others = others_of_all([it.network for it in module.drawn], module.reports)
    values = [
        it.value({word: r.procedures[at] for word, r in module.reports.items()}, others[at], masks)
        for at, it in enumerate(module.drawn)
    ]
    page = {
        "cost": cost,
        "events": EVENTS,
        "first": first_open(module),
        "count": len(values),
        "masks": masks.table(),
        "units": PRICE_UNITS,
        "turns": TURNS[cost],
    }
    named = ((f"data-{at}", value) for at, value in enumerate(values))
    return "\n".join(script_data(*it) for it in [("data", page), *named])


def title_of(module):
    """A name of the page, which another page of the module has not: by weight and rounds."""
    cost, report = module.certificate.cost, module.reports[module.certificate.cost]
    if not module.source:
        return f"{' and '.join(it.name for it in module.read)} by {cost}"
    rounds = f"{module.rounds} round{'s' * (module.rounds != 1)}"
    return f"{report.procedures[0].name} by {cost}, {rounds}"


def sentence_of(module, report, unit):
    """What the page is of, and how good that is."""
    whole = at_most(report.cost, report.bound, unit)
    if module.source:
        what = "code" if module.kind == "code" else "module"
        return f"The allocation of the {what} {escape(report.procedures[0].name)}. {whole}"
    names = [escape(it.name) for it in module.read]
    if module.is_compared:
        sums = [sum(it.states[at].cost for it in module.drawn) for at in range(len(names))]
        told = ", ".join(f"{name} costs {it} {unit}" for name, it in zip(names, sums, strict=True))
        return f"Certificates of one module: {told}. No allocation costs less than {report.bound}."
    if module.refused:
        return f"The certificate {names[0]}, which is refused: what is wrong is marked."
    return f"The allocation of the certificate {names[0]}. {whole}"


def page_of(module, not_proved=""):
    """The page of a module as text; not_proved says why what made it was not proved."""
    cost, report = module.certificate.cost, module.reports[module.certificate.cost]
    sections = "\n".join(section(module, it) for it in range(len(module.drawn)))
    sentence = sentence_of(module, report, UNIT[cost])
    warned = f'<p class="warned">{escape(not_proved)}</p>\n' if not_proved else ""
    return TEMPLATE.format(
        title=escape(title_of(module)),
        css=asset("page.css"),
        sentence=sentence,
        made=made_words(module),
        not_proved=warned,
        procedures=procedures_table(module),
        opened=opened(module),
        reading=READING.format(legend=legend(), unit=UNITS[cost], found=FOUND[module.kind]),
        events=events_table(module.drawn, cost),
        source=source_lines(module.source),
        sections=sections,
        data=data_of(module),
        script=asset("page.js"),
    )


BOTH = """<!DOCTYPE html>
<html lang="en">
<head>
<meta charset="utf-8">
<meta name="viewport" content="width=device-width, initial-scale=1">
<title>{title}</title>
<link rel="icon" href="data:,">
<style>
html, body {{ height: 100%; margin: 0; }}
body {{ display: flex; }}
iframe {{ flex: 1; min-width: 0; border: 0; border-left: 2px solid #888; }}
@media (max-width: 48rem) {{
  body {{ flex-direction: column; }}
  iframe {{ border: 0; border-top: 2px solid #888; }}
}}
</style>
</head>
<body>
{frames}
</body>
</html>
"""


def side_by_side(names, pages):
    """A page that has others beside each other."""
    frames = (
        f'<iframe title="{escape(name)}" srcdoc="{escape(page)}"></iframe>'
        for name, page in zip(names, pages, strict=True)
    )
    title = escape(" and ".join(names))
    return BOTH.format(title=title, frames="\n".join(frames))
