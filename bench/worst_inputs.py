"""Writes inputs that take a compiler as long, or as much memory, as anybody could think of:
worst_inputs.py FOLDER.

Each module keeps all limits of the language. A procedure has as many empty statements as its nodes
have room for, or as many remainders, around which 126 variables live, so that its network is as
large as one can be; or a chain of dead copies over many blocks; or operands that nest as deep as
phrases may, for the stack. One runs long by the units that `interp` counts.

Certificates are small texts about code with many live variables; but for one of them they claim no
routes, or routes without a place, so that a checker may refuse them without a network. The large
ones are JSON of 16 MiB: objects that no certificate has, and lists of its smallest parts.

Code files have as many procedures as there may be, or one with as many instructions or variables;
or variables that all live through all instructions, so that the network is larger than the text.
Others are refused: lists of 16 MiB with too many parts, and code that breaks a rule at its end.
"""

import json
import sys

NODES = 2048
LOCALS = 126
VARIABLES = 16383
BLOCKS = 4098
DEEPEST = 62  # statements and operands that nest in the module's body
MAX_BYTES = 16 << 20  # of a certificate or a code file
PROCEDURES = 65536
INSTRUCTIONS = 8321


def procedure(number, statement, nodes):
    """A procedure of empty statements; its variables are summed up behind them."""
    names = [f"v{local}" for local in range(LOCALS)]
    room = NODES - 2 * LOCALS - 1
    body = [statement] * (room // nodes) + ["r := " + " + ".join(names)]
    return (
        f"PROCEDURE P{number}(VAR r: INTEGER; b: BOOLEAN);\n"
        f"VAR {', '.join(names)}: INTEGER;\n"
        "BEGIN\n" + ";\n".join(body) + f"\nEND P{number};\n"
    )


def called(procedures):
    """A module of procedures, each called once."""
    calls = "; ".join(f"P{number}(s, c)" for number in range(len(procedures)))
    made = "".join(procedures)
    return f"MODULE M;\nVAR s: INTEGER; c: BOOLEAN;\n{made}BEGIN {calls}; Write(s) END M.\n"


def module(statement, nodes, procedures=1):
    """A module of such procedures; a statement takes so many nodes."""
    return called([procedure(number, statement, nodes) for number in range(procedures)])


def remainders(number):
    """A procedure of remainders by all of its variables, which live until they are summed up."""
    names = [f"v{local}" for local in range(LOCALS)]
    room = NODES - 2 * LOCALS - 14
    body = []
    while room > 5:
        divisors = names[: min(LOCALS, room // 2 - 1)]
        body.append(" MOD ".join(["r := r", *divisors]))
        room -= 2 + 2 * len(divisors)
    body.append(" + ".join(["r := r", *names]))
    return (
        f"PROCEDURE P{number}(VAR r: INTEGER; b: BOOLEAN);\n"
        f"VAR {', '.join(names)}: INTEGER;\n"
        "BEGIN\n" + ";\n".join(body) + f"\nEND P{number};\n"
    )


def copies(number):
    """A procedure whose locals are copied into the next one, with blocks between; the last one is
    read by nobody, so all copies are dead."""
    names = [f"v{local}" for local in range(LOCALS)]
    body = [
        f"{to} := {first}; IF b & b & b & b THEN END" for first, to in zip(names, names[1:])
    ]
    return (
        f"PROCEDURE P{number}(VAR r: INTEGER; b: BOOLEAN);\n"
        f"VAR {', '.join(names)}: BOOLEAN;\n"
        "BEGIN\n" + ";\n".join(body) + f"\nEND P{number};\n"
    )


def nested(first, last, inner="y", levels=DEEPEST):
    """An operand around which a text stands as often as phrases may nest."""
    return first * levels + inner + last * levels


def deep(body):
    """A module of one statement."""
    variables = "x, y: INTEGER; b: BOOLEAN; a: ARRAY 5 OF INTEGER"
    return f"MODULE M;\nVAR {variables};\nBEGIN {body} END M.\n"


def deep_ifs(levels):
    """Conditional statements in one another, the last one of a deep condition."""
    condition = nested("1 + 1 * a[", "]", levels=DEEPEST - levels)
    return deep(nested("IF b THEN ", " END", f"IF y = {condition} THEN END", levels))


def long_turns():
    """A loop without an end, whose test has as many nodes as a statement of the module may."""
    terms = " + ".join(["s"] * (NODES // 2 - 2))
    return f"MODULE M;\nVAR s: INTEGER;\nBEGIN REPEAT UNTIL {terms} # 0 END M.\n"


def jump(block, *code):
    return [0, list(code), ["jump", block]]


def certificate(blocks, routes=(), total=0, variables=VARIABLES):
    """The text of a certificate of one procedure without prices."""
    claim = {
        "args": 0,
        "aggregates": 0,
        "vars": [["plain"]] * variables,
        "blocks": blocks,
        "routes": list(routes),
        "caps": [],
        "mems": [],
        "ties": [],
        "total": total,
        "bound": 0,
    }
    whole = {"cost": "size", "kind": "pra-certificate", "procs": [claim], "version": 1}
    return json.dumps(whole, separators=(",", ":"))


def reads(variables):
    """Stores that read each of so many variables."""
    last = variables - 1
    return [
        ["store", ["via", first, 0, min(first + 1, last)], min(first + 2, last)]
        for first in range(0, variables, 3)
    ]


def everywhere(count):
    """A circle of so many blocks that the entry does not lead to; its end reads all variables."""
    circle = [jump(block + 1) for block in range(1, count - 2)]
    return [jump(count - 1), *circle, jump(1, *reads(VARIABLES)), [0, [], ["return"]]]


def backwards():
    """A way through the blocks from the last to the first, which reads the one live variable."""
    way = [jump(block - 1) for block in range(2, BLOCKS - 1)]
    end = jump(BLOCKS - 1, ["checkpos", 0])
    return [jump(BLOCKS - 1), end, *way, [0, [], ["return"]]]


def leaps():
    """Each block leads to the next one and two back, and every second one reads a variable of its
    own: each of these is live in all blocks, and comes to them on its own way."""
    last = BLOCKS - 1
    blocks = [jump(last), jump(2, ["checkpos", 0])]
    for block in range(2, last):
        code = [["checkpos", block]] if block % 2 == 0 else []
        to = block + 1 if block + 1 < last else last
        end = ["branch", 4, to, max(block - 2, 1)]
        blocks.append([0, [*code, ["cmp", block, block]], end])
    return [*blocks, [0, [], ["return"]]]


def long_block(instructions, variables=VARIABLES):
    """One block with a circle of its own behind the entry, all variables live all through it."""
    some = 3 * ((variables - 1) // 3)
    code = [["line"]] * (instructions - some // 3) + reads(some)
    return [jump(2), jump(1, *code), [0, [], ["return"]]]


def filled(part, before, behind):
    """A text of so many bytes as a certificate may have: a list of one part again and again."""
    room = MAX_BYTES - len(before) - len(behind)
    return before + ",".join([part] * ((room + 1) // (len(part) + 1))) + behind


def large():
    """Texts of 16 MiB that are refused: lists of objects that no certificate has, and certificates
    with a long list of small parts, whose bound is above their cost."""
    whole = certificate([[0, [], ["return"]]], variables=1).replace('"bound":0', '"bound":1')
    lists = {
        "lines": ('["line"]', "[[0,[", "[[0,[]"),
        "plains": ('["plain"]', '"vars":[', '"vars":[["plain"]'),
        "caps": ("[0,0]", '"caps":[', '"caps":['),
        "routes": ("[6]", '"routes":[', '"routes":['),
        "paths": ("[]", '"routes":[', '"routes":['),
        "blocks": ('[0,[],["return"]]', '"blocks":[', '"blocks":[[0,[],["return"]]'),
    }
    texts = {}
    for name, (part, opens, stands) in lists.items():
        at = whole.index(stands)
        behind = whole[at + len(opens) :]
        if stands.endswith(part):
            behind = behind[len(part) :]
        texts[f"large_{name}.cert"] = filled(part, whole[:at] + opens, behind)
    texts["large_objects.cert"] = filled('{"":0}', "[", "]")
    texts["large_nested.cert"] = filled('{"":' * 100 + "0" + "}" * 100, "[", "]")
    texts["large_rows.cert"] = filled('["line"]', "[", "]")
    return texts


def code_file(*procedures):
    """The text of a code file whose procedures have these numbers of variables and these blocks."""
    made = [
        {"args": 0, "aggregates": 0, "vars": [["plain"]] * count, "blocks": blocks, "name": "P"}
        for count, blocks in procedures
    ]
    whole = {"data_words": 0, "kind": "pra-code", "procs": made, "version": 1}
    return json.dumps(whole, separators=(",", ":"))


def one_block(*code):
    return [[0, list(code), ["return"]]]


def mixed(variables):
    """As many instructions as there may be, on so many variables in turn."""
    begin = [["set", v, v] for v in range(variables)]
    turns = ((at % variables, (7 * at + 3) % variables) for at in range(INSTRUCTIONS))
    code = [["add", to, of if of != to else to - 1] for to, of in turns]
    end = [["write", v] for v in range(variables)]
    return one_block(*begin, *code[: INSTRUCTIONS - 2 * variables], *end)


def short_lives():
    """Each variable is written and read at once."""
    pairs = ([["set", v, 1], ["write", v]] for v in range(INSTRUCTIONS // 2))
    return one_block(*sum(pairs, []))


def read_at_the_entry(blocks):
    """Blocks that break a rule, as the entry reads what nobody wrote."""
    depth, code, end = blocks[0]
    return [[depth, [["write", 0], *code], end], *blocks[1:]]


def codes():
    """Code files that are compiled."""
    short = [["set", 0, 1], *[["neg", 0]] * 14]
    return {
        "small_65536.code": code_file(*[(0, one_block())] * PROCEDURES),
        "short_65536.code": code_file(*[(1, one_block(*short))] * PROCEDURES),
        "mixed_30.code": code_file((30, mixed(30))),
        "lives_16383.code": code_file((VARIABLES, short_lives())),
        "wide_100.code": code_file((100, long_block(1000, 100))),
        "wide_300.code": code_file((300, long_block(1000, 300))),
    }


def refused_codes():
    """Code files that are refused."""
    short = [["set", 0, 1], *[["neg", 0]] * 14]
    texts = {}
    for name, part, procedure in (
        ("lines", '["line"]', (0, one_block(["line"]))),
        ("blocks", '[0,[],["return"]]', (0, one_block())),
        ("plains", '["plain"]', (1, one_block())),
    ):
        before, behind = code_file(procedure).split(part)
        texts[f"refused_{name}.code"] = filled(part, before, behind)
    return texts | {
        "refused_procedures.code": code_file(*[(0, one_block())] * (MAX_BYTES // 77)),
        "refused_last.code": code_file(
            *[(1, one_block(*short))] * (PROCEDURES - 1), (1, one_block(["write", 0]))
        ),
        "refused_wide.code": code_file((VARIABLES, read_at_the_entry(long_block(8300)))),
        "refused_leaps.code": code_file((VARIABLES, read_at_the_entry(leaps()))),
    }


def all_texts():
    """All inputs, by the names of their files."""
    return {
        "repeats.ob": module("REPEAT UNTIL b", 2),
        "repeats_15.ob": module("REPEAT UNTIL b", 2, 15),
        "whiles.ob": module("WHILE b DO END", 2),
        "whiles_13.ob": module("WHILE b DO END", 2, 13),
        "ifs.ob": module("IF b THEN END", 2),
        "calls.ob": module("WriteLn", 1),
        "remainders.ob": called([remainders(0)]),
        "remainders_28.ob": called([remainders(number) for number in range(28)]),
        "copies.ob": called([copies(0)]),
        "copies_27.ob": called([copies(number) for number in range(27)]),
        "deep_indexes.ob": deep("x := " + nested("1 + 1 * a[", "]")),
        "deep_ifs.ob": deep_ifs(DEEPEST - 4),
        "long_turns.ob": long_turns(),
        "everywhere_400.cert": certificate(everywhere(400)),
        "everywhere_4090.cert": certificate(everywhere(4090)),
        "backwards.cert": certificate(backwards(), [[6, 6]] * (BLOCKS - 2), 4),
        "leaps.cert": certificate(leaps()),
        "long.cert": certificate(long_block(8300), [[]] * VARIABLES),
        **large(),
        **codes(),
        **refused_codes(),
    }


def main():
    for name, text in all_texts().items():
        with open(f"{sys.argv[1]}/{name}", "w", encoding="ascii") as out:
            out.write(text)


if __name__ == "__main__":
    main()
