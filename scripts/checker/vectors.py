"""Certificates that `check` takes, and such that it refuses: docs/vectors.

    python3 -m checker.vectors    writes them all anew, from those here and from holds-sum.cert

A file is one certificate, or a text that is none. answers.txt has a line for each: the name, and
the last line that `check` prints of it.
"""

import copy
import json
import os

TOP = os.path.dirname(os.path.dirname(os.path.dirname(os.path.realpath(__file__))))
FOLDER = f"{TOP}/docs/vectors"
HOLDS, NO_JSON, NO_FORM = "certificate holds", "fault json", "fault certificate form"
GONE = object()  # in the place of a value: the key is left out


def refused(procedure, reason):
    return f"fault certificate procedure {procedure} {reason}"


def text_of(value):
    return json.dumps(value, separators=(",", ":"), sort_keys=True).encode() + b"\n"


def certificate(variables, blocks, routes, total, **others):
    """A certificate of one procedure without prices and bound, but for what is named."""
    procedure = {"args": 0, "aggregates": 0, "caps": [], "mems": [], "ties": [], "bound": 0}
    procedure |= {"vars": variables, "blocks": blocks, "routes": routes, "total": total} | others
    return {"cost": "size", "kind": "pra-certificate", "version": 1, "procs": [procedure]}


def edited(value, edits):
    """A value with other parts, by their paths."""
    value = copy.deepcopy(value)
    for path, part in edits.items():
        inner = value
        for key in path[:-1]:
            inner = inner[key]
        if part is GONE:
            del inner[path[-1]]
        else:
            inner[path[-1]] = part
    return value


def plain_block(*code):
    return [[0, list(code), ["return"]]]


NUMBER = certificate([["constant", 7]], plain_block(["write", 0], ["line"]), [[0]], 5, bound=5)
ONE, TWO = ("procs", 0), ("procs", 1)  # of sum: the body, and the procedure with the loop
PLAIN, SEVEN = ["plain"], ["constant", 7]
HERE = ["frame", 0, 0, None]


def argument(args, total):
    """One of so many arguments is written."""
    return certificate([["param", 0]], plain_block(["write", 0]), [[6, 0]], total, args=args)


def product(factor, total):
    code = plain_block(["set", 0, 5], ["mul", 0, 1], ["write", 0])
    return certificate([PLAIN, ["constant", factor]], code, [[0, 0, 0, 0], [7]], total)


def of_code(*code, variables=(PLAIN,), **others):
    return certificate(list(variables), plain_block(*code), [], 0, **others)


def nested(lists):
    return b"[" * lists + b"]" * lists


def holding(total):
    """Those that hold. total is the certificate of a module with a loop."""
    compared = [[0, [["set", 0, 3], ["cmp", 0, 1]], ["branch", 4, 1, 1]], [0, [], ["return"]]]
    paired = certificate([PLAIN, SEVEN], compared, [[0, 0], [7]], 1, mems=[[0, 5]])
    framed = plain_block(["clear"], ["load", 0, ["frame", 70000, 0, None]], ["write", 0])
    number = text_of(NUMBER)
    yield "one-number", number
    yield "sum", text_of(total)
    yield "blanks-and-another-order", json.dumps(dict(reversed(NUMBER.items())), indent=3).encode()
    yield "equal-keys-the-last-counts", number.replace(b'"bound":5', b'"bound":"x","bound":5')
    yield "name-with-escapes", number.replace(b"size", b"s\\u0069ze")
    yield "arguments-of-the-body", text_of(argument(1, 3))
    yield "30-arguments-are-near", text_of(argument(30, 3))
    yield "31-arguments-are-far", text_of(argument(31, 6))
    yield "factor-of-8-bits-is-free", text_of(product(-128, 0))
    yield "factor-of-9-bits-costs-3", text_of(product(-129, 3))
    any_word = certificate([PLAIN], framed, [[0, 0]], 0, aggregates=1)
    yield "frame-word-is-not-asked", text_of(any_word)
    yield "pair-with-a-number", text_of(paired)
    yield "greatest-price", text_of(
        edited(NUMBER, {(*ONE, "caps"): [[1, 1 << 40]], (*ONE, "bound"): 0})
    )
    yield "depth-5", text_of(edited(NUMBER, {(*ONE, "blocks", 0, 0): 5}))


def no_json():
    number = text_of(NUMBER)
    yield "empty", b""
    yield "blank", b" "
    yield "open-list", b"["
    yield "cut-at-the-end", number[:-2]
    yield "comma-at-the-end", number.replace(b"}\n", b",}\n")
    yield "two-values", number + number
    yield "nul-at-the-end", number + b"\0"
    yield "byte-order-mark", b"\xef\xbb\xbf" + number
    yield "comment", b"/* */" + number
    yield "no-utf-8", number.replace(b"size", b"si\xffe")
    yield "half-a-surrogate-pair", number.replace(b"size", b"\\ud800")
    yield "control-character", number.replace(b"size", b"si\x01ze")
    yield "not-a-number", number.replace(b'"total":5', b'"total":NaN')
    yield "leading-zero", number.replace(b'"total":5', b'"total":05')
    yield "plus-sign", number.replace(b'"total":5', b'"total":+5')
    yield "1e400", number.replace(b'"total":5', b'"total":1e400')
    yield "integer-past-a-double", number.replace(b'"total":5', b'"total":' + b"9" * 310)
    yield "nested-128", nested(128)


# What stands in the place of a part, and the refusal's name. FORMS are of one-number.
FORMS = {
    "no-procedure": {("procs",): []},
    "procedure-is-a-list": {ONE: []},
    "key-missing": {(*ONE, "ties"): GONE},
    "key-unknown": {(*ONE, "name"): "M"},
    "version-2": {("version",): 2},
    "version-with-a-point": {("version",): 1.0},
    "kind": {("kind",): "pra-certificates"},
    "cost-word": {("cost",): "Size"},
    "number-is-true": {(*ONE, "args"): True},
    "number-is-null": {(*ONE, "args"): None},
    "number-is-a-string": {(*ONE, "total"): "5"},
    "negative": {(*ONE, "bound"): -1},
    "total-past-64-bits": {(*ONE, "total"): 1 << 64},
    "args-past-32-bits": {(*ONE, "args"): 1 << 32},
    "constant-past-32-bits": {(*ONE, "vars", 0, 1): 1 << 31},
    "price-is-negative": {(*ONE, "caps"): [[0, -1]]},
    "number-of-a-tie-past-64-bits": {(*ONE, "ties"): [[0, 1 << 63]]},
    "price-of-three": {(*ONE, "caps"): [[0, 1, 1]]},
    "place-14": {(*ONE, "routes", 0, 0): 14},
    "condition-10": {(*ONE, "blocks", 0, 2): ["branch", 10, 0, 0]},
    "plain-with-a-number": {(*ONE, "vars", 0): ["plain", 7]},
    "instruction-unknown": {(*ONE, "blocks", 0, 1, 1): ["nop"]},
    "instruction-in-capitals": {(*ONE, "blocks", 0, 1, 1): ["Line"]},
    "operand-too-many": {(*ONE, "blocks", 0, 1, 1): ["line", 0]},
    "operand-too-few": {(*ONE, "blocks", 0, 1, 0): ["write"]},
    "address-of-three": {(*ONE, "blocks", 0, 1, 1): ["load", 0, ["frame", 0, 0]]},
}


def no_form():
    number = text_of(NUMBER)
    yield "nested-127", nested(127)
    yield "a-number", b"7"
    yield "in-a-list", b"[" + number.strip() + b"]"
    yield "exponent", number.replace(b'"total":5', b'"total":5e0')
    yield "minus-zero", number.replace(b'"args":0', b'"args":-0')
    yield "equal-keys-the-first-is-right", number.replace(b'"bound":5', b'"bound":5,"bound":"x"')
    for name, edits in FORMS.items():
        yield name, text_of(edited(NUMBER, edits))


def bad_code():
    """Those whose code is refused, by the number of a rule."""
    there, loop = ["store", HERE, 1], [0, [], ["jump", 0]]
    compared = [0, [["set", 0, 1]], ["branch", 4, 1, 1]]
    division = ["set", 2, 2], ["divmod", 0, 1, 3, 2], ["add", 0, 3], ["write", 0]
    late = of_code(*division, variables=(PLAIN, PLAIN, PLAIN, SEVEN))
    cell = ["load", 1, ["cell", 0, 0, None]]
    last = [0, [], ["return"]]
    yield "1-no-block", certificate([], [], [], 0)
    yield "1-entry-is-led-to", certificate([], [[0, [], ["jump", 1]], loop, last], [], 0)
    yield "1-return-before-the-last", certificate([], [last, last], [], 0)
    yield "1-last-goes-on", certificate([], [[0, [], ["jump", 1]], [0, [], ["jump", 1]]], [], 0)
    yield "2-variable", of_code(["write", 1])
    yield "2-block", certificate([], [[0, [], ["jump", 2]], last], [], 0)
    yield "2-procedure", of_code(["call", 1])
    yield "2-argument", of_code(variables=(["param", 0],))
    yield "2-cell", of_code(["load", 0, ["cell", 0, 0, None]])
    yield "3-no-comparison", certificate([PLAIN], [compared, last], [], 0)
    yield "4-read-and-written", of_code(["set", 0, 1], ["copy", 0, 0])
    yield "4-dividend-read-later", late
    yield "5-number-written", of_code(["set", 0, 1], variables=(SEVEN,))
    yield "5-number-copied", of_code(["copy", 0, 1], variables=(PLAIN, SEVEN))
    yield "5-argument-of-two", of_code(variables=(["param", 0], ["param", 0]), args=1)
    yield "5-cell-of-a-variable", of_code(cell, variables=(["param", 0], PLAIN), args=1)
    yield "6-read-before-written", of_code(["write", 0])
    yield "7-push-too-few", of_code(["call", 0], args=1)
    yield "7-push-parted", of_code(["push", 0], ["line"], ["call", 0], variables=(SEVEN,), args=1)
    yield "7-push-alone", of_code(["push", 0], variables=(SEVEN,))
    yield "8-clear-missing", of_code(there, variables=(PLAIN, SEVEN), aggregates=1)
    yield "8-clear-of-nothing", of_code(["clear"])
    yield "8-clear-later", of_code(["line"], ["clear"], aggregates=1)
    yield "8-check-below-a-negative", of_code(["set", 0, 1], ["check", 0, -1])
    yield "8-shift-by-0", of_code(["set", 0, 1], ["shl", 0, 0])
    yield "8-shift-by-32", of_code(["set", 0, 1], ["sar", 0, 32])
    yield "9-33-arguments", of_code(args=33)
    yield "9-65537-aggregate-words", of_code(["clear"], aggregates=65537)
    yield "9-depth-6", edited(NUMBER, {(*ONE, "blocks", 0, 0): 6})


# Of sum: what stands in the place of a part, or of parts.
ROUTES = {
    "strand-missing": {(*TWO, "routes", 14): GONE},
    "place-missing": {(*TWO, "routes", 7): [13] * 14},
    "not-in-its-mask": {(*TWO, "routes", 0): [0, 6, 6, 0]},
    "number-in-memory": {(*TWO, "routes", 11): [6]},
    "variable-as-a-number": {(*ONE, "routes", 0): [0, 7]},
    "across-an-instruction": {(*TWO, "routes", 9): [1, 1, 3, 3]},
    "register-of-two": {(*TWO, "routes", 9): [0, 0, 0, 0]},
    "register-of-two-one-with-memory": {(*TWO, "routes", 8): [5] * 16},
    "two-operands-in-memory": {
        (*TWO, "routes", 3): [0, 6, 6, 0],
        (*TWO, "routes", 4): [6, 6, 6, 13],
    },
    "tie": {(*TWO, "routes", 14): [0, 0]},
}
PRICES = {
    "index-of-caps": {(*TWO, "caps"): [[6 * 34, 1]]},
    "index-of-mems": {(*TWO, "mems"): [[99, 1]]},
    "index-of-ties": {(*TWO, "ties"): [[13 * 20, 1]]},
    "zero": {(*TWO, "caps"): [[0, 0]]},
    "falling": {(*TWO, "caps"): [[1, 1], [0, 1]]},
    "twice": {(*TWO, "mems"): [[0, 1], [0, 1]]},
    "too-great": {(*TWO, "caps"): [[0, (1 << 40) + 1]]},
    "number-too-small": {(*TWO, "ties"): [[0, -(1 << 40) - 1]]},
}


def refusals(total):
    """Those that are certificates and do not hold, with what is told of them."""
    for name, value in bad_code():
        yield f"code-{name}", value, refused(0, "code")
    for kind, table in (("routes", ROUTES), ("prices", PRICES)):
        for name, edits in table.items():
            procedure = next(iter(edits))[1]
            yield f"{kind}-{name}", edited(total, edits), refused(procedure, kind)
    first, second, strand = (*ONE, "total"), (*TWO, "bound"), (*TWO, "routes", 14)
    yield "total-one-more", edited(total, {first: 5}), refused(0, "total")
    yield "total-one-less", edited(total, {first: 3}), refused(0, "total")
    yield "total-of-the-other-word", edited(total, {("cost",): "speed"}), refused(0, "total")
    yield "bound-one-more", edited(total, {second: 6}), refused(1, "bound")
    yield "bound-greatest", edited(total, {second: (1 << 64) - 1}), refused(1, "bound")
    yield "order-first-procedure", edited(total, {second: 6, first: 5}), refused(0, "total")
    both = edited(total, {second: 6, strand: GONE})
    yield "order-routes-before-bound", both, refused(1, "routes")


def vectors():
    """The name, the bytes and the answer of each."""
    with open(f"{FOLDER}/holds-sum.cert", encoding="utf-8") as text:
        total = json.load(text)
    for prefix, answer, made in (
        ("holds", HOLDS, holding(total)),
        ("json", NO_JSON, no_json()),
        ("form", NO_FORM, no_form()),
    ):
        for name, data in made:
            yield f"{prefix}-{name}.cert", data, answer
    for name, value, answer in refusals(total):
        yield f"{name}.cert", text_of(value), answer


def main():
    answers = []
    for name, data, answer in vectors():
        with open(f"{FOLDER}/{name}", "wb") as out:
            out.write(data)
        answers.append(f"{name} {answer}\n")
    with open(f"{FOLDER}/answers.txt", "w", encoding="utf-8") as out:
        out.writelines(answers)


if __name__ == "__main__":
    main()
