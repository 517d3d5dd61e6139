#!/usr/bin/env python3
"""A subset of Python as a front end: compiles FILE.py to a code file, which docs/CODE.md describes.

    subset.py FILE.py >FILE.code

Numbers wrap at 32 bits; truth values are 1 and 0. A list is [x] * N or [x, y, ..], of a length that
is known there, or a parameter `items: list`. A number in capitals is a constant, defined once,
outside of all. There are if, while, for .. in range(..) with a known step, break, continue,
functions with recursion, `global`, + - * // % & | ^, relations of two, `a if c else b`, in tests
and, or, not; int(input()), print (with end=" " too), len, abs, min, max. All else is refused with
its line, and so is a name that may have no value. An index outside of its list traps, also one
below 0, and so do a division by 0, an input where none is left, and calls too deep.
"""

import ast
import pathlib
import re
import sys
from collections import namedtuple
from types import SimpleNamespace

from emit import Block, Code, TooLarge, text_of

OPERATORS = {ast.Add: "add", ast.Sub: "sub", ast.Mult: "mul"}
OPERATORS |= {ast.BitAnd: "and", ast.BitOr: "or", ast.BitXor: "xor"}
CONDITIONS = {ast.Eq: 4, ast.NotEq: 5, ast.Lt: 12, ast.GtE: 13, ast.LtE: 14, ast.Gt: 15}
LESS, NOT_BELOW = 12, 3  # NOT_BELOW is of numbers without a sign
RESULT = ["global", 0, 0, None]  # where a function leaves what it returns
PARAMETERS = re.compile(r"(\w+(: (int|list))?(, )?)*")
TAKEN = ("print", "input", "int", "len", "range")
# Where a list begins, and its length; of a parameter that is in the variable behind its address.
List = namedtuple("List", "base number length")


def want(holds, node, words="this is not in the subset"):  # else the node is refused
    if not holds:
        raise SyntaxError(words, ("", node.lineno, 0, ""))


class Procedure(Code, ast.NodeVisitor):
    """The code of a function. Methods visit_X for expressions give the variable with the value."""

    def __init__(self, program, node):
        self.program, self.node, self.is_body = program, node, node is program.order[0]
        shared = {name: it for name, it in program.names.items() if name in node.shared}
        self.names = program.names if self.is_body else shared
        asked = {it.id for it in ast.walk(node) if isinstance(it, ast.Name)}
        super().__init__(asked - {*shared})

    def compiled(self):  # the procedure as it stands in a code file
        for it, is_list in zip(self.node.args.args, self.node.lists):
            at = [self.variable("param", len(self.vars)) for _ in range(1 + is_list)][0]
            self.names[it.arg] = List("via", at, None) if is_list else at
            self.made(ast.Name(it.arg, lineno=it.lineno), None if is_list else 0)
        args = len(self.vars)
        self.run([*self.node.body, ast.Return(lineno=self.node.lineno)])
        try:
            return self.finished(self.node.name, args, self.program.words)
        except TooLarge as error:
            want(False, self.node, error)

    def made(self, node, length=0):  # what a name stands for that gets a value; a list has a length
        is_free = node.id not in self.program.own and (length or not node.id.isupper())
        want(is_free, node, f"`{node.id}` is a function or a constant, and no variable")
        if node.id not in self.names:
            self.names[node.id] = self.variable()
            if length or node.id in self.node.shared:
                want(self.is_body or node.id not in self.node.shared, node, "it is not in the body")
                owner, base = (self.program, "global") if self.is_body else (self, "frame")
                at, owner.words = owner.words, owner.words + (length or 1)
                self.names[node.id] = List(base, at, length) if length else [base, at, 0, None]
        it, self.unknown = self.names[node.id], self.unknown - {node.id}
        want(getattr(it, "length", 0) == length, node, "a list has one length, known and above 0")
        return it

    def find(self, node, is_list=False):  # what a name stands for that has a value
        it, what = self.names.get(getattr(node, "id", None)), "list" if is_list else "number"
        is_known = it is not None and node.id not in self.unknown
        words = f"`{ast.unparse(node)}` may have no value here, or is no {what}"
        want(is_known and isinstance(it, List) == is_list, node, words)
        return it

    def place(self, node, is_given=False):  # where a number is: a variable, or an address
        if isinstance(node, ast.Name):
            return self.made(node) if is_given else self.find(node)
        want(isinstance(node, ast.Subscript), node, "this can't be given a value")
        it, index = self.find(node.value, True), self.value(node.slice)
        if (number := self.number_in(index)) in range(it.length or 0):
            return [it.base, it.number, 4 * number, None]
        if not it.length:  # then what is tested is that it is not out of it
            outside = self.new("cmpset", index, it.number + 1, by=[NOT_BELOW])
        self.emit("check", *([index, it.length] if it.length else [outside, 1]))
        return [it.base, it.number, 0, index]

    def handed(self, node):  # the two words of a list: its address and its length
        it = self.find(node, True)
        length = self.constant(it.length) if it.length else it.number + 1
        return [self.new("addr", [it.base, it.number, 0, None]), length]

    def value(self, node):
        value = self.visit(node)
        want(value is not None, node, "this is no number")
        return value

    read = lambda self, place: place if isinstance(place, int) else self.new("load", place)
    write = lambda self, to, it: self.emit("copy" if isinstance(to, int) else "store", to, it)
    generic_visit = lambda self, it: want(False, it)
    visit_Constant = lambda self, it: self.constant(it.value) if isinstance(it.value, int) else None
    visit_Expr = lambda self, it: self.visit(it.value)
    visit_BinOp = lambda self, it: self.operate(it, self.value(it.left), self.value(it.right))
    visit_Subscript = lambda self, it: self.read(self.place(it))
    visit_Compare = lambda self, it: self.visit(ast.IfExp(it, ast.Constant(1), ast.Constant(0)))
    visit_Pass = visit_Global = lambda self, it: None  # Python itself tells what is global
    visit_If = lambda self, it: self.choose(it.test, self.run, it.body, it.orelse)
    visit_Break = lambda self, it: self.go(self.loops[-1][1])
    visit_Continue = lambda self, it: self.go(self.loops[-1][0])

    def visit_Name(self, node):
        number = self.program.constants.get(node.id)
        return self.read(self.place(node)) if number is None else self.constant(number)

    def visit_IfExp(self, node):
        result = self.variable()
        ways = node.body, node.orelse
        self.choose(node.test, lambda it: self.emit("copy", result, self.value(it)), *ways)
        return result

    def visit_UnaryOp(self, node):
        if isinstance(node.op, ast.Not):
            return self.visit_Compare(node)
        want(isinstance(node.op, ast.USub), node)
        return self.visit(ast.BinOp(ast.Constant(0), ast.Sub(), node.operand))

    def operate(self, node, left, right):
        kind, numbers = type(node.op), [self.number_in(left), self.number_in(right)]
        if kind in OPERATORS and None not in numbers:
            return self.constant(getattr(int, f"__{OPERATORS[kind]}__")(*numbers))
        if kind in (ast.FloorDiv, ast.Mod):
            quotient = self.quotient(left, right)
            if kind is ast.FloorDiv:
                return quotient
            self.emit("mul", quotient, right)
            kind, right = ast.Sub, quotient  # a % d is a - a // d * d
        want(kind in OPERATORS, node)
        self.emit(OPERATORS[kind], result := self.new("copy", left), right)
        return result

    def quotient(self, left, right):  # the instruction rounds to 0, and this down
        number = self.number_in(right)
        if (number or 0) <= 0 and self.node is not self.program.functions["//"]:
            return self.called("//", [left, right])
        if number is None:
            self.emit("checkpos", right)
        rest = self.variable()
        quotient = self.new("divmod", rest, self.new("copy", left), right)
        self.emit("sub", quotient, self.new("cmpset", rest, self.constant(0), by=[LESS]))
        return quotient

    def test(self, node, yes, no):  # ends the block; control goes on at one of two others
        match node:
            case ast.BoolOp(sign, [*firsts, last]):
                for it in firsts:
                    more = Block()
                    self.test(it, *((more, no) if isinstance(sign, ast.And) else (yes, more)))
                    self.open(more)
                self.test(last, yes, no)
            case ast.UnaryOp(ast.Not(), of):
                self.test(of, no, yes)
            case ast.Constant(int(number)):
                self.go(yes if number else no)
            case ast.Compare(left, [sign], [right]) if type(sign) in CONDITIONS:
                self.emit("cmp", self.value(left), self.value(right))
                self.go(yes, no, by=("branch", CONDITIONS[type(sign)]))
            case _:
                want(not isinstance(node, ast.Compare), node, "two numbers are compared")
                self.test(ast.Compare(node, [ast.NotEq()], [ast.Constant(0)]), yes, no)

    def visit_Call(self, node):  # gives what the call gives, or None
        match node:
            case ast.Call(ast.Name("int"), [ast.Call(ast.Name("input"), [], [])], []):
                return self.new("read")
            case ast.Call(ast.Name("len"), [of], []):
                return self.handed(of)[1]
            case ast.Call(ast.Name("print"), args, end) if {*map(ast.unparse, end)} <= {"end=' '"}:
                for value in [self.value(it) for it in args]:
                    self.emit("write", value)
                return None if end else self.emit("line")
            case ast.Call(ast.Name(name), args, []) if name in self.program.functions:
                lists, words = self.program.functions[name].lists, []
                want(len(args) == len(lists), node, "this takes other arguments")
                for it, is_list in zip(args, lists):
                    words += self.handed(it) if is_list else [self.value(it)]
                return self.called(name, words)
        want(False, node)

    def called(self, name, words):
        function, order = self.program.functions[name], self.program.order
        order += [] if function in order else [function]
        for it in words:
            self.emit("push", it)
        self.emit("call", order.index(function))
        return self.new("load", RESULT) if function.gives else None

    def run(self, statements):
        for it in statements:
            if self.unknown:  # else control never comes here
                self.visit(it)

    def visit_Return(self, node):
        want(bool(node.value) == self.node.gives, node, "this function may end without a value")
        if node.value:
            self.emit("store", RESULT, self.value(node.value))
        self.go(self.exit)

    def visit_AugAssign(self, node):
        left = self.read(place := self.place(node.target))
        self.write(place, self.operate(node, left, self.value(node.value)))

    def visit_Assign(self, node):
        match node.targets, node.value:
            case [ast.Name() as target], ast.List(elements):
                values = [self.value(it) for it in elements]
                it = self.made(target, len(values) or None)
                for n, value in enumerate(values):
                    self.emit("store", [it.base, it.number, 4 * n, None], value)
            case [ast.Name() as target], ast.BinOp(ast.List([each]), ast.Mult(), many):
                value, length = self.value(each), self.number_in(self.value(many)) or 0
                self.made(target, length if length > 0 else None)
                self.called("[] *", [*self.handed(target), value])
            case [ast.Tuple(targets)], ast.Tuple(its) if len(targets) == len(its):
                for target, value in zip(targets, [self.new("copy", self.value(it)) for it in its]):
                    self.write(self.place(target, True), value)
            case [ast.Name(name)], _ if name.isupper() and node in self.program.order[0].body:
                number = self.number_in(self.value(node.value))
                is_same = self.program.constants.setdefault(name, number) == number
                want(is_same and number is not None, node, "a constant has one value, known here")
            case targets, value:
                value = self.value(value)
                for target in targets:
                    self.write(self.place(target, True), value)

    def visit_While(self, node):
        want(not node.orelse, node)
        head, behind = Block(), Block()
        self.loops.append((head, behind))
        self.open(head)
        self.choose(node.test, self.run, [*node.body, ast.Continue()], [ast.Break()])
        self.loops.pop()
        self.open(behind)

    def visit_For(self, node):  # as a `while`; a turn makes the next number first, for `continue`
        is_range = isinstance(node.iter, ast.Call) and ast.unparse(node.iter.func) == "range"
        want(is_range and not node.orelse and len(node.iter.args) in (1, 2, 3), node)
        bounds = [ast.Constant(0)] * (len(node.iter.args) == 1) + node.iter.args
        step = self.number_in(self.value(bounds[2])) if bounds[2:] else 1
        want(step, node, "a range has a step that is known and not 0")
        number, end = ast.Name(f"number {len(self.loops)}"), ast.Name(f"end {len(self.loops)}")
        following = ast.BinOp(number, ast.Add(), ast.Constant(step))
        sign = [ast.Lt() if step > 0 else ast.Gt()]
        if abs(step) > 1:  # past the greatest or the least number comes the end
            following = ast.IfExp(ast.Compare(number, sign, [following]), following, end)
        start = ast.Assign([ast.Tuple([number, end])], ast.Tuple(bounds[:2]))
        turn = [ast.Assign([node.target], number), ast.Assign([number], following), *node.body]
        self.run([start, ast.While(ast.Compare(number, sign, [end]), turn, [])])


def compiled(text, name):  # the text of the code file of a program
    code = compile(text, name, "exec")  # which refuses what is no Python
    tree, body = ast.parse(text), ast.parse("def body(): pass").body[0]
    own = [it for it in tree.body if isinstance(it, ast.FunctionDef)]
    body.name, body.body = name, [it for it in tree.body if it not in own]
    library = ast.parse(pathlib.Path(__file__).with_name("library.py").read_text("utf-8")).body[1:]
    functions = dict(zip(("abs", "min", "max", "[] *", "//"), library))
    firsts = {it.name: it for it in reversed(own)}
    # Of each function the names that are not its own.
    shared = {it.co_name: {*it.co_names} for it in code.co_consts if hasattr(it, "co_names")}
    for it in [body, *functions.values(), *own]:
        is_new = it not in own or (it.name not in TAKEN and it is firsts[it.name])
        want(is_new, it, f"there is a function `{it.name}` before this one")
        is_plain = PARAMETERS.fullmatch(ast.unparse(it.args)) and not it.decorator_list
        want(is_plain, it, "parameters are names alone, with `: list` or `: int` behind them")
        it.lists = [ast.unparse(each).endswith(": list") for each in it.args.args]
        it.gives = any(isinstance(each, ast.Return) and each.value for each in ast.walk(it))
        it.shared = shared.get(it.name, set()) if it in own else set()
    body.shared = set().union(*shared.values())
    program = SimpleNamespace(order=[body, *own], own=firsts, functions=functions | firsts)
    program.names, program.constants, program.words = {}, {}, 1  # words of data
    procedures = [Procedure(program, it).compiled() for it in program.order]  # which grows
    return text_of(procedures, program.words)


def main(words):
    try:
        print(compiled((file := pathlib.Path(words[0])).read_text("utf-8"), file.stem))
    except SyntaxError as error:
        return f"{file}:{error.lineno}: {error.msg}"


if __name__ == "__main__":
    sys.exit(main(sys.argv[1:]))
