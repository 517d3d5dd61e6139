"""A first front end: a calculator, compiled to a code file.

    python3 tiny.py <FILE >FILE.code

Statements are `NAME = SUM`, `NAME = read`, `print(SUM)` and `while SUM < SUM:` (> <= >= == != too)
with others indented below it. Sums have numbers, names, + - * and parentheses.
"""

import ast  # which reads this language, as it looks like Python

from emit import Block, Code, text_of

# What an operator is as an instruction, and what a relation is as the processor's number of it.
OPERATIONS = {ast.Add: "add", ast.Sub: "sub", ast.Mult: "mul"}
CONDITIONS = {ast.Eq: 4, ast.NotEq: 5, ast.Lt: 12, ast.GtE: 13, ast.LtE: 14, ast.Gt: 15}
program = ast.parse(open(0).read())
names = sorted({it.id for it in ast.walk(program) if isinstance(it, ast.Name)} - {"read", "print"})
code = Code()
for _ in names:  # whatever way control takes, a variable has to be written before it is read
    code.emit("set", code.variable(), 0)


def value_of(it):  # the variable that holds what a sum is, behind the instructions that make it
    match it:
        case ast.Constant(int(number)) if number < 1 << 31:
            return code.constant(number)
        case ast.Name(name):
            return names.index(name)
        case ast.BinOp(left, sign, right) if type(sign) in OPERATIONS:
            left, right = value_of(left), value_of(right)
            value = code.new("copy", left)
            code.emit(OPERATIONS[type(sign)], value, right)  # `add v s`: v becomes v + s
            return value
    raise SystemExit(f"line {it.lineno}: this is no sum")


def statement(it):
    match it:
        case ast.Assign([ast.Name(name)], ast.Name("read")):
            code.emit("read", names.index(name))
        case ast.Assign([ast.Name(name)], value):
            code.emit("copy", names.index(name), value_of(value))
        case ast.Expr(ast.Call(ast.Name("print"), [value], [])):
            code.emit("write", value_of(value))
            code.emit("line")
        case ast.While(ast.Compare(left, [sign], [right]), body, []) if type(sign) in CONDITIONS:
            head, turn, behind = Block(), Block(), Block()
            code.loops.append(it)
            code.open(head)  # its own block for the test: no end may lead to the first one
            code.emit("cmp", value_of(left), value_of(right))  # the last instruction before a branch
            code.go(turn, behind, by=("branch", CONDITIONS[type(sign)]))
            code.open(turn)
            for each in body:
                statement(each)
            code.go(head)
            code.loops.pop()
            code.open(behind)
        case _:
            raise SystemExit(f"line {it.lineno}: this is no statement")


for it in program.body:
    statement(it)
print(text_of([code.finished("Main")]))
