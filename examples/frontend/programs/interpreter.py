"""An interpreter of a machine with a stack, which runs a program that is in a list.

An instruction is a number and an operand: 0 pushes the operand, 1 pushes variable k, 2 stores
variable k, 3 adds, 4 subtracts, 5 multiplies, 6 jumps where the top is not 0, 7 writes, 8 ends.
"""

code = [0, 12, 2, 0, 0, 1, 2, 1, 1, 1, 1, 0, 5, 0, 2, 1, 1, 1, 7, 0]
more = [1, 0, 0, 1, 4, 0, 2, 0, 1, 0, 6, 8, 8, 0]
program = [0] * 40
stack = [0] * 16
variables = [0] * 4


def load(part: list, to):
    for i in range(len(part)):
        program[to + i] = part[i]
    return to + len(part)


def operate(number, a, b):
    if number == 3:
        return a + b
    if number == 4:
        return a - b
    return a * b


def run():
    at = top = count = 0
    while program[at] != 8:
        number, operand = program[at], program[at + 1]
        at += 2
        count += 1
        if number == 0 or number == 1:
            stack[top] = operand if number == 0 else variables[operand]
            top += 1
        elif number == 2:
            top -= 1
            variables[operand] = stack[top]
        elif number <= 5:
            top -= 1
            stack[top - 1] = operate(number, stack[top - 1], stack[top])
        else:
            top -= 1
            if number == 7:
                print(stack[top])
            elif stack[top] != 0:
                at = operand
    return count


end = load(code, 0)
end = load(more, end)
count = run()
print(end, count, variables[0], variables[1])
