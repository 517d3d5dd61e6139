"""What a program of the subset gets where it asks for it, compiled with it (subset.py).

In the quotient `//` is the instruction, which wants a divisor above 0 and rounds down.
"""


def abs(a):
    return -a if a < 0 else a


def min(a, b):
    return b if b < a else a


def max(a, b):
    return b if b > a else a


def fill(items: list, value):
    for i in range(len(items)):
        items[i] = value


def quotient(a, d):
    if d >= 0:
        return a // d
    if d == -d:  # the least number, which alone is its own negative
        return 1 if a == d else -(a > 0)
    down = a // -d
    return -down - (a + down * d != 0)
