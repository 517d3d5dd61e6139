"""The longest of Collatz's sequences from numbers below 60, and the highest that all come to."""

LIMIT = 60


def steps(n):
    """How many steps it is to 1. The highest number on the way is kept in `highest`."""
    global highest
    count = 0
    while n != 1:
        if n % 2 == 0:
            n //= 2
        else:
            n = 3 * n + 1
        highest = max(highest, n)
        count += 1
    return count


highest = 0
longest = start = 0
for n in range(1, LIMIT):
    length = steps(n)
    if length > longest:
        longest, start = length, n
        print(n, length)
print(start, longest, highest)
