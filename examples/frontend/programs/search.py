"""Looks numbers up in a sorted list by halving it, and tells at which index, or -1."""

N = 60


def search(items: list, wanted):
    low, high = 0, len(items)
    while low < high:
        middle = (low + high) // 2
        if items[middle] == wanted:
            return middle
        if items[middle] < wanted:
            low = middle + 1
        else:
            high = middle
    return -1


squares = [0] * N
for i in range(N):
    squares[i] = i * i - 1000
hits = 0
for wanted in range(-1010, 2500, 7):
    at = search(squares, wanted)
    if at >= 0:
        print(wanted, at)
        hits += 1
print(hits)
