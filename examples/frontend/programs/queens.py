"""In how many ways N queens stand on a board so that none attacks another, for N from 1 to 6."""

MOST = 6
columns = [0] * MOST
rising = [0] * (2 * MOST)
falling = [0] * (2 * MOST)


def ways(row, size):
    if row == size:
        return 1
    found = 0
    for column in range(size):
        up, down = row + column, row - column + size
        if not columns[column] and not rising[up] and not falling[down]:
            columns[column] = rising[up] = falling[down] = True
            found += ways(row + 1, size)
            columns[column] = rising[up] = falling[down] = False
    return found


for size in range(1, MOST + 1):
    print(size, ways(0, size))
