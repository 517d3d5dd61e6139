"""Powers of a matrix modulo a prime, by squares: Fibonacci's numbers far on."""

SIZE = 2
PRIME = 46337


def multiply(a: list, b: list, product: list):
    for row in range(SIZE):
        for column in range(SIZE):
            total = 0
            for k in range(SIZE):
                total += a[SIZE * row + k] * b[SIZE * k + column]
                total %= PRIME
            product[SIZE * row + column] = total


def copy(source: list, target: list):
    for i in range(len(source)):
        target[i] = source[i]


def fibonacci(n):
    square = [1, 1, 1, 0]
    power = [1, 0, 0, 1]
    other = [0] * (SIZE * SIZE)
    while n > 0:
        if n % 2 == 1:
            multiply(power, square, other)
            copy(other, power)
        multiply(square, square, other)
        copy(other, square)
        n //= 2
    return power[1]


for n in range(25):
    print(fibonacci(n), end=" ")
print()
n = 10
while n < 10000000:
    print(n, fibonacci(n))
    n *= 10
