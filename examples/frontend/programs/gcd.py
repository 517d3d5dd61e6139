"""Greatest common divisors by Euclid, with the factors that make them, for pairs until 0 0."""


def gcd(a, b):
    while b:
        a, b = b, a % b
    return abs(a)


def extended(a, b, factors: list):
    """The divisor as factors[0] * a + factors[1] * b."""
    x, next_x = 1, 0
    y, next_y = 0, 1
    while b != 0:
        quotient = a // b
        a, b = b, a - quotient * b
        x, next_x = next_x, x - quotient * next_x
        y, next_y = next_y, y - quotient * next_y
    factors[0], factors[1] = x, y
    return a


pair = [0, 0]
while True:
    a = int(input())
    b = int(input())
    if a == 0 and b == 0:
        break
    divisor = extended(a, b, pair)
    print(gcd(a, b), divisor, pair[0], pair[1], pair[0] * a + pair[1] * b == divisor)
