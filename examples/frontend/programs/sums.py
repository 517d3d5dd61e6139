"""Sums that wrap: powers, factorials and a checksum, up to what 32 bits hold and past it."""


def power(base, exponent):
    result = 1
    while exponent > 0:
        if exponent % 2:
            result *= base
        base *= base
        exponent //= 2
    return result


def checksum(seed, turns):
    """A generator of numbers after Marsaglia, with products in place of shifts."""
    a, b = seed, 1
    for i in range(turns):
        a = a * 69069 + 1
        b = (b ^ a) * 8 + (b & 7) - (b // 32768 | i)
    return a ^ b


total = 0
for i in range(1, 1201):
    total += i * i * i
    if i % 300 == 0:
        print(i, total)
for n in range(28, 36):
    print(power(2, n), power(3, n), power(-7, n))
product = 1
for n in range(1, 21):
    product *= n
print(product, -product, product // 7, product % -7, -product // 1000)
print(checksum(12345, 300), checksum(-1, 300))
for n in range(2147483640, 2147483647, 3):
    print(n, n + 10, -n - 10)
