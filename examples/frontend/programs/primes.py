"""Prime factors by trial division, of each number of the input until 0."""


def is_prime(n):
    if n < 2:
        return False
    d = 2
    while d * d <= n:
        if n % d == 0:
            return False
        d += 1 if d == 2 else 2
    return True


def factors(n):
    d = 2
    while n > 1:
        if d * d > n or d > 46340:
            d = n
        if n % d == 0:
            print(d, end=" ")
            n //= d
        else:
            d += 1
    print()


n = int(input())
while n > 0:
    print(n, is_prime(n))
    factors(n)
    n = int(input())
