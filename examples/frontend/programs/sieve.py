"""The primes below 1000 by the sieve of Eratosthenes: the last ten of them, and how many."""

N = 1000
composite = [0] * N


def cross_out(flags: list, p):
    multiple = p * p
    while multiple < len(flags):
        flags[multiple] = True
        multiple += p


count = 0
for n in range(2, N):
    if not composite[n]:
        count += 1
        if n * n < N:
            cross_out(composite, n)

last = 0
for n in range(N - 1, 1, -1):
    if not composite[n]:
        print(n, end=" ")
        last += 1
        if last == 10:
            break
print()
print(count)
