#!/usr/bin/env python3
"""The vectors of hypot, correctly rounded, by Python's whole numbers alone: the lines with a plus of crates/test_vectors/stdin, and what must be written for
them. Run at the repository's root, after make.rs: the lines that it wrote stay, and these are put behind them.

The nearest double is found by a search over the patterns, with no root. Nothing here comes from the project's own code."""
import random
from math import isqrt

INFINITY = 0x7FF0000000000000
SIGN = 1 << 63
ROOM = 65536  # what the program reads
random.seed(754)


def units(b):
    """How many times 2^-1074 the pattern's number is."""
    field, fraction = b % SIGN >> 52, b % (1 << 52)
    return fraction if field == 0 else (fraction + (1 << 52)) << (field - 1)


def nearest(n):
    """The pattern of the double nearest to the root of n, a tie to the even one. The pattern of infinity stands for 2^1024."""
    low, high = 0, INFINITY
    while high - low > 1:
        middle = (low + high) // 2
        if units(middle) ** 2 <= n:
            low = middle
        else:
            high = middle
    midpoint = (units(low) + units(high)) ** 2  # four times its square
    if 4 * n == midpoint:
        return low + low % 2
    return low if 4 * n < midpoint else high


def hypot(x, y):
    if INFINITY in (x % SIGN, y % SIGN):
        return '%016x' % INFINITY
    if max(x % SIGN, y % SIGN) > INFINITY:
        return 'nan'
    return '%016x' % nearest(units(x) ** 2 + units(y) ** 2)


def pack(m, k):
    """The pattern of m * 2^k units, which is a double."""
    while m >> 53 and m % 2 == 0:
        m //= 2
        k += 1
    while m and m >> 52 == 0 and k > 0:
        m *= 2
        k -= 1
    assert m >> 53 == 0 and 0 <= k <= 2045, (m, k)
    return m if k == 0 else (k << 52) + m


groups = {}


def add(name, x, y):
    """Either order, and signs as they come."""
    if random.random() < 0.5:
        x, y = y, x
    sign = lambda b: b | (SIGN if random.random() < 0.3 else 0)
    groups.setdefault(name, []).append((sign(x), sign(y)))


def ends():
    return [0, 1, (1 << 52) - 1, random.randrange(1 << 52)]


special = [0, SIGN, INFINITY, SIGN | INFINITY, 0x7FF8000000000000, 0xFFF8000000000001, 0x7FF0000000000001, 1, SIGN | 1, 0x3FF << 52, INFINITY - 1, 0xBFF8 << 48]
groups['zeros, infinities, NaN with payloads, ends, each against each'] = [(x, y) for x in special for y in special]

# A primitive hypotenuse is 1 mod 4, so that its tie goes down; three times one goes up.
for times, name in ((1, 'ties that go down'), (3, 'ties that go up')):
    found = 0
    while found < 16:
        u = random.randrange(1 << 24, 1 << 27) | 1
        v = random.randrange(2, u, 2)
        a, b, c = times * (u * u - v * v), times * 2 * u * v, times * (u * u + v * v)
        if c.bit_length() != 54 or a >> 53 or b // 2 >> 53:
            continue
        assert c // 2 % 2 == (times == 3)
        found += 1
        k = random.choice([0, 1, 2, 5, 1000, 1023, 1074, 2040])
        add(name, pack(a, k), pack(b, k))
        add('one unit beside a tie', pack(a, k), pack(b, k) + random.choice([-1, 1]))

for a, b in [(3, 4), (5, 12), (8, 15), (20, 21), (119, 120), (696, 697)]:
    for k in [0, 1, 30, 43, 44, 45, 52, 53, 1000, 2030]:
        add('whole triples at ten scales, subnormal too', pack(a, k), pack(b, k))
for _ in range(50):
    add('subnormal', random.randrange(1, 1 << random.randrange(1, 53)), random.randrange(1, 1 << random.randrange(1, 53)))
for _ in range(30):
    add('subnormal', random.randrange(1, 1 << 54), random.randrange(1, 1 << 54))
for _ in range(20):
    add('the step from subnormal to normal', (1 << 52) - random.randrange(1, 9), random.randrange(1, 1 << 28))

top = INFINITY - 1
for gap in range(24, 31):
    for d in range(3):
        add('the border of overflow', top - d, (2046 - gap << 52) + random.randrange(1 << 52))
        add('the border of overflow', top, (2046 - gap << 52) + (1 << 52) - 1 - d)
        add('the border of overflow', top, (2046 - gap << 52) + d)
for _ in range(30):  # a^2 + b^2 close to (2^1024 - 2^970)^2
    a = random.randrange(1 << 52, 1 << 53)
    b = isqrt((((1 << 54) - 1) ** 2 - 4 * a * a) // 4)
    for e in (-1, 0, 1):
        if 1 << 51 < b + e < 1 << 53:
            add('the border of overflow', pack(a, 2045), pack(b + e, 2045))
add('the border of overflow', top, top)

for gap in [20, *range(24, 31), 40, 52, 53, 54, 1000, 2000]:
    for a in ends():
        for b in ends():
            field = 2046 if gap >= 1000 else random.choice([gap + 1, gap + 2, gap + 3, 1023, 2046])
            add('exponents 20 to 2000 apart, each from 24 to 30', (field << 52) + a, (field - gap << 52) + b)
for _ in range(30):
    b = random.randrange(1, INFINITY)
    add('equal numbers', b, b)
for _ in range(90):
    field = random.randrange(1, 2047)
    add('any numbers, near each other', (field << 52) + random.randrange(1 << 52), (max(0, field - random.randrange(27)) << 52) + random.randrange(1 << 52))
for _ in range(40):
    add('any numbers', random.randrange(INFINITY), random.randrange(INFINITY))

given = [line for line in open('crates/test_vectors/stdin') if '+' not in line]
wanted = open('crates/test_vectors/stdout').readlines()[:len(given)]
for name, pairs in groups.items():
    print(f'{name}: {len(pairs)}')
    given += ['%016x+%016x\n' % pair for pair in pairs]
    wanted += [hypot(*pair) + '\n' for pair in pairs]
print(sum(map(len, groups.values())), 'vectors,', sum(map(len, given)), 'bytes in all')
assert sum(map(len, given)) <= ROOM, 'more than the program reads'
open('crates/test_vectors/stdin', 'w').writelines(given)
open('crates/test_vectors/stdout', 'w').writelines(wanted)
