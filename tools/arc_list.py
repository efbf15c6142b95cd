#!/usr/bin/env python3
"""Writes the list that crates/arc_list replays:  python3 tools/arc_list.py > crates/arc_list/stdin

Document 01's rule for sine, cosine and arctangent, and request 3/14's for long turns, written from their text alone: Python's floats are binary64, each operation
rounded once, math.fmod is exact, whole turns are counted in fractions, and the coefficients are fractions rounded by Python. The arguments are fixed: chosen ones and a
seeded random stream.
"""
import math
import random
import struct
import sys
from fractions import Fraction


def double(bits):
    return struct.unpack("<d", struct.pack("<Q", bits))[0]


def bits(x):
    if x != x:
        return 0x7FF8000000000000
    return struct.unpack("<Q", struct.pack("<d", x))[0]


T, P, H, E = (double(b) for b in (0x401921FB54442D18, 0x400921FB54442D18, 0x3FF921FB54442D18, 0x3FE921FB54442D18))
INF, NAN = math.inf, math.nan


def nearest(fraction):
    return float(fraction)


SIN = [nearest(Fraction((-1) ** k, math.factorial(2 * k + 1))) for k in range(9)]
COS = [nearest(Fraction((-1) ** k, math.factorial(2 * k))) for k in range(9)]
ATAN = [nearest(Fraction((-1) ** k, 2 * k + 1)) for k in range(20)]


def root_two_less_one():
    """The double nearest √2 - 1, by whole numbers: floor(√2 * 2^k) has 200 digits more than needed."""
    k = 260
    return nearest(Fraction(math.isqrt(2 << (2 * k)) - (1 << k), 1 << k))


R = root_two_less_one()


def circle():
    """2π by Machin's formula, 8 (4 arctan 1/5 - arctan 1/239), as a fraction less than 2^-280 away."""
    k = 300

    def arctan(n):
        return sum((-1) ** j * ((1 << k) // ((2 * j + 1) * n ** (2 * j + 1))) for j in range(80))

    return Fraction(8 * (4 * arctan(5) - arctan(239)), 1 << k)


# 2π cut to its first 33 significant bits (three of them stand before the point), and the double nearest the rest.
T1 = float(Fraction(math.floor(circle() * 2**30), 2**30))
T2 = nearest(circle() - Fraction(T1))
TURN = Fraction(T1) + Fraction(T2)


def polynomial(coefficients, z):
    value = coefficients[-1]
    for c in coefficients[-2::-1]:
        value = c + z * value
    return value


def reduced(t):
    if 64 < t <= 2**20:
        k = math.floor(Fraction(t) / TURN)
        return (t - k * T1) - k * T2
    return math.fmod(t, T)


def sine_cosine(t):
    if not math.isfinite(t) or t < 0:
        return NAN, NAN
    a = reduced(t)
    q = sum(1 for edge in (E, 3 * E, 5 * E, 7 * E) if edge < a)
    b = a - q * H
    z = b * b
    s, c = b * polynomial(SIN, z), polynomial(COS, z)
    return [(s, c), (c, -s), (-s, -c), (-c, s), (s, c)][q]


def series(v):
    return v * polynomial(ATAN, v * v)


def arctangent(y, x):
    if not (math.isfinite(y) and math.isfinite(x)):
        return NAN
    small, large = sorted((abs(y), abs(x)))
    u = small / large if large > 0 else 0.0
    w = E + series((u - 1) / (u + 1)) if u > R else series(u)
    if abs(y) > abs(x):
        w = H - w
    if math.copysign(1, x) < 0:
        w = P - w
    return math.copysign(w, y)


def around(x, steps=4):
    """x and its neighbours, as many steps each way."""
    out, low, high = [x], x, x
    for _ in range(steps):
        low, high = math.nextafter(low, -INF), math.nextafter(high, INF)
        out += [low, high]
    return out


def any_double(rng):
    return double(rng.getrandbits(64))


def angles(rng):
    special = [0.0, 5e-324, 1e-323, 2.2250738585072014e-308, 2.225073858507201e-308, 1e-160, 1e-20, 1.0, 1e15, 1e22, 1e300, 1e308, sys.float_info.max, INF]
    yield from special
    yield from (-x for x in special)
    yield NAN
    for n in range(65):
        yield from around(n * E)
    for n in (100, 1000, 2**20, 2**40, 2**52, 10**300):
        for edge in (0.0, E, 3 * E, 5 * E, 7 * E):
            yield from around(n * T + edge)
    for _ in range(1500):
        yield rng.uniform(0, 7)
    for _ in range(300):
        yield rng.uniform(0, 1000)
    for _ in range(700):
        yield math.ldexp(rng.uniform(1, 2), rng.randint(-1074, 1023))
    for _ in range(100):
        yield any_double(rng)


def long_angles(rng):
    """For the range over 64 and up to 2^20: its ends, whole turns and boundaries of the quadrants with their neighbours, then all lengths and all exponents."""
    for end in (64.0, 2.0**20):
        yield from around(end)
    chosen = [10, 11, 12, 100, 159, 160, 1000, 166885, 166886] + [2**n for n in range(4, 18)] + [2**n - 1 for n in range(4, 18)]
    for k in chosen + [rng.randint(10, 166886) for _ in range(300)]:
        yield from around(nearest(k * TURN), 2)
    for k in chosen + [rng.randint(10, 166885) for _ in range(40)]:
        for edge in (E, 3 * E, 5 * E, 7 * E):
            yield from around(nearest(k * TURN + Fraction(edge)), 1)
    for _ in range(500):
        yield rng.uniform(64, 2**20)
    for _ in range(500):
        yield math.ldexp(rng.uniform(1, 2), rng.randint(6, 19))


def sides(rng):
    special = [0.0, 5e-324, 2.2250738585072014e-308, 1e-300, 0.5, 1.0, E, 1e300, sys.float_info.max, INF]
    special += [-x for x in special] + [NAN]
    for y in special:
        for x in special:
            yield y, x
    for x in (1.0, 3.0, 0.1, 1e-310, 1e300) + tuple(rng.uniform(0.1, 10) for _ in range(10)):
        for y in around(R * x) + around(x):
            for a, b in ((y, x), (x, y)):
                yield from ((a, b), (-a, b), (a, -b), (-a, -b))
    for _ in range(1500):
        yield rng.uniform(-1, 1), rng.uniform(-1, 1)
    for _ in range(1000):
        yield tuple(math.ldexp(rng.uniform(-2, 2), rng.randint(-60, 60)) for _ in range(2))
    for _ in range(300):
        yield any_double(rng), any_double(rng)


def main():
    rng = random.Random(1)
    out = sys.stdout.buffer

    def sines(angles):
        for t in angles:
            out.write(struct.pack("<4Q", 0, bits(t), *map(bits, sine_cosine(t))))

    sines(angles(rng))
    for y, x in sides(rng):
        out.write(struct.pack("<4Q", 1, bits(y), bits(x), bits(arctangent(y, x))))
    sines(long_angles(rng))


main()
