#!/usr/bin/env python3
"""Holds sines, cosines and arc tangents to document 01, and readings from the tables to document 02, in
exact arithmetic: whole numbers only.

  exact_trig.py --make N SEED   writes inputs, one to a line: `sin A`, `cos A`, `atan2 Y X`, `table_sin A`,
                                `table_cos A`
  exact_trig.py                 reads answers, `sin A R`, `cos A R`, `atan2 Y X R`, `table_sin A R`, `table_cos A R`

A, Y, X and R are bit patterns of f32 in eight hexadecimal digits. The inputs are every power of two
in the domain and its neighbours, the ends, the multiples of PI/8 and their neighbours, and N random
angles and N random pairs; for the tables also the angle of each entry, its neighbours and the middles
between two. What is printed is the largest distance seen, as a share of what document 01 allows, for the
tables the one to S and C in units of 2^-24; the exit status is 1 where an answer breaks a sentence.
"""
import math
import random
import struct
import sys

FACT = math.factorial(24)
DENOMINATOR = FACT << (28 * 24)


def series(n, degrees):
    """The sum of the terms of a series at x = n / 2^28, times DENOMINATOR, with signs by turns."""
    total, sign = 0, 1
    for k in degrees:
        total += sign * (FACT // math.factorial(k)) * n**k << (28 * (24 - k))
        sign = -sign
    return total


def S(n):
    return series(n, range(1, 24, 2))


def C(n):
    return series(n, range(0, 25, 2))


def parts(bits):
    """(numerator, exponent): the value is numerator * 2^exponent; None where it is no number."""
    field, digits = bits >> 23 & 255, bits & 0x7FFFFF
    if field == 255:
        return None
    size = (digits, -149) if field == 0 else (digits | 0x800000, field - 150)
    return (-size[0] if bits >> 31 else size[0], size[1])


def units(bits, places):
    """The value times 2^places, cut toward zero."""
    m, e = parts(bits)
    shift = e + places
    size = abs(m) << shift if shift >= 0 else abs(m) >> -shift
    return -size if m < 0 else size


def exactly(bits, places):
    """The value times 2^places where that is whole."""
    assert parts(bits), f"{bits:08X} is no number"
    m, e = parts(bits)
    shift = e + places
    assert shift >= 0 or m % (1 << -shift) == 0, f"{bits:08X} is no multiple of 2^-{places}"
    return m << shift if shift >= 0 else m >> -shift


FOUR, PI, LEAST, LARGEST = 0x40800000, 0x40490FDB, 0x33800000, 0x42000000


def size(bits):
    return bits & 0x7FFFFFFF


def usable(bits):
    return size(bits) == 0 or LEAST <= size(bits) <= LARGEST


class Broken(Exception):
    pass


def demand(holds, text):
    if not holds:
        raise Broken(text)


def held_to(a, r, F):
    """The share of 2^-23 that the answer r at the angle a is off."""
    if size(a) > FOUR:
        demand(size(r) > 0x7F800000, "an angle above 4 has a number")
        return 0, 1
    k = exactly(r, 24)
    demand(abs(k) <= 1 << 24, "above 1 in size")
    off = abs(k * DENOMINATOR - (F(units(a, 28)) << 24))
    demand(off <= 2 * DENOMINATOR, "off by more than 2^-23")
    return off, 2 * DENOMINATOR


def entry(F, i):
    """The whole number nearest to 2^24 * F(i / 256)."""
    return ((F(i << 20) << 25) + DENOMINATOR) // (2 * DENOMINATOR)


ENTRIES = {F: [entry(F, i) for i in range(1025)] for F in (S, C)}
# A straight line over a step of 2^-8 is off a sine by 2^-8 squared over 8, 32 units, at most; the rest is roundings.
TABLE_UNITS = 34


def held_to_line(a, r, F):
    """The share of TABLE_UNITS that the reading r at the angle a is off F."""
    if size(a) > FOUR:
        demand(size(r) > 0x7F800000, "an angle above 4 has a number")
        return 0, 1
    k = exactly(r, 24)
    demand(abs(k) <= 1 << 24, "above 1 in size")
    if F is S and a >> 31:
        k = -k
    m, e = parts(size(a))
    step = 1 << 141
    i, part = divmod(m << (e + 149), step)
    first, second = ENTRIES[F][i], ENTRIES[F][min(i + 1, 1024)]
    demand(min(first, second) <= k <= max(first, second), "not between the two entries")
    demand(abs((k - first) * step - (second - first) * part) <= 2 * step, "off the straight line by more than 2^-23")
    off = abs(k * DENOMINATOR - (F(units(size(a), 28)) << 24))
    demand(off <= TABLE_UNITS * DENOMINATOR, f"off by more than {TABLE_UNITS} * 2^-24")
    return off, TABLE_UNITS * DENOMINATOR


def held_to_angle(y, x, r):
    """The share of 2^-20 * (|x| + |y|) that the answer r at (x, y) is off."""
    if not (usable(y) and usable(x)):
        demand(size(r) > 0x7F800000, "a pair out of the domain has a number")
        return 0, 1
    if size(y) == 0:
        settled = PI if x > 0x80000000 else 0
        demand(r == settled, f"y zero and {r:08X} in place of {settled:08X}")
    demand(size(r) <= PI, "above PI in size")
    n, Y, X = units(r, 28), exactly(y, 47), exactly(x, 47)
    s, c = S(n), C(n)
    demand(X * c + Y * s >= 0, "the other half plane")
    off, most = abs(Y * c - X * s) << 20, (abs(X) + abs(Y)) * DENOMINATOR
    demand(off <= most, "off by more than 2^-20 * (|x| + |y|)")
    return off, most or 1


HELD = {
    "sin": lambda a, r: held_to(a, r, S),
    "cos": lambda a, r: held_to(a, r, C),
    "atan2": held_to_angle,
    "table_sin": lambda a, r: held_to_line(a, r, S),
    "table_cos": lambda a, r: held_to_line(a, r, C),
}


# Broken answers beyond this many are counted only.
SHOWN = 12


def check(lines):
    worst, counts, broken = {}, {}, 0
    for line in lines:
        name, *words = line.split()
        bits = [int(word, 16) for word in words]
        try:
            share = HELD[name](*bits)
        except (Broken, AssertionError) as fault:
            broken += 1
            if broken <= SHOWN:
                print(f"broken: {line.strip()}: {fault}")
            continue
        counts[name] = counts.get(name, 0) + 1
        old = worst.get(name, (0, 1, ""))
        if share[0] * old[1] > old[0] * share[1]:
            worst[name] = (*share, line.strip())
    for name in sorted(counts):
        off, most, line = worst.get(name, (0, 1, ""))
        times, of = (TABLE_UNITS, f"of {TABLE_UNITS} * 2^-24") if name.startswith("table") else (1, "of the allowance")
        print(f"{name}: {counts[name]} answers, largest distance {times * off * 10000 // most / 10000} {of}, at {line}")
    print(f"exact: {sum(counts.values()) + broken} answers, {broken} broken")
    return 1 if broken or set(counts) != set(HELD) else 0


def neighbours(bits):
    return [b for b in (bits - 1, bits, bits + 1) if b >= 0]


def next_below(numerator, denominator):
    """The pattern of the f32 next below a fraction from 2^-24 to 32."""
    digits = (numerator << 64) // denominator
    length = digits.bit_length()
    return (length - 1 - 64 + 127 << 23) + (digits >> (length - 24)) - (1 << 23)


def pi_fraction():
    """PI to 100 binary digits, by Machin's formula."""
    def arc(q):
        total, term, k = 0, (1 << 120) // q, 1
        while term:
            total += term // k if k % 4 == 1 else -(term // k)
            term //= q * q
            k += 2
        return total
    return 4 * (4 * arc(5) - arc(239)), 1 << 120


def make(count, seed):
    random.seed(seed)
    p, q = pi_fraction()
    angles = [b for e in range(0, 130) for b in neighbours(e << 23)] + [1, 2, 3, 0x7F800000, 0x7FC00000]
    angles += [b for i in range(1, 11) for b in neighbours(next_below(i * p, 8 * q))] + neighbours(PI) + neighbours(FOUR)
    angles += [random.randrange(FOUR + 1) for _ in range(count // 2)]
    angles += [random.randrange(0x3A800000, FOUR + 1) for _ in range(count - count // 2)]
    for a in angles:
        a |= random.randrange(2) << 31
        print(f"sin {a:08X}\ncos {a:08X}")
        if a not in (0, 1 << 31):
            print(f"sin {a ^ 1 << 31:08X}")
    angles += [b for i in range(1, 1025) for b in neighbours(next_below(i, 256))]
    angles += [next_below(2 * i + 1, 512) for i in range(1024)]
    for a in angles:
        a |= random.randrange(2) << 31
        print(f"table_sin {a:08X}\ntable_cos {a:08X}")
    ends = [0, 1 << 31, LEAST - 1, LEAST, LEAST + 1, LARGEST - 1, LARGEST, LARGEST + 1, 1, 0x7F800000, 0x7FC00000, 0x3F800000]
    ends += [e << 23 for e in range(103, 133, 3)]
    pairs = [(y, x) for y in ends for x in ends]
    for e in range(103, 133):
        for b in neighbours(e << 23):
            pairs += [(b, 0x3F800000), (0x3F800000, b), (b, b), (b, e << 23)]
    for i in range(1, 8):
        s, c = S(units(next_below(i * p, 8 * q), 28)), C(units(next_below(i * p, 8 * q), 28))
        if s > 0 and c != 0:
            for y in neighbours(next_below(s, DENOMINATOR)):
                for x in neighbours(next_below(abs(c), DENOMINATOR)):
                    pairs.append((y, x))
    wide = lambda: random.randrange(LEAST, LARGEST + 1)
    for i in range(count):
        y = wide()
        x = max(LEAST, min(LARGEST, y + random.randrange(-(1 << 24), 1 << 24))) if i % 3 == 0 else wide()
        pairs.append((y, x))
    for y, x in pairs:
        print(f"atan2 {y | random.randrange(2) << 31:08X} {x | random.randrange(2) << 31:08X}")


if __name__ == "__main__":
    if sys.argv[1:2] == ["--make"]:
        make(int(sys.argv[2]) if len(sys.argv) > 2 else 20000, int(sys.argv[3]) if len(sys.argv) > 3 else 1)
    else:
        sys.exit(check(sys.stdin))
