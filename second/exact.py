#!/usr/bin/env python3
"""Document 01's exact value written anew: whole numbers of 10^-30, sixty terms, each division and root
rounded down. It shares nothing with the crates. Run it to get the numbers that crates/exact/proofs/Known
holds the definitions to; each line is a name, its arguments and its value in units of 10^-30."""

from math import isqrt

ONE = 10**30
PI = 3141592653589793238462643383279
TERMS = 60


def ln_series(z):
    square, power, total = z * z // ONE, z, 0
    for k in range(TERMS):
        total += power // (2 * k + 1)
        power = power * square // ONE
    return 2 * total


LN2 = ln_series(ONE // 3)


def ln(x):
    j = 0
    while x << -j < ONE:
        j -= 1
    while j >= 0 and x >> j >= 2 * ONE:
        j += 1
    m = x >> j if j >= 0 else x << -j
    return j * LN2 + ln_series((m - ONE) * ONE // (m + ONE))


def exp(x):
    k, r = divmod(x, LN2)
    term, total = ONE, 0
    for n in range(1, TERMS + 1):
        total += term
        term = term * r // (ONE * n)
    return total << k if k >= 0 else total >> -k


def power(u, n):
    return exp(n * ln(u) // ONE)


def alternating(x, term, d):
    square, total = x * x // ONE, 0
    for k in range(TERMS):
        total += -term if k % 2 else term
        term = term * square // (ONE * d * (d + 1))
        d += 2
    return total


def radians(d):
    return abs(d) * PI // 180


def sine(d):
    s = alternating(radians(d), radians(d), 2)
    return -s if d < 0 else s


def cosine(d):
    return alternating(radians(d), ONE, 1)


def root(x):
    return isqrt(x * ONE)


CASES = [
    ("ln", ln, [2 * ONE]),
    ("ln", ln, [10 * ONE]),
    ("ln", ln, [ONE // 2]),
    ("ln", ln, [123456789012345678901234567890]),
    ("ln", ln, [40008157921000000000000000000000000]),
    ("exp", exp, [0]),
    ("exp", exp, [ONE]),
    ("exp", exp, [-ONE]),
    ("exp", exp, [9226000000000000000000000000000]),
    ("exp", exp, [-15500000000000000000000000000000]),
    ("power", power, [400000000000000000000000000000, 1180000000000000000000000000000]),
    ("ten", lambda x: power(10 * ONE, x), [-760000000000000000000000000000]),
    ("sine", sine, [1]),
    ("sine", sine, [-45]),
    ("sine", sine, [90]),
    ("sine", sine, [180]),
    ("cosine", cosine, [60]),
    ("cosine", cosine, [90]),
    ("cosine", cosine, [-135]),
    ("root", root, [2 * ONE]),
]

if __name__ == "__main__":
    for name, function, arguments in CASES:
        print(name, *arguments, function(*arguments))
