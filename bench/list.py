#!/usr/bin/env python3
"""Writes a list of requests of any length, the same at each call.

    bench/list.py KIND COUNT > list

The kinds: mixed (half of the fields that may be blank are, and a request here and there is refused), soft (Vs30 below every k1),
stiff (Vs30 from 1100), given (no field is blank), blank (each field that may be is). A given RRUP is neither too short nor too long.
"""
import os
import random
import sys

sys.path.insert(0, os.path.join(os.path.dirname(os.path.abspath(__file__)), "../second"))
from random_requests import NAMES, STARRED, limits

RANGES = dict(m=(400, 750), rake=(-180, 180), vs30=(150, 1500), dip=(15, 90), w=(1, 60000), zhyp=(0, 30000), ztor=(0, 15000))
RANGES |= dict(rjb=(1, 190000), azimuth=(-180, 180), z10=(0, 2500), z15=(0, 2500), z25=(0, 2500))
SPEEDS = {"soft": (150, 399), "stiff": (1100, 1500)}
BLANK = {"given": 0, "blank": 1}
LONGEST = 200000


def range_of(name, kind, fields):
    """The least and the largest number of a field, by those before it."""
    if name == "rrup":
        least, most = limits(fields)
        return least, min(most, LONGEST)
    return SPEEDS.get(kind, RANGES[name]) if name == "vs30" else RANGES[name]


def request(some, kind):
    """One line of a kind."""
    blank, fields = BLANK.get(kind, 0.5), {}
    for name in NAMES:
        fields[name] = "-" if name in STARRED and some.random() < blank else some.randint(*range_of(name, kind, fields))
    return " ".join(map(str, fields.values()))


kind, count = sys.argv[1], int(sys.argv[2])
some = random.Random(2008)
for _ in range(count):
    print(request(some, kind))
