#!/usr/bin/env python3
"""Writes the list whose answers are stored: 10,000 lines as the valve service sends them, on soft, middling and stiff ground, some refused
and some malformed. programs/stored.sha256 holds the SHA-256 of the list and of what `predict` answers to it, plainly and at a period, as it was before the
port to today's toolchain (docs/PORT.md) and before document 02's K9; programs/test holds `predict` to that. The list is drawn by the
rule below and by nothing that a release of Python may change. Z1.5 stays blank, so that the stored bytes outlive document 02's K13.

    python3 programs/stored_list.py > list
"""
import math
import sys

LINES = 10_000
MULTIPLIER, INCREMENT = 6364136223846793005, 1442695040888963407
GROUND = {"soft": (150, 399), "middling": (400, 1099), "stiff": (1100, 1500)}
# Rakes of each style, and the largest magnitude of the style in hundredths.
STYLES = [((-30, 30), 850), ((150, 180), 850), ((31, 149), 800), ((-149, -31), 750)]
# What is refused, by the places of the fields that have it: the refusals 1 to 5, 7 to 9 and 13, then 6, 10, 11, 12 and 18.
OUTSIDE = [{0: "851"}, {0: "-"}, {1: "181"}, {2: "149"}, {2: "1501"}, {3: "14"}, {4: "100001"}, {6: "15001"}, {7: "200001"}, {8: "-181"}, {12: "10001"}]
OUTSIDE += [{5: "30001"}, {3: "60", 7: "0", 8: "90", 9: "-"}, {6: "15000", 7: "200000", 8: "0", 9: "-"}, {7: "5000", 9: "0"}, {7: "5000", 9: "199999"}]
MALFORMED = ["", " ", "-", "650", "{} ", " {}", "{} -", "{}\t", "{}\r", "{}\0", "x{}", "+{}", "0{}", "~~{}", "-{}", "{}.5", "{}" + 60 * " ", 300 * "9"]


class Drawn:
    """Whole numbers drawn one after the other, always the same."""

    def __init__(self):
        self.state = 2008

    def below(self, count):
        """A number from 0 to count - 1."""
        self.state = (self.state * MULTIPLIER + INCREMENT) % 2**64
        return (self.state >> 32) * count >> 32

    def within(self, low, high):
        """A number from low to high."""
        return low + self.below(high - low + 1)

    def of(self, some):
        """One of some."""
        return some[self.below(len(some))]


def fields(draw):
    """The thirteen words of a request in its ranges; about one given figure in eight is inferred."""
    (low, high), top = draw.of(STYLES)
    w, ztor = draw.within(1000, 40000), draw.within(0, 15000)
    rjb = draw.within(0, draw.of([2000, 20000, 180000]))
    least, most = math.isqrt(rjb**2 + ztor**2) + 1, math.isqrt(rjb**2 + (ztor + w) ** 2)
    numbers = [
        draw.within(400, top),
        draw.within(low, high),
        draw.within(*GROUND[draw.of(list(GROUND))]),
        draw.of([None, 15, 45, 60, 75, 90]),
        w,
        draw.of([None, draw.within(0, 15000)]),
        ztor,
        rjb,
        draw.within(-180, 180),
        draw.of([None, None, draw.within(least, most)]),
        draw.of([None, None, draw.within(0, 2000)]),
        None,
        draw.of([None, draw.within(0, 10000)]),
    ]
    return ["-" if n is None else "~" * (draw.below(8) == 0) + str(n) for n in numbers]


def line(draw):
    """A request line: of sixteen about two have figures that are refused, and one has not the form."""
    words, kind = fields(draw), draw.below(16)
    if kind in (0, 1):
        for place, word in draw.of(OUTSIDE).items():
            words[place] = word
    text = " ".join(words)
    return draw.of(MALFORMED).replace("{}", text) if kind == 2 else text


draw = Drawn()
sys.stdout.write("".join(line(draw) + "\n" for _ in range(LINES)))
