#!/usr/bin/env python3
"""Runs the programs on the outside numbers of vectors/ and checks each figure; vectors/README.md says where they come from.

    python3 second/vectors.py [--predict COMMAND] [--complete COMMAND] [--rows COMMAND]

COMMAND is a path with its arguments, by default target/bin/predict and target/bin/complete. The predicting program prints no arbitrary
component, and working it out here from the total would test this script and not the program; so those 24 numbers are checked only
where --rows names a program that prints, for each measure of a request, its number and six figures: ln median, median, intra, inter,
total, arbitrary. Where an outside number has digits enough the bounds are those of second/compare.py, one in the sixth place and of a median Y
1 + Y/500000. Prints a line for each group and exits with 1 if a figure lies beyond its bound.
"""
import argparse
import csv
import math
import os
import sys

from programs import PARTS, ROOT, SIXTH_PLACE, UNITS, command, listed, run

MEASURES = 24
# What rounding to a thousandth leaves, with what our own figure may be off, in millionths.
PRINTED_SIGMA = 500 + SIXTH_PLACE
LINEAR_SITES = [b"650 0 1100 - 10000 - 3000 4000 30 - - - 2000", b"800 90 1500 40 - - - 20 -90 - - - 0"]
# Requests whose figures were told beforehand: measures, ln median, total sigma where told.
TOLD = [
    (b"650 0 760 - 10000 - 3000 4000 30 - - - 2000", [21], -1021505, 519476),
    (b"800 90 150 45 20000 - 1000 0 90 1000 - - 10000", [*range(9), 21], -604614, None),
    (b"800 90 150 45 20000 - 1000 0 90 1000 - - 10000", [9], -536968, None),
]


class Group:
    """A group of checks: how many, the worst in units of its bound, and the failures."""

    def __init__(self, name):
        self.name, self.count, self.worst, self.failures = name, 0, 0.0, []

    def check(self, what, difference, bound):
        """One check."""
        self.count += 1
        share = abs(difference) / bound if bound else math.inf if difference else 0.0
        self.worst = max(self.worst, share)
        if share > 1:
            self.failures.append(f"{what}: off by {difference:.6g}, bound {bound:.6g}")

    def close(self):
        """Prints the group; the number of its failures."""
        print(f"{self.name}: {self.count} checked, worst {self.worst:.3f} of its bound, {len(self.failures)} beyond")
        for words in self.failures[:10]:
            print(f"FAILED {words}")
        return len(self.failures)


def table(name):
    """The rows of a file of vectors/."""
    with open(os.path.join(ROOT, "vectors", name), newline="") as given:
        return list(csv.DictReader(given))


def spectra(words, requests):
    """The 24 rows of numbers of each request; none may be refused."""
    lines = run(words, listed(requests)).decode().split("\n")
    if len(lines) != MEASURES * len(requests) + 1:
        sys.exit(f"{words}: {len(lines) - 1} lines for {len(requests)} requests, {[line for line in lines if line.startswith('no')][:3]}")
    rows = [[int(word) for word in line.split(" ")] for line in lines[:-1]]
    return [rows[k:k + MEASURES] for k in range(0, len(rows), MEASURES)]


def medians(words):
    """The medians of the program of 002, each logarithm and each median, with its rule on: what the rule raises is PGA's."""
    given = table("medians.csv")
    raised = [{int(k) for k in v["raised_by_rule"].split(";") if k != "-"} for v in given]
    group = Group(f"medians of the program of 002, 23 measures, {sum(map(len, raised))} raised to PGA by its rule")
    names = [f"m{k}" for k in range(21)] + ["pga", "pgv"]
    for vector, short, rows in zip(given, raised, spectra(words, [v["request"].encode() for v in given])):
        for measure, name in enumerate(names):
            y, what = float(vector["pga" if measure in short else name]), f"{vector['request']}, measure {measure}"
            group.check(f"{what}, ln median", rows[measure][1] - 1e6 * math.log(y), SIXTH_PLACE)
            group.check(f"{what}, median", rows[measure][2] - 1e10 * y, UNITS + 1e10 * y / PARTS)
    return group.close()


def printed_medians(words):
    """The PGA that 001 prints in its Example 3."""
    group, given = Group("PGA printed in 001"), [v for v in table("printed.csv") if v["tolerance_on"] == "ln"]
    for vector, rows in zip(given, spectra(words, [v["request"].encode() for v in given])):
        difference = rows[int(vector["measure"])][1] / 1e6 - math.log(float(vector["printed"]))
        group.check(f"{vector['request']}", difference, float(vector["tolerance"]))
    return group.close()


def printed_distances(words):
    """The RRUP that 002 prints in Table B.2."""
    group, given = Group("RRUP printed in 002"), [v for v in table("printed.csv") if v["measure"] == "RRUP"]
    lines = run(words, listed(v["request"].encode() for v in given)).decode().split("\n")[1:]
    for vector, line in zip(given, lines):
        said = line.split(" ")
        metres = round(1000 * float(vector["printed"]))
        group.check(f"{vector['request']}: {line}", int(said[4]) - metres if said[0] == "ok" else math.inf, float(vector["tolerance"]))
    return group.close()


def sigmas(words, column, name):
    """The sigmas that Table 3 prints for linear sites, from the column of the rows that has them."""
    group, given = Group(f"{name} sigmas of Table 3, at {len(LINEAR_SITES)} linear sites"), table("sigmas.csv")
    for request, rows in zip(LINEAR_SITES, spectra(words, LINEAR_SITES)):
        for vector in given:
            measure = int(vector["measure"])
            group.check(f"{request.decode()}, measure {measure}", rows[measure][column] - 1000 * int(vector[name]), PRINTED_SIGMA)
    return group.close()


def told(words):
    """The requests whose figures were told beforehand."""
    group = Group("requests told beforehand")
    for (request, measures, ln, total), rows in zip(TOLD, spectra(words, [request for request, *_ in TOLD])):
        for measure in measures:
            what = f"{request.decode()}, measure {measure}"
            group.check(f"{what}, ln median", rows[measure][1] - ln, SIXTH_PLACE)
            if total is not None:
                group.check(f"{what}, total sigma", rows[measure][3] - total, SIXTH_PLACE)
    return group.close()


def main():
    """All groups, and the exit status."""
    options = argparse.ArgumentParser(description=__doc__.split("\n")[0])
    options.add_argument("--predict", default=os.path.join(ROOT, "target/bin/predict"))
    options.add_argument("--complete", default=os.path.join(ROOT, "target/bin/complete"))
    options.add_argument("--rows")
    given = options.parse_args()
    predict, complete = command(given.predict), command(given.complete)
    beyond = medians(predict) + printed_medians(predict) + printed_distances(complete) + sigmas(predict, 3, "total") + told(predict)
    if given.rows:
        beyond += sigmas(command(given.rows), 6, "arbitrary")
    else:
        print("arbitrary sigmas of Table 3: not checked, --rows names no program")
    sys.exit(1 if beyond else 0)


if __name__ == "__main__":
    main()
