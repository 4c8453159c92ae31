#!/usr/bin/env python3
"""Compares Tables 2 and 3 of the second program, and their periods, with those of crates/tables/specs, number by number as printed. Six of
them, rho where k2 is 0, move no figure of any request, so that no comparison of answers could notice them.

    python3 second/tables.py
"""
import os
import re
import sys

from programs import HERE, ROOT


def second():
    """The periods, as one row, and the rows of both tables in second/model.c."""
    with open(os.path.join(HERE, "model.c")) as text:
        source = text.read()
    tables = [[re.findall(r"[\d.]+", source.split("PERIOD[] = {")[1].split("}")[0])]]
    for name in ("TABLE2", "TABLE3"):
        body = source[source.index(f"{name}[MEASURES] = {{"):]
        body = body[:body.index("};")]
        tables.append([re.findall(r"-?[\d.]+", row) for row in re.findall(r"\{([^{}]*)\}", body)])
    return tables


def specs():
    """The periods and the rows of both tables in the specs, of Table 3 without the two totals that the second program does not hold."""
    with open(os.path.join(ROOT, "crates/tables/specs/Tables.antt")) as text:
        source = text.read()
    lines, tables = source.split("\n"), [[re.findall(r"[\d_]+", source.split("\nperiods =")[1].split("[]")[0])]]
    for name in ("row2", "row3"):
        rows = [line.split("∷")[0].split(None, 1)[1] for line in lines if line.strip().startswith(name + " ") and "∷" in line]
        tables.append([re.findall(r"(?:neg )?[\d_]+", row) for row in rows])
    tables[2] = [row[:3] + row[5:] for row in tables[2]]
    return tables


def same(a, b):
    """Whether a number of the second program is one of the specs: k1 is whole, the others in thousandths."""
    sign = "-" if b.startswith("neg ") else ""
    b = b.replace("neg ", "")
    return float(a) == (float(b) if "_" not in b else float(sign + b.replace("_", ".")))


SHAPES = {"the periods": (1, 21), "Table 2": (24, 16), "Table 3": (24, 4)}
count = wrong = 0
for (table, (rows, columns)), mine, theirs in zip(SHAPES.items(), second(), specs()):
    if any([len(row) for row in side] != rows * [columns] for side in (mine, theirs)):
        sys.exit(f"{table}: another shape")
    for measure, (row, other) in enumerate(zip(mine, theirs)):
        for a, b in zip(row, other):
            count += 1
            if not same(a, b):
                wrong += 1
                print(f"{table}, row {measure}: {a} in the second program, {b} in the specs")
print(f"Tables 2 and 3 and their periods: {count} numbers compared, {wrong} differ")
sys.exit(1 if wrong else 0)
