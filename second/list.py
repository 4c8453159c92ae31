#!/usr/bin/env python3
"""Writes the lists that the programs are tested on: document 01's three lines; each row of its refusal table on both sides of each end,
measured and inferred; each rule for a blank field; each field measured, inferred and blank; the longest lines that have the form; and
malformed lines of every kind, the last of them without an LF. The predicting program's list is what the second program refuses of them:
docs/DECISIONS.md says why it holds no other line.

    python3 second/list.py complete > crates/complete/stdin
    python3 second/list.py predict > crates/predict/stdin
"""
import sys

from programs import build, listed, run

NAMES = "m rake vs30 dip w zhyp ztor rjb azimuth rrup z10 z15 z25".split()
STARRED = "dip w zhyp ztor rrup z10 z15 z25".split()
SIGNED = "rake azimuth".split()
PLAIN = dict(zip(NAMES, "650 0 760 - 10000 - 3000 4000 30 - - - 2000".split()))
GIVEN = dict(zip(NAMES, "650 -90 760 50 10000 8000 3000 4000 -30 6000 400 800 2000".split()))
# What a tilde may not stand before, behind or alone for.
TILDES = ["~", "~-", "~~5", "-~5", "~-0", "~05", "5~", "~ 5", "~-05", "-~", "~+5", "~--5", "~5~", "~1000000", "~-1000000"]
lines = []


def line(**changes):
    """Document 01's first line, with some fields changed."""
    fields = {**PLAIN, **{name: str(value) for name, value in changes.items()}}
    lines.append(" ".join(fields[name] for name in NAMES).encode())


def ends(name, *values, **others):
    """A line for each value of one field, and one with it inferred."""
    for value in values:
        line(**{**others, name: value})
        if value != "-":
            line(**{**others, name: f"~{value}"})


# ---- document 01's listing
line()
line(m=851)
line(rake=90, vs30=300, dip=40, rjb=0, azimuth=90)

# ---- 1 to 9: each end of each range, both sides, and blank where a field may not be
ends("rake", -181, -180, 180, 181, "-")
ends("m", 399, 400, 850, 851, "-")
ends("m", 399, 400, 800, 801, rake=31)
ends("m", 399, 400, 750, 751, rake=-31)
ends("rake", -150, -149, -31, -30, 30, 31, 149, 150, m=751)
ends("rake", -150, -149, -31, -30, 30, 31, 149, 150, m=801)
ends("vs30", 149, 150, 1500, 1501, "-")
ends("dip", 0, 14, 15, 90, 91)
ends("w", 0, 1, 100000, 100001)
ends("zhyp", 0, 30000, 30001)
ends("zhyp", 0, 15003, 21000, 21001, ztor="-")
ends("ztor", 0, 15000, 15001)
ends("rjb", 0, 200000, 200001, "-", ztor=0)
ends("rjb", 199977, 199978)
ends("azimuth", -181, -180, 180, 181, "-")
# the first refusal of several is the one told
line(m="-", rake=181)
line(m=399, vs30=149, dip=14)
line(ztor=15001, rjb=200001, azimuth=181)
line(rjb=200001, rrup=200001, z10=10001)

# ---- 10: dip below 90, RJB 0, azimuth 90, RRUP blank
ends("dip", 89, 90, rjb=0, azimuth=90)
ends("azimuth", 89, 90, 91, 0, 180, -90, dip=89, rjb=0)
ends("rjb", 0, 1, dip=89, azimuth=90)
line(dip=89, rjb=0, azimuth=90, rrup=3000)

# ---- 11 and 12: RRUP
ends("rrup", 200000, 200001, rjb=199900)
ends("rrup", 0, 4122, 4123, 4124, ztor=1000)
ends("rrup", 4998, 4999, 5000)
ends("rrup", 0, 1, rjb=0, ztor=0)

# ---- 18: RRUP, W and ZTOR given and estimated; each figure that is read, a metre or a hundredth of M on either side
ends("rrup", 13601, 13602, 13603)
ends("rrup", 13491, 13492, 13493, w="-")
ends("rrup", 16679, 16680, 16681, dip=40, ztor="-")
ends("rrup", 16610, 16611, 16612, dip=40, w="-", ztor="-")
ends("rrup", 17378, 17379, 17380, rake=90, w="-", ztor="-")
ends("rrup", 17769, 17770, 17771, rake=-90, w="-", ztor="-")
ends("w", 10000, 10001, rrup=13603)
ends("ztor", 3000, 3001, rrup=13603)
ends("rjb", 4001, 4002, rrup=13603)
ends("m", 649, 650, w="-", rrup=13492)
ends("zhyp", 6000, 6001, dip=40, ztor="-", rrup=12786)
ends("dip", 15, 90, rrup=13602)
ends("dip", 15, 90, rrup=13603)
ends("azimuth", -90, 90, rrup=13602)
ends("azimuth", -90, 90, rrup=13603)
# W 1 and 100000, ZTOR 0 and 15000, RJB 0 and 200000, RRUP from 0 on
ends("rrup", 5001, 5002, w=1)
ends("rrup", 10817, 10818, w=1, ztor="-")
ends("rrup", 103078, 103079, w=100000)
ends("rrup", 100080, 100081, w=100000, ztor="-")
ends("rrup", 0, 1, 2, 3, w=1, ztor=0, rjb=0)
ends("rrup", 0, 1, zhyp=0, w="-", ztor="-", rjb=0)
ends("rrup", 115001, 115002, w=100000, ztor=15000, rjb=0)
ends("rrup", 199999, 200000, w=1, ztor=0, rjb=199998)
ends("rrup", 199999, 200000, w=1, ztor=0, rjb=200000)
# RRUP less a metre the root itself
ends("rrup", 5000, 5001, 5002, w=1, ztor=2999)
ends("rrup", 13001, 13002, rjb=0, dip=40, azimuth=90)
ends("rrup", 150001, 150002, w=75000, ztor=15000, rjb=120000)
ends("rrup", 200000, 200001, w=41000, ztor=15000, rjb=192000)
# with what is refused before and after
ends("rrup", 200000, 200001, rjb=0)
for rrup in (13602, 13603):
    line(w=100001, rrup=rrup)
    line(ztor=15001, rrup=rrup)
    line(rjb="-", rrup=rrup)
    line(azimuth=181, rrup=rrup)
    line(z10=10001, rrup=rrup)
    line(z15=10001, rrup=rrup)
    line(z25=10001, rrup=rrup)
    line(z15=6046, z25="-", rrup=rrup)
    line(z10=2638, z25="-", rrup=rrup)

# ---- 13: the depths, also where another is used
ends("z10", 10000, 10001)
ends("z15", 10000, 10001)
ends("z25", 0, 10000, 10001)
ends("z15", 0, 6045, 6046, z25="-")
ends("z10", 0, 1000, 2637, 2638, z25="-")
line(z10=10001, z15=100, z25="-")
line(z10=2638, z15=100, z25="-")

# ---- estimates: the styles, the widths, the tops, the basins
for rake in (0, 90, -90):
    for m in (400, 550, 625, 700, 750):
        line(m=m, rake=rake, w="-", ztor="-", z25="-")
ends("vs30", 150, 179, 180, 181, 250, 499, 500, 501, 760, 1100, 1500, z25="-")
for zhyp in (0, 5000, 12345):
    ends("dip", 15, 37, 60, 90, zhyp=zhyp, ztor="-", w=7100)

# ---- distances: both sides of the fault, and each of the three parts of the hanging wall
ends("azimuth", -180, -90, -1, 0, 1, 30, 45, 60, 89, 90, 91, 120, 150, 179, 180, dip=40, rjb=4000)
ends("azimuth", 10, 50, 90, 130, dip=40, rjb=30000, ztor=0)
ends("azimuth", 10, 50, 90, 130, dip=60, rjb=700, ztor=9000)
ends("rjb", 1, 100, 6000, 9000, 25000, 120000, 198000, dip=25, w=20000, azimuth=70)

# ---- origins: each field another than the rest, which are measured or inferred; and the least that may be given
for mark, other in (("", "~"), ("~", "")):
    rest = {name: mark + number for name, number in GIVEN.items()}
    line(**rest)
    for name in NAMES:
        line(**{**rest, name: other + GIVEN[name]})
        line(**{**rest, name: "-"})
    line(**{**rest, "z15": "-", "z25": "-"})
    line(**{**rest, **{name: "-" for name in STARRED}})

# ---- as long as the form allows, 105 bytes, and a little shorter and longer
full = {name: "~-999999" if name in SIGNED else "~999999" for name in NAMES}
line(**full)
line(**{**full, "z25": "999999"})
line(**{**full, "w": "~9999"})
line(**{**full, **{name: "999999" for name in ("m", "dip", "rrup", "z25")}})
line(**{**full, **{name: "999999" for name in ("m", "dip", "w", "rrup", "z25")}})
line(**{**full, "rake": "~-180"})
line(**{**full, "rake": "~-180", "m": "~650"})
line(**{**full, "z25": "~9999999"})
line(**{**full, "z25": "~~999999"})
line(**{**full, "m": "~-999999"})

# ---- malformed
for name in ("m", "rake", "dip", "azimuth", "z25"):
    for word in TILDES:
        line(**{name: word})
for name in ("m", "dip", "rrup", "z25"):
    line(**{name: "~-5"})
whole = b" ".join(PLAIN[name].encode() for name in NAMES)
lines += [
    b"",
    b" ",
    b"-",
    b" " + whole,
    whole + b" ",
    whole.replace(b" ", b"  ", 1),
    whole.replace(b" ", b"\t", 1),
    whole + b"\r",
    b"\r",
    b"\0",
    whole + b"\0",
    whole.replace(b"760", b"7\0000"),
    whole.replace(b"760", b"\xff\xfe"),
    b"\x80\x81\xfe\xff",
    b"\xef\xbb\xbf" + whole,
    whole.replace(b"650", b"+5"),
    whole.replace(b"650", b"6.5"),
    whole.replace(b"650", b"six"),
    whole.replace(b" 0 ", b" -0 "),
    whole.replace(b" 0 ", b" 00 "),
    whole.replace(b" 0 ", b" 01 "),
    whole.replace(b" 0 ", b" -01 "),
    whole.replace(b" 0 ", b" --1 "),
    whole.replace(b" 0 ", b" 1- "),
    whole.replace(b"650", b"-650"),
    whole.replace(b"4000", b"-4000"),
    whole.replace(b"2000", b"-2000"),
    whole.replace(b"10000", b"999999"),
    whole.replace(b"10000", b"1000000"),
    whole.replace(b" 0 ", b" -999999 "),
    whole.replace(b" 0 ", b" -1000000 "),
    whole.rsplit(b" ", 1)[0],
    whole + b" -",
    b"- - - - - - - - - - - - -",
    b"- - - - - - - - - - - -",
    b"- - - - - - - - - - - - - -",
    b"999999 -999999 999999 999999 999999 999999 999999 999999 -999999 999999 999999 999999 999999",
    b"~ ~ ~ ~ ~ ~ ~ ~ ~ ~ ~ ~ ~",
    b"~- ~- ~- ~- ~- ~- ~- ~- ~- ~- ~- ~- ~-",
    whole.replace(b" ", b" ~"),
    whole.replace(b" ", b"~ "),
    *(b"9" * size for size in (100, 101, 105, 115, 116)),
    *(whole + b" " * (size - len(whole)) for size in (100, 101, 104, 105, 115, 116)),
    b"x" * 300,
    b"dip W ZTOR RRUP Z25 from",
    whole,
]
if sys.argv[1] == "predict":
    answers = run([build(), "complete"], listed(lines)).split(b"\n")[1:-1]
    lines = [l for l, said in zip(lines, answers) if said.startswith(b"no")]
sys.stdout.buffer.write(listed(lines) + whole)
