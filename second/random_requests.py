#!/usr/bin/env python3
"""Requests for the comparison. First, the same in every long list: each magnitude of each style, each Vs30, dip, azimuth and rake, soft
sites near a fault, given RRUPs on both sides of the longest that is let through, each field measured, inferred and blank, and odd words in
each field. Then random ones: every pattern of blank fields, values at and beside each branch of the rules, given RRUPs at and between the
two limits of their length, lines with fields out of range, lines at a limit that a completed figure decides, and malformed lines; in all of
these about one given figure in four is inferred. The same seed gives the same list. And periods for the requests of a list.

    python3 second/random_requests.py SEED COUNT > list
"""
import math
import random
import sys

NAMES = "m rake vs30 dip w zhyp ztor rjb azimuth rrup z10 z15 z25".split()
STARRED = "dip w zhyp ztor rrup z10 z15 z25".split()
SIGNED = "rake azimuth".split()
TOP = {"strike-slip": 850, "reverse": 800, "normal": 750}
# The dip where none is given, and log10 of W in km at magnitude 0 and its slope.
SOURCES = {"strike-slip": (90, -0.76, 0.27), "reverse": (40, -1.61, 0.41), "normal": (50, -1.14, 0.35)}
RAKES = {
    "strike-slip": [-180, -179, -151, -150, -30, -29, 0, 29, 30, 150, 151, 179, 180],
    "reverse": [31, 32, 90, 148, 149],
    "normal": [-149, -148, -90, -32, -31],
}
K1 = [400, 410, 457, 503, 587, 654, 748, 865, 878, 908, 1032, 1054, 1086]
EDGES = {
    "m": [400, 401, 549, 550, 551, 599, 600, 601, 625, 649, 650, 651, 749, 750, 799, 800, 849, 850],
    "vs30": [150, 151, 179, 180, 181, 499, 500, 501, 1099, 1100, 1101, 1499, 1500] + [k + d for k in K1 for d in (-1, 0, 1)],
    "dip": [15, 16, 30, 45, 60, 69, 70, 71, 72, 88, 89, 90],
    "w": [1, 2, 10, 99999, 100000],
    "zhyp": [0, 1, 5000, 14999, 15000, 15001],
    "ztor": [0, 1, 998, 999, 1000, 1001, 14999, 15000],
    "rjb": [0, 0, 1, 2, 10, 999, 1000, 1001],
    "azimuth": [-180, -179, -91, -90, -89, -1, 0, 1, 2, 30, 45, 60, 88, 89, 90, 91, 92, 120, 135, 150, 178, 179, 180],
    "z10": [0, 1, 134, 1000, 2636, 2637],
    "z15": [0, 1, 235, 1000, 6044, 6045],
    "z25": [0, 1, 998, 999, 1000, 1001, 2999, 3000, 3001, 9999, 10000],
}
RANGES = {
    "vs30": (150, 1500),
    "dip": (15, 90),
    "zhyp": (0, 16000),
    "ztor": (0, 15000),
    "azimuth": (-180, 180),
    "z10": (0, 2637),
    "z15": (0, 6045),
    "z25": (0, 10000),
}
OUTSIDE = {
    "m": ["-", 0, 399, 751, 801, 851, 999999],
    "rake": ["-", -999999, -181, 181, 999999],
    "vs30": ["-", 0, 149, 1501, 999999],
    "dip": [0, 14, 91, 999999],
    "w": [0, 100001, 999999],
    "zhyp": [30001, 999999],
    "ztor": [15001, 999999],
    "rjb": ["-", 200001, 999999],
    "azimuth": ["-", -999999, -181, 181, 999999],
    "rrup": [0, 200001, 999999],
    "z10": [2638, 10000, 10001, 999999],
    "z15": [6046, 10000, 10001, 999999],
    "z25": [10001, 999999],
}
# The tabulated periods in thousandths of a second, every period from the first to the last, and some that lie outside.
PERIODS = [10, 20, 30, 50, 75, 100, 150, 200, 250, 300, 400, 500, 750, 1000, 1500, 2000, 3000, 4000, 5000, 7500, 10000]
EVERY_PERIOD = range(PERIODS[0], PERIODS[-1] + 1)
NO_PERIODS = [0, 1, 9, 10001, 2**16 + 10, 2**32 + 370, 2**63 + 370, 2**64 - 1]
LONG = 1000
WORDS = ["", "-", "--", "-0", "00", "01", "-01", "-1", "+1", "1-", "0.5", "1e3", "x", "999999", "1000000", "-999999", "-1000000"]
# The same with a tilde: inferred figures, and what is malformed since the tilde stands elsewhere or before something else.
WORDS += ["~0", "~5", "~-5", "~999999", "~-999999", "~", "~-", "-~", "~~", "~~5", "-~5", "~-0", "~05", "~-05", "5~", "~5~", "5~5", "~ 5"]
WORDS += ["~+5", "~--5", "~-~5", "~x", "~1000000", "~-1000000"]
# A line of the form has 105 bytes at most; one may have 115.
FORM_BYTES = 105
SIZES = [99, 100, 101, 102, 103, 104, 105, 106, 114, 115, 116, 117]


def spread(some, high):
    """A whole number up to a limit, the small ones as likely as the large."""
    return min(high, int(math.exp(some.uniform(0, math.log(high + 1)))))


def value(some, name, high):
    """A field's number within its range, often at an edge."""
    if some.random() < 0.3:
        return some.choice([v for v in EDGES[name] if v <= high])
    if name == "m":
        return some.randint(400, high)
    if name == "w":
        return spread(some, 100000)
    if name == "rjb":
        return some.choice([spread(some, 190000), some.randint(0, 200000)])
    low, high = RANGES[name]
    return some.choice([some.randint(low, high), low + spread(some, high - low)])


def root_up(n):
    """The smallest whole number whose square is not below n."""
    return math.isqrt(n - 1) + 1 if n else 0


def style_of(rake):
    """The style by rake."""
    return "reverse" if 30 < rake < 150 else "normal" if -150 < rake < -30 else "strike-slip"


def figure(word):
    """A given field's number, measured or inferred."""
    return int(str(word).lstrip("~"))


def known(fields, name, estimate):
    """A field's number, or the estimate in its place."""
    return estimate if fields[name] == "-" else figure(fields[name])


def source(fields):
    """W and ZTOR of fields in their ranges; an estimate may lie a metre beside the programs'."""
    style, m = style_of(figure(fields["rake"])), figure(fields["m"])
    dip, constant, slope = SOURCES[style]
    zhyp = known(fields, "zhyp", 5630 + 6.8 * m if style == "strike-slip" else 11240 - 2 * m)
    w = known(fields, "w", math.floor(1000 * 10 ** (constant + slope * m / 100)))
    top = zhyp - 0.6 * w * math.sin(math.radians(known(fields, "dip", dip)))
    return w, known(fields, "ztor", max(0, math.floor(top)))


def limits(fields):
    """The least RRUP that is not too short and the largest that is not too long."""
    rjb, (w, ztor) = figure(fields["rjb"]), source(fields)
    return max(0, root_up(rjb**2 + ztor**2) - 1), math.isqrt(rjb**2 + (ztor + w) ** 2) + 1


def given_rrup(some, fields):
    """A given RRUP: at the limit of refusal 12 or of 18, or between the two."""
    least, most = limits(fields)
    between = [some.randint(least, most), least + spread(some, most - least), most - spread(some, most - least)]
    return max(0, some.choice([least + some.randint(-3, 3), most + some.randint(-3, 3), *(min(200000, rrup) for rrup in between)]))


def plain(some, pattern):
    """Fields in their ranges, blank where the pattern's bits say so."""
    style = some.choice(list(TOP))
    fields = {"rake": some.choice(RAKES[style])}
    if some.random() < 0.5:
        fields["rake"] = some.randint(-180, 180)
        style = style_of(fields["rake"])
    for name in NAMES:
        if name in STARRED and pattern >> STARRED.index(name) & 1:
            fields[name] = "-"
        elif name not in ("rake", "rrup"):
            fields[name] = value(some, name, TOP[style] if name == "m" else 999999)
    if "rrup" not in fields:
        fields["rrup"] = given_rrup(some, fields)
    return fields


def folded(some, pattern):
    """A hanging-wall site where one formula of the geometry gives way to another."""
    fields = plain(some, pattern)
    dip, azimuth = some.randint(15, 89), some.choice([some.randint(1, 89), some.randint(91, 179)])
    w, tangent = max(1, spread(some, 60000)), abs(math.tan(math.radians(azimuth)))
    h, steep = w * math.cos(math.radians(dip)), math.tan(math.radians(dip))
    ztor = some.choice([0, 1, spread(some, 15000), some.randint(0, 15000)])
    rx = some.choice([h, ztor * steep, ztor * steep + w / math.cos(math.radians(dip))])
    rjb = rx / tangent if rx <= h else math.hypot(rx - h, rx / tangent)
    fields.update(dip=dip, w=w, ztor=ztor, azimuth=azimuth, rrup="-", rjb=max(0, min(200000, round(rjb) + some.randint(-2, 2))))
    return fields


def hanging(some, pattern):
    """A request that a completed figure at its limit refuses or not: ZTOR at 15000, RRUP at 200000, or a given RRUP against ZTOR and W."""
    fields = plain(some, pattern)
    kind = some.randrange(3)
    if kind == 0:
        dip, w = some.choice([15, 30, 47, 73, 90]), spread(some, 15000)
        fields.update(dip=dip, w=w, ztor="-", zhyp=15000 + round(0.6 * w * math.sin(math.radians(dip))) + some.randint(-1, 2))
        fields.update(rrup=fields["rrup"] if fields["rrup"] == "-" else given_rrup(some, fields))
    elif kind == 1:
        dip, w, ztor = some.choice([15, 40, 75, 90]), spread(some, 100000), some.randint(0, 15000)
        h, depth = w * math.cos(math.radians(dip)), ztor + w * math.sin(math.radians(dip))
        deep = some.random() < 0.5 and dip < 90
        rjb = math.sqrt(200000**2 - (depth if deep else ztor) ** 2)
        fields.update(dip=dip, w=w, ztor=ztor, rrup="-", azimuth=90 if deep else -90, rjb=round(rjb) + some.randint(-2, 1))
    else:
        fields.update(dip=90, w=some.choice(["-", spread(some, 20000)]), ztor="-", zhyp=some.randint(0, 15000))
        fields.update(rrup=max(0, some.choice(limits(fields)) + some.randint(-2, 2)))
    return fields


def refused(some, pattern):
    """Fields of which one, two or three are out of range or blank without a star."""
    fields = plain(some, pattern)
    for name in some.sample(NAMES, some.choice([1, 1, 1, 2, 3])):
        fields[name] = some.choice(OUTSIDE[name])
    if some.random() < 0.1:
        fields.update(dip=some.randint(15, 90), rjb=0, azimuth=90, rrup=some.choice(["-", "-", 5000]))
    return fields


def inferred(some, fields):
    """Fields of which some are inferred: none, all that are given, most often one in four."""
    share, = some.choices([0, 0.25, 1], [0.15, 0.8, 0.05])
    return {name: number if number == "-" or some.random() >= share else f"~{number}" for name, number in fields.items()}


def line_of(fields):
    """The fields as a line."""
    return " ".join(str(fields[name]) for name in NAMES).encode()


def long_line(some, size):
    """A line of so many bytes, most of them digits: of the form up to its greatest length, made longer at its end above that."""
    words = [("~-" if name in SIGNED else "~") + str(some.randint(100000, 999999)) for name in NAMES]
    for k in some.sample(range(len(words)), max(0, FORM_BYTES - size)):
        words[k] = words[k].replace("~", "")
    line = " ".join(words).encode()
    return line + (size - len(line)) * some.choice([b" ", b"9", b"~", b"-"])


def spoiled(some, line):
    """A line with something wrong in its bytes; now and then it stays well-formed."""
    words = line.split(b" ")
    k, at = some.randrange(13), some.randrange(len(line) + 1)
    odd = [word.encode() for word in WORDS] + [byte + words[k] for byte in (b"0", b"-", b"~")]
    return some.choice([
        lambda: line[:at] + line[at + 1:],
        lambda: line[:at] + bytes([some.randrange(256)]) + line[at:],
        lambda: line[:at] + bytes([some.randrange(256)]) + line[at + 1:],
        lambda: line[:at] + some.choice([b" ", b"-", b"0", b"\0", b"\r", b"\t", b"\n", b"+", b".", b"~", b"\xff"]) + line[at:],
        lambda: b" ".join(words[:k] + [some.choice(odd)] + words[k + 1:]),
        lambda: b" ".join(words[:k] + words[k + 1:]),
        lambda: b" ".join(words[:k] + [b"-"] + words[k:]),
        lambda: b" ".join(words[:k] + [b""] + words[k:]),
        lambda: some.choice([line + b" ", b" " + line, line + b"\r", line + b"\0", line + b" -", b""]),
        lambda: (line + b" " * 200)[:some.choice([*SIZES, 200])],
        lambda: long_line(some, some.choice(SIZES)),
        lambda: some.choice([b"9", b"-", b" ", b"x", b"~", b"\0"]) * some.choice([1, 13, *SIZES, 255, 5000]),
        lambda: bytes(some.randrange(256) for _ in range(some.randrange(140))),
        lambda: b" ".join(some.choices([b"-", b"0", b"1", b"-1", b"~1", b"~-1", b"999999"], k=some.choice([12, 13, 13, 13, 14]))),
    ])()


def too_far(whole):
    """Given RRUPs on both sides of the longest that is let through: W and ZTOR measured, inferred and blank, at their ends, each style; RJB 0,
    where RRUP less a metre may be the root itself, up to 200000; with something else that is refused before or after."""
    for rake in (0, 90, -90):
        for w in (1, 100000, 12000, "~12000", "-"):
            for ztor in (0, 15000, 3000, "~3000", "-"):
                for rjb in (0, "~7000", 199900) if rake == 90 else (0,):
                    fields = {**whole, "rake": rake, "w": w, "ztor": ztor, "rjb": rjb}
                    least, most = limits(fields)
                    for rrup in (least, most - 1, most, most + 1, f"~{most}", f"~{most + 1}"):
                        yield {**fields, "rrup": rrup}
    # the shortest limits that there are
    for w in (1, 2):
        for rjb in (0, 1, 2):
            for ztor in (0, 1):
                for rrup in range(6):
                    yield {**whole, "w": w, "ztor": ztor, "rjb": rjb, "rrup": rrup}
    # the root a whole number
    for rjb, depth in ((4000, 3000), (12000, 5000), (84000, 13000), (120000, 90000), (192000, 56000)):
        for ztor in (0, 999, 2999):
            for more in (0, 1, 2):
                yield {**whole, "w": depth - ztor, "ztor": ztor, "rjb": rjb, "rrup": math.isqrt(rjb**2 + depth**2) + more}
    # RRUP and RJB at the ends of their ranges
    for w in (1, 100000):
        for ztor in (0, 15000):
            for rjb in (0, 199430, 199998, 199999, 200000, 200001):
                for rrup in (199999, 200000, 200001):
                    yield {**whole, "w": w, "ztor": ztor, "rjb": rjb, "rrup": rrup}
    # what else is refused, W and ZTOR given and blank
    for given in ({}, {"w": 12000}, {"ztor": 3000}, {"w": 12000, "ztor": 3000, "z25": 1500}):
        fields = {**whole, **given}
        most = limits(fields)[1]
        for rrup in (most, most + 1):
            for name in NAMES:
                for word in OUTSIDE[name] if name in ("azimuth", "z10", "z15", "z25") else OUTSIDE[name][-1:]:
                    yield {**fields, "rrup": rrup, name: word}
            for azimuth in (-90, 0, 90, 180):
                yield {**fields, "rrup": rrup, "azimuth": azimuth}


def every():
    """Each value of the fields whose rules have a small domain and each odd word in each field, the rest of the request plain."""
    whole = dict(zip(NAMES, "650 90 300 - - - - 7000 60 - - - -".split()))
    for rake in (0, 90, -90):
        for m in range(399, 852):
            yield {**whole, "m": m, "rake": rake}
    for vs30 in range(149, 1502):
        yield {**whole, "vs30": vs30}
    for dip in range(14, 92):
        for rjb in (0, 900, 7000, 90000):
            yield {**whole, "dip": dip, "w": 12000, "rjb": rjb}
    for azimuth in range(-181, 182):
        for rjb in (1, 900, 7000, 90000):
            yield {**whole, "azimuth": azimuth, "rjb": rjb}
    # so near that a metre of RY shows, which is 0 at 90 degrees
    yield {**whole, "dip": 45, "w": 1, "ztor": 1, "rjb": 1, "azimuth": 90}
    for rake in range(-181, 182):
        yield {**whole, "rake": rake}
    for dip in ("-", 15, 89, 90):
        for rjb in (0, 1):
            for azimuth in (-90, 0, 1, 89, 90, 91, 179, 180):
                for rrup in ("-", 9000, "~9000"):
                    for rake in (0, 90):
                        yield {**whole, "rake": rake, "dip": dip, "rjb": rjb, "azimuth": azimuth, "rrup": rrup}
    for m in (599, 600, 601, 625, 649, 650, 651, 652):
        for ztor in (0, 999, 1000, 1001, 5000):
            for rjb in (0, 1, 500, 1000, 5000):
                least = root_up(rjb**2 + ztor**2)
                for rrup in ("-", max(0, least - 2), max(0, least - 1), least, least + 1000):
                    yield {**whole, "m": m, "dip": 71, "ztor": ztor, "rjb": rjb, "azimuth": -90, "rrup": rrup}
    # soft sites near a fault: short periods fall below PGA, all of them or some
    for vs30 in range(150, 340, 10):
        for m in (600, 650, 700, 750, 800):
            for rrup in (1000, 3000, 10000):
                yield {**whole, "m": m, "vs30": vs30, "dip": 45, "w": 20000, "ztor": 1000, "rjb": 0, "rrup": rrup, "z25": 10000}
    yield from too_far(whole)
    # each field measured, inferred and blank, the others measured or inferred
    given = dict(zip(NAMES, "650 -90 300 45 12000 9000 2000 7000 -60 9000 100 200 1500".split()))
    for mark in ("", "~"):
        others = {name: mark + number for name, number in given.items()}
        for name in NAMES:
            for word in (given[name], "~" + given[name], "-"):
                yield {**others, name: word}
    for name in NAMES:
        for word in WORDS:
            yield {**whole, name: word}


def refused_lists():
    """Short lists without an accepted line, most of them unfinished."""
    whole = b"650 90 300 - - - - 7000 60 - - - -"
    short = [b"", b"\n", b"\n\n", b"6", b"-", b"\0", whole, whole[:-1] + b"\n" + whole]
    short += [b"~", b"~\n", b"~-\n", whole.replace(b"650", b"~650"), whole.replace(b"-", b"~-") + b"\n"]
    full = b" ".join(b"~-999999" if name in SIGNED else b"~999999" for name in NAMES)
    short += [full, full + b"\n", full + b" \n", full + b"9\n" + full]
    return short + [b"x" * 115, b"x" * 116, b"x" * 115 + b"\n" + b"x" * 116 + b"\n", b"x" * 200000]


def drawn(some, pattern):
    """A random line: of one of the kinds above, some of the plain ones spoiled."""
    kind, = some.choices([plain, folded, hanging, refused, None], [66, 10, 4, 12, 8])
    line = line_of(inferred(some, (kind or plain)(some, pattern)))
    return line if kind else spoiled(some, line)


def requests(seed, count):
    """The list: each value once if it is to be long, `count` random lines or a few more, the last one unfinished."""
    some = random.Random(seed)
    lines = [line_of(fields) for fields in every()] + [long_line(some, size) for size in SIZES] if count >= LONG else []
    lines += [drawn(some, k % 256) for k in range(count)]
    return b"\n".join(lines) + b"\n" + some.choice([lines[0], b"65", b"\0", b"-", b"~5"])


def drawn_period(some):
    """A period: out of range, tabulated, one beside that, or any, the short ones as likely as the long."""
    u = some.random()
    if u < 0.1:
        return some.choice(NO_PERIODS)
    if u < 0.5:
        return some.choice(PERIODS) + (some.choice([-1, 1]) if u < 0.3 else 0)
    return int(PERIODS[0] * (PERIODS[-1] / PERIODS[0]) ** some.random())


def every_period(some):
    """Each period in range, again and again, in another order each time."""
    while True:
        yield from some.sample(EVERY_PERIOD, len(EVERY_PERIOD))


def raised_periods(some, raised):
    """Periods beside and between the measures whose medians are raised to PGA's: below the first, up to the last, above it."""
    return [some.randrange(PERIODS[k] + 1, PERIODS[k + 1]) for k in (raised[0] - 1, raised[-1] - 1, raised[-1])] if raised else []


def periods(seed, raised, long):
    """The periods of each request of a list, told by its measures whose medians are raised to PGA's, or as None if it is refused: one
    that is drawn; an accepted one has those above too, and one of every period, or so many that a long list has each."""
    some, accepted = random.Random(seed), sum(measures is not None for measures in raised)
    each, count = every_period(some), -(-len(EVERY_PERIOD) // max(1, accepted)) if long else 1
    for measures in raised:
        before = [] if measures is None else [next(each) for _ in range(count)] + raised_periods(some, measures)
        yield before + [drawn_period(some)]


if __name__ == "__main__":
    sys.stdout.buffer.write(requests(int(sys.argv[1]), int(sys.argv[2])))
