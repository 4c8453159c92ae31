#!/usr/bin/env python3
"""Runs requests through the proved programs and through the second program and compares every answer.

    python3 second/compare.py SEED COUNT [--rounded] [--complete COMMAND] [--predict COMMAND | --no-predict] [--rows COMMAND]
        [--measures COMMAND] [--periods COMMAND] [--second PATH]

COMMAND is a path with its arguments, by default target/bin/complete and target/bin/predict; the second program is compiled unless its
path is given. Exit 1 on any difference beyond its bound:

- a given figure, a dip, a Z2.5 from Z1.5 or Z1.0, an RRUP off the hanging wall, the letters, the header, the form of a line, the
  number of lines: none may differ;
- origins: each line with inferred figures, without its tildes, must get from the first program the same answer, m for i among the
  letters, and the same predictions byte for byte. Each accepted line with what was estimated put in for its blanks, as inferred, must get
  the same figures, i for e, and the same predictions. A long list must have every field as measured, inferred and, if it may be, blank
  among its accepted requests. What no line shows is asked of the second program alone: its completed record must say of all thirteen
  fields what the line says, or what was estimated; sent back it must get 26 exactly if something was estimated, and its own figures once
  that is marked as inferred; and a request of which any one field is marked as estimated must get 26, whatever else is wrong with it;
- W, ZTOR, RRUP and Z2.5 estimated: 2 m from the second program's figure before it is rounded, asked for at the first program's own
  figures before it; --rounded as they are rounded, W, ZTOR and Z2.5 down, RRUP up, with 5 mm to spare;
- a refusal: the same number. The one exception is document 01's: where a completed figure is read, the second program is asked at each
  whole metre that the figure's bound allows, and the first program must have answered as one of these;
- RRUP: in an accepted request, given or estimated, it must be neither too short (12) nor too long (18) at the figures of the answer; a given
  one that both programs turn away with 12 or 18 must be so at the second program's. A long list must have the longest that is let through
  and the shortest that is too long, with W and ZTOR each measured, inferred and blank;
- ln median and each sigma: one in the sixth place; a median Y: 1 + Y/500000, and at least 1; from the second program's figure before it
  is rounded, at the figures that the first completed. What each measure has at worst is told. The predicting program prints ln
  median, median and total sigma; --rows names a program that prints all six figures of a row, as c/rows.c does with the static
  library. It is told how many medians of each short period are PGA's, their own being lower; a long list must have some of each, with
  and without the others;
- one measure, where --measures names a program that prints each of a request by itself, as c/measures.c does: the median and the total
  sigma that --rows prints, byte for byte, the request's refusal, and 15 for the number behind the last;
- rows at periods, where --periods names a program that prints all six figures of a row at the period that stands before each request,
  as c/periods.c does: the same bounds, and a long list must have every whole period from 10 to 10000 thousandths of a second among its
  accepted requests. A refusal: that of the request, else 17 exactly for a period out of that range. At a tabulated period the figures
  must be those that --rows prints. A part of the list goes through the predicting program's --period too, at some periods.
"""
import argparse
import bisect
import collections
import math
import os
import re
import sys

from programs import HEADER, PARTS, ROOT, SIXTH_PLACE, UNITS, build, command, listed, run
from random_requests import EVERY_PERIOD, LONG, NAMES, PERIODS, STARRED, periods, refused_lists, requests

METRES = 2
# The second program's finer figures have three digits more, the last of them rounded.
FINE, LAST = 1000, 0.0005
# How far an estimate may lie below and above the second program's figure, in m: by document 01; and --rounded, as the programs round it.
BOUNDS = {name: (METRES, METRES) for name in ("w", "ztor", "rrup", "z25")}
ROUNDED = {"w": (1.005, 0.005), "ztor": (1.005, 0.005), "rrup": (0.005, 1.005), "z25": (1.005, 0.005)}
WHOLE = rb" (0|[1-9]\d*)"
OK = re.compile(rb"ok" + 5 * WHOLE + rb" ([mie]{5})\Z")
FIGURES = re.compile(rb"ok" + 5 * WHOLE + rb" ([mie]{5})" + 4 * WHOLE + rb"\Z")
NO = re.compile(rb"no ([1-9]\d*)\Z")
COLUMNS = ["dip", "w", "ztor", "rrup", "z25"]
PLACES = [NAMES.index(name) for name in COLUMNS]
# The fields that are estimated where they are blank: the columns and ZHYP, which is not reported.
FILLED = sorted([*PLACES, NAMES.index("zhyp")])
# Each field measured and inferred, and blank if it may be.
ORIGINS = {(name, origin) for name in NAMES for origin in ("measured", "inferred", "blank") if origin != "blank" or name in STARRED}
ROW = ["ln median", "median", "intra sigma", "inter sigma", "total sigma", "arbitrary sigma"]
PRINTED = ["ln median", "median", "total sigma"]
MEASURES = 24
# Of the nine periods up to 0.25 s the first has PGA's own coefficients and never falls below it.
FALLING = range(1, 9)
# What the predicting program is asked for with --period: tabulated periods, others, and some out of range; and for how many lines.
ASKED = [9, 10, 11, 40, 75, 250, 275, 370, 1000, 6000, 10000, 10001]
PART = 5000
MALFORMED, NO_MEASURE, NO_PERIOD, ESTIMATED_ALREADY = b"no 14", b"no 15", b"no 17", b"no 26"
EACH_MARKED = b" ".join(len(NAMES) * [b"26"])
SHOWN = 10

Answer = collections.namedtuple("Answer", "refusal figures letters exact")
# A request with a period, what the first program completed it to, and which medians are raised to PGA's, None if it is refused; and
# where a predicted figure stands, of which program.
Timed = collections.namedtuple("Timed", "period line completed raised")
Place = collections.namedtuple("Place", "program period")
# A given RRUP at the limit of 18: where W and ZTOR come from, and by how much it is longer than the longest that is let through.
Limit = collections.namedtuple("Limit", "w ztor side")
SIDES = {0: "the longest that are let through", 1: "a metre longer"}


class Report:
    """How far each figure was off, in units of its bound, and every failure."""

    def __init__(self, bounds):
        self.bounds = bounds
        self.count = collections.Counter()
        self.low, self.high = collections.defaultdict(float), collections.defaultdict(float)
        self.failures = []

    def estimate(self, line, name, metres, exact):
        """A completed figure and the second program's in mm; whether it lies within its bounds."""
        off, (below, above) = metres - exact / 1000, self.bounds[name]
        self.count[name] += 1
        self.low[name], self.high[name] = min(self.low[name], off), max(self.high[name], off)
        if not -below <= off <= above:
            self.fail(line, f"{name} is {metres}, exact {exact / 1000}")
        return -below <= off <= above

    def row(self, line, name, place, figure, fine):
        """A predicted figure, at a measure or a Place, and the second program's with three digits more."""
        exact = fine / FINE
        off, bound = abs(figure - exact) + LAST, UNITS + exact / PARTS if name == "median" else SIXTH_PLACE
        self.high[name, place] = max(self.high[name, place], off / bound)
        if off > bound:
            self.fail(line, f"{told(place)}, {name} is {figure}, exact {exact}, bound {bound:.6g}")
        if name == "median" and figure < 1:
            self.fail(line, f"{told(place)}, a median below 1")

    def fail(self, line, words):
        """A failure at a line."""
        self.failures.append(f"{line.decode('latin-1')!r}: {words}")


def answer(line):
    """An answer line taken apart, of `figures` too; None if it has another form."""
    no = NO.match(line)
    if no:
        return Answer(int(no[1]), None, None, None)
    ok = OK.match(line) or FIGURES.match(line)
    if not ok:
        return None
    words = ok.groups()
    return Answer(0, dict(zip(COLUMNS, map(int, words[:5]))), words[5], dict(zip(COLUMNS[1:], map(int, words[6:]))))


def answers(words, data, report):
    """The answer lines to a list, the header taken off."""
    header, *lines = run(words, data).split(b"\n")
    if header != HEADER or not lines or lines.pop() != b"":
        report.fail(data[:100], f"{words}: another header, or no LF at the end")
    return lines


def asked(words, requested, report):
    """The answers to some requests, each a dict of fields."""
    return [answer(line) for line in answers(words, listed(line_of(fields) for fields in requested), report)]


def sent_back(line, p):
    """An accepted request with what was estimated put in for its blanks, as inferred."""
    words = line.split(b" ")
    for k, name, letter in zip(PLACES, COLUMNS, p.letters):
        if letter == ord("e"):
            words[k] = b"~%d" % p.figures[name]
    return b" ".join(words)


def measured(line):
    """A line with every figure measured."""
    return line.replace(b"~", b"")


def relettered(said, old, new):
    """An answer with one letter for another; a refusal and a prediction have none."""
    return said[:-5] + said[-5:].replace(old, new) if said.startswith(b"ok ") else said


def record_of(line, said):
    """The completed record of an accepted request, as the second program prints it, by the line and the answer to it."""
    words = line.split(b" ")
    m, rake = int(words[0].lstrip(b"~")), int(words[1].lstrip(b"~"))
    zhyp = 11240 - 2 * m if 30 < abs(rake) < 150 else 5630 + 68 * m // 10
    estimates = dict(zip(PLACES, said.split(b" ")[1:])) | {NAMES.index("zhyp"): b"%d" % zhyp}
    for k, word in enumerate(words):
        if word != b"-":
            words[k] = word[1:] + b"i" if word.startswith(b"~") else word + b"m"
        elif k in FILLED:
            words[k] = estimates[k] + b"e"
    return b" ".join(words)


def records_of(line, said):
    """What the second program must print for a line with `record`, `marked` and `each-marked`, by the line and the answer to it."""
    each = MALFORMED if said == MALFORMED else EACH_MARKED
    if said.startswith(b"no "):
        return said, said, each
    words = line.split(b" ")
    as_it_stands = ESTIMATED_ALREADY if any(words[k] == b"-" for k in FILLED) else said
    return record_of(line, said), as_it_stands + b"; " + relettered(said, b"e", b"i"), each


def origin_of(word):
    """Where a field's number comes from."""
    return "blank" if word == b"-" else "inferred" if word.startswith(b"~") else "measured"


def row_of(said, number, names):
    """The figures that a line has behind its number, by name; None if it has another form."""
    try:
        first, *figures = map(int, said.split(b" "))
    except ValueError:
        return None
    if first != number or len(figures) != len(names) or b" ".join(b"%d" % n for n in (first, *figures)) != said:
        return None
    return dict(zip(names, figures))


def told(place):
    """Where a predicted figure stands, in words."""
    return f"{place.program} at period {place.period}" if isinstance(place, Place) else f"measure {place}"


def line_of(fields):
    """A dict of fields as a line."""
    return " ".join(str(fields[name]) for name in NAMES).encode()


def fields_of(line):
    """A well-formed line as a dict of fields, all text."""
    return dict(zip(NAMES, line.decode().split(" ")))


def at_figures(fields, figures, names):
    """A request with some completed figures given."""
    return {**fields, **{name: figures[name] for name in names}}


def place_of(line, figures):
    """What an RRUP is tested by: RJB of a line, ZTOR and W completed."""
    return int(measured(line.split(b" ")[NAMES.index("rjb")])), figures["ztor"], figures["w"]


def longest(rjb, ztor, w):
    """The longest RRUP that is let through: that less a metre is the root, rounded down, of what 18 has beside it."""
    return math.isqrt(rjb**2 + (ztor + w) ** 2) + 1


def length_refusal(rrup, rjb, ztor, w):
    """12 for an RRUP that is too short, 18 for one that is too long, else 0."""
    return 12 if (rrup + 1) ** 2 < rjb**2 + ztor**2 else 18 if rrup > longest(rjb, ztor, w) else 0


def distances(fields, untested):
    """The whole metres that an RRUP may be: one at a vertical fault and off the hanging wall, else those in its bound that are not below the
    root of RJB² + ZTOR² and that would not be too long if they came back."""
    rjb, azimuth = int(fields["rjb"]), int(fields["azimuth"])
    if fields["dip"] == 90 or azimuth <= 0 or azimuth == 180:
        return [untested.figures["rrup"]]
    low, high = -(-untested.exact["rrup"] // 1000) - METRES, untested.exact["rrup"] // 1000 + METRES
    most = longest(rjb, fields["ztor"], fields["w"])
    return [r for r in range(max(0, low), min(high, most) + 1) if r * r >= rjb**2 + fields["ztor"] ** 2]


class Comparison:
    """One run: the first program's commands, the second program, and the report."""

    def __init__(self, first, second, report):
        self.first, self.second, self.report = first, second, report

    def completing(self, data, lines):
        """Compares completed requests; gives the first program's answers, each None if it has another form, and the lines that it said;
        none if there are more or less of them than requests."""
        report = self.report
        mine = answers(self.first, data, report)
        theirs = answers([self.second, "complete"], data, report)
        exact = answers([self.second, "figures"], data, report)
        if not len(mine) == len(theirs) == len(exact) == len(lines):
            report.fail(b"", f"{len(lines)} lines, {len(mine)} answers, {len(theirs)} of the second program")
            return [], []
        got, apart = [answer(line) for line in mine], []
        for line, p, a, b, e in zip(lines, got, mine, theirs, exact):
            s = answer(e)
            if p is None or s is None:
                report.fail(line, f"another form: {a!r}, or of the second program: {e!r}")
                continue
            self.at_limit(line, s)
            if a != b:
                apart.append(self.apart(line, p, answer(b)))
            else:
                self.alike(line, p, s)
        report.count["apart"] = len(apart)
        self.converse(apart)
        self.records(data, lines, theirs)
        return got, mine

    def records(self, data, lines, theirs):
        """Checks the second program's completed records, and what it says to a request with estimated figures, by its answers to the lines;
        text shows neither."""
        printed = [run([self.second, name], data).split(b"\n")[:-1] for name in ("record", "marked", "each-marked")]
        if any(len(said) != len(lines) for said in printed):
            self.report.fail(b"", f"{len(lines)} lines, {[len(said) for said in printed]} records of the second program")
            return
        for line, said, *own in zip(lines, theirs, *printed):
            wanted = records_of(line, said)
            if tuple(own) != wanted:
                self.report.fail(line, f"the second program's records are {own}, which must be {wanted}")
            self.report.count["records"] += not said.startswith(b"no ")
            self.report.count["marked"] += own[1].startswith(ESTIMATED_ALREADY)
            self.report.count["each marked"] += said != MALFORMED

    def origins(self, program, words, lines, sent, said, header=b""):
        """Checks that where figures come from moves none: what a program said to a line it must say again, but for the letters, to the same
        without tildes, and to the one that is sent back."""
        tilded = [(line, text) for line, text in zip(lines, said) if b"~" in line and text != MALFORMED]
        self.again((program, "measured"), words, header, [(measured(line), relettered(text, b"i", b"m")) for line, text in tilded])
        accepted = [(line, text) for line, text in zip(sent, said) if line]
        self.again((program, "sent back"), words, header, [(line, relettered(text, b"e", b"i")) for line, text in accepted])

    def again(self, name, words, header, asked):
        """Checks what a program says to some lines, each with its answer, byte for byte; tells the first that gets another."""
        said = run(words, listed(line for line, _ in asked))
        self.report.count[name] += len(asked)
        if said == header + listed(answer for _, answer in asked):
            return
        rest = iter(said[len(header):].split(b"\n"))
        for line, text in asked:
            got = b"\n".join(next(rest, b"") for _ in text.split(b"\n"))
            if got != text:
                self.report.fail(line, f"{' '.join(name)}: {got!r}, which must be {text!r}")
                return
        self.report.fail(b"", f"{' '.join(name)}: another header, or lines too many")

    def converse(self, judgements):
        """Runs judgements side by side: each yields the requests that it asks of a program and is sent the answers."""
        waiting = [(j, asks) for j, asks in ((j, next(j, None)) for j in judgements) if asks]
        while waiting:
            replies = {}
            for name, words in (("first", self.first), ("figures", [self.second, "figures"]), ("second", [self.second, "complete"])):
                replies[name] = iter(asked(words, [fields for _, asks in waiting for to, fields in asks if to == name], self.report))
            further = []
            for judgement, asks in waiting:
                try:
                    further.append((judgement, judgement.send([next(replies[to]) for to, _ in asks])))
                except StopIteration:
                    pass
            waiting = further

    def at_limit(self, line, s):
        """Counts a given RRUP at the limit of 18, by the second program's untested figures."""
        words = dict(zip(NAMES, line.split(b" ")))
        side = s.figures["rrup"] - longest(*place_of(line, s.figures)) if s.refusal == 0 and words["rrup"] != b"-" else None
        if side in SIDES:
            self.report.count[Limit(origin_of(words["w"]), origin_of(words["ztor"]), side)] += 1

    def alike(self, line, p, s):
        """Checks an answer that both programs gave: its estimated figures, and its RRUP by 12 and 18, at the second program's untested figures
        where the answer has none."""
        if p.refusal == 0 and s.refusal:
            self.report.fail(line, f"{p}, of which the second program's untested figures are {s}")
            return
        for name, letter in zip(COLUMNS[1:], (p.letters or b"")[1:]):
            if letter == ord("e"):
                self.report.estimate(line, name, p.figures[name], s.exact[name])
        if p.refusal in (0, 12, 18) and s.refusal == 0:
            figures = p.figures or s.figures
            wanted = length_refusal(figures["rrup"], *place_of(line, figures))
            if p.refusal != wanted:
                self.report.fail(line, f"{p}, whose RRUP must get {wanted}")

    def apart(self, line, p, s):
        """Judges an answer that differs; only one that reads estimated figures may, and only as their bounds allow."""
        report, words = self.report, f"{p} where the second program has {s}"
        report.count["refused"] += p.refusal != s.refusal
        if 14 in (p.refusal, s.refusal) or p.letters and s.letters and p.letters != s.letters:
            return report.fail(line, words)
        fields = fields_of(measured(line))
        harmless = {"rjb": 0, "azimuth": 0, "rrup": "-", "z10": "-", "z15": "-", "z25": 0}
        probe = {**fields, **harmless, "ztor": 0}
        source, source_second = yield [("first", probe), ("figures", probe)]
        if not source or source.refusal or source_second.refusal or source.figures["dip"] != source_second.figures["dip"]:
            return report.fail(line, words)
        if not self.near(line, "w", fields, source, source_second):
            return None
        fields = at_figures(fields, source.figures, ["dip", "w"])
        probe = {**fields, **harmless}
        top, top_second = yield [("first", probe), ("figures", probe)]
        if not top or top_second.refusal:
            return report.fail(line, words)
        if top.refusal == p.refusal == 7 and fields["ztor"] == "-" and top_second.exact["ztor"] >= 1000 * (15001 - METRES):
            return None
        if top.refusal:
            return report.fail(line, words)
        if not self.near(line, "ztor", fields, top, top_second):
            return None
        return (yield from self.path(line, p, at_figures(fields, top.figures, ["ztor"])))

    def near(self, line, name, fields, p, s):
        """Whether a figure is the one given, or an estimate within its bound."""
        if fields[name] == "-":
            return self.report.estimate(line, name, p.figures[name], s.exact[name])
        if p.figures[name] != int(fields[name]):
            self.report.fail(line, f"{name} is given and {p} has another")
        return p.figures[name] == int(fields[name])

    def path(self, line, p, fields):
        """The rest of that judgement, once dip, W and ZTOR are the first program's: RRUP, Z2.5 and the refusals that read them."""
        report = self.report
        untested, = yield [("figures", fields)]
        allowed, blank = [fields], fields["rrup"] == "-"
        if blank and untested.refusal == 0:
            allowed = [{**fields, "rrup": r} for r in distances(fields, untested)]
        outcomes = yield [("second", request) for request in allowed]
        if p.refusal:
            if p.refusal not in [o.refusal for o in outcomes]:
                report.fail(line, f"{p} where the second program allows {outcomes}")
            return
        found = [o for o in outcomes if o.figures and all(o.figures[name] == p.figures[name] for name in COLUMNS[:4])]
        if not found:
            report.fail(line, f"{p} where the second program allows {outcomes}")
            return
        if blank:
            report.estimate(line, "rrup", p.figures["rrup"], untested.exact["rrup"])
        if fields["z25"] == "-":
            report.estimate(line, "z25", p.figures["z25"], untested.exact["z25"])
        if p.figures["z25"] != found[0].figures["z25"] and not fields["z25"] == fields["z15"] == fields["z10"] == "-":
            report.fail(line, f"{p} where the second program has {found[0]}")

    def predicting(self, words, names, data, lines, completed, sent):
        """Compares predictions, with the figures named, at the figures that the first program completed; gives what it said to each line,
        none if that has another form."""
        report, said = self.report, []
        given = listed(line for line in sent if line)
        second = run([self.second, "fine"], given).split(b"\n")
        first = run(words, data).split(b"\n")
        if first.pop() != b"" or second.pop() != b"" or len(second) != MEASURES * given.count(b"\n"):
            report.fail(b"", "no LF at the end, or a completed request that the second program refuses")
            return []
        at = theirs = 0
        for line, p in zip(lines, completed):
            if p is None:
                return []
            if p.refusal:
                if first[at:at + 1] != [b"no %d" % p.refusal]:
                    report.fail(line, f"completed to {p}, predicted as {first[at:at + 1]}")
                    return []
                said.append(first[at])
                at += 1
                continue
            mine, others = first[at:at + MEASURES], second[theirs:theirs + MEASURES]
            at, theirs = at + MEASURES, theirs + MEASURES
            if not self.spectrum(line, names, mine, others):
                return []
            said.append(b"\n".join(mine))
        if at != len(first):
            report.fail(b"", f"{len(first) - at} lines too many")
        return said

    def by_measure(self, words, rows, lines, completed):
        """Compares each measure by itself with the rows, for the lines that have their LF: median and total sigma, byte for byte."""
        said = iter(run(words, listed(lines[:-1])).split(b"\n"))
        for line, p, printed in zip(lines[:-1], completed, rows):
            row = [text.split(b" ") for text in printed.split(b"\n")]
            wanted = (MEASURES + 1) * [printed] if p.refusal else [b" ".join((w[2], w[5])) for w in row] + [NO_MEASURE]
            for measure, (a, b) in enumerate(zip(wanted, said)):
                if a != b:
                    self.report.fail(line, f"measure {measure} by itself is {b!r}, its row has {a!r}")
            self.report.count["measures"] += p.refusal == 0
        if list(said) != [b""]:
            self.report.fail(b"", "another number of measures by themselves")

    def spectrum(self, line, names, mine, others):
        """Compares the 24 lines of one prediction with the second program's finer ones; whether they have the form."""
        if len(mine) != MEASURES:
            self.report.fail(line, f"{len(mine)} lines")
            return False
        return all(self.row(line, names, measure, measure, a, b) for measure, (a, b) in enumerate(zip(mine, others)))

    def row(self, line, names, place, number, said, fine):
        """Compares one line of a row, which has its number, with the second program's finer one; whether it has the form."""
        figures = row_of(said, number, names)
        if figures is None:
            self.report.fail(line, f"{told(place)}, another form: {said!r}")
            return False
        exact = dict(zip(ROW, map(int, fine.split(b" ")[1:])))
        for name, figure in figures.items():
            self.report.row(line, name, place, figure, exact[name])
        return True

    def at_periods(self, program, words, names, asked, data):
        """Compares a program's answers to a list, one line for each request with its period; gives them, none if there are more or less."""
        accepted = [t for t in asked if t.completed.refusal == 0]
        given = listed(b"%d %s" % (t.period, sent_back(t.line, t.completed)) for t in accepted)
        second = run([self.second, "fine-periods"], given).split(b"\n")
        first = run(words, data).split(b"\n")
        if first.pop() != b"" or second.pop() != b"" or len(first) != len(asked) or len(second) != len(accepted):
            self.report.fail(b"", f"{program}: {len(first)} answers for {len(asked)} requests, {len(second)} for {len(accepted)} accepted")
            return []
        theirs = iter(second)
        for t, said in zip(asked, first):
            refusal = t.completed.refusal
            self.at_period(Place(program, t.period), t, names, said, b"no %d" % refusal if refusal else next(theirs))
        return first

    def at_period(self, place, t, names, said, fine):
        """Compares one answer with the request's refusal, or with the second program's finer row or its refusal."""
        refused, outside = fine.startswith(b"no "), t.period not in EVERY_PERIOD
        if t.completed.refusal == 0 and (refused != outside or refused and fine != NO_PERIOD):
            self.report.fail(t.line, f"the second program has {fine!r} at period {t.period}")
        if refused:
            self.report.count[place.program, fine] += 1
            if said != fine:
                self.report.fail(t.line, f"{told(place)}, {said!r}, which must be {fine!r}")
        elif self.row(t.line, names, place, t.period, said, fine):
            self.report.count[place] += 1

    def timed(self, words, rows, asked):
        """Compares rows at periods, and those at tabulated ones with what the program of rows prints, if there is one."""
        data = b"\n".join(b"%d %s" % (t.period, t.line) for t in asked)
        said = self.at_periods("periods", words, ROW, asked, data)
        tilded = [(t, text) for t, text in zip(asked, said) if b"~" in t.line and text != MALFORMED]
        self.again(("periods", "measured"), words, b"", [(b"%d %s" % (t.period, measured(t.line)), text) for t, text in tilded])
        if rows and said:
            self.tabulated(rows, [(t, line) for t, line in zip(asked, said) if t.period in PERIODS and t.completed.refusal == 0])

    def tabulated(self, rows, answered):
        """Compares answers at tabulated periods with the rows of the same requests, byte for byte behind the number."""
        lines = run(rows, listed(t.line for t, _ in answered)).split(b"\n")
        if len(lines) != MEASURES * len(answered) + 1:
            self.report.fail(b"", f"{len(lines) - 1} lines of rows for {len(answered)} accepted requests")
            return
        self.report.count["tabulated"] = len(answered)
        for k, (t, said) in enumerate(answered):
            row = lines[MEASURES * k + PERIODS.index(t.period)]
            if said.partition(b" ")[2] != row.partition(b" ")[2]:
                self.report.fail(t.line, f"{said!r} at a tabulated period, where its row is {row!r}")

    def one_period(self, predict, lines, completed):
        """Compares what the predicting program prints with --period, for a part of the list and its unfinished line."""
        step = max(1, len(lines) // PART)
        part = [*zip(lines[:-1:step], completed[:-1:step]), (lines[-1], completed[-1])]
        data = b"\n".join(line for line, _ in part)
        for period in ASKED:
            asked = [Timed(period, line, p, None) for line, p in part]
            self.at_periods("predict", [*predict, "--period", str(period)], PRINTED, asked, data)

    def raised(self, sent):
        """The measures of each accepted request whose medians the second program raises to PGA's; none where it refuses it."""
        said = run([self.second, "raised"], listed(line for line in sent if line)).decode().split("\n")[:-1]
        return [[] if line.startswith("no ") else [int(k) for k in re.findall(r"\d+", line)] for line in said]

    def short_lists(self, predict, timed):
        """Compares what the programs print for lists without an accepted line, byte for byte."""
        pairs = [(self.first, [self.second, "complete"])] + ([(predict, [self.second, "predict"])] if predict else [])
        pairs += [(timed, [self.second, "periods"])] if timed else []
        pairs += [([*predict, "--period", "370"], [self.second, "period", "370"])] if timed and predict else []
        for data in refused_lists():
            if any(run(first, data) != run(second, data) for first, second in pairs):
                self.report.fail(data[:100], "another answer to this short list")


def asked_at(seed, lines, completed, raised, long):
    """The requests of a list, each as often as it has periods."""
    measures = iter(raised)
    known = [None if p.refusal else next(measures) for p in completed]
    drawn = zip(lines, completed, known, periods(seed, known, long))
    return [Timed(period, line, p, some) for line, p, some, each in drawn for period in each]


def covered(lines, completed):
    """How often accepted requests have each pattern of origins, and how often each refusal came."""
    patterns, refusals = collections.Counter(), collections.Counter()
    for line, p in zip(lines, completed):
        if p and p.refusal == 0:
            patterns[tuple(origin_of(word) for word in line.split(b" "))] += 1
        elif p:
            refusals[p.refusal] += 1
    return patterns, refusals


def tell_origins(report, patterns, long):
    """Prints what the origins of figures were compared in; a long list must have each of each field among its accepted requests, and
    requests with all figures inferred and with none."""
    count, origins = report.count, {pair for pattern in patterns for pair in zip(NAMES, pattern)} & ORIGINS
    whole, none = patterns[len(NAMES) * ("inferred",)], sum(n for pattern, n in patterns.items() if "inferred" not in pattern)
    print(f"origins: {len(origins)} of {len(ORIGINS)} among the accepted, {whole} requests with all thirteen figures inferred, {none} with none")
    for kind, words in (("measured", "without their tildes"), ("sent back", "with what was estimated sent back as inferred")):
        programs = [program for program in ("complete", "predict", "periods") if (program, kind) in count]
        print(f"the same {words}: " + ", ".join(f"{count[program, kind]} of {program}" for program in programs))
    print(f"records of the second program: {count['records']} compared, {count['marked']} of them refused by 26 as they stand, "
          f"and {count['each marked']} requests with each field marked as estimated")
    if long and not (origins == ORIGINS and whole and none):
        report.fail(b"", "the list leaves out an origin of a field")


def tell_lengths(report, long):
    """Prints how many given RRUPs stand at the limit of 18; a long list must have both sides of it for each origin of W and of ZTOR."""
    origins = ("measured", "inferred", "blank")
    count = {side: [report.count[Limit(w, ztor, side)] for w in origins for ztor in origins] for side in SIDES}
    told = (f"{sum(count[side])} {words}, {min(count[side])} at least" for side, words in SIDES.items())
    print("given RRUPs at the limit of 18, for each origin of W and of ZTOR: " + "; ".join(told))
    if long and not all(map(all, count.values())):
        report.fail(b"", "the list leaves out a side of the limit of 18")


def tell_raised(report, raised, long):
    """Prints how often each measure's median is PGA's; a long list must show the rule at work, and at no other measure."""
    count = collections.Counter(k for measures in raised for k in measures)
    some = sum(0 < len(measures) < len(FALLING) for measures in raised)
    whole = sum(len(measures) == len(FALLING) for measures in raised)
    print("medians raised to PGA's, by measure: " + ", ".join(f"{k} in {count[k]} requests" for k in FALLING))
    print(f"{whole} requests have all {len(FALLING)} raised, {some} have some, {len(raised) - whole - some} none")
    if set(count) - set(FALLING) or long and not (some and whole and all(count[k] for k in FALLING)):
        report.fail(b"", "the list does not show each short period below PGA, or another measure is raised")


def tell_periods(report, program, names):
    """Prints how far each figure of a program was off at periods; gives these periods."""
    count = {place.period: n for place, n in report.count.items() if isinstance(place, Place) and place.program == program}
    print(f"{program}: {sum(count.values())} rows compared at {len(count)} periods, {report.count[program, NO_PERIOD]} periods refused")
    gaps = collections.defaultdict(float)
    for period in count:
        below = PERIODS[bisect.bisect(PERIODS, period) - 1]
        for name in names:
            gaps[name, below] = max(gaps[name, below], report.high[name, Place(program, period)])
    tell_worst(gaps, names, sorted({below for _, below in gaps}), "period", "from each tabulated period to the next")
    return set(count)


def tell_worst(worst, names, places, place, words):
    """Prints how far each figure was off at worst, by place."""
    if places:
        print(f"the worst {words}, ln median and sigmas in units of the sixth place, the median in parts of its bound:")
        for head, row in [(place, names), *((p, [f"{worst[name, p]:.3f}" for name in names]) for p in places)]:
            print(f"{head:>8}" + "".join(f"{word:>17}" for word in row))


def tell_gaps(report, asked, long):
    """Prints how many rows lie between two of which one is raised to PGA's, or both; a long list must have some in each gap."""
    count = collections.Counter()
    for t in asked:
        if t.raised and t.period in EVERY_PERIOD and t.period not in PERIODS:
            below = bisect.bisect(PERIODS, t.period) - 1
            count[below, (below in t.raised) + (below + 1 in t.raised)] += 1
    gaps = {1: range(FALLING[0] - 1, FALLING[-1] + 1), 2: FALLING[:-1]}
    for raised, words in ((1, "one is raised"), (2, "both are raised")):
        print(f"rows between two of which {words} to PGA's: " + ", ".join(f"{PERIODS[k]} {count[k, raised]}" for k in gaps[raised]))
    if long and not all(count[k, raised] for raised in gaps for k in gaps[raised]):
        report.fail(b"", "the list does not show each gap between rows that are raised")


def tell_timed(report, asked, predict, rows, long):
    """Prints what was compared at periods; a long list must have every one."""
    if set(EVERY_PERIOD) - tell_periods(report, "periods", ROW) and long:
        report.fail(b"", "the list leaves out a period")
    tell_gaps(report, asked, long)
    if rows:
        print(f"{report.count['tabulated']} of these rows at tabulated periods compared with the tabulated ones byte for byte")
    if predict:
        tell_periods(report, "predict", PRINTED)


def tell(report, accepted, predicted):
    """Prints how far each figure was off."""
    for name in COLUMNS[1:]:
        below, above = report.bounds[name]
        print(f"{name}: {report.count[name]} estimated, from {report.low[name]:.3f} to {report.high[name]:.3f} m off, bounds -{below} and {above}")
    print(f"{report.count['apart']} answers differ, {report.count['refused']} of them in being refused")
    if predicted:
        print(f"{MEASURES * accepted} rows of measures compared, {report.count['measures']} requests by single measures too")
        tell_worst(report.high, predicted, range(MEASURES), "measure", "of each measure")


def tell_failures(report):
    """Prints how many failures there are, and the first of them."""
    for words in report.failures[:SHOWN]:
        print(f"FAILED {words}")
    print(f"{len(report.failures)} beyond their bounds")


def read_options():
    """The options that are given."""
    options = argparse.ArgumentParser(description=__doc__.split("\n")[0])
    options.add_argument("seed", type=int)
    options.add_argument("count", type=int)
    options.add_argument("--rounded", action="store_true", help="hold estimates to the way in which they are rounded")
    options.add_argument("--complete", default=os.path.join(ROOT, "target/bin/complete"))
    options.add_argument("--predict", default=os.path.join(ROOT, "target/bin/predict"))
    options.add_argument("--no-predict", action="store_true", help="compare completed requests alone")
    options.add_argument("--rows", help="a program that prints all six figures of a row")
    options.add_argument("--measures", help="a program that prints each measure by itself")
    options.add_argument("--periods", help="a program that prints all six figures of a row at the period before each request")
    options.add_argument("--second")
    given = options.parse_args()
    if given.measures and not given.rows:
        options.error("--measures needs --rows, with which they are compared")
    return given


def main():
    """One comparison, from its options to its exit status."""
    given = read_options()
    predict = None if given.no_predict else command(given.predict)
    rows, timed = (words and command(words) for words in (given.rows, given.periods))
    report, long = Report(ROUNDED if given.rounded else BOUNDS), given.count >= LONG
    comparison = Comparison(command(given.complete), given.second or build(), report)
    data = requests(given.seed, given.count)
    lines = data.split(b"\n")
    completed, said = comparison.completing(data, lines)
    sent = [sent_back(line, p) if p and p.refusal == 0 else None for line, p in zip(lines, completed)]
    comparison.origins("complete", comparison.first, lines, sent, said, HEADER + b"\n")
    if completed and predict:
        printed = comparison.predicting(predict, PRINTED, data, lines, completed, sent)
        comparison.origins("predict", predict, lines, sent, printed)
    if completed and rows:
        printed = comparison.predicting(rows, ROW, data, lines, completed, sent)
        if printed and given.measures:
            comparison.by_measure(command(given.measures), printed, lines, completed)
    raised, asked = comparison.raised(sent) if predict or timed else [], []
    if completed and timed and all(completed):
        asked = asked_at(given.seed, lines, completed, raised, long)
        comparison.timed(timed, rows, asked)
        if predict:
            comparison.one_period(predict, lines, completed)
    comparison.short_lists(predict, timed)

    patterns, refusals = covered(lines, completed)
    accepted, blanks = sum(patterns.values()), {tuple(origin == "blank" for origin in pattern) for pattern in patterns}
    print(f"seed {given.seed}: {len(lines)} lines, {accepted} accepted, {len(blanks)} of 256 patterns of blank fields among them")
    print("refused: " + ", ".join(f"{n} by {number}" for number, n in sorted(refusals.items())))
    if given.count >= 20000 and (len(blanks) < 256 or len(refusals) < 15):
        report.fail(b"", "the list leaves out a pattern or a refusal")
    tell_origins(report, patterns, long)
    tell_lengths(report, long)
    if completed and predict:
        tell_raised(report, raised, long)
    tell(report, accepted, ROW if rows else PRINTED if predict else [])
    if timed:
        tell_timed(report, asked, predict, rows, long)
    tell_failures(report)
    sys.exit(1 if report.failures else 0)


if __name__ == "__main__":
    main()
