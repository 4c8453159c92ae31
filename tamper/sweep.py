#!/usr/bin/env python3
"""Alters one number at a time, in one place at a time, and shows that the gate's steps refuse or notice it.

    python3 tamper/sweep.py [--sample N] [--seed S] [--jobs J] [--places code,specs,second] [--only PATTERN] [--list] [--left]

What it tries:

- code: Tables 2 and 3, the periods, what follows from Table 3, the number that a row of these is found by, the refusals' numbers and
  limits, the styles (crates tables, sigmas, refusals, request, source_stage, path_stage, site_stage), the constants of the estimates and
  of the rupture distance (estimate, rupture), the terms, the site, the sigmas, the short periods, the report
  and the row at any period (factors, terms, site, sigmas, short_periods, reports, periods), the 64-bit functions (reckon), the
  text form (text, numerals), a list in parts (lists, kept), site files (fields, cuts, request_lines, records, list_lines, site_files, the blocks
  of file_streams), one period as text and as numbers (answer, row_numbers), how many arguments a program has (programs, file_programs), its statuses (usage). A contract's numbers are claims and no code: they are not altered;
- specs: every number of crates/*/specs but those of the table LEFT; one that neither a place nor LEFT names stops the script.
  --left tells which are left and why;
- second: the constants, limits and tables of the second program, model.c and request.c with their headers; in main.c how a period is
  read and refused. Its site files have no numbers tried here: second/wrong.py --files has wrong ones.

In the code and in the specs the step is the proof of the lowest crate that must refuse; in the second program it is the comparison of its
tables with those of the specs, and of its answers with the proved programs and with the rows and periods of the static library. A number
is altered by one up in its last digit, by one down where up shows nothing (DOWN), and not at all where neither does (SAME). Built before
it: everything that `rt check` (all crates proved), `programs/link` (target/bin) and `c/test` (target/c/rows, target/c/periods) leave in
target/, as the gate does. The work is done in copies; the repository is not touched. --sample N takes N numbers of each place of PLACES
and N of each kind of MORE. Exit 1 if one alteration passes.
"""
import argparse
import collections
import concurrent.futures
import glob
import os
import random
import re
import shutil
import subprocess
import sys
import tempfile
import threading
import time
from fnmatch import fnmatch

ROOT = os.path.dirname(os.path.dirname(os.path.abspath(__file__)))
NUMBER = re.compile(r"(?<![\w.])\d[\d_]*(?:\.\d+)?(?![\w.])")
# Where a definition begins, by the kind of file: its name is in front of each of its lines when a pattern is looked for.
HEADS = {
    ".antt": re.compile(r"^(?:unfoldable |abbrev )?pub (?:record |data )?([^\s:]+)"),
    ".rt": re.compile(r"^\s*(?:pub )?(?:fn|const|struct|enum) (\w+)"),
    ".c": re.compile(r"^(?:#define |[a-z].*?\b(?=\w+[\[(]))(\w+)"),
    ".h": re.compile(r"^#define (\w+)"),
}
# What is no code and no definition: comments, what is used, contracts, which are claims.
NOTHING = re.compile(r"//.*|(?:^|(?<=\s))--(?:\s.*|$)|/\*.*?\*/|/\*.*|^.*\*/|^use .*|^ghost .*|^\s*(?:requires|ensures) .*")
# How long an altered second program may run: a number may stand in a loop's end.
SECONDS = 600

Change = collections.namedtuple("Change", "kind path name at start end by crate")


def of(names):
    """The lines of some definitions."""
    return re.compile(rf"^({'|'.join(names.split())}): ")


EVERY = re.compile("")

# A place: its kind, the files, which lines hold the numbers, and the crate whose proof must fail (none for the comparison). A
# pattern is looked for in a line with the name of its definition and ": " in front. A number belongs to the first place that has it.
PLACES = [
    ("code", "crates/tables/src/table2.rt", re.compile(r":\s+(c\d+|k[123]): -?[\d_]+,"), "tables"),
    ("code", "crates/tables/src/table3.rt", re.compile(r":\s+(s|t|sC|sT|sArb|rho): [\d_]+,"), "tables"),
    ("code", "crates/source_stage/src/lib.rt", re.compile(r"\.is_(within|allowed)\(|if 15000 < "), "source_stage"),
    ("code", "crates/path_stage/src/lib.rt", re.compile(r"\.is_(within|allowed)\(|if 200000 < |d < 90 "), "path_stage"),
    ("code", "crates/site_stage/src/lib.rt", re.compile(r"\.is_allowed\(|if 10000 < "), "site_stage"),
    ("code", "crates/request/src/lib.rt", re.compile(r"=> m\.is_within\("), "request"),
    ("code", "crates/periods/src/*.rt", EVERY, "periods"),
    ("specs", "crates/tables/specs/*.antt", re.compile(r":     row[23] "), "tables"),
    ("specs", "crates/refusals/specs/*.antt", re.compile(r": number_of No\.\w+ = \d+$"), "refusals"),
    ("specs", "crates/outcome/specs/*.antt", of("source_given source_completed above_rupture path_given path_completed site_given site_completed"),
     "completion"),
    ("specs", "crates/request/specs/*.antt", of("top_magnitude"), "completion"),
    ("specs", "crates/between/specs/Fixed.antt", EVERY, "periods"),
    ("second", "second/model.c", of("TABLE[23]"), None),
    ("second", "second/request.c", re.compile(r"if \((missing|outside)\(|return outside|\.number > \d|\? 850 |\.number < 90"), None),
    ("second", "second/model.c", of("thousandths has_period row_at row_below share_of predict_period"), None),
]

# More places, of which a sample takes some of each kind only.
MORE = [
    ("code", "crates/refusals/src/lib.rt", EVERY, "refusals"),
    ("code", "crates/request/src/lib.rt", of("of_rake value"), "request"),
    ("code", "crates/source_stage/src/lib.rt", of("hypocentre_tenths complete_hypocentre"), "source_stage"),
    ("code", "crates/path_stage/src/lib.rt", of("is_too_short is_too_far"), "path_stage"),
    ("code", "crates/estimate/src/*.rt", EVERY, "estimate"),
    ("code", "crates/rupture/src/*.rt", EVERY, "rupture"),
    ("code", "crates/factors/src/*.rt", EVERY, "factors"),
    ("code", "crates/terms/src/*.rt", EVERY, "terms"),
    ("code", "crates/site/src/*.rt", EVERY, "site"),
    ("code", "crates/sigmas/src/*.rt", EVERY, "sigmas"),
    ("code", "crates/short_periods/src/*.rt", EVERY, "short_periods"),
    ("code", "crates/reports/src/*.rt", EVERY, "reports"),
    ("code", "crates/tables/src/periods.rt", EVERY, "tables"),
    # The number that a row is found by. One more is the next row's: its own arm is then never reached, which is refused before the
    # proof; where no arm has one more, the proof refuses it.
    ("code", "crates/tables/src/table[23].rt", re.compile(r": +\d+ => "), "tables"),
    # How many periods and measures there are, and which is PGA, is held to the specs by the crate that goes through them.
    ("code", "crates/tables/src/lib.rt", of("PERIODS"), "periods"),
    ("code", "crates/tables/src/lib.rt", of("MEASURES PGA"), "measures"),
    ("code", "crates/reckon/src/*.rt", EVERY, "reckon"),
    ("code", "crates/text/src/*.rt", EVERY, "text"),
    ("code", "crates/numerals/src/*.rt", EVERY, "numerals"),
    ("code", "crates/fields/src/*.rt", EVERY, "fields"),
    ("code", "crates/cuts/src/*.rt", EVERY, "cuts"),
    ("code", "crates/request_lines/src/*.rt", EVERY, "request_lines"),
    # How many bytes a record has is held to the specs by the crate that goes from one to the next.
    ("code", "crates/records/src/lib.rt", of("RECORD"), "site_files"),
    ("code", "crates/records/src/*.rt", EVERY, "records"),
    ("code", "crates/list_lines/src/*.rt", EVERY, "list_lines"),
    ("code", "crates/site_files/src/*.rt", EVERY, "site_files"),
    ("code", "crates/file_streams/src/*.rt", of("BLOCK SOME"), "file_streams"),
    ("code", "crates/file_programs/src/lib.rt", of("asked_of"), "file_programs"),
    ("code", "crates/lists/src/*.rt", EVERY, "lists"),
    ("code", "crates/kept/src/*.rt", EVERY, "kept"),
    ("code", "crates/answer/src/period.rt", EVERY, "answer"),
    ("code", "crates/row_numbers/src/*.rt", EVERY, "row_numbers"),
    ("code", "crates/programs/src/lib.rt", of("asked_of"), "programs"),
    ("code", "crates/usage/src/lib.rt", of("Status"), "usage"),
    # The exact value is held to known values by `exact`; what 64-bit functions reckon is held to it by `fixed` and to code by `reckon`.
    ("specs", "crates/exact/specs/*.antt", EVERY, "fixed"),
    ("specs", "crates/fixed/specs/*.antt", EVERY, "reckon"),
    ("specs", "crates/request/specs/*.antt", of("style_of value_of"), "request"),
    # What the rules and what the 64-bit functions read in common is only held to the code.
    ("specs", "crates/rules/specs/*.antt", EVERY, "estimate"),
    ("specs", "crates/geometry/specs/*.antt", EVERY, "rupture"),
    ("specs", "crates/outcome/specs/*.antt", of("zhyp tenths_of"), "source_stage"),
    ("specs", "crates/outcome/specs/*.antt", of("too_short too_far"), "path_stage"),
    ("specs", "crates/outcome/specs/*.antt", EVERY, "completion"),
    ("specs", "crates/tables/specs/*.antt", of("periods measures"), "tables"),
    ("specs", "crates/model/specs/*.antt", of("is_short sixth_place"), "model"),
    # PGA's row is first asked for by the rock's motion.
    ("specs", "crates/tables/specs/*.antt", of("PGA"), "site"),
    ("specs", "crates/model/specs/*.antt", of("wall_distance f_hng.* deep wall_distance_fixed wall_fixed deep_fixed"), "factors"),
    ("specs", "crates/model/specs/*.antt", of("by_magnitude f_mag.* slope f_dis.* ln_distance f_flt.* f_sed.*"), "terms"),
    ("specs", "crates/model/specs/*.antt", of("c100 n100 site_[cn].* curve.* linear f_site.* rock_pga.* alpha.* E2[4-8] times"), "site"),
    ("specs", "crates/model/specs/*.antt", of("ln_af at_base.* intra.* squared_fixed cross_fixed sigma_of"), "sigmas"),
    ("specs", "crates/model/specs/*.antt", of("report"), "reports"),
    ("specs", "crates/model/specs/*.antt", of("no_row"), "prediction"),
    # Which periods are covered is held to the code; which two a period lies between, to what is reckoned there.
    ("specs", "crates/between/specs/Periods.antt", of("covered"), "periods"),
    ("specs", "crates/between/specs/Periods.antt", EVERY, "between"),
    ("specs", "crates/site/specs/*.antt", EVERY, "site"),
    # That an answer which is no refusal has the number 0 is held to the code by what C is answered.
    ("specs", "crates/refusals/specs/*.antt", of("number_in"), "one_measure"),
    ("specs", "crates/lent/specs/*.antt", EVERY, "lent"),
    ("specs", "crates/numerals/specs/*.antt", of("digit[09] digits_in digits_of largest plain_of"), "numerals"),
    ("specs", "crates/numerals/specs/*.antt", of("space minus"), "text"),
    ("specs", "crates/numerals/specs/*.antt", of("lf"), "lines"),
    ("specs", "crates/text/specs/*.antt", EVERY, "text"),
    # What text can hold in a field is held to the code by the records, how fields follow each other by the lines.
    ("specs", "crates/fields/specs/*.antt", of("held"), "records"),
    ("specs", "crates/fields/specs/*.antt", EVERY, "request_lines"),
    ("specs", "crates/cuts/specs/*.antt", EVERY, "cuts"),
    ("specs", "crates/records/specs/*.antt", EVERY, "records"),
    ("specs", "crates/list_lines/specs/*.antt", EVERY, "list_lines"),
    ("specs", "crates/site_files/specs/*.antt", EVERY, "site_files"),
    ("specs", "crates/whole_files/specs/*.antt", of("slash"), "whole_files"),
    ("specs", "crates/file_streams/specs/*.antt", EVERY, "file_streams"),
    ("specs", "crates/file_programs/specs/*.antt", of("asked_of Finished EndsAs"), "file_programs"),
    ("specs", "crates/lines/specs/*.antt", EVERY, "lines"),
    ("specs", "crates/prediction/specs/*.antt", of("rows_from rows_of spectrum_for"), "prediction"),
    ("specs", "crates/lists/specs/*.antt", EVERY, "lists"),
    ("specs", "crates/kept/specs/*.antt", EVERY, "kept"),
    ("specs", "crates/programs/specs/*.antt", of("asked_of"), "programs"),
    ("specs", "crates/usage/specs/*.antt", of("number_of EndsAs"), "usage"),
    ("second", "second/model.c", of("C N ROCK SIGMA_AF PERIOD is_short f_mag f_flt f_hng_r f_hng_m f_hng f_sed rock_pga slope intra_squared"), None),
    ("second", "second/[mr]*.h", re.compile(r": #define "), None),
    ("second", "second/main.c", re.compile(r"^(PERIOD_DIGITS|row_of|parse_period|period_before): (?!.*(for \(|digits = 0|return [01];))"), None),
    ("second", "second/request.c", of("style_of sine cosine estimate_(?!request).* hypocentre root_up across_strike fill_.* figures_of"), None),
    ("second", "second/request.c", re.compile(r"^parse_field: .*(count|digits\[)|^parse_line: .*FIELDS"), None),
    ("second", "second/request.c", re.compile(r"^(source_refusal|length_refusal|complete): (?!.*(for \(|= \{))"), None),
]

# In the tables that follow an entry has the files, the pattern that the number lies in, and why.

# One more gives the same function, since two branches join at the limit, or is no byte: these go one down.
DOWN = [
    ("crates/rules/specs/*", r"ltb v 180", "at 180 both rules give 6.745"),
    ("crates/estimate/src/*", r"if v < 180", "at 180 both rules give 6.745"),
    ("second/request.c", r"v < 180", "at 180 both rules give 6.745"),
    ("crates/model/specs/*", r"^f_flt_z: .*ltb ztor 1000", "at 1 km both branches give 1 km"),
    ("crates/model/specs/*", r"ltb m 650", "at 6.5 both branches give 1"),
    ("crates/model/specs/*", r"^f_sed\w*: .*ltb z 1000", "at 1 km both branches give 0"),
    ("crates/terms/src/*", r"^f_sed: .*if z < 1_000", "at 1 km both branches give 0"),
    ("crates/model/specs/*", r"^rock_pga\w*: .* x 1100", "from 1100 up the site term stays the same"),
    ("crates/model/specs/*", r"^is_short: .*0_250", "no period lies between 0.25 and 0.30 s"),
    ("second/model.c", r"^is_short: .*0\.25", "no period lies between 0.25 and 0.30 s"),
    ("crates/fixed/specs/*", r"ln_halved 18|ln_doubled 6", "the most halvings that a number can ask for: one more is never taken"),
    ("crates/reckon/src/*", r"if twos < 32", "at 32 both branches shift by nothing"),
    ("second/main.c", r"PERIOD_DIGITS 20", "twenty-one digits are more than 64 bits hold, which is tested too"),
    ("*", r"'9'", "10 is no byte"),
]

# Not tried: neither one more nor one less changes an answer to any request, or only by what the comparison must allow.
SAME = [
    ("crates/model/specs/*", r"(?<=x 1100 )0", "the A1100 of the rock's own site term, which its branch does not read"),
    ("crates/sigmas/src/*", r"if alpha == 0|\.max\(0\)", "what it spares gives the same"),
    ("crates/kept/src/*", r"\[0; LONGEST\]", "what fills an array before every byte is written over"),
    ("crates/text/specs/*", r"(?<=get_or s 0 )0", "the byte of an empty word: no byte that is asked for"),
    ("crates/numerals/specs/*", r"(?<=get_or s 0 )0", "the byte past an end, which is not read"),
    ("crates/lines/specs/*", r"(?<=get_or [ls] \d )0", "the byte past an end, where none is"),
    ("crates/records/specs/*", r"(?<=fields \+ k\) )0", "the byte past an end, which is not read"),
    ("crates/lists/specs/*", r"(?<=\(longest \+ 1\) )0|(?<=replicate longest )0", "what fills a place that is not read"),
    ("crates/outcome/specs/*", r"^too_far: .*leb 1", "an RRUP of 0 or 1 less a metre is 0, and so never too long"),
    ("second/model.c", r"(?<=ROCK, )0", "the A1100 of the rock's own site term, which its branch does not read"),
    ("second/model.c", r"ztor >= 20 \? 0", "no accepted ZTOR is above 15 km"),
    ("second/model.c", r"^row_at: .*k = 0", "at the first period the line to the second begins, with the same row"),
    ("second/main.c", r"(?<=digits \+ 1 : )0", "a line without a period, of which the comparison has none"),
    ("second/request.c", r"degrees > 90", "the sine is the same on both sides of 90"),
    ("second/request.c", r"r > 0", "the root is counted up again"),
    ("second/request.c", r"tenths > 0", "less than a metre, which is rounded down to 0"),
    ("second/request.c", r"(?<=tenths / 10 : )0", "a ZTOR of 1 m for one of 0, which rounding down allows"),
    ("second/request.c", r"degrees < 0", "the sine of 0 is never asked for"),
    ("second/request.c", r"r >= 1", "with W 1 at least, an RRUP of 0 or 1 is never too long"),
    ("second/request.h", r"LINE_BYTES 115", "thirteen fields have 105 bytes at most: a longer line is malformed anyhow"),
]

# The numbers of specs/ that are not tried.
PROMISE = "a promise or a bound that laws ask for: no figure is made with it"
LEFT = [
    ("*", r"Type 0|Unit \{0\}", "the level of a type: no number"),
    ("*", r"infix[lr]? \d+", "how tightly an operator binds: no number"),
    ("crates/exact/specs/*", r"_with 60", "sixty terms: from the 32nd on each is 0, so one more or less gives the same"),
    ("crates/exact/specs/*", r"^(IsRoot|Symmetric|Circle): .*", PROMISE),
    ("crates/fixed/specs/*", r"^(Halfway|Sine): .*", PROMISE),
    ("crates/geometry/specs/*", r"^RuptureInRange: .*", PROMISE),
    ("crates/model/specs/*", r"^(InRange|FineInRange|median_parts|NearMedian|Accurate|RootNear|FineNear|minus_fifteen|E20): .*", PROMISE),
    ("crates/prediction/specs/*", r"^(Small|ShownSmall|Is): .*", PROMISE),
    ("crates/between/specs/*", r"^(Gap|DrawnInRange): .*", PROMISE),
    ("crates/answer/specs/*", r"^longest_(line|period): .*", PROMISE),
    ("crates/tables/specs/*", r"^RootOf: .*", PROMISE),
    ("crates/refusals/specs/*", r"^up_to: .*", PROMISE),
    ("crates/lines/specs/*", r"^plain: .*0$", "0 for what is no number: no line that was written has it"),
    ("crates/text/specs/*", r"^field_at: .*", "past the end of a list: never read"),
    ("crates/tables/specs/*", r"^no_(coefficients|deviations): .*|get_or periods i 0", "past the end of a list: never read"),
    ("crates/tables/specs/*", r"^neg: .*", "-0: no number is printed so"),
    ("crates/model/specs/*", r"^no_(fine|shown): .*", "past the end of a list: never read"),
    ("crates/examples/specs/*", r".*", "document 01's examples: the test itself"),
    ("crates/whole_files/specs/*", r"^(longest_path|name_room): .*", PROMISE),
    ("crates/usage/specs/*", r"^EndsAs: .*≤ 1", "the bound of an exit status: programs/test and programs/test_files try which it is"),
]


def lines_of(path):
    """The lines of a file, each after the name of its definition, what is no code blanked out; and how long that name is with ': '."""
    head, name, found = HEADS[os.path.splitext(path)[1]], "", []
    with open(os.path.join(ROOT, path)) as text:
        for line in text.read().split("\n"):
            begun = head.search(line)
            name = begun[1] if begun else name
            body = NOTHING.sub(lambda m: " " * len(m[0]), line)
            found.append((f"{name}: {body}", len(name) + 2))
    return found


def named(table, path, line, start):
    """The entry of a table that a number of a line is in, if any."""
    for entry in table:
        if fnmatch(path, entry[0]) and any(m.start() <= start < m.end() for m in re.finditer(entry[1], line)):
            return entry
    return None


def files_of(pattern):
    """The files that a pattern stands for, by their names from the root."""
    return sorted(os.path.relpath(f, ROOT) for f in glob.glob(os.path.join(ROOT, pattern)))


def by_of(path, line, start):
    """By how much a number is altered in its last digit; 0 if that would show nothing."""
    if named(SAME, path, line, start):
        return 0
    return -1 if named(DOWN, path, line, start) else 1


def gather():
    """The changes of each place, a list a place; a number goes to the first place that has it."""
    taken, places = set(), []
    for kind, pattern, lines, crate in PLACES + MORE:
        here = []
        for path in files_of(pattern):
            for at, (line, offset) in enumerate(lines_of(path)):
                for m in NUMBER.finditer(line, offset) if lines.search(line) else ():
                    if (path, at, m.start()) in taken or kind == "specs" and named(LEFT, path, line, m.start()):
                        continue
                    taken.add((path, at, m.start()))
                    by = by_of(path, line, m.start())
                    here.append(Change(kind, path, line[:offset - 2], at, m.start() - offset, m.end() - offset, by, crate))
        places.append(here)
    return places


def left(places):
    """The numbers of specs/ that are not tried, by reason; stops at one that neither a place nor LEFT has."""
    tried = {(c.path, c.at, c.start): c.by for here in places for c in here}
    why, lost = collections.defaultdict(list), []
    for path in files_of("crates/*/specs/*.antt"):
        for at, (line, offset) in enumerate(lines_of(path)):
            for m in NUMBER.finditer(line, offset):
                entry = named(LEFT, path, line, m.start())
                if not entry and (path, at, m.start() - offset) not in tried:
                    lost.append(f"{path}:{at + 1}: {m[0]} is neither in a place nor in LEFT: {line[offset:].strip()}")
                elif entry or not tried[path, at, m.start() - offset]:
                    why[(entry or named(SAME, path, line, m.start()))[2]].append(f"{path}:{at + 1}")
    if lost:
        sys.exit("\n".join(lost))
    return why


def altered(number, by):
    """The number with so much more in its last digit, its form kept."""
    digits = re.sub(r"\D", "", number)
    more = str(int(digits) + by)
    if "." not in number and number[0] != "0" and len(more) < len(digits):
        return more
    more = more.rjust(len(digits), "0")
    out, k = [], len(more) - 1
    for c in reversed(number):
        out.append(more[k] if c.isdigit() else c)
        k -= c.isdigit()
    out.append(more[: k + 1][::-1])
    return "".join(reversed("".join(out)))


class Copy:
    """A copy of the repository in which one number at a time is altered."""

    def __init__(self):
        self.root = tempfile.mkdtemp()
        for name in ("crates", "second", "vectors", "crates.txt", "target"):
            source = os.path.join(ROOT, name)
            if os.path.isdir(source):
                shutil.copytree(source, os.path.join(self.root, name), symlinks=True)
            elif os.path.exists(source):
                shutil.copy(source, self.root)

    def passes(self, *words, folder="", seconds=None):
        """Whether a command ends well, and in time."""
        try:
            return subprocess.run(words, cwd=os.path.join(self.root, folder), capture_output=True, timeout=seconds).returncode == 0
        except subprocess.TimeoutExpired:
            return False

    def step(self, crate):
        """The gate's step for a place: whether it passes."""
        if crate:
            return self.passes("rt", "check", folder=os.path.join("crates", crate))
        compare = ("second/compare.py", "1", "6000", "--rounded")
        # the completed requests are compared first, with rows at periods, which is quick
        quick = (*compare, "--no-predict", "--periods", "target/c/periods")
        steps = [("second/tables.py",), quick, (*compare, "--rows", "target/c/rows")]
        return all(self.passes("python3", *words, seconds=SECONDS) for words in steps)

    def try_one(self, change):
        """Alters a number, takes the step, puts the number back: whether the alteration passed."""
        full = os.path.join(self.root, change.path)
        with open(full) as text:
            before = text.read()
        lines = before.split("\n")
        line = lines[change.at]
        lines[change.at] = line[:change.start] + altered(line[change.start:change.end], change.by) + line[change.end:]
        with open(full, "w") as text:
            text.write("\n".join(lines))
        try:
            return self.step(change.crate)
        finally:
            with open(full, "w") as text:
                text.write(before)


def tell(change):
    """A change in words."""
    with open(os.path.join(ROOT, change.path)) as text:
        number = text.read().split("\n")[change.at][change.start:change.end]
    return f"{change.kind}: {change.path}:{change.at + 1}: {number} to {altered(number, change.by)}, {change.crate or 'the comparison'}"


def tell_left(why):
    """The numbers of specs/ that are not tried, by reason."""
    for reason, places in sorted(why.items(), key=lambda item: -len(item[1])):
        print(f"{len(places)}: {reason}")
        for path, found in sorted(collections.Counter(places).items()):
            print(f"    {path}" + (f", {found}" if found > 1 else ""))
    print(f"{sum(map(len, why.values()))} numbers of specs/ are not tried")


def sampled(places, count, seed):
    """So many of each of PLACES and of each kind of MORE, at random."""
    chosen, more = random.Random(seed), places[len(PLACES):]
    groups = places[:len(PLACES)] + [[c for here in more for c in here if c.kind == kind] for kind in ("code", "specs", "second")]
    return [c for group in groups for c in chosen.sample(group, min(count, len(group)))]


def summary(changes, passed):
    """Prints the counts by kind and by file, and what passed."""
    for kind in ("code", "specs", "second"):
        tried = [c for c in changes if c.kind == kind]
        if tried:
            print(f"{kind}: {len(tried)} numbers altered, {len(tried) - sum(c in passed for c in tried)} refused or noticed")
        for path in sorted({c.path for c in tried}):
            here = [c for c in tried if c.path == path]
            print(f"    {path}: {len(here)}, {len(here) - sum(c in passed for c in here)}")
    for change in passed:
        print("PASSED:", tell(change))


def sweep(changes, jobs):
    """Tries the changes, each in a copy that no other uses; gives those that passed."""
    copies = [Copy() for _ in range(jobs)]
    free, lock, begun, passed = list(copies), threading.Lock(), time.time(), []
    for crate in sorted({c.crate or "" for c in changes}):
        for copy in copies:
            if not copy.step(crate or None):
                sys.exit(f"the step of {crate or 'the second program'} fails before anything is altered")

    def one(change):
        with lock:
            copy = free.pop()
        try:
            return change, copy.try_one(change)
        finally:
            with lock:
                free.append(copy)

    with concurrent.futures.ThreadPoolExecutor(jobs) as pool:
        for done, (change, slipped) in enumerate(pool.map(one, changes), 1):
            if slipped:
                passed.append(change)
                print("PASSED:", tell(change), file=sys.stderr, flush=True)
            if sys.stderr.isatty() or done % 10 == 0 or done == len(changes):
                end = "\r" if sys.stderr.isatty() else "\n"
                words = f"{done} of {len(changes)} tried, {len(passed)} passed, {time.time() - begun:.0f} s"
                print(words, end=end, file=sys.stderr, flush=True)
    for copy in copies:
        shutil.rmtree(copy.root)
    return passed


def main():
    """The sweep by its options."""
    options = argparse.ArgumentParser(description=__doc__.split("\n")[0])
    options.add_argument("--sample", type=int, help="so many of each place of PLACES and of each kind of MORE, at random; all without it")
    options.add_argument("--seed", type=int, default=1)
    options.add_argument("--jobs", type=int, default=2)
    options.add_argument("--places", default="code,specs,second")
    options.add_argument("--only", default="", help="only files that match this regular expression, or FILE:DEFINITION that do")
    options.add_argument("--list", action="store_true", help="only name the alterations")
    options.add_argument("--left", action="store_true", help="only name the numbers of specs/ that are not tried, and why")
    given = options.parse_args()
    places = gather()
    why = left(places)
    if given.left:
        return tell_left(why)
    kinds = given.places.split(",")
    places = [[c for c in here if c.by and c.kind in kinds and re.search(given.only, f"{c.path}:{c.name}")] for here in places]
    changes = sampled(places, given.sample, given.seed) if given.sample else [c for here in places for c in here]
    if given.list:
        return print("\n".join(map(tell, changes)))
    passed = sweep(changes, given.jobs)
    summary(changes, passed)
    sys.exit(1 if passed else 0)


if __name__ == "__main__":
    main()
