#!/usr/bin/env python3
"""Sends lists and files through the proved `pack` and `unpack`, through the second program's and through the definition of
second/files.py, and compares every answer, byte for byte.

    python3 second/compare_files.py SEED COUNT [--programs FOLDER | --pack COMMAND --unpack COMMAND] [--second PATH]

FOLDER holds the proved programs: target/bin where none is given. COMMAND is a path with its arguments; the second program is compiled unless
its path is given. Exit 1 at the first difference, which is shown:

- a list: all three must make the same file of it, or refuse it with the same number. Both programs must make the list of that file again;
- a file, as it stands and altered: all three must make the same list of it, or refuse it with the same number. Both programs must make the
  file of that list again;
- a program must end with status 0 and say nothing, or with status 1 and say `no` and the number on standard error. Then its target must be
  as it was, there or not; and always its source, and no other file may be left in the folder. What the system denies must be one line on
  standard error, no refusal, and status 1.

First come COUNT random lists of up to 40 lines, whatever the ranges, some of them malformed in a line or at the end, and altered files of
each that is well-formed. The rest is the same for every seed: each odd word in each field, each number and origin at an edge in each
field, each head that is too short; and 65535 lines and what lies beside them.
"""
import argparse
import collections
import os
import random
import re
import struct
import subprocess
import sys

from files import BLANK, FIELDS, HEAD, LINE, MARK, MOST, RECORD, SIGNED, VERSION, file_of, list_of
from programs import ROOT, build, command, listed, scratch
from random_requests import WORDS, drawn, inferred, line_of, long_line, plain, refused, refused_lists, spoiled

NO = re.compile(rb"no ([1-9][0-9]*)\n\Z")
OLD = b"what stood here before\n"
PLAIN = b"650 0 760 - 10000 - 3000 4000 30 - - - 2000"
MOST_LINES = 40
# What a field of a line may be, whatever the range; the signed ones in rake and azimuth alone.
EDGES = [b"-", b"0", b"~0", b"1", b"~1", b"999999", b"~999999", b"99999", b"100000"]
SIGNED_EDGES = [b"-999999", b"~-999999", b"-1", b"~-1", b"-100000"]
# Numbers and origins of a record, on both sides of what text can hold.
NUMBERS = [BLANK, BLANK + 1, -1000000, -999999, -1, 0, 1, 999999, 1000000, 16777216, 2**31 - 1]
ORIGINS = [0, 1, 2, 3, 4, 255]
ALTERED = 3
SHOWN = 400


class Difference(Exception):
    """What two of the three say otherwise, or what a program may not do."""


def brief(said):
    """Bytes or a refusal, as far as they can be shown."""
    text = repr(said)
    return text if len(text) <= SHOWN else f"{text[:SHOWN]}.. ({len(said)} bytes)"


def apart(said, due):
    """Two answers, from a little before the first byte in which they differ if both are bytes."""
    at = 0
    if isinstance(said, bytes) and isinstance(due, bytes):
        at = max(0, len(os.path.commonprefix([said, due])) - 20)
        said, due = said[at:], due[at:]
    return f"says {brief(said)}\nnot  {brief(due)}" + (f"\nfrom byte {at} on" if at else "")


def entries(place):
    """The files of a folder with their bytes."""
    found = {}
    for name in os.listdir(place):
        with open(os.path.join(place, name), "rb") as file:
            found[name] = file.read()
    return found


class Program:
    """A program between two paths, in a folder of its own."""

    def __init__(self, name, words):
        self.name, self.words, self.place = name, words, scratch()
        self.runs = 0

    def run(self, source, target):
        """Its status and what it says on standard error; on standard output it may say nothing."""
        done = subprocess.run([*self.words, os.path.join(self.place, source), os.path.join(self.place, target)], capture_output=True)
        if done.stdout:
            raise Difference(f"{self.name}: on standard output: {brief(done.stdout)}")
        return done.returncode, done.stderr

    def stand(self, **files):
        """Puts these files, and no other, in the folder; gives them."""
        for name in os.listdir(self.place):
            os.remove(os.path.join(self.place, name))
        for name, data in files.items():
            with open(os.path.join(self.place, name), "wb") as file:
                file.write(data)
        return files

    def __call__(self, data):
        """What it makes of some bytes, or the refusal's number; every other time the target is there before."""
        self.runs += 1
        before = self.stand(source=data, **({"target": OLD} if self.runs % 2 else {}))
        status, said = self.run("source", "target")
        after, no = entries(self.place), NO.match(said)
        if status == 0 and not said and after.keys() == {"source", "target"} and after["source"] == data:
            return after["target"]
        if status == 1 and no and after == before:
            return int(no[1])
        left = {name: brief(data) for name, data in after.items()}
        raise Difference(f"{self.name}, for {brief(data)}: status {status}, {said!r}, and in the folder: {left}")

    def denied(self, data):
        """Has the system deny it a source and a target; `data` are bytes that it takes."""
        for source, target in (("none", "target"), (".", "target"), ("source", "none/target")):
            before = self.stand(source=data, target=OLD)
            status, said = self.run(source, target)
            if status != 1 or said.count(b"\n") != 1 or not said.endswith(b"\n") or NO.match(said) or entries(self.place) != before:
                raise Difference(f"{self.name} {source} {target}: status {status}, {said!r}")


class Comparison:
    """One run: the programs, and how often each answer came."""

    def __init__(self, packs, unpacks):
        self.packs, self.unpacks = packs, unpacks
        self.lists, self.files = collections.Counter(), collections.Counter()

    @staticmethod
    def same(data, due, programs):
        """Every program must make that of some bytes."""
        for program in programs:
            said = program(data)
            if said != due:
                raise Difference(f"{program.name}, for {brief(data)}\n{apart(said, due)}")

    def list(self, text):
        """A list to its file and back; gives the file, or the refusal."""
        made = file_of(text)
        self.same(text, made, self.packs)
        if isinstance(made, bytes):
            self.same(made, text, self.unpacks)
            self.files["read"] += 1
        self.lists["written" if isinstance(made, bytes) else made] += 1
        return made

    def file(self, data):
        """A file to its list and back."""
        made = list_of(data)
        self.same(data, made, self.unpacks)
        if isinstance(made, bytes):
            self.same(made, data, self.packs)
            self.lists["written"] += 1
        self.files["read" if isinstance(made, bytes) else made] += 1


def with_head(file, mark=MARK, version=VERSION, count=None):
    """A file with another head; its own count if none is given."""
    return HEAD.pack(mark, version, HEAD.unpack_from(file)[2] if count is None else count) + file[HEAD.size:]


def with_field(file, record, k, number=None, origin=None):
    """A file with another number or origin in a field of a record."""
    start, changed = HEAD.size + RECORD.size * record, bytearray(file)
    if number is not None:
        struct.pack_into(">i", changed, start + 4 * k, number)
    if origin is not None:
        changed[start + 4 * FIELDS + k] = origin
    return bytes(changed)


def altered(some, file):
    """A file with something changed; now and then it is one that is read."""
    if len(file) < HEAD.size:
        return file + bytes([some.randrange(256)])
    at, count = some.randrange(len(file)), (len(file) - HEAD.size) // RECORD.size
    record, k = some.randrange(count) if count else None, some.randrange(FIELDS)
    number, origin = some.choice([*NUMBERS, some.randint(BLANK, 2**31 - 1)]), some.choice([*ORIGINS, some.randrange(256)])
    anywhere = [
        lambda: file[:at] + bytes([some.randrange(256)]) + file[at + 1:],
        lambda: file[:at] + bytes([file[at] ^ 1 << some.randrange(8)]) + file[at + 1:],
        lambda: file[:some.choice([at, some.randrange(HEAD.size + 1)])],
        lambda: file[:-RECORD.size] if count else file[:-1],
        lambda: file + bytes(some.choice([0, 3, 255]) for _ in range(some.choice([1, 2, 13, RECORD.size - 1, RECORD.size, RECORD.size + 1]))),
        lambda: file + file[HEAD.size:HEAD.size + RECORD.size],
        lambda: with_head(file, count=(count + some.choice([-1, 1, 256, 32768])) % 65536),
        lambda: with_head(file, count=some.choice([0, count // 2, some.randrange(65536), MOST])),
        lambda: with_head(file, version=some.choice([0, 2, 3, 256, 257])),
        lambda: with_head(file, mark=some.choice([b"gmq", b"GMR", b"QMG", b"\0GM"])),
        lambda: altered(some, altered(some, file)),
    ]
    fields = [
        lambda: with_field(file, record, k, number),
        lambda: with_field(file, record, k, origin=origin),
        lambda: with_field(file, record, k, number, origin),
        lambda: with_field(file, record, k, some.randint(0, 999999), some.choice([0, 1])),
        lambda: with_field(file, record, k, BLANK, 3),
        lambda: with_head(file[:-RECORD.size], count=count - 1),
        lambda: with_head(file + file[-RECORD.size:], count=count + 1),
    ]
    return some.choice(anywhere + fields if count else anywhere)()


def edge_line(some):
    """A line with a figure at an edge in each field, whatever its range."""
    return b" ".join(some.choice(EDGES + SIGNED_EDGES if k in SIGNED else EDGES) for k in range(FIELDS))


def good_line(some):
    """A well-formed line of some kind."""
    return some.choice([
        lambda: line_of(inferred(some, plain(some, some.randrange(256)))),
        lambda: line_of(inferred(some, refused(some, some.randrange(256)))),
        lambda: edge_line(some),
        lambda: edge_line(some),
        lambda: long_line(some, some.randrange(92, 106)),
    ])()


def random_list(some):
    """A list: most often well-formed; else with one line or more that is not, with CR LF, or with a last line without its LF."""
    lines = [good_line(some) for _ in range(some.choice([0, 1, 2, 3, some.randint(0, MOST_LINES), some.randint(0, MOST_LINES)]))]
    at = some.randint(0, len(lines))
    return some.choices([
        lambda: listed(lines),
        lambda: listed(lines[:at] + [spoiled(some, good_line(some))] + lines[at:]),
        lambda: listed(drawn(some, k) for k in range(len(lines))),
        lambda: listed(lines) + some.choice([b"6", b"-", b" ", b"\0", b"\r", good_line(some)]),
        lambda: listed(lines).replace(b"\n", b"\r\n", some.choice([1, -1])),
        lambda: listed(lines[:at] + [b""] + lines[at:]),
    ], [14, 3, 1, 1, 1, 1])[0]()


def fixed_lists():
    """The lists that are the same for every seed."""
    yield b""
    yield from refused_lists()
    words = PLAIN.split(b" ")
    for k in range(FIELDS):
        for word in WORDS:
            yield b" ".join(words[:k] + [word.encode()] + words[k + 1:]) + b"\n"


def fixed_files():
    """The files that are the same for every seed: heads, counts, and each field at its edges."""
    file = file_of(listed([PLAIN]))
    for whole in (file, with_head(file, version=2), with_head(file, version=256), with_head(file, mark=b"GMP")):
        for size in (*range(HEAD.size + 1), len(file) - 1, len(file)):
            yield whole[:size]
    for extra in (b"\0", b"\n", file, RECORD.size * b"\0", file[HEAD.size:]):
        yield file + extra
    for count in (0, 2, 256, 257, MOST):
        yield with_head(file, count=count)
        # a field too, which comes after
        yield with_field(with_head(file, count=count), 0, 0, origin=2)
    for k in range(FIELDS):
        for number in NUMBERS:
            for origin in (0, 1, 3):
                yield with_field(file, 0, k, number, origin)
        for origin in ORIGINS:
            yield with_field(file, 0, k, origin=origin)


def compare_long(comparison, some):
    """The most lines that a file has, and what lies beside it."""
    good = [line + b"\n" for line in (good_line(some) for _ in range(1000)) if LINE.fullmatch(line)]
    most = b"".join(good[k % len(good)] for k in range(MOST))
    file = comparison.list(most)
    for text in (most + good[0], most + good[0] + b"x\n", b"x\n" + most + good[0], most + PLAIN, most + good[0] + PLAIN, most + b"\n"):
        comparison.list(text)
    for changed in (file + file[-RECORD.size:], with_head(file + file[-RECORD.size:], count=0), file[:-RECORD.size], file[:-1],
                    with_head(file, count=MOST - 1), with_field(file, MOST - 1, FIELDS - 1, origin=2)):
        comparison.file(changed)


def compare(comparison, some, count):
    """All lists and files of a run."""
    for _ in range(count):
        file = comparison.list(random_list(some))
        if isinstance(file, bytes):
            for _ in range(ALTERED):
                comparison.file(altered(some, file))
    for file in fixed_files():
        comparison.file(file)
    for text in fixed_lists():
        comparison.list(text)
    compare_long(comparison, some)
    for pack in comparison.packs:
        pack.denied(listed([PLAIN]))
    for unpack in comparison.unpacks:
        unpack.denied(file_of(listed([PLAIN])))


def told(answers):
    """How often each answer came."""
    return ", ".join(f"{n} {name}" if isinstance(name, str) else f"{n} refused by {name}" for name, n in sorted(answers.items(), key=str))


def main():
    """One comparison, from its options to its exit status."""
    options = argparse.ArgumentParser(description=__doc__.split("\n")[0])
    options.add_argument("seed", type=int)
    options.add_argument("count", type=int)
    options.add_argument("--programs", default=os.path.join(ROOT, "target/bin"), help="the folder of pack and unpack")
    options.add_argument("--pack", help="another pack")
    options.add_argument("--unpack", help="another unpack")
    options.add_argument("--second")
    given = options.parse_args()
    second = given.second or build()
    pack, unpack = (command(words) if words else [os.path.join(given.programs, name)]
                    for name, words in (("pack", given.pack), ("unpack", given.unpack)))
    comparison = Comparison([Program("pack", pack), Program("second pack", [second, "pack"])],
                            [Program("unpack", unpack), Program("second unpack", [second, "unpack"])])
    try:
        compare(comparison, random.Random(given.seed), given.count)
    except Difference as difference:
        print(f"FAILED {difference}")
        sys.exit(1)
    print(f"lists: {told(comparison.lists)}")
    print(f"files: {told(comparison.files)}")
    print(f"{sum(comparison.lists.values())} lists and {sum(comparison.files.values())} files compared")


if __name__ == "__main__":
    main()
