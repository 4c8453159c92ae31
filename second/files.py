#!/usr/bin/env python3
"""The file for site lists by its definition (document 02, K8), for the tests: `file_of` a list and `list_of` a file give bytes, or the
number of the refusal. And the check of what c/files.c prints:

    target/c/files changes > target/c/changes
    python3 second/files.py --changes target/c/changes

Each line of that is a changed file and what xanhupive_unpack said to it; each is held to `list_of`, and all must be there.
"""
import functools
import itertools
import re
import struct
import sys

MARK, VERSION, MOST = b"GMQ", 1, 65535
HEAD, RECORD = struct.Struct(">3sHH"), struct.Struct(">13i13B")
MARKED = len(MARK) + 2
FIELDS, BLANK = 13, -(2**31)
MEASURED, INFERRED, _, NO_NUMBER = range(4)
# Rake and azimuth, which alone may have a sign.
SIGNED = {1, 8}
# A line of the form has 105 bytes at most, so that the longest line allowed need not be tested.
FIGURE = {k: rb"-|~?(?:0|%s[1-9][0-9]{0,5})" % (b"-?" if k in SIGNED else b"") for k in range(FIELDS)}
LINE = re.compile(b" ".join(b"(?:%s)" % FIGURE[k] for k in range(FIELDS)))
MALFORMED, NO_ROOM, NO_MARK, NO_LENGTH, NO_FIELD = 14, 16, 19, 20, 21


def fitting(made, room):
    """What was made, or 16 if there is less room."""
    return made if room is None or len(made) <= room else NO_ROOM


@functools.lru_cache(maxsize=4096)
def record_of(line):
    """The record of a well-formed line."""
    words = line.split(b" ")
    numbers = (BLANK if word == b"-" else int(word.lstrip(b"~")) for word in words)
    origins = (NO_NUMBER if word == b"-" else INFERRED if word.startswith(b"~") else MEASURED for word in words)
    return RECORD.pack(*numbers, *origins)


def file_of(text, room=None):
    """The file of a list: 14, 20 and 16 in this order."""
    *lines, unfinished = text.split(b"\n")
    if unfinished or not all(map(LINE.fullmatch, lines)):
        return MALFORMED
    if len(lines) > MOST:
        return NO_LENGTH
    return fitting(HEAD.pack(MARK, VERSION, len(lines)) + b"".join(map(record_of, lines)), room)


def holds(k, number, origin):
    """Whether a field's number and origin are those of a text."""
    if number == BLANK or origin == NO_NUMBER:
        return number == BLANK and origin == NO_NUMBER
    return origin in (MEASURED, INFERRED) and (-999999 if k in SIGNED else 0) <= number <= 999999


def word_of(number, origin):
    """A field's text."""
    return b"-" if origin == NO_NUMBER else b"~%d" % number if origin == INFERRED else b"%d" % number


@functools.lru_cache(maxsize=4096)
def line_of(record):
    """A record's line with its LF, None if a field is not one of a text."""
    values = RECORD.unpack(record)
    fields = list(zip(values[:FIELDS], values[FIELDS:]))
    if not all(holds(k, *field) for k, field in enumerate(fields)):
        return None
    return b" ".join(word_of(*field) for field in fields) + b"\n"


def list_of(file, room=None):
    """The list of a file: 19, 20, 21 and 16 in this order."""
    if file[:MARKED] != HEAD.pack(MARK, VERSION, 0)[:MARKED]:
        return NO_MARK
    if len(file) < HEAD.size or len(file) != HEAD.size + RECORD.size * HEAD.unpack_from(file)[2]:
        return NO_LENGTH
    lines = [line_of(file[at:at + RECORD.size]) for at in range(HEAD.size, len(file), RECORD.size)]
    return NO_FIELD if None in lines else fitting(b"".join(lines), room)


def changes(file):
    """Each change that c/files.c makes, by its kind, place and value, and the file that it gives."""
    for at in range(len(file)):
        for value in range(256):
            if value != file[at]:
                yield ("byte", at, value), file[:at] + bytes([value]) + file[at + 1:]
    for at in range(len(file) - RECORD.size, len(file) - FIELDS, 4):
        for number in (BLANK, BLANK + 1, -1000000, -999999, -1, 999999, 1000000):
            yield ("number", at, number), file[:at] + struct.pack(">i", number) + file[at + 4:]
    for size in range(len(file)):
        yield ("cut", size, 0), file[:size]
    for more in (1, 2, RECORD.size - 1, RECORD.size, RECORD.size + 1, 2 * RECORD.size):
        for value in (0, 3, 255):
            yield ("longer", more, value), file + more * bytes([value])
    for value in range(256):
        counted = HEAD.pack(MARK, VERSION, HEAD.unpack_from(file)[2] + 1)
        yield ("record", len(file), value), counted + file[HEAD.size:] + RECORD.size * bytes([value])


def shown(change, said):
    """The line that a change must have: its kind, place and value, what is said to it, and a list's bytes behind 0."""
    told = b"0 " + said.hex().encode() if isinstance(said, bytes) else b"%d" % said
    return b"%s %d %d %s" % (change[0].encode(), *change[1:], told)


def check_changes(path):
    """Holds what c/files.c printed to the definition: first the list and its file, then a line for each change."""
    with open(path, "rb") as printed:
        said = printed.read()
    begin = re.match(b"list ((?:[0-9a-f]{2})*)\nfile ((?:[0-9a-f]{2})*)\n", said)
    text, file = (bytes.fromhex(told.decode()) for told in begin.groups()) if begin else (b"", b"")
    if text.count(b"\n") != 3 or file_of(text) != file:
        sys.exit(f"FAILED the file of {text!r} is {file!r}\n{said[:400]!r}")
    due = [shown(change, list_of(made)) for change, made in changes(file)]
    for got, expected in itertools.zip_longest(said[begin.end():].split(b"\n"), due + [b""]):
        if got != expected:
            sys.exit(f"FAILED {got!r}\nmust be {expected!r}")
    read = sum(line.split(b" ")[3] == b"0" for line in due)
    print(f"{len(due)} changed files compared, {read} of them read")


if __name__ == "__main__":
    if len(sys.argv) != 3 or sys.argv[1] != "--changes":
        sys.exit("python3 second/files.py --changes OUTPUT")
    check_changes(sys.argv[2])
