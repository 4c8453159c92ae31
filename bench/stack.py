#!/usr/bin/env python3
"""Bounds the stack of each function that a static library exports, from its machine code (x86-64).

    bench/stack.py ARCHIVE

prints each function's name and how many bytes below its caller's stack pointer it uses at most, the return address counted: those of
the deepest way through it and the functions that it calls, whether or not some line takes that way. Of memcpy and memset, which are the C
library's, the return address alone is counted.

The code does not tell how often a function calls itself, nor what an exported function never asks of one that it shares with others:
both stand below, taken from the source, with the reasons, and c/stack measures that nothing goes deeper. Any other function that leads
back to itself, a call of what is not named, and a stack pointer moved in a way that is not known here are errors, with exit status 1.
"""
import re
import sys

from size import PARTS, fail, told

# How often each function that calls itself stands on the stack at once, at most.
LEVELS = {
    # The root of a number, of its quarter, of that one's: of a number of 64 bits the thirty-third is that of 0.
    "reckon::root::whole_root": 33,
    # A term of the sine's series each, seven of them, and the end.
    "reckon::sine::alternate": 8,
    # A digit each: no number of 64 bits has more than twenty.
    "numerals::put_number": 20,
}
# Where an exported function goes less far than the code of those it calls: how often such a one stands on the stack then, or 0 for a
# crate that it does not come to. The sheets are those of answer_line, which all of them share.
FEWER = {
    # The completing sheet has no row worked out, and none of its figures has more than six digits.
    "xanhupive_complete_line": {**dict.fromkeys(PARTS["model"].split(), 0), "numerals::put_number": 6},
    # The predicting sheet has no period worked out.
    "xanhupive_predict_line": {"one_period": 0, "periods": 0},
    # One of those two sheets, whatever number the caller gives.
    "xanhupive_take_part": {"one_period": 0, "periods": 0},
    # One of those two sheets likewise.
    "xanhupive_record_answer": {"one_period": 0, "periods": 0},
    # The one number that it writes is 14.
    "xanhupive_close": {"numerals::put_number": 2},
}
# The functions of the C library that may be called.
OUTSIDE = {"memcpy", "memset"}
# By how many bytes a push or a call moves the stack pointer.
WORD = 8
# Deeper than this only a loop that pushes without end can be.
TOO_DEEP = 1 << 20

# What objdump writes: where a function begins, an instruction, and the symbol that the linker puts into the one before.
FUNCTION = re.compile(r"[0-9a-f]+ <(.+)>:")
INSTRUCTION = re.compile(r" *([0-9a-f]+):\t(?:(?:bnd|notrack|lock|rep[nz]*|data16|cs) +)*(\S+) *([^#]*?) *(?:#.*)?")
RELOCATION = re.compile(r"\s+[0-9a-f]+: R_X86_64_\S+\s+(.+)")
# The start of a function, by such a symbol and in the function itself.
SYMBOL = re.compile(r"(?:\.text\.)?([^-+]+)-0x4")
START = re.compile(r"0 <([^+]+)>")
# What sets the stack pointer, the frame pointer, or r11: a large frame is touched page by page up to where that points.
COPIED = re.compile(r"mov %(rsp|rbp),%(rsp|rbp|r11)")
BESIDE = re.compile(r"lea (-?0x[0-9a-f]+)\(%(rsp|rbp)\),%(rsp|r11)")
CHANGED = re.compile(r"(sub|add|and) \$(0x[0-9a-f]+),%(rsp|r11)")
PROBED = "cmp %r11,%rsp"
# What stands between two places that are jumped to, so that the second is aligned.
FILLING = ("nop", "xchg %ax,%ax", "int3")
# Bytes below the stack pointer, which a function that calls none need not move, or below the frame pointer.
BELOW = re.compile(r"-(0x[0-9a-f]+)\(%(rsp|rbp)")


class Instruction:
    """An instruction: where it stands, its text, its operands, and the symbol that the linker puts into it."""

    def __init__(self, at, name, operands):
        self.at, self.operands, self.symbol = at, operands, None
        self.text = f"{name} {operands}".strip()

    def callee(self):
        """The function to which it goes, by a call or a jump."""
        found = SYMBOL.fullmatch(self.symbol) if self.symbol else START.fullmatch(self.operands)
        if not found:
            fail(f"{self.text} {self.symbol or ''}: no function is named")
        return found[1]


class Function:
    """A function's way through its instructions: the deepest place, and each call with the depth there. A depth is counted from the
    caller's stack pointer, so that the return address makes the first eight bytes."""

    def __init__(self, name):
        self.name, self.code = name, []
        self.deepest, self.calls = WORD, []
        # The greatest depth before each instruction, by its place in the code, and the depths to which the registers point.
        self.depths, self.points = {}, {}

    def follow(self):
        """Goes every way. A jump by a table of addresses may lead to whatever nothing else leads to; where that is nothing, there is no
        table, and it calls what is not named."""
        self.go(0, WORD)
        jumps = [self.depths[k] for k, here in enumerate(self.code) if k in self.depths and here.text.startswith("jmp *")]
        others = [k for k, here in enumerate(self.code) if k not in self.depths and not here.text.startswith(FILLING)]
        if jumps and not others:
            fail(f"{self.name} jumps to a function that is not named")
        for k in others if jumps else []:
            self.go(k, max(jumps))

    def go(self, k, depth):
        """Goes on from an instruction, as far as it was not reached as deep before."""
        left = [(k, depth)]
        while left:
            k, depth = left.pop()
            if k < len(self.code) and depth > self.depths.get(k, 0):
                self.depths[k] = depth
                left += self.after(k, depth)

    def after(self, k, depth):
        """The instructions that one leads to, and the depth there."""
        here = self.code[k]
        self.points["rsp"] = depth
        for below, register in BELOW.findall(here.operands):
            if register in self.points:
                self.reach(self.points[register] + int(below, 16))
        if here.text.startswith("call"):
            self.calls.append((depth, here.callee()))
            return [(k + 1, depth)]
        if here.text.startswith("j"):
            return self.jumped(k, depth)
        if here.text.startswith(("ret", "ud2", "hlt")):
            return []
        self.move(here.text)
        self.reach(self.points["rsp"])
        return [(k + 1, self.points["rsp"])]

    def reach(self, depth):
        """Notes a depth."""
        self.deepest = max(self.deepest, depth)
        if depth > TOO_DEEP:
            fail(f"{self.name}: a loop that pushes, or a frame of {depth} bytes")

    def jumped(self, k, depth):
        """Where a jump leads: within the function, by a table, or to another's start, where the return address stands already. One back
        to a page of a large frame that is not touched yet leads no deeper than its end, which is where it goes on."""
        here = self.code[k]
        on = [] if here.text.startswith("jmp") else [(k + 1, depth)]
        if here.operands.startswith("*") or self.code[k - 1].text == PROBED:
            return on
        if here.symbol:
            self.calls.append((depth - WORD, here.callee()))
            return on
        to = int(here.operands.split()[0], 16)
        there = [(k, depth) for k, other in enumerate(self.code) if other.at == to]
        return on + there if there else fail(f"{self.name}: {here.text}: out of the function")

    def move(self, text):
        """Moves what an instruction moves: a depth grows where the address falls."""
        points = self.points
        if text.startswith("push"):
            points["rsp"] += WORD
        elif text.startswith("pop"):
            points["rsp"] -= WORD
        elif text.startswith("leave"):
            points["rsp"] = points["rbp"] - WORD
        elif text == PROBED:
            points["rsp"] = points["r11"]
        elif (found := COPIED.fullmatch(text)) and found[1] in points:
            points[found[2]] = points[found[1]]
        elif found and found[2] != "rsp":
            # a number is copied, and no pointer into the stack
            points.pop(found[2], None)
        elif (found := BESIDE.fullmatch(text)) and found[2] in points:
            points[found[3]] = points[found[2]] - int(found[1], 16)
        elif found := CHANGED.fullmatch(text):
            points[found[3]] = changed(points.get(found[3], 0), found[1], int(found[2], 16))
        elif text.endswith(",%rsp") and not text.startswith(("cmp", "test")):
            fail(f"{self.name}: {text}: the stack pointer moved in a way that is not known")


def changed(depth, name, number):
    """The depth after a number of 64 bits is taken from the pointer, put to it, or cuts its lowest bits off, all of which may be set."""
    signed = number - (1 << 64) if number >> 63 else number
    return depth + {"sub": signed, "add": -signed, "and": -signed - 1}[name]


def functions_of(archive):
    """The functions of an archive by their names."""
    functions, code = {}, []
    for line in told("objdump", "-d", "-r", "--no-show-raw-insn", archive):
        if found := FUNCTION.fullmatch(line):
            if found[1] in functions:
                fail(f"two functions of the name {found[1]}")
            functions[found[1]] = Function(found[1])
            code = functions[found[1]].code
        elif found := RELOCATION.fullmatch(line):
            code[-1].symbol = found[1]
        elif found := INSTRUCTION.fullmatch(line):
            code.append(Instruction(int(found[1], 16), found[2], found[3]))
    for function in functions.values():
        function.follow()
    return functions


def bound(functions, name, levels, way=()):
    """How deep a function goes with all that it calls, from the functions on the way to it."""
    if name in OUTSIDE:
        return WORD
    if levels.get(name.split("::")[0]) == 0:
        return 0
    if name not in functions or name in way:
        fail(f"{' calls '.join([*way, name])}: {'which leads back' if name in way else 'which is not there'}")
    function = functions[name]
    inner = [depth + bound(functions, callee, levels, (*way, name)) for depth, callee in function.calls if callee != name]
    again = [depth for depth, callee in function.calls if callee == name]
    if again and name not in levels:
        fail(f"{name} calls itself, and nothing says how often")
    return max([function.deepest, *inner]) + (max(again) * (levels[name] - 1) if again else 0)


def main():
    """Prints the bounds."""
    if len(sys.argv) != 2:
        print("bench/stack.py ARCHIVE", file=sys.stderr)
        return 2
    functions = functions_of(sys.argv[1])
    for line in told("nm", "-g", "--defined-only", sys.argv[1]):
        _, kind, name = line.split() if line.count(" ") == 2 else (None, None, None)
        if kind == "T":
            print(f"{name:24}{bound(functions, name, {**LEVELS, **FEWER.get(name, {})}):8}")
    return 0


if __name__ == "__main__":
    sys.exit(main())
