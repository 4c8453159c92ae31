#!/usr/bin/env python3
"""Runs the proved programs and the C program on lists, both in turn, and prints the medians of their processor time and the median of the
rounds' ratios.

    bench/measure.py SECOND FOLDER

SECOND is the C program; FOLDER has the lists `mixed`, `soft` and `stiff`, and the list `sites` with its file `sites.file`.
"""
import os
import statistics
import subprocess
import sys

ROUNDS = 5
# A program with its arguments, which are those of the C program too, where its answers go, and the list.
PAIRS = [
    ("complete", "/dev/null", "mixed"),
    ("complete", "a pipe", "mixed"),
    ("predict", "/dev/null", "mixed"),
    ("predict", "a pipe", "mixed"),
    ("predict", "/dev/null", "soft"),
    ("predict", "/dev/null", "stiff"),
    ("predict --period 370", "/dev/null", "mixed"),
    ("predict --period 370", "a pipe", "mixed"),
]
# The programs that go from one path to another, and what they read.
PATHS = [("pack", "sites"), ("unpack", "sites.file")]


def spent(running):
    """How many seconds of processor time a process takes to its end."""
    _, status, used = os.wait4(running.pid, 0)
    running.returncode = os.waitstatus_to_exitcode(status)
    if running.returncode != 0:
        raise SystemExit(f"{running.args} failed")
    return used.ru_utime + used.ru_stime


def once(command, path, out):
    """How many seconds of processor time a command takes over a list."""
    with open(path, "rb") as given:
        reader = subprocess.Popen(["cat"], stdin=subprocess.PIPE, stdout=subprocess.DEVNULL) if out == "a pipe" else None
        seconds = spent(subprocess.Popen(command, stdin=given, stdout=reader.stdin if reader else subprocess.DEVNULL))
    if reader:
        reader.communicate()
    return seconds


def compared(what, kind, proved_once, c_once):
    """Runs both sides in turn and prints what they took."""
    proved, c = [], []
    for _ in range(ROUNDS):
        proved.append(proved_once())
        c.append(c_once())
    ratio = statistics.median(p / q for p, q in zip(proved, c))
    print(f"{what:34}{kind:8}{statistics.median(proved):11.3f} s {statistics.median(c):11.3f} s {ratio:7.2f}", flush=True)


second, folder = sys.argv[1:]
for program, out, kind in PAIRS:
    name, *words = program.split()
    compared(f"{program} to {out}", kind, lambda: once([f"target/bin/{name}", *words], f"{folder}/{kind}", out),
             lambda: once([second, name, *words], f"{folder}/{kind}", out))
for program, source in PATHS:
    paths = [f"{folder}/{source}", f"{folder}/made"]
    compared(f"{program} of 65535 records", "mixed", lambda: spent(subprocess.Popen([f"target/bin/{program}", *paths])),
             lambda: spent(subprocess.Popen([second, program, *paths])))
