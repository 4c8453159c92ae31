"""Builds the second program, runs programs on lists, and has the bounds of a prediction; shared by the scripts beside it."""
import atexit
import glob
import os
import shlex
import shutil
import subprocess
import tempfile

HERE = os.path.dirname(os.path.abspath(__file__))
ROOT = os.path.dirname(HERE)
FLAGS = ["-std=c11", "-O2", "-Wall", "-Wextra", "-Werror"]
HEADER = b"dip W ZTOR RRUP Z25 from"
# How far a reported figure may lie from the exact one: ln median and each sigma, in millionths; a median, in its unit of 10^-10, and one
# part in so many besides.
SIXTH_PLACE, UNITS, PARTS = 1, 1, 500000


def scratch():
    """A directory that goes away with the script."""
    path = tempfile.mkdtemp()
    atexit.register(shutil.rmtree, path)
    return path


def build(source=HERE, flags=FLAGS):
    """Compiles the C files of a directory and gives the path of the program."""
    path = os.path.join(scratch(), "second")
    files = sorted(glob.glob(os.path.join(source, "*.c")))
    subprocess.run([os.environ.get("CC", "cc"), *flags, "-o", path, *files, "-lm"], check=True)
    return path


def command(words):
    """A command from an option: a path and its arguments, in one word."""
    return shlex.split(words)


def run(words, data):
    """What a program prints for a list."""
    return subprocess.run(words, input=data, stdout=subprocess.PIPE, check=True).stdout


def listed(lines):
    """Lines as a list."""
    return b"".join(line + b"\n" for line in lines)
