#!/usr/bin/env python3
"""Tells how large the code and the constants of static libraries are, in bytes, by the parts of the product.

    bench/size.py ARCHIVE...

prints a row an archive. The compiler gives each function a section of its own, named after it, so that a section belongs to the part of
the function's crate. A function that is called at one place the compiler puts into its caller, and one of few instructions into each: so
a part holds what was put into its functions, and a crate may have no section of its own. Constants that no code holds stand in sections
without a crate, and are counted with the tables. What is loaded and none of these is the column "other".

Exit status: 1 where a function's crate is in no part, or the columns do not add up to what `size` tells of the archive; 2 for other
arguments.
"""
import os
import subprocess
import sys

# The parts and their crates. The functions that C calls have no crate in their names, and one prefix.
PARTS = {
    "text form": "text numerals lines answer lists kept lent",
    "site files": "fields request_lines records list_lines site_files record_answers bytes",
    "completion": "request rules estimate rupture outcome source_stage path_stage site_stage completion",
    "model": "factors terms site sigmas short_periods measures reports periods prediction one_period",
    "reckoning": "reckon",
    "calls": "row_numbers one_measure export controller",
    "tables": "tables",
}
CALLS = "xanhupive_"
PART_OF = {crate: part for part, crates in PARTS.items() for crate in crates.split()}
# What is never loaded, and so no part of what `size` counts.
NOT_LOADED = (".comment", ".note", ".llvm_addrsig", ".debug", ".symtab", ".strtab", ".shstrtab", ".rela")


def fail(message):
    """Ends with what is wrong."""
    raise SystemExit(f"{os.path.basename(sys.argv[0])}: {message}")


def told(*command):
    """The lines that a command of binutils writes."""
    ran = subprocess.run(command, capture_output=True, text=True)
    if ran.returncode != 0:
        fail(ran.stderr.strip())
    return ran.stdout.splitlines()


def part_of(section):
    """The part that a section belongs to."""
    if section.startswith(".rodata"):
        return "tables"
    if not section.startswith(".text."):
        return "other"
    name = section.removeprefix(".text.")
    if name.startswith(CALLS):
        return "calls"
    crate = name.split("::")[0]
    if crate not in PART_OF:
        fail(f"{section}: crate {crate} is in no part")
    return PART_OF[crate]


def sections(archive):
    """The sections of an archive that are loaded, with their sizes; what `size -A` tells beside them are headings and sums."""
    rows = [line.rsplit(None, 2) for line in told("size", "-A", archive)]
    rows = [row for row in rows if len(row) == 3 and row[0].startswith(".")]
    return [(name, int(size)) for name, size, _ in rows if not name.startswith(NOT_LOADED)]


def parts(archive):
    """The bytes of each part of an archive, which must add up to all of it."""
    bytes_of = dict.fromkeys([*PARTS, "other"], 0)
    for section, size in sections(archive):
        bytes_of[part_of(section)] += size
    whole = sum(int(line.split()[3]) for line in told("size", archive)[1:])
    if sum(bytes_of.values()) != whole:
        fail(f"{archive}: the parts have {sum(bytes_of.values())} bytes, all of it {whole}")
    return {**bytes_of, "whole": whole}


def main():
    """Prints the table."""
    archives = sys.argv[1:]
    if not archives:
        print(__doc__.split("\n\n")[1].strip(), file=sys.stderr)
        return 2
    rows = {os.path.basename(archive): parts(archive) for archive in archives}
    print(f"{'bytes':20}" + "".join(f"{part:>12}" for part in [*PARTS, "other", "whole"]))
    for name, row in rows.items():
        print(f"{name:20}" + "".join(f"{size:12}" for size in row.values()))
    return 0


if __name__ == "__main__":
    sys.exit(main())
