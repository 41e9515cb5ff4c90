#!/usr/bin/env python3
"""Writes what host/footprint.sh prints, given on standard input, into README.md's table of size and stack.
With --check it writes nothing, and fails where a number is off by more than a twentieth: linkers differ by less."""
import pathlib
import re
import sys

page = pathlib.Path(__file__).resolve().parent.parent / "README.md"
head = "| call | code and constants, bytes | stack, bytes |\n|---|---|---|\n"
OFF = 1 / 20


def rows_of(lines):
    """The numbers of each row, by its first cell."""
    cells = [[cell.strip() for cell in line.strip("|\n ").split("|")] for line in lines]
    return {first: [int(number) for number in numbers] for first, *numbers in cells}


def is_near(written, measured):
    return abs(written - measured) <= OFF * measured


measured = [line for line in sys.stdin if line.startswith("| ")]
before, after = page.read_text(encoding="utf8").split(head)
table = re.match(r"(?:\|.*\n)*", after)[0]
if "--check" not in sys.argv:
    page.write_text(before + head + "".join(measured) + after[len(table):], encoding="utf8")
else:
    now, written = rows_of(measured), rows_of(table.splitlines())
    if list(now) != list(written):
        raise SystemExit("README.md: the table of size and stack has other calls: run host/footprint.sh | tools/footprint_table.py")
    for call, numbers in now.items():
        if not all(map(is_near, written[call], numbers)):
            raise SystemExit(f"README.md: {call} takes {numbers}, not {written[call]}: run host/footprint.sh | tools/footprint_table.py")
    print(f"size and stack: {len(now)} rows as in README, to a twentieth")
