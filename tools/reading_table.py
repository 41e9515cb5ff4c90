#!/usr/bin/env python3
"""Writes into docs/PROMISES.md how many lines each file of its reading order has. With --check it writes nothing and fails at a difference."""
import pathlib
import re
import sys

root = pathlib.Path(__file__).resolve().parent.parent
page = root / "docs" / "PROMISES.md"
counts = []


def count(row):
    counts.append(len((root / row[2]).read_text().splitlines()))
    return f"{row[1]}`{row[2]}` | {counts[-1]} |"


before = page.read_text()
after = re.sub(r"(^\| \d? ?\| )`(crates/\S+)` \| \d+ \|", count, before, flags=re.M)
after = re.sub(r"^\| \| all \| \d+ \|", lambda _: f"| | all | {sum(counts)} |", after, flags=re.M)
if "--check" not in sys.argv:
    page.write_text(after)
elif after != before:
    raise SystemExit("docs/PROMISES.md: the reading order's lines have changed: run tools/reading_table.py")
