#!/usr/bin/env python3
"""Writes the table of crates into docs/TABLES.md: lines, and must-fail edits. The seconds, which an older kit took, stay as they stand there."""
import pathlib
import re

root = pathlib.Path(__file__).resolve().parent.parent
head = "| crate | code | specs | proofs | must-fail edits | seconds, older kit |\n|---|---|---|---|---|---|\n"


def lines(crate, folder, ending):
    files = (root / "crates" / crate / folder).rglob(f"*.{ending}")
    return sum(len(file.read_text().splitlines()) for file in files)


page = root / "docs" / "TABLES.md"
before, after = page.read_text().split(head)
table = re.match(r"(?:\|.*\n)*", after)[0]
seconds = {cells[0]: int(cells[-1]) for cells in (re.findall(r"[^| ]+", row) for row in table.splitlines())}

rows = []
totals = [0] * 5
for line in (root / "crates.txt").read_text().splitlines():
    # what a crate is made into stands behind its name
    names = line.split("#")[0].split(":")[0].split()
    if not names:
        continue
    crate = names[0]
    edits = len(list((root / "crates" / crate / "must-fail").glob("*.edit")))
    counts = [lines(crate, "src", "rt"), lines(crate, "specs", "antt"), lines(crate, "proofs", "antt"), edits, seconds.get(crate, 0)]
    totals = [a + b for a, b in zip(totals, counts)]
    rows.append(f"| {crate} | " + " | ".join(map(str, counts)) + " |\n")
rows.append("| all | " + " | ".join(map(str, totals)) + " |\n")
page.write_text(before + head + "".join(rows) + after[len(table):])
