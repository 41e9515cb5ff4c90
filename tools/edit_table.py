#!/usr/bin/env python3
"""Writes the table of must-fail edits into docs/TABLES.md, from the first line of each edit. With --check it writes nothing and fails at a difference."""
import pathlib
import sys

root = pathlib.Path(__file__).resolve().parent.parent
head = "| crate | edit | what it is |\n|---|---|---|\n"


def row(edit):
    first = edit.read_text().splitlines()[0]
    if not first.startswith("# "):
        raise SystemExit(f"{edit.relative_to(root)}: its first line does not say what it is")
    return f"| {edit.parent.parent.name} | {edit.stem} | {first[2:]} |\n"


page = root / "docs" / "TABLES.md"
text = page.read_text()
before, after = text.split(head)
rest = after.splitlines(keepends=True)
while rest and rest[0].startswith("|"):
    rest.pop(0)
rows = [row(edit) for edit in sorted(root.glob("crates/*/must-fail/*.edit"))]
written = before + head + "".join(rows) + "".join(rest)
if "--check" not in sys.argv:
    page.write_text(written)
elif written != text:
    raise SystemExit("docs/TABLES.md: the must-fail edits have changed: run tools/edit_table.py")
