#!/usr/bin/env python3
"""Prints the table of docs/GATE.md: each crate's lines and edits as they stand, and the minutes of one processor that a gate took for it.
Usage: docs/gate_table.py [FILE [FOLDER]]   (FILE from docs/gate_sample.py, of the gate that ran in FOLDER; without it, and for what didn't run in it, the minutes of
docs/GATE.md stay, and have a star)"""
import collections
import json
import os
import re
import sys

HERE = os.path.dirname(os.path.dirname(os.path.realpath(__file__)))
TESTS = re.compile(r"^\s*#\[test\]", re.M)


def crates():
    with open(f"{HERE}/crates.txt") as it:
        return [line.split(":")[0].split()[0] for line in it if ":" in line.split("#")[0]]


def read(file):
    with open(file) as it:
        return it.read()


def counts(crate):
    """The lines of code outside files with tests, of definitions and of proofs, and how many edits the gate tries."""
    lines = collections.Counter()
    for part, ending in (("src", ".rt"), ("specs", ".antt"), ("proofs", ".antt"), ("must-fail", ".edit")):
        for at, _, names in os.walk(f"{HERE}/crates/{crate}/{part}"):
            for text in (read(f"{at}/{name}") for name in names if name.endswith(ending)):
                lines[part] += 1 if part == "must-fail" else 0 if TESTS.search(text) else text.count("\n")
    return [str(lines[part]) for part in ("src", "specs", "proofs", "must-fail")]


def earlier():
    """The minutes that docs/GATE.md has, by crate."""
    rows = re.findall(r"^\| `(\w+)` \|(.*)\|$", read(f"{HERE}/docs/GATE.md"), re.M)
    return {crate: [cell.strip().rstrip("*") for cell in row.split("|")][4:] for crate, row in rows}


def column(kind):
    """Which of the three minutes this kind of process counts to, if to any."""
    if kind.startswith(("seed", "edit")):
        return 2
    return int("-tests" in kind) if kind.startswith(("build", "check")) else None


def sampled(file, folder):
    """The minutes of proofs, tests and edits, by crate: of several proofs of a crate the longest one."""
    longest, edits = collections.defaultdict(lambda: [0, 0]), collections.Counter()
    for crate, kind, seconds, gate in json.loads(read(file)) if file else []:
        at = column(kind) if folder in (None, gate) else None
        if at == 2:
            edits[crate] += seconds
        elif at is not None:
            longest[crate][at] = max(longest[crate][at], seconds)
    return {crate: [*longest[crate], edits[crate]] for crate in {*longest, *edits}}


def main(file=None, folder=None):
    now, before, sums = sampled(file, folder), earlier(), [0.0] * 3
    print("| Crate | Code | Specs | Proofs | Edits | Proof | Tests | Edits tried |\n|---|---|---|---|---|---|---|---|")
    for crate in crates():
        lines = counts(crate)
        cells = []
        for at in range(3):
            seconds, old = now.get(crate, [0] * 3)[at], before.get(crate, [""] * 3)[at]
            minutes = f"{seconds / 60:.1f}" if seconds else f"{old}*" if old and (at < 2 or lines[3] != "0") else ""
            sums[at] += float(minutes.rstrip("*") or 0)
            cells.append(minutes)
        print(f"| `{crate}` | {' | '.join(lines + cells)} |")
    print(f"proofs {sums[0]:.0f}, tests {sums[1]:.0f}, edits {sums[2]:.0f} minutes", file=sys.stderr)


if __name__ == "__main__":
    main(*sys.argv[1:])
