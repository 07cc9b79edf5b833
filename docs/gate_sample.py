#!/usr/bin/env python3
"""Watches the processes of running gates, and keeps the processor seconds of each.
Usage: docs/gate_sample.py FILE   (begun before `.ci/run`, and stopped after it; docs/gate_table.py FILE then lays it out)

FILE has a list of [crate, kind, seconds, folder of the gate]. The kinds: build and check are proofs, build-tests the tests, seed and edit those of edits."""
import json
import os
import sys
import time

EVERY = 1.5
TICKS = os.sysconf("SC_CLK_TCK")


def words(process):
    with open(f"/proc/{process}/cmdline") as it:
        return it.read().split("\0")


def times(process):
    """Its parent, its processor seconds with those of its children that ended, and when it began."""
    with open(f"/proc/{process}/stat") as it:
        said = it.read().rsplit(")", 1)[1].split()
    return int(said[1]), sum(map(int, said[11:15])) / TICKS, said[19]


def gate_of(process):
    """The folder of the gate that the process belongs to, if it does."""
    for _ in range(14):
        said = words(process)
        if len(said) > 2 and said[1].endswith("/rt") and said[2] == "ci":
            return os.readlink(f"/proc/{process}/cwd")
        process = times(process)[0]
        if process <= 1:
            return None


def kind_of(said, folder):
    if "/rt-edit-" in folder:
        kept = said[said.index("--incremental") + 1] if "--incremental" in said else ""
        return "seed" if kept.endswith("/seed") else "edit"
    return said[1] + ("-tests" if "--test" in said else "")


def look(seen):
    for process in filter(str.isdigit, os.listdir("/proc")):
        try:
            said = words(process)
            if not said[0].startswith("/opt/rattle/"):
                continue
            _, seconds, began = times(process)
            folder, gate = os.readlink(f"/proc/{process}/cwd"), gate_of(process)
        except (OSError, IndexError, ValueError):
            continue
        if gate:
            name = said[said.index("--crate-name") + 1] if "--crate-name" in said else os.path.basename(folder)
            seen[process, began] = name, kind_of(said, folder), seconds, gate


def main(file):
    seen = {}
    while True:
        look(seen)
        with open(f"{file}.new", "w") as it:
            json.dump(list(seen.values()), it)
        os.replace(f"{file}.new", file)
        time.sleep(EVERY)


if __name__ == "__main__":
    main(sys.argv[1])
