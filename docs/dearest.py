#!/usr/bin/env python3
"""Lists the functions of a crate by the seconds that a check spent on each: where a gate is to be shortened, the first ones get answers to their goals or are split.
Usage: docs/dearest.py NAME [COUNT]   (a crate, after `rm -rf out/incremental && rt check --jobs 1` in its folder; the 20 first where no count is given)

A check with one process leaves each module in out/incremental when it's checked, so a module took the time since the one before it. A function has modules of several
kinds; beside its name stand the two dearest. `Proof` is what the tactics found: answers to its goals shorten it. `Lts` and `Code` go with the length of its code: a
value with a destructor that is dropped where the function ends early lengthens it."""
import collections
import os
import re
import sys

# A file later than this after the one before it belongs to another check.
PAUSE = 300


def written(folder):
    """Each module's time and name, in the order in which they were written."""
    found = []
    for at, _, names in os.walk(folder):
        for name in names:
            if name.endswith(".oantt"):
                found.append((os.stat(f"{at}/{name}").st_mtime_ns, name[: -len(".oantt")]))
    return sorted(found)


def split(name, functions):
    """The function of a module, or the module itself where it's a proof file of its own, and its kind."""
    name = re.sub(r"^Rattle-\w+?-(proofs|specs)\.", "", name)
    parts = name.split(".")
    for end in range(len(parts), 0, -1):
        if ".".join(parts[:end]) in functions:
            return ".".join(parts[:end]), parts[end] if end < len(parts) else ""
    return name, ""


def main(name, count):
    here = os.path.dirname(os.path.dirname(os.path.realpath(__file__)))
    modules = written(f"{here}/crates/{name}/out/incremental")
    if not modules:
        sys.exit(f"{name}: out/incremental has no modules: check the crate first")
    # (each function has a module Proof)
    functions = {re.sub(r"^Rattle-\w+?-proofs\.", "", module)[: -len(".Proof")] for _, module in modules if module.endswith(".Proof")}
    took, kinds, before = collections.Counter(), collections.defaultdict(collections.Counter), modules[0][0]
    for time, module in modules:
        seconds, before = (time - before) / 1e9, time
        if seconds <= PAUSE:
            function, kind = split(module, functions)
            took[function] += seconds
            kinds[function][kind] += seconds
    print(f"{sum(took.values()):7.1f} s in all, {len(functions)} functions")
    for function, seconds in took.most_common(count):
        parts = ", ".join(f"{kind} {part:.1f}" for kind, part in kinds[function].most_common(2) if kind)
        print(f"{seconds:7.1f} s {function}{f' ({parts})' if parts else ''}")


if __name__ == "__main__":
    main(sys.argv[1], int(sys.argv[2]) if len(sys.argv) > 2 else 20)
