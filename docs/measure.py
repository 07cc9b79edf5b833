#!/usr/bin/env python3
"""Prints how legible the repository is, in numbers, each beside what is wanted.
Usage: docs/measure.py [-v]

With -v it lists what it counted. What a reader of the program's contract has to trust is measured by docs/trust.py, whose numbers are among these."""
import collections
import functools
import glob
import os
import re
import sys

sys.dont_write_bytecode = True
import trust

ROOT = trust.ROOT
PARAMETERS = 6
CRATES = 4
FILES = 40
WIDTH = 160


def read(path):
    with open(path, encoding="utf-8") as it:
        return it.read()


def inside(path):
    return os.path.relpath(path, ROOT)


def crates():
    """The crates of crates.txt, each with those that it uses."""
    rows = [line.split("#")[0].strip() for line in read(f"{ROOT}/crates.txt").split("\n")]
    listed = dict(row.split(":") for row in rows if row)
    uses = {name.split()[0]: used.split() for name, used in listed.items()}
    return {name: [it for it in used if it in uses] for name, used in uses.items()}


def longest_chain():
    uses = crates()

    @functools.lru_cache(maxsize=None)
    def above(name):
        return max((above(it) for it in uses[name]), key=len, default=[]) + [name]

    return max(map(above, uses), key=len)


def shared_names():
    """Names of definitions that stand in the specs of four or more crates."""
    where = collections.defaultdict(set)
    for module in trust.Specs().modules.values():
        for name in module.definitions:
            where[name].add(module.name.split(".")[1])
    return [f"{name}: {' '.join(sorted(found))}" for name, found in sorted(where.items()) if len(found) >= CRATES]


def split_parameters(text):
    """The parameters of a function, of the text between its parentheses."""
    found, depth, begun = [], 0, ""
    for mark in text + ",":
        depth += mark in "([{<"
        depth -= mark in ")]}>"
        if mark == "," and depth == 0:
            found += [begun.strip()] if begun.strip() else []
            begun = ""
        else:
            begun += mark
    return found


def functions():
    """All functions of the code, each with its parameters."""
    for path in sorted(glob.glob(f"{ROOT}/crates/*/src/**/*.rt", recursive=True)):
        code = re.sub(r"//[^\n]*", "", read(path)).replace("->", "  ")
        for head in re.finditer(r"\bfn (\w+)\s*(?:<[^()]*?>)?\(", code):
            depth, at = 1, head.end()
            while depth:
                depth += {"(": 1, ")": -1}.get(code[at], 0)
                at += 1
            yield f"{inside(path)}: {head[1]}", split_parameters(code[head.end() : at - 1])


def wide_functions():
    """Functions with more than six parameters, `self` among them."""
    return [f"{name} ({len(parameters)})" for name, parameters in functions() if len(parameters) > PARAMETERS]


ANSWERS = ("Answers.antt", "Invariants.antt", "Proof.antt", "Send.antt", "Lib.antt")


def proof_files():
    """The files of lemmas of all crates, those in folders too."""
    found = sorted(glob.glob(f"{ROOT}/crates/*/proofs/**/*.antt", recursive=True))
    return [path for path in found if os.path.basename(path) not in ANSWERS]


def lemmas():
    """The lemmas of all crates, each as its file, its name and its text, in which `_` stands for the name."""
    for path in proof_files():
        for it in trust.Module(inside(path), path).definitions.values():
            text = re.sub(r"\s+", " ", " ".join(it.text)).removeprefix("pub ")
            yield inside(path), it.name, re.sub(rf"(?<![\w-]){re.escape(it.name)}(?![\w'-])", "_", text)


def same_lemmas():
    """Lemmas that say and prove the same as an earlier one, under any name."""
    first, found = {}, []
    for path, name, text in lemmas():
        if text in first:
            found.append(f"{path}: {name} is {first[text]}")
        else:
            first[text] = f"{name} of {path}"
    return found


def full_folders():
    """Folders of proofs with more than forty files."""
    for folder, count in sorted(collections.Counter(map(os.path.dirname, proof_files())).items()):
        if count > FILES:
            yield f"{inside(folder)} ({count})"


def long_lines():
    for path in [f"{ROOT}/README.md"] + sorted(glob.glob(f"{ROOT}/docs/**/*.md", recursive=True)):
        for number, line in enumerate(read(path).split("\n"), 1):
            if len(line) > WIDTH:
                yield f"{inside(path)}:{number} ({len(line)})"


def trusted():
    """What docs/trust.py measures."""
    numbers, whole, long = trust.measured()
    lists = {"mixed files": [path for path, _, _ in trust.mixed_files(whole)], "definitions of more than 25 lines": [it.name for it in long]}
    for number, (what, most, _) in zip(numbers, trust.WANTED):
        yield what, number, most, lists.get(what, [])


def counted():
    """What is measured: its name, its number, what is wanted at most, and what was counted."""
    yield from trusted()
    for what, most, found in [
        ("names of definitions in four or more crates", 0, shared_names()),
        ("functions with more than six parameters", 10, wide_functions()),
        ("lemmas with the text of an earlier one", 200, same_lemmas()),
        ("folders of proofs with more than forty files", 0, list(full_folders())),
        ("lines of more than 160 characters in README and docs", 0, list(long_lines())),
    ]:
        yield what, len(found), most, found
    yield "crates", len(crates()), 60, []
    chain = longest_chain()
    yield "crates in the longest chain", len(chain), 12, [" ".join(chain)]
    yield "words of README", len(read(f"{ROOT}/README.md").split()), 1500, []


def main(words):
    for what, number, most, found in counted():
        print(f"{number:6}  {what} (wanted: {f'at most {most}' if most else 'none'})")
        for it in found if words == ["-v"] else []:
            print(f"          {it}")


if __name__ == "__main__":
    main(sys.argv[1:])
