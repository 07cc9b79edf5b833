#!/usr/bin/env python3
"""Looks whether what the pages cite in backquotes is there. Usage: docs/names.py   (it fails where something isn't, and says where)

Looked for are crates, files, edits and names, in README, docs and examples/README.md: each crate is one of crates.txt, each file stands in the repository, and
each name is declared somewhere. A link leads to a file that is there, and to a heading of it. Each crate stands on the page of its family. More is asked where a page says
of which crate it speaks: `ec_order`, `Order.antt` has to be a file of that crate, `IsLegal` (`ec_history`) and `ec_history`: `IsLegal` have to be declared
there, and so has `IsLegal` in `Histories.antt` of (`ec_history`, `Histories.antt`) or (`Histories.antt`)."""
import collections
import functools
import glob
import os
import re
import subprocess
import sys

ROOT = os.path.dirname(os.path.dirname(os.path.realpath(__file__)))
PAGES = ["README.md", "examples/README.md"] + sorted(os.path.relpath(path, ROOT) for path in glob.glob(f"{ROOT}/docs/**/*.md", recursive=True))
ENDING = r"\.(?:antt|rt|py|sh|md|edit|script|transcript|svg|txt|c)\b"
# What isn't here: the bench's crate, which is none while it isn't built, files that runs make, and names of the language, std and other crates.
ELSEWHERE = set("ec_bench NAME.script lose.script lose.transcript echofs.disk Bool Debug Display FinMap Entries where_key is_sorted get_mut Slab PartialEq impl ECHOFS1".split())

DECLARED = {
    ".antt": [r"^\s*(?:(?:pub|abbrev|unfoldable) )*([^\s:(){}\[\],]+) :(?: |$)", r"\b(?:record|data) (\S+)", r"^module (\S+)"],
    ".rt": [
        r"\b(?:fn|struct|enum|trait|type|const|static|mod|ghost|macro_rules!) (\w+)",
        r"\b(?:ensures|requires|invariant)\s+(\w+) ",
        r"^\s+(?:pub(?:\(crate\))? )?(\w+)(?::|,$| ?\{| ?\(|$)",
    ],
}
NAME = r"[A-Za-z_◌][\w'◌-]*"
CITED = re.compile(rf"^{NAME}(?:(?:\.|::){NAME})*$")
LIST = r"`[^`]+`(?:,? (?:and )?`[^`]+`)*"


def read(path):
    with open(f"{ROOT}/{path}", encoding="utf-8", errors="replace") as it:
        return it.read()


@functools.cache
def files():
    said = subprocess.run(["git", "ls-files", "-co", "--exclude-standard"], cwd=ROOT, capture_output=True, text=True, check=True).stdout
    return [it for it in said.split("\n") if it and os.path.exists(f"{ROOT}/{it}")]


@functools.cache
def crates():
    return re.findall(r"^(\w+):", read("crates.txt"), re.M)


@functools.cache
def names_of(path):
    """What a file declares; an edit declares its name."""
    stem, ending = os.path.splitext(os.path.basename(path))
    text = read(path) if ending in DECLARED else ""
    return {stem} | {name for pattern in DECLARED.get(ending, []) for name in re.findall(pattern, text, re.M)}


@functools.cache
def names_in(crate):
    """What a crate declares, with its folders, which are modules."""
    own = [path for path in files() if path.startswith(f"crates/{crate}/")]
    return set().union(*map(names_of, own), *(path.split("/") for path in own))


@functools.cache
def all_names():
    """What is declared anywhere, and the words of scripts, manuals and what is no page."""
    words = set()
    for path in files():
        if not path.startswith("crates/") and path not in PAGES:
            words.update(re.findall(NAME, read(path)))
    return words.union(ELSEWHERE, *map(names_in, crates()))


@functools.cache
def is_file(name, crate=None):
    """Whether a file or a folder has this path, or one that ends so; of `ec_order/Order.antt` the crate is the first part."""
    first, _, rest = name.partition("/")
    if first in crates():
        return is_file(rest, first)
    here = [path for path in files() if path.startswith(f"crates/{crate}/")] if crate else files()
    return any(f"/{name}/" in f"/{path}/" for path in here)


def has_all(known, name):
    """Whether each part of a name, as `Record.field` or `Type::method`, is known."""
    return all(part in known for part in re.split(r"\.|::", name))


def text_of(page):
    """A page's text on one line without blocks of code, and where each line begins in it."""
    text = re.sub(r"^```.*?^```", lambda it: re.sub(r"[^\n]", " ", it[0]), read(page), flags=re.M | re.S)
    lines = collections.deque()
    made = ""
    for line in text.split("\n"):
        lines.append(len(made))
        made += line.lstrip() + " "
    return made, list(lines)


def unknown_spans(text):
    """Spans that are no crate, file or name of the repository."""
    for it in re.finditer(r"`([^`]+)`|\bec_\w+", text):
        span = it[1] or it[0]
        for crate in re.findall(r"\bec_\w+", span):
            if crate not in crates() and crate not in ELSEWHERE:
                yield it.start(), f"no crate {crate}"
        if re.fullmatch(r"[\w./-]+", span) and re.search(ENDING + "$", span) and span not in ELSEWHERE:
            if not is_file(span):
                yield it.start(), f"no file {span}"
        elif CITED.match(span) and not span.startswith("ec_") and not has_all(all_names(), span):
            yield it.start(), f"no name {span}"
        elif span.split("::")[0] in crates() and not has_all(names_in(span.split("::")[0]), span):
            yield it.start(), f"{span.split('::')[0]} has no {span}"


def listed(text):
    return re.findall(r"`([^`]+)`", text)


def misplaced(text):
    """Names and files that the crate or the file of which the page speaks doesn't have."""
    for it in re.finditer(rf"(?:`|\*\*)(ec_\w+)(?:::\w+)*(?:`|\*\*)(, |: )({LIST})", text):
        crate = it[1]
        for name in listed(it[3]) if crate in crates() else []:
            if re.search(ENDING + "$", name):
                if not is_file(name, crate):
                    yield it.start(), f"{crate} has no {name}"
                break
            if it[2] == ": " and CITED.match(name) and not has_all(names_in(crate), name) and name.split("::")[0] not in crates():
                yield it.start(), f"{crate} has no {name}"
    for it in re.finditer(rf"((?:`|\*\*)(?:{NAME})(?:`|\*\*)(?:,? (?:and )?(?:`|\*\*)(?:{NAME})(?:`|\*\*))*) \(`(ec_\w+)(?:::\w+)*`(?:, `(\w+\.antt)`)?\)", text):
        crate = it[2]
        for name in re.findall(NAME, it[1]) if crate in crates() else []:
            if name != "and" and name not in crates() and name not in names_in(crate):
                yield it.start(), f"{crate} has no {name}"
            elif it[3] and name != "and" and not any(name in names_of(path) for path in files() if path.startswith(f"crates/{crate}/") and path.endswith(f"/{it[3]}")):
                yield it.start(), f"{it[3]} of {crate} has no {name}"
    for it in re.finditer(rf"({LIST}) \(`(\w+\.antt)`\)", text):
        for name in listed(it[1]):
            if CITED.match(name) and name not in crates() and not any(has_all(names_of(path), name) for path in files() if path.endswith(f"/{it[2]}")):
                yield it.start(), f"no {it[2]} has {name}"


def anchors(page):
    """The anchors of a page's headings."""
    return {re.sub(r"[^\w -]", "", heading.lower()).strip().replace(" ", "-") for heading in re.findall(r"^#+ (.*)$", read(page), re.M)}


def dead_links(page, text):
    """Links to files or headings that there aren't."""
    for it in re.finditer(r"\]\(([^()\s]+)\)", text):
        path, _, anchor = it[1].partition("#")
        to = os.path.normpath(os.path.join(os.path.dirname(page), path)) if path else page
        if "://" in it[1]:
            continue
        if not os.path.exists(f"{ROOT}/{to}"):
            yield it.start(), f"no file {to}"
        elif anchor and anchor not in anchors(to):
            yield it.start(), f"{to} has no heading {anchor}"


def unlisted():
    """Crates that aren't on the page of their family, by the headings of crates.txt."""
    page = None
    for row in read("crates.txt").split("\n"):
        family, crate = re.match(r"# (\w+):", row), re.match(r"(\w+):", row)
        if family:
            page = f"docs/families/{family[1].lower()}.md"
        if crate and not (page in PAGES and re.search(rf"^- `{crate[1]}`:", read(page), re.M)):
            yield f"{page}:1: no {crate[1]}, a crate of this family"


def main():
    found = list(unlisted())
    for page in PAGES:
        text, starts = text_of(page)
        for at, what in [*unknown_spans(text), *misplaced(text), *dead_links(page, text)]:
            line = sum(start <= at for start in starts)
            found.append(f"{page}:{line}: {what}")
    for it in sorted(set(found), key=lambda it: (it.split(":")[0], int(it.split(":")[1]))):
        print(it)
    return bool(found)


if __name__ == "__main__":
    sys.exit(main())
