#!/usr/bin/env python3
"""What a reader of `echo_main` has to trust: for each named clause of its contract the definitions that it reaches.

  docs/trust.py sizes           a table: the definitions and lines that each clause reaches, and the lines that no clause above it does
  docs/trust.py list [CLAUSE]   the definitions in reading order, each below what it uses, with its file, line and size; `+` where no clause above has it
  docs/trust.py limits          how much is to be read, beside what is wanted
  docs/trust.py mixed           the files of which clauses reach some definitions, and not others
  docs/trust.py check           fails where docs/DEFINITIONS.md doesn't walk just these, clause by clause, or where a limit that was kept is passed
  docs/trust.py mend            writes that page anew: the definitions that each clause adds, by files, with the words that the page has for them already,
                                or those of the comment above the definition; where it has none, a person writes them

In docs/DEFINITIONS.md each clause has a heading, then text, and then the files of what it adds: below each file the names, and words for them. A
definition counts with its own lines, without blanks, comments and imports. The code's own types (`declared`) and the kit's definitions aren't followed."""
import difflib
import glob
import itertools
import os
import re
import sys
import textwrap

ROOT = os.path.dirname(os.path.dirname(os.path.realpath(__file__)))
SOURCE, FUNCTION = "ec_echo/src/named.rt", "echo_main"
PAGE = f"{ROOT}/docs/DEFINITIONS.md"
# What is to be read at most, in lines, files and definitions; whether `check` fails where it's more.
OF_LINES = "history lines replies reports losses fsync room bytes own_calls sessions spent together complete write_behind statuses".split()
WANTED = [
    ("lines for history", 850, True),
    ("lines for all promises of a drill's lines", 1400, False),
    ("lines for these and the disk", 2300, False),
    ("lines in all", 5100, False),
    ("mixed files", 0, False),
    ("definitions of more than 25 lines", 0, False),
]
CLAUSE = re.compile(r"## `(\w+)`")
FILE = re.compile(r"- `(\w+/[\w/]+\.antt)`(.*)")
NAMES = re.compile(r"  - (`[^`]+`(?:, `[^`]+`)*)(?:: (.*))?$", re.S)
HEAD = re.compile(r"(?:pub )?(?P<kind>record|data) (?P<name>\S+)|(?:abbrev |unfoldable )?(?:pub )?(?P<def>\S+) :(?: |$)")
CASE = re.compile(r"\s+(\S+) :")
TOKEN = re.compile(r"[A-Za-z_◌∥][\w'◌∥₁-]*(?:\.[A-Za-z_][\w'-]*)*|[^\s\w(){}\[\];,.:]+")


class Definition:
    def __init__(self, name, is_data, module, path, line, around):
        self.name, self.is_data, self.module, self.path, self.line = name, is_data, module, path, line
        self.text = list(around)
        self.size = 0
        self.cases = []

    def add(self, line):
        self.text.append(line)
        self.size += 1
        if self.is_data and CASE.match(line):
            self.cases.append(CASE.match(line).group(1))

    @property
    def file(self):
        return os.path.relpath(self.path, f"{ROOT}/crates").replace("/specs/", "/")


class Module:
    """The definitions of a file of specs, by name, and what it imports: names and files."""

    def __init__(self, name, path):
        self.name, self.path = name, path
        self.definitions = {}
        with open(path, encoding="utf-8") as it:
            lines = it.read().split("\n")
        self.names, self.files = imports(statements(lines))
        self.read(lines)

    def read(self, lines):
        current, around, inside = None, [], False
        for number, line in code(lines):
            if line.startswith("module "):
                current, around, inside = None, [line], True
                continue
            if inside and line.startswith("  "):
                line = line[2:]
            elif inside and not line[0].isspace():
                inside, around = False, []
            if not line[0].isspace():
                current = self.begin(line, number, around, current)
            if current:
                current.add(line)

    def begin(self, line, number, around, current):
        """The definition to which this line at the margin belongs."""
        if re.match(r"(?:pub )?mod |open |infix", line):
            return None
        head = HEAD.match(line)
        name = head and (head["name"] or head["def"])
        if not head or (current and head["def"] and name == current.name):
            return current
        made = Definition(name, head["kind"] == "data", self.name, self.path, number, around)
        self.definitions.setdefault(name, made)
        return made

    def find(self, name):
        if name in self.definitions:
            return self.definitions[name]
        return next((it for it in self.definitions.values() if name in it.cases), None)


def code(lines):
    """The lines but imports, blanks and comments, with their numbers."""
    importing = False
    for number, line in enumerate(lines, 1):
        if importing or line.startswith("use "):
            importing = "}" not in line and (importing or "{" in line)
        elif line.strip() and not line.lstrip().startswith("--"):
            yield number, line


def statements(lines):
    """The imports, each on one line."""
    kept = ""
    for line in lines:
        if kept or line.startswith("use "):
            kept += " " + line.strip()
            if "{" not in kept or "}" in kept:
                yield kept.strip()
                kept = ""


def imports(texts):
    """What is imported: for each name its file and its name there, and for each name of a file the file."""
    names, files = {}, {}
    for text in texts:
        some = re.match(r"use (\S+?)\.\{(.*)\}$", text)
        whole = re.match(r"use (\S+?)(?: as (\S+))?$", text)
        if some:
            for item in filter(None, map(str.strip, some[2].split(","))):
                there, _, here = item.partition(" as ")
                names[(here or there).strip()] = (some[1], there.strip())
        elif whole:
            files[whole[2] or whole[1].split(".")[-1]] = whole[1]
    return names, files


class Specs:
    """The specs of all crates."""

    def __init__(self):
        self.modules = {}
        self.known = {}
        for path in sorted(glob.glob(f"{ROOT}/crates/*/specs/**/*.antt", recursive=True)):
            crate, rest = os.path.relpath(path, f"{ROOT}/crates").split("/specs/")
            name = f"Rattle.{crate}.specs.{rest[:-5].replace('/', '.')}"
            self.modules[name] = Module(name, path)

    def find(self, module, name):
        it = self.modules.get(module)
        if not it:
            return None
        return it.find(name) or (self.find(*it.names[name]) if name in it.names else None)

    def named(self, text, names, files, own=None):
        """The definitions that a text names, each once, in its order."""
        found = {}
        for token in TOKEN.findall(re.sub(r"--.*", "", text)):
            it = self.meant(token, names, files, own)
            if it:
                found[id(it)] = it
        return list(found.values())

    def meant(self, token, names, files, own):
        first, _, rest = token.partition(".")
        for name in (token, first, f"◌{token}◌", f"{token}◌", f"◌{token}"):
            if name in names:
                return self.find(*names[name])
            if own and own.find(name):
                return own.find(name)
        return self.find(files[first], rest.split(".")[0]) if first in files and rest else None

    def below(self, it):
        if id(it) not in self.known:
            own = self.modules[it.module]
            used = self.named("\n".join(it.text), own.names, own.files, own)
            self.known[id(it)] = [other for other in used if other is not it]
        return self.known[id(it)]

    def reached(self, roots):
        """What these reach, each definition behind those that it uses."""
        order, seen = [], set()

        def visit(it):
            if id(it) not in seen:
                seen.add(id(it))
                for other in self.below(it):
                    visit(other)
                order.append(it)

        for it in roots:
            visit(it)
        return order


def clauses():
    """The named clauses of the function, in order, each with the definitions that it reaches."""
    with open(f"{ROOT}/crates/{SOURCE}", encoding="utf-8") as it:
        text = re.sub(r"//[^\n]*", "", it.read())
    names, files = imports(re.sub(r"\s+", " ", use) for use in re.findall(r"^\s*ghost (use [^;]*);", text, re.M))
    contract = text[re.search(rf"\bfn {FUNCTION}\b", text).end():]
    contract = contract[: re.search(r"^\{", contract, re.M).start()]
    specs = Specs()
    for clause in re.finditer(r"^\s*ensures (\w+) \{(.*)\}$", contract, re.M):
        yield clause[1], specs.reached(specs.named(clause[2], names, files))


def size(definitions):
    return sum(it.size for it in definitions)


def added(all_clauses):
    """Each clause, with what it reaches, and what no clause above it does."""
    seen = set()
    for name, reached in all_clauses:
        yield name, reached, [it for it in reached if id(it) not in seen]
        seen.update(map(id, reached))


def sizes():
    print(f"{'clause':14}{'definitions':>13}{'lines':>8}{'adds':>8}")
    all_adds = []
    for name, reached, adds in added(clauses()):
        print(f"{name:14}{len(reached):13}{size(reached):8}{size(adds):8}")
        all_adds += adds
    print(f"{'all':14}{len(all_adds):13}{size(all_adds):8}")


def listing(only):
    for name, reached, adds in added(clauses()):
        if only and name not in only:
            continue
        new = set(map(id, adds))
        print(f"{name}: {len(reached)} definitions, {size(reached)} lines")
        for it in reached:
            print(f"{'+' if id(it) in new else ' '} {it.name:32} {os.path.relpath(it.path, ROOT)}:{it.line} ({it.size})")


def by_files(definitions):
    files = {}
    for it in definitions:
        files.setdefault(it.file, []).append(it)
    return files


def as_words(comment):
    """A comment's lines as words behind a colon."""
    text = " ".join(line.lstrip()[2:].strip() for line in comment).removesuffix(".")
    return text[:1].lower() + text[1:] if text[1:2].islower() or text.startswith("A ") else text


def is_comment(line):
    return line.lstrip().startswith("--")


def comment_of(it):
    """The words of the comment right above a definition."""
    with open(it.path, encoding="utf-8") as file:
        above = file.read().split("\n")[: it.line - 1]
    return as_words(reversed(list(itertools.takewhile(is_comment, reversed(above)))))


def opening_of(path):
    """The words of the comment with which a file begins."""
    with open(path, encoding="utf-8") as file:
        return as_words(itertools.takewhile(is_comment, file.read().split("\n")))


class Part:
    """A part of the page: a clause with its text, its files and their definitions; or other text."""

    def __init__(self, lines):
        clause = CLAUSE.match(lines[0]) if lines else None
        self.clause = clause and clause[1]
        self.text = []
        self.files = {}
        item = None
        for line in lines:
            if not self.clause or not (self.files or FILE.match(line)):
                self.text.append(line)
            elif FILE.match(line):
                item = [line]
                self.files[FILE.match(line)[1]] = (item, groups := [])
            elif line.startswith("  - "):
                item = [line]
                groups.append(item)
            elif line.strip():
                item.append(line.strip())

    def groups(self):
        """For each file the words behind it, and its names with their words."""
        for file, (head, items) in self.files.items():
            found = [NAMES.match(" ".join(item)) for item in items]
            yield file, FILE.match(" ".join(head))[2], [(re.findall(r"`([^`]+)`", it[1]), (it[2] or "").strip()) for it in found if it]


def parts():
    """The parts of the page, by its headings."""
    with open(PAGE, encoding="utf-8") as it:
        lines = it.read().rstrip("\n").split("\n")
    starts = [0] + [at for at, line in enumerate(lines) if line.startswith("## ") and at]
    return [Part(lines[first:last]) for first, last in zip(starts, starts[1:] + [len(lines)])]


class Heads(dict):
    """What the page says of files, and of which it said so already."""

    def __init__(self):
        super().__init__()
        self.told = set()


def wrapped(first, rest, words):
    return textwrap.wrap(first + words, 150, subsequent_indent=rest, break_long_words=False, break_on_hyphens=False)


def walk(adds, heads, known):
    """The items of a clause: its files, each with its definitions, together where the words are the same. What a file has stands where it comes first."""
    for file, some in by_files(adds).items():
        yield from wrapped(f"- `{file}`", "  ", heads.get(file) or f": {opening_of(some[0].path)}" if file not in heads.told else "")
        heads.told.add(file)
        groups = {}
        for it in sorted(some, key=lambda it: it.line):
            words = known.get((file, it.name)) or comment_of(it)
            groups.setdefault(words or it.name, ([], words))[0].append(it.name)
        for names, words in groups.values():
            yield from item(names, words)


def item(names, words):
    return wrapped("  - ", "    ", ", ".join(f"`{name}`" for name in names) + (f": {words}" if words else ""))


def mended():
    """The page as it has to be."""
    all_parts = parts()
    heads, known = Heads(), {}
    for part in all_parts:
        for file, head, groups in part.groups():
            heads.setdefault(file, head)
            known.update({(file, name): words for names, words in groups for name in names if words})
    clause_parts = {part.clause: part for part in all_parts if part.clause}
    lines, shown = [], False
    for part in all_parts:
        if not part.clause:
            lines += part.text
        elif not shown:
            shown = True
            lines += walked(clause_parts, heads, known)
    return lines


def walked(clause_parts, heads, known):
    """The parts of all clauses, in their order."""
    lines = []
    for name, reached, adds in added(clauses()):
        part = clause_parts.get(name) or Part([f"## `{name}`"])
        told = f"{len(reached)} definitions in {size(reached)} lines; {len(adds)} in {size(adds)} are new here."
        text = "\n".join(line for line in part.text[1:] if not re.match(r"\d+ definitions in \d+ lines; ", line)).strip("\n")
        for block in [part.text[:1], [told], text.split("\n") if text else [], list(walk(adds, heads, known))]:
            lines += block + ([""] if block else [])
    return lines


def mend():
    text = "\n".join(mended()).rstrip("\n") + "\n"
    with open(PAGE, "w", encoding="utf-8") as it:
        it.write(text)
    for name in silent():
        print(name)


def silent():
    """The definitions for which the page has no words."""
    groups = [(file, names, words) for part in parts() for file, _, found in part.groups() for names, words in found]
    return [f"without words: {name} of {file}" for file, names, words in groups if not words for name in names]


def unwalked():
    """Whether the page walks something else, or says nothing of a definition."""
    lines = mended()
    with open(PAGE, encoding="utf-8") as it:
        stands = it.read().rstrip("\n").split("\n")
    while lines and not lines[-1]:
        lines.pop()
    differences = list(difflib.unified_diff(stands, lines, "docs/DEFINITIONS.md", "docs/trust.py mend", lineterm="", n=1))
    if differences or silent():
        print("\n".join(differences + silent()))
    return bool(differences or silent())


def mixed_files(whole):
    """The files of which clauses reach some definitions, and not others: how many of how many."""
    reached = set(map(id, whole))
    for module in Specs().modules.values():
        some = [it for it in whole if it.path == module.path]
        others = [name for name in module.definitions if name not in {it.name for it in some}]
        if some and others:
            yield os.path.relpath(module.path, ROOT), len(some), others


def measured():
    """What is to be read."""
    told = list(added(clauses()))
    whole = [it for _, _, adds in told for it in adds]
    of_lines = {id(it): it for name, reached, _ in told if name in OF_LINES for it in reached}
    with_disk = of_lines | {id(it): it for name, reached, _ in told if name == "disk" for it in reached}
    history = next(reached for name, reached, _ in told if name == "history")
    long = [it for it in whole if it.size > 25]
    return [size(history), size(of_lines.values()), size(with_disk.values()), size(whole), len(list(mixed_files(whole))), len(long)], whole, long


def limits():
    numbers, _, long = measured()
    for number, (what, most, kept) in zip(numbers, WANTED):
        print(f"{number:6} {what} (wanted: {most}{', kept' if kept and number <= most else ''})")
    for it in long:
        print(f"       {it.name} {os.path.relpath(it.path, ROOT)}:{it.line} ({it.size})")


def mixed():
    for path, count, others in mixed_files(measured()[1]):
        print(textwrap.shorten(f"{path}: {count} reached; not: {', '.join(others)}", 160, placeholder=" .."))


def check():
    bad = unwalked()
    for number, (what, most, kept) in zip(measured()[0], WANTED):
        if kept and number > most:
            print(f"{number} {what}, more than {most}")
            bad = True
    print("docs/DEFINITIONS.md walks other definitions" if bad else "docs/DEFINITIONS.md walks what the clauses reach")
    return bad


def main(words):
    if words[:1] == ["sizes"] and len(words) == 1:
        return sizes()
    if words[:1] == ["list"]:
        return listing(words[1:])
    if words[:1] in (["limits"], ["mixed"], ["mend"], ["check"]) and len(words) == 1:
        return {"limits": limits, "mixed": mixed, "mend": mend, "check": check}[words[0]]()
    print(__doc__)
    return 2


if __name__ == "__main__":
    sys.exit(main(sys.argv[1:]))
