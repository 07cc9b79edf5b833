#!/usr/bin/env python3
"""Draws a transcript of a drill as a picture (SVG), time running down.
Usage: examples/chart.py < TRANSCRIPT > PICTURE.svg    or    examples/chart.py TRANSCRIPT > PICTURE.svg

Each clerk has a column: a bar is a call, pale while it waits, with what was answered below what was asked; a cross is a crash. A thread hangs from each
operation at the column's edge, down to where it became durable (green) or was lost (red, with a cross), and the operation's bar has that colour; a thread that
reaches the end is neither. Dots lead on from a loss to each answer that reports it, which has dots around it. The last column is the server: its durable lines,
where it stopped and started, grey while it's down, which sessions it ended, and which it didn't end yet. What is in a picture is told below its columns."""
import re
import sys
from html import escape

ROW = 22
CHARACTER = 7.3
TOP = 46
GAP = 26
COLOURS = {
    "ink": "#222222",
    "faint": "#6a6a6a",
    "rail": "#d5d5d5",
    "wait": "#e4ecf7",
    "call": "#c9dbf2",
    "durable": "#2d8a4e",
    "lost": "#c62828",
    "refused": "#7d5600",
    "open": "#6a6a6a",
    "down": "#d5d5d5",
    "durable call": "#d3ecda",
    "lost call": "#f9d4d4",
    "report": "#fdf3f2",
}
THREADS = 6
ANSWER = re.compile(r"^(\d+) ([A-P]) (.+?) -> (.+)$")


class Operation:
    """An operation of a clerk's start: where it was issued, its thread in the column, and the rows of the answers that report its loss."""

    def __init__(self, row, place):
        self.row, self.place, self.end, self.colour, self.reports = row, place, None, "open", []

    def ends(self, row, colour):
        if self.end is None:
            self.end, self.colour = row, colour


class Call:
    """A call: the row where it began, that of its answer, and the operation that it issued."""

    def __init__(self, row, asked):
        self.first, self.last, self.asked, self.answer, self.operation = row, row, asked, "waits", None

    def texts(self, number):
        """What stands on its bar: on one row where it's answered at once."""
        if self.first == self.last:
            return [f"{number} {self.asked} -> {self.answer}"]
        return [f"{number} {self.asked}", f"-> {self.answer}"]

    def colour(self):
        if self.answer == "waits":
            return "wait"
        if self.answer.startswith("lost"):
            return "report"
        return "call" if self.operation is None or self.operation.end is None else f"{self.operation.colour} call"


class Clerk:
    """A column: the starts of a clerk, of which a crashed one stays open until its session is ended."""

    def __init__(self):
        self.running, self.crashed, self.threads, self.calls, self.crashes, self.told = {}, None, [], {}, [], []

    def crash(self, row):
        self.crashes.append(row)
        self.crashed, self.running = self.running, {}

    def open_start(self):
        return self.running if self.crashed is None else self.crashed

    def issue(self, number, row):
        operation = Operation(row, len(self.threads) % THREADS)
        self.threads.append(operation)
        self.running[number] = operation
        return operation

    def report(self, numbers, row):
        for number in numbers:
            if number in self.running:
                self.running[number].reports.append(row)

    def ended(self, numbers, row):
        start = self.open_start()
        for number in numbers:
            if number in start:
                start[number].ends(row, "lost")
        self.crashed = None

    def durable(self, numbers, row):
        for start in (self.open_start(), self.running):
            for number in numbers:
                if number in start:
                    start[number].ends(row, "durable")


def numbers_of(words):
    return [int(word) for word in words if word.isdigit()]


def colour_of(answer):
    if answer.startswith("lost"):
        return "lost"
    return "refused" if answer.startswith(("refused", "noroom")) else "ink"


class Chart:
    def __init__(self, lines):
        self.lines, self.clerks, self.notes, self.downs, self.words = lines, {}, [], [], []
        self.down_since = None
        for row, line in enumerate(lines):
            self.read(row, line)
        if self.down_since is not None:
            self.downs.append((self.down_since, len(lines)))

    def clerk(self, name):
        return self.clerks.setdefault(name, Clerk())

    def read(self, row, line):
        answered = ANSWER.match(line)
        if answered:
            self.answer(row, *answered.groups())
            return
        words = line.split(" ")
        if words[0] == "crashed":
            self.clerk(words[1]).crash(row)
        elif words[0] == "durable":
            self.clerk(words[1]).durable(numbers_of(words[2:]), row)
            self.notes.append((row, line, "durable"))
        elif words[0] == "ended":
            self.clerk(words[1]).ended(numbers_of(words[3:]), row)
            self.notes.append((row, line, "lost" if numbers_of(words[3:]) else "ink"))
        elif words[0] == "told":
            self.clerk(words[1]).told.append((row, line))
        elif words[0] == "held":
            self.notes.append((row, line, "refused"))
        elif line == "stopped":
            self.down_since = row
            self.notes.append((row, line, "ink"))
        elif line == "started":
            if self.down_since is not None:
                self.downs.append((self.down_since, row))
                self.down_since = None
            self.notes.append((row, line, "ink"))
        else:
            self.words.append((row, line))

    def answer(self, row, number, name, call, answer):
        clerk = self.clerk(name)
        begun = clerk.calls.setdefault(int(number), Call(row, call))
        begun.last, begun.answer = row, answer
        issued = re.search(r"\bop (\d+)$", answer)
        if issued:
            begun.operation = clerk.issue(int(issued[1]), row)
        if answer.startswith("lost "):
            clerk.report(numbers_of(answer.split(" ")[1:]), row)

    def width_of(self, clerk):
        texts = [line for _, line in clerk.told]
        for number, call in clerk.calls.items():
            texts += call.texts(number)
        return max([14] + [len(text) for text in texts]) * CHARACTER + 24 + threads_of(clerk)

    def drawn(self):
        height = TOP + (len(self.lines) + 1) * ROW + ROW
        parts, left = [], 16.0
        server = left + sum(self.width_of(clerk) + GAP for clerk in self.clerks.values())
        for name in sorted(self.clerks):
            clerk = self.clerks[name]
            parts += self.column(name, clerk, left, height - ROW, server)
            left += self.width_of(clerk) + GAP
        parts += self.server(left, height - ROW)
        marks, end = legend(self.kinds(), height - 10)
        parts += marks
        width = left + max([12] + [len(note[1]) for note in self.notes + [(0, line) for _, line in self.words]]) * CHARACTER + 40
        width = max(width, end)
        head = (
            f'<svg xmlns="http://www.w3.org/2000/svg" width="{width:.0f}" height="{height}" viewBox="0 0 {width:.0f} {height}" '
            'font-family="monospace" font-size="12">'
        )
        return "\n".join([head, f'<rect width="{width:.0f}" height="{height}" rx="6" fill="white"/>'] + parts + ["</svg>", ""])

    def kinds(self):
        """What is in the picture, of all that is told below it."""
        calls = [call for clerk in self.clerks.values() for call in clerk.calls.values()]
        threads = [operation for clerk in self.clerks.values() for operation in clerk.threads]
        found = {operation.colour for operation in threads} | {"reported" for operation in threads if operation.reports}
        found |= {"waits" for call in calls if call.first < call.last} | {"server down" for _ in self.downs}
        return [kind for kind in ("waits", "durable", "lost", "reported", "open", "server down") if kind in found]

    def column(self, name, clerk, left, height, server):
        edge = left + self.width_of(clerk) - threads_of(clerk) - 6
        parts = [text(left, TOP - 20, f"clerk {name}", "ink", "bold"), rail(left, TOP - 8, height - 8)]
        for number, call in clerk.calls.items():
            parts += bar(left, edge, number, call)
        for operation in clerk.threads:
            parts.append(thread(edge + 8 + operation.place * 5, edge, operation, len(self.lines), server))
        for row in clerk.crashes:
            parts += [cross(left, middle(row) - 4, 6, "ink", 2.5), text(left + 12, middle(row), "crashed", "ink")]
        parts += [text(left + 12, middle(row), line, "lost") for row, line in clerk.told]
        return parts

    def server(self, left, height):
        parts = [text(left, TOP - 20, "server", "ink", "bold")]
        for first, last in self.downs:
            parts.append(box(left - 6, top(first), 12, (last - first + 1) * ROW, "down"))
        parts.append(rail(left, TOP - 8, height - 8))
        for row, line, colour in self.notes:
            parts += [f'<circle cx="{left}" cy="{middle(row) - 4}" r="4" fill="{COLOURS[colour]}"/>', text(left + 12, middle(row), line, colour)]
        parts += [text(left + 12, middle(row), line, "faint" if line == "none" else "ink") for row, line in self.words]
        return parts


def threads_of(clerk):
    """The room for a clerk's threads."""
    return 5 * min(len(clerk.threads), THREADS)


def top(row):
    return TOP + row * ROW


def middle(row):
    return top(row) + 15


def text(left, base, words, colour, weight="normal"):
    return f'<text x="{left:.1f}" y="{base}" fill="{COLOURS[colour]}" font-weight="{weight}" xml:space="preserve">{escape(words)}</text>'


def box(left, upper, width, height, colour, edge=""):
    return f'<rect x="{left:.1f}" y="{upper}" width="{width:.1f}" height="{height}" rx="3" fill="{COLOURS[colour]}"{edge}/>'


def rail(left, upper, lower):
    return f'<line x1="{left}" y1="{upper}" x2="{left}" y2="{lower}" stroke="{COLOURS["rail"]}" stroke-width="2"/>'


def line(x1, y1, x2, y2, colour, width=1.5, dots=""):
    dashes = f' stroke-dasharray="{dots}"' if dots else ""
    return f'<line x1="{x1:.1f}" y1="{y1}" x2="{x2:.1f}" y2="{y2}" stroke="{COLOURS[colour]}" stroke-width="{width}"{dashes}/>'


def bar(left, edge, number, call):
    """A call from its first line to its answer."""
    parts = []
    if call.first < call.last:
        parts.append(box(left + 6, top(call.first) + 2, edge - left - 6, (call.last - call.first + 1) * ROW - 4, "wait"))
    dots = f' stroke="{COLOURS["lost"]}" stroke-dasharray="1.5 3"' if call.colour() == "report" else ""
    parts.append(box(left + 6, top(call.last) + 2, edge - left - 6, ROW - 4, call.colour(), dots))
    rows = [call.last] if call.first == call.last else [call.first, call.last]
    colours = [colour_of(call.answer)] if call.first == call.last else ["ink", colour_of(call.answer)]
    return parts + [text(left + 12, middle(row), words, colour) for row, words, colour in zip(rows, call.texts(number), colours)]


def thread(left, edge, operation, rows, server):
    """From an operation to the line of the server that names it, and on to the answers that report it."""
    upper, lower = middle(operation.row) - 4, middle(rows if operation.end is None else operation.end) - 4
    parts = [dot(left, upper, operation.colour), line(left, upper, left, lower, operation.colour), mark(left, lower, operation.colour)]
    if operation.end is not None:
        parts.append(line(left, lower, server, lower, operation.colour, 1, "2 4"))
    for row in operation.reports:
        at = middle(row) - 4
        parts += [line(left, lower, left, at, "lost", 1.5, "1.5 3"), line(left, at, edge, at, "lost", 1.5, "1.5 3")]
    return "".join(parts)


def dot(left, at, colour):
    return f'<circle cx="{left:.1f}" cy="{at}" r="2.5" fill="{COLOURS[colour]}"/>'


def mark(left, at, colour):
    """The end of a thread: a cross where the operation was lost."""
    if colour == "lost":
        return cross(left, at, 3, colour, 2)
    return line(left - 3, at, left + 3, at, colour, 2)


def legend(kinds, base):
    """What bars and threads mean, below the columns, and where that ends."""
    parts, left, at = [], 16.0, base - 4
    for kind in kinds:
        words = "neither" if kind == "open" else kind
        colour = {"reported": "lost", "waits": "ink", "server down": "ink"}.get(kind, kind)
        if kind in ("waits", "server down"):
            parts.append(box(left, at - 6, 14, 12, "wait" if kind == "waits" else "down"))
        elif kind == "reported":
            parts.append(line(left, at, left + 14, at, colour, 1.5, "1.5 3"))
        else:
            parts += [line(left, at, left + 14, at, colour), dot(left, at, colour), mark(left + 14, at, colour)]
        parts.append(text(left + 22, base, words, colour))
        left += 22 + len(words) * CHARACTER + 20
    return parts, left


def cross(left, at, size, colour, width):
    return line(left - size, at - size, left + size, at + size, colour, width) + line(left - size, at + size, left + size, at - size, colour, width)


def main():
    source = open(sys.argv[1], encoding="ascii") if len(sys.argv) > 1 else sys.stdin
    sys.stdout.write(Chart(source.read().splitlines()).drawn())


main()
