#!/usr/bin/env python3
"""Runs rows of transcripts and scripts through the program, each in a folder of its own, and compares what it writes and its exit status.
Usage: examples/rows.py PROGRAM"""
import os
import subprocess
import sys
import tempfile

program = os.path.realpath(sys.argv[1])

# Transcripts, and what `check` tells of them: each rule broken once, the first of two, and lines outside the grammar.
VERDICTS = [
    ("", "legal"),
    ("1 A create /f -> ok op 1\n2 A stat /f -> stat file 0644 0 0", "legal"),
    ("1 A create /f -> waits\n1 A create /f -> ok op 1\ncrashed A\n3 A stat /f -> waits\nended A lost 1\n3 A stat /f -> refused NotFound 1\n", "legal"),
    # A late answer stands before the loss of its session, so it doesn't see what the other clerk made.
    ("1 A list / -> names 0\nended A lost -\n2 B create /g -> ok op 1\n3 A list / -> names 0\ntold A lost -\n", "legal"),
    ("1 A list / -> names 0\nended A lost -\n2 B create /g -> ok op 1\ntold A lost -\n3 A list / -> names 0\n", "illegal 5 reply"),
    ("1 A create /f -> ok op 1\n1 A stat /f -> stat file 0644 0 0\n", "illegal 2 shape"),
    ("1 A create /f -> ok op 2\n", "illegal 1 number"),
    ("1 A create /f -> ok op 1\nended A lost 1\ntold A lost 1\n2 A list / -> names 0\n", "illegal 4 report"),
    ("1 A create /f -> noroom 1 0\n", "illegal 1 room"),
    ("1 A create /f -> ok op 1\n2 A stat /f -> stat file 0600 0 0\n", "illegal 2 reply"),
    ("1 A create /f -> waits\n1 A create /f -> ok op 1\ncrashed A\n3 A stat /f -> waits\nended A lost -\n3 A stat /f -> refused NotFound 1\n", "illegal 5 named"),
    ("1 A create /f -> ok op 1\n2 A sync -> ok\nended A lost 1\n", "illegal 3 covered"),
    ("1 A create /f -> ok op 1\n2 B stat /f -> stat file 0644 0 0\nended A lost 1\n", "illegal 3 touched"),
    ("1 A create /f -> ok op 1\n2 A write /f 0 x -> ok op 2\ndurable A 2\nended A lost 1\n", "illegal 4 closed"),
    # Shape before named; a line that may not follow before an entry above it; number before reply; the first entry.
    ("1 A create /f -> ok op 1\ncrashed A\n1 A create /f -> ok op 1\n", "illegal 3 shape"),
    ("1 A create /f -> ok op 2\ndurable A 7\n", "illegal 2 named"),
    ("1 A stat /f -> ok op 2\n", "illegal 1 number"),
    ("1 A create /f -> ok op 2\n2 A stat /f -> refused NotFound 1\n", "illegal 1 number"),
    ("1 A create /f -> ok op 2\nnonsense\n", "bad 2 col 1"),
    ("crashed A\ncrashed B\ncrashed C\nnonsense\ncrashed D\nnonsense\ncrashed E\n", "bad 4 col 1"),
    ("\n", "bad 1 col 1"),
]

# Lines that no transcript has, and the columns at which they're bad.
NO_LINES = [
    ("1 A create /%c3%a9 -> waits", 12),
    ("1 A create /%41 -> waits", 12),
    ("1 A create /f", 14),
    ("1 A forder /a /b x", 18),
    ("1 A forder /a", 14),
    ("01 A sync -> waits", 1),
    ("1 A sync -> ok op 01", 19),
    ("durable A 2 2", 13),
    ("durable A 2 1", 13),
    ("durable A - 1", 13),
    ("durable A", 10),
    ("1 A stat / -> stat dir 0755 9 2 owner 0", 39),
    ("1 A stat / -> stat dir 0755 9 2 7", 33),
    ("1 A read /f 0 9 -> data 2 a", 27),
    ("1 A list / -> names 2 a", 24),
    ("none ", 6),
]

# Lines that a transcript may have, which are read, whatever the verdict on them.
LINES = [
    "1 A create /f -> waits",
    "1 A create /f -> ok op 1",
    "2 A chown /f 7 -> ok op 2",
    "3 A stat /f -> stat file 0644 0 0 owner 7",
    "3 A stat / -> stat dir 0755 9 2",
    "4 B write /f 0 -> -> ok op 3",
    "4 P forder /a /b -> ok op 3",
    "5 A read /%C3%A9 0 9 -> data 3 a%20%25",
    "5 A read /f 0 9 -> data 0",
    "6 A list / -> names 2 a b%25",
    "9 A list /c/b -> names 1 a",
    "7 A sync -> refused NotFound 1",
    "7 A create /x -> noroom 32 0",
    "8 A sync -> lost 1 2 7",
    "durable A 5",
    "ended A lost -",
    "told B lost 1 2",
    "bad 3 col 12",
    "disk bad 0",
    "limit bytes 1048577",
    "spent Id",
    "none",
    "ended A lost 1 2",
    "told A lost -",
    "durable A 1 2",
    "4 B read /%C3%A9%25 0 9 -> data 3 h%20%00",
    "11 A stat /f -> lost 3 4",
    "2 A write /f 0 one -> ok op 2",
    "3 A sync -> waits",
    "3 A sync -> ok",
    "5 A write /f 0 two -> ok op 3",
    "6 A touch /f 7 -> ok op 4",
    "ended A lost 3 4",
    "8 B write /f 0 six -> waits",
    "8 B write /f 0 six -> ok op 1",
    "9 A read /f 0 9 -> data 3 two",
    "told A lost 3 4",
    "11 A stat /f -> waits",
    "durable B 1",
    "12 A stat /f -> stat file 0644 0 3",
]

# Lines that no script has, and the columns at which they're bad.
NO_CALLS = [
    ("push A", 7),
    ("push A x", 8),
    ("push A 1 2", 10),
    ("Q stat /", 1),
    ("A", 2),
    ("A  sync", 3),
    ("A statt /", 3),
    ("A sync ", 8),
    ("A stat", 7),
    ("A stat f", 8),
    ("A stat /a/", 8),
    ("A stat /../x", 8),
    ("A stat /%2", 8),
    ("A stat " + "/a" * 17, 8),
    ("A write /g 00 x", 12),
    ("A write /g 0 ", 14),
    ("A read /g 4294967296 1", 11),
    ("A read /g 0 4097", 13),
    ("A chmod /g 0648", 12),
    ("A touch /g 18446744073709551616", 12),
    ("A rename /a", 12),
    ("A forder" + " /" * 9, 26),
    ("drop A hallo 1", 8),
    ("arm 1000001 old", 5),
    ("arm 1 older", 7),
    ("stop A", 6),
]

# Lines that no mount's script has, which is read before the server is called.
NO_LANES = ["9 sync", "A sync", "1 push 1"]

# Scripts and their transcripts.
DRILLS = [
    (
        "P mkdir /a\nP create /a/b\nP chown /a%2Fb 7\n",
        "1 P mkdir /a -> waits\n1 P mkdir /a -> ok op 1\n2 P create /a/b -> ok op 2\n3 P chown /a/b 7 -> ok op 3\n",
    ),
    (
        "A create /f\nA create /f\nA write /f 1 hi\nA read /f 0 9\nA stat /f\n",
        "1 A create /f -> waits\n1 A create /f -> ok op 1\n2 A create /f -> refused Exists\n3 A write /f 1 hi -> ok op 2\n"
        "4 A read /f 0 9 -> data 3 %00hi\n5 A stat /f -> stat file 0644 0 3\n",
    ),
    (
        "A create /f\nA chown /f 7\nA stat /f\n",
        "1 A create /f -> waits\n1 A create /f -> ok op 1\n2 A chown /f 7 -> ok op 2\n3 A stat /f -> stat file 0644 0 0 owner 7\n",
    ),
    # Many overwrites, which one fsync of another file doesn't take along.
    (
        "A create /a\n" + "A write /a 0 x\n" * 30000 + "A create /b\nA fsync /b\n",
        "1 A create /a -> waits\n1 A create /a -> ok op 1\n"
        + "".join(f"{line} A write /a 0 x -> ok op {line}\n" for line in range(2, 30002))
        + "30002 A create /b -> ok op 30002\n30003 A fsync /b -> waits\ndurable A 1 30002\n30003 A fsync /b -> ok\n",
    ),
]

# Scripts with leases of 100 ticks, and clocks that differ by at most 10: a clerk whose lease is over and holds its call, and a lease that comes late.
LEASED = [
    (
        "A create /f\ncut A\nA write /f 0 x\nend A\ntick 109\nA read /f 0 9\nend A\ntick 1\nend A\nB stat /f\nuncut A\nA stat /f\n",
        "1 A create /f -> waits\n1 A create /f -> ok op 1\n3 A write /f 0 x -> ok op 2\nheld A 110\n6 A read /f 0 9 -> waits\nheld A 110\nended A lost 1 2\n"
        "10 B stat /f -> waits\n10 B stat /f -> refused NotFound 1\ntold A lost 1 2\n6 A read /f 0 9 -> lost 1\n12 A stat /f -> refused NotFound 1\n",
    ),
    (
        "A create /f\ncut A\ntick 60\ngrant A\ntick 50\nA touch /f 7\nend A\nhand A 2\n",
        "1 A create /f -> waits\n1 A create /f -> ok op 1\n6 A touch /f 7 -> waits\nheld A 170\n6 A touch /f 7 -> ok op 2\n",
    ),
    ("grant A\nA create /f\n", "none\n2 A create /f -> waits\n2 A create /f -> ok op 1\n"),
]

# Lines that no script with such leases has, and the columns at which they're bad; a drill has none of the four kinds.
NO_LEASES = [("tick 0", 6), ("tick 1000001", 6), ("tick", 5), ("skew A 21", 8), ("skew A", 7), ("grant Q", 7), ("grant A 1", 9), ("hand A 1", 8), ("held A 110", 1)]
NO_WORDS = [["leases"], ["leases", "100"], ["leases", "10", "10"], ["leases", "0", "0"], ["leases", "1000001", "1"], ["leases", "010", "1"], ["leases", "10", "1", "1"]]

# The numbers of scripts that are made, their first lines, how many bytes they have, and the sum of these.
MADE = [
    (
        "1",
        "C mkdir /d1\nC create /d2/f3\nC write /d6/f9 58 3\nD read /d2/f12 0 64\nA rename /d2/f12 /d2/f10\nD stat /d4/f5\nD fsync /d5/f14\nC list /d5\nA mkdir /d0\n",
        (33740, 2308268),
    ),
    ("4294967295", "D mkdir /d4\nD create /d6/f15\nA write /d0/f15 0 3\n", None),
]

STATUS = {"legal": 0, "bad": 3, "illegal": 12}


def ran(words, given):
    """What the program wrote, and its status."""
    with tempfile.TemporaryDirectory() as folder:
        run = subprocess.run([program, *words], input=given.encode(), stdout=subprocess.PIPE, stderr=subprocess.PIPE, cwd=folder)
    return run.stdout.decode(), run.returncode


def failures():
    """A line for each row, which is empty where all is as it has to be."""
    for text, verdict in VERDICTS + [(line, f"bad 1 col {column}") for line, column in NO_LINES]:
        found = ran(["check"], text)
        yield "" if found == (verdict + "\n", STATUS[verdict.split()[0]]) else f"check of {text!r}: {found}"
    for line in LINES:
        found = ran(["check"], line)
        yield "" if found[1] in (STATUS["legal"], STATUS["illegal"]) else f"check of {line!r}: {found}"
    for line, column in NO_CALLS:
        found = ran(["drill"], line)
        yield "" if found == (f"bad 1 col {column}\n", STATUS["bad"]) else f"drill of {line!r}: {found}"
    for script, transcript in LEASED:
        found = ran(["leases", "100", "10"], script)
        yield "" if found == (transcript, 0) else f"leases of {script!r}: {found}"
    for line, column in NO_LEASES:
        found = ran(["leases", "100", "10"], line)
        yield "" if found == (f"bad 1 col {column}\n", STATUS["bad"]) else f"leases of {line!r}: {found}"
        found = ran(["drill"], line)
        yield "" if found == ("bad 1 col 1\n", STATUS["bad"]) else f"drill of {line!r}: {found}"
    for words in NO_WORDS:
        found = ran(words, "")
        yield "" if found == ("", 2) else f"{words}: {found}"
    for line in NO_LANES:
        text, status = ran(["mount", "127.0.0.1:1", "A"], line)
        yield "" if text.startswith("bad 1 col ") and status == STATUS["bad"] else f"mount of {line!r}: {(text, status)}"
    for script, transcript in DRILLS:
        found = ran(["drill"], script)
        yield "" if found == (transcript, 0) else f"drill of {script[:200]!r}: {found[0][:200]!r}, {found[1]}"
    for number, front, sums in MADE:
        text, status = ran(["make", number], "")
        is_so = status == 0 and text.startswith(front) and text.count("\n") == 2000 and sums in (None, (len(text), sum(text.encode())))
        yield "" if is_so else f"make {number}: {status}, {text[:200]!r}"


results = list(failures())
wrong = [line for line in results if line]
print(*wrong, f"rows: {len(results) - len(wrong)} passed, {len(wrong)} failed", sep="\n")
sys.exit(bool(wrong))
