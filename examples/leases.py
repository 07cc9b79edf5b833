#!/usr/bin/env python3
"""What drills with leases write, and how long they take.
Usage: examples/leases.py PROGRAM [SCRIPTS]

Random scripts of calls, faults and clocks (400, or so many) are carried out with leases: but for its `held` lines each transcript is legal, and no clerk
answers between an `ended` line of its session and its next `told` or `crashed` but what it needed no session for: a `sync`, or a call on the root that
is refused. A script of 65,536 lines without clocks comes to the same transcript as a drill's, in twice its time of a processor at most (measured: 1.4
times, where no line takes a message; less where some do)."""
import os
import random
import re
import resource
import subprocess
import sys
import tempfile

program = os.path.realpath(sys.argv[1])
scripts = int(sys.argv[2]) if len(sys.argv) > 2 else 400
CLERKS = "ABC"
PATHS = ["/f", "/g", "/d", "/d/h"]
LINES, MOST_TIMES = 65536, 2
ANSWER = re.compile(r"\d+ ([A-P]) (.*) -> (?!waits)(.*)")
WAIT = 120

passed = failed = 0


def check(what, is_so, why=""):
    global passed, failed
    if is_so:
        passed += 1
    else:
        failed += 1
        print(f"{what}: {why}")


def processor():
    """The seconds of a processor that all runs took."""
    used = resource.getrusage(resource.RUSAGE_CHILDREN)
    return used.ru_utime + used.ru_stime


def run(script, *words):
    """What the program wrote, its status, and the seconds of a processor that it took."""
    with tempfile.TemporaryDirectory() as folder:
        before = processor()
        it = subprocess.run([program, *words], cwd=folder, input=script, capture_output=True, text=True, timeout=WAIT)
        return it.stdout, it.returncode, processor() - before


def call(some):
    path = some.choice(PATHS)
    return some.choice(
        ["sync", f"create {path}", "mkdir /d", f"write {path} 0 {some.randrange(100)}", f"read {path} 0 9", f"stat {path}", f"remove {path}", "list /"]
        + [f"fsync {path}", "remove /", f"rename /f {path}"]
    )


def line(some, length, most):
    """A line of a random script: calls most of all, and clocks more than faults."""
    clerk = some.choice(CLERKS)
    kinds = {
        f"{clerk} {call(some)}": 10,
        f"tick {some.choice([1, most + 1, length // 2 + 1, length, length + most + 1])}": 3,
        f"skew {clerk} {some.choice([0, most, 2 * most])}": 1,
        f"grant {clerk}": 1,
        f"hand {clerk} 1": 1,
        f"end {clerk}": 3,
        f"cut {clerk}": 2,
        f"uncut {clerk}": 2,
        f"crash {clerk}": 1,
        f"resend {clerk}": 1,
        some.choice(["stop", "restart"]): 1,
        f"arm {some.randrange(1, 9)} {some.choice(['old', 'new', 'torn'])}": 1,
        f"deliver {clerk} {some.choice(['hello', 'opened', 'ended', 'grant', 'kept'])} 1": 1,
    }
    return some.choices(list(kinds), list(kinds.values()))[0]


def late(lines):
    """Answers that stand behind the end of their session, and needed it. An end behind a crash is that of the start that crashed."""
    ended, crashed = set(), set()
    for text in lines:
        words = text.split(" ")
        if words[0] == "crashed":
            ended.discard(words[1])
            crashed.add(words[1])
        elif words[0] in ("ended", "unseen") and words[1] in crashed:
            crashed.discard(words[1])
        elif words[0] == "ended":
            ended.add(words[1])
        elif words[0] == "told":
            ended.discard(words[1])
        else:
            found = ANSWER.fullmatch(text)
            if found and found[1] in ended and not (found[2] == "sync" or found[3] == "refused Root"):
                yield text


def random_scripts():
    held = 0
    for seed in range(scripts):
        some = random.Random(seed)
        length = some.choice([2, 10, 100])
        most = some.choice([0, 1, length // 2])
        script = "".join(line(some, length, most) + "\n" for _ in range(40))
        told, status, _ = run(script, "leases", str(length), str(most))
        lines = told.splitlines()
        left = [text for text in lines if not text.startswith("held ")]
        held += len(lines) - len(left)
        what = f"script {seed} with leases {length} {most}"
        check(what, status in (0, 3), f"status {status}")
        verdict, _, _ = run("".join(f"{text}\n" for text in left), "check")
        check(what, verdict == "legal\n", f"{verdict!r} of {told!r}")
        check(what, not list(late(left)), f"{list(late(left))} of {told!r}")
    check("sessions that don't end yet", held > 0, "none in all scripts")


def long_script():
    """Calls of four clerks to a few files, within the limit of lines."""
    calls = [f"{'ABCD'[n % 4]} {('write /f%d 0 x', 'read /f%d 0 9', 'touch /f%d 7', 'stat /f%d')[n // 4 % 4] % (n % 4)}" for n in range(LINES - 4)]
    return "".join(f"{text}\n" for text in ["A create /f0", "B create /f1", "C create /f2", "D create /f3"] + calls)


def times():
    script = long_script()
    runs = [(run(script, "drill"), run(script, "leases", "1000", "10")) for _ in range(3)]
    check("a long script", all(plain[:2] == leased[:2] and plain[1] == 0 for plain, leased in runs), "other bytes or another status with leases")
    plain, leased = (min(seconds for _, _, seconds in column) for column in zip(*runs))
    check("a long script", leased <= MOST_TIMES * plain, f"{leased:.2f} s with leases and {plain:.2f} s without")
    print(f"a script of {LINES} lines: {leased:.2f} s with leases, {plain:.2f} s without")


random_scripts()
times()
print(f"leases: {passed} passed, {failed} failed")
sys.exit(bool(failed))
