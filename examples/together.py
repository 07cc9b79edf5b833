#!/usr/bin/env python3
"""Mounts at one server whose calls need what the others hold.
Usage: examples/together.py PROGRAM [PORT [CALLS]]   (the port is 4711 and each of the sixteen mounts makes 200 calls where none are given)

In each case the same lanes run by mounts at the same time, and by mounts one after another on a disk of their own. All have to end well, at the
same time in at most ten times as long as one after another, plus five seconds. A mount that waits may not be busy: it takes at most half of the
time in processor time, plus half a second."""
import os
import random
import signal
import subprocess
import sys
import tempfile
import threading
import time

program = os.path.realpath(sys.argv[1])
port = int(sys.argv[2]) if len(sys.argv) > 2 else 4711
calls = int(sys.argv[3]) if len(sys.argv) > 3 else 200
address = f"127.0.0.1:{port}"
ROUNDS = 100
TIMES, MORE = 10, 5
LONGEST = 45


def lane(*words):
    return "".join(f"1 {word}\n" for word in words)


def rounds(*words):
    return lane(*words * ROUNDS)


def with_number(*words):
    return lane(*(word.format(i) for i in range(ROUNDS) for word in words))


# A mount's lane of calls on eight names of one directory.
def random_lane(seed):
    draw = random.Random(seed)
    name = lambda: f"/d/n{draw.randrange(8)}"
    kinds = [
        lambda: f"create {name()}",
        lambda: f"write {name()} {draw.randrange(16)} {'x' * draw.randrange(1, 8)}",
        lambda: f"read {name()} 0 16",
        lambda: f"rename {name()} {name()}",
        lambda: f"remove {name()}",
        lambda: f"stat {name()}",
        lambda: f"fsync {name()}",
    ]
    return lane(*(draw.choice(kinds)() for _ in range(calls)))


# What is made first, and the lanes of the mounts.
CASES = {
    "opposite renames": (
        lane("mkdir /a", "mkdir /b", "create /a/f", "create /b/g"),
        [rounds("rename /a/f /b/f", "rename /b/f /a/f"), rounds("rename /b/g /a/g", "rename /a/g /b/g")],
    ),
    "creates and removes beside renames of their directory": (
        lane("mkdir /d"),
        [with_number("create /d/f{0}", "remove /d/f{0}"), rounds("rename /d /e", "rename /e /d")],
    ),
    "writes beside removes and creates of the file": (
        lane("create /f"),
        [rounds("write /f 0 hello"), rounds("remove /f", "create /f")],
    ),
    "sixteen mounts on eight names": (lane("mkdir /d"), [random_lane(seed) for seed in range(16)]),
}


class Mount:
    """A mount that is started with its lanes, and what it takes."""

    def __init__(self, clerk, lanes, folder):
        self.clerk, self.count, self.fault = clerk, lanes.count("\n"), None
        self.answers = open(os.path.join(folder, f"answers.{clerk}"), "w+b")
        self.start = time.monotonic()
        self.run = subprocess.Popen([program, "mount", address, clerk], stdin=subprocess.PIPE, stdout=self.answers, stderr=subprocess.PIPE)
        self.run.stdin.write(lanes.encode())
        self.run.stdin.close()

    # What is wrong with it, or None. It's ended where it isn't over by then.
    def wrong(self, until):
        late = threading.Timer(max(until - time.monotonic(), 0), os.kill, [self.run.pid, signal.SIGKILL])
        late.start()
        _, status, used = os.wait4(self.run.pid, 0)
        late.cancel()
        self.run.returncode = os.waitstatus_to_exitcode(status)
        took, busy = time.monotonic() - self.start, used.ru_utime + used.ru_stime
        self.answers.seek(0)
        lines = self.answers.read().splitlines()
        if self.run.returncode == -signal.SIGKILL:
            return f"mount {self.clerk} doesn't end in {took:.1f} s"
        if self.run.returncode != 0 or len(lines) != self.count + 1 or lines[-1] != b"end sync -> ok":
            return f"mount {self.clerk}: status {self.run.returncode}, {len(lines)} lines, {self.run.stderr.read()!r}"
        if busy > took / 2 + 0.5:
            return f"mount {self.clerk} is busy for {busy:.2f} s of {took:.2f} s"
        return None


# Runs these lanes at a server on a new disk, and gives the seconds that they took and what was wrong, if anything.
def run(first, lanes, at_once, longest):
    with tempfile.TemporaryDirectory() as folder:
        words = [program, "serve", address, str(len(lanes) + 1)]
        server = subprocess.Popen(words, cwd=folder, stdout=subprocess.DEVNULL, stderr=open(os.path.join(folder, "log"), "wb"))
        try:
            wait_for(folder)
            fault = Mount(clerk_of(15), first, folder).wrong(time.monotonic() + longest)
            if len(lanes) == 16:
                time.sleep(1.1)  # a further start of the same clerk is one of a later second
            start = time.monotonic()
            until = start + longest
            if at_once:
                mounts = [Mount(clerk_of(i), script, folder) for i, script in enumerate(lanes)]
                faults = [mount.wrong(until) for mount in mounts]
            else:
                faults = [Mount(clerk_of(i), script, folder).wrong(until) for i, script in enumerate(lanes)]
            took = time.monotonic() - start
            return took, next((fault for fault in [fault, *faults] if fault), None)
        finally:
            server.kill()
            server.wait()


def clerk_of(i):
    return chr(ord("A") + i)


# Waits until the server says that it serves.
def wait_for(folder):
    until = time.monotonic() + 20
    while time.monotonic() < until:
        if b"serves at" in open(os.path.join(folder, "log"), "rb").read():
            return
        time.sleep(0.01)


# What is wrong in a case, or None.
def wrong(first, lanes):
    alone, fault = run(first, lanes, False, LONGEST)
    if fault:
        return f"one after another: {fault}"
    most = TIMES * alone + MORE
    together, fault = run(first, lanes, True, min(most, LONGEST))
    print(f"  {together:.2f} s together, {alone:.2f} s one after another")
    return fault


def main():
    failed = 0
    for name, case in CASES.items():
        print(f"{name}:", flush=True)
        fault = wrong(*case)
        if fault:
            failed += 1
            print(f"{name}: {fault}")
    print(f"together: {len(CASES) - failed} passed, {failed} failed")
    return failed != 0


sys.exit(main())
