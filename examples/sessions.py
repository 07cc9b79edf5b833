#!/usr/bin/env python3
"""Sessions of clerks that have no link: a server waits for them, and then ends their sessions. And two mounts of one name.
Usage: examples/sessions.py PROGRAM [PORT]   (the port is 4781 where none is given, and the two behind it are used as well)

All cases run at the same time. A server waits 20 s for a clerk."""
import os
import subprocess
import sys
import tempfile
import threading
import time

program = os.path.realpath(sys.argv[1])
port = int(sys.argv[2]) if len(sys.argv) > 2 else 4781
LONGEST = 25
SHORTEST = 15
AT_ONCE = 4
AT_WORK = 1.2
# a lane that works for as long as it takes
BUSY = b"1 create /f\n1 fsync /f\n" + b"1 write /f 0 x\n1 fsync /f\n" * 20000
COUNT = 8


class Server:
    """A server in a folder of its own, in which there may be a disk."""

    def __init__(self, at, script=None):
        self.address = f"127.0.0.1:{at}"
        self.folder = tempfile.TemporaryDirectory()
        if script:
            subprocess.run([program, "drill"], input=script, cwd=self.folder.name, stdout=subprocess.DEVNULL, check=True)
        self.told = open(os.path.join(self.folder.name, "told"), "w+b")
        self.process = subprocess.Popen([program, "serve", self.address, str(COUNT)], cwd=self.folder.name, stdout=subprocess.DEVNULL, stderr=self.told)
        self.wait_for(b"serves at")

    def says(self):
        with open(self.told.name, "rb") as told:
            return told.read()

    def wait_for(self, words):
        end = time.monotonic() + LONGEST
        while words not in self.says() and time.monotonic() < end:
            time.sleep(0.01)

    def begin(self, clerk, lanes):
        mount = subprocess.Popen([program, "mount", self.address, clerk], stdin=subprocess.PIPE, stdout=subprocess.PIPE, stderr=subprocess.PIPE)
        threading.Thread(target=feed, args=(mount.stdin, lanes), daemon=True).start()
        return mount

    # A mount to its end: its status, what it printed, and how long it took.
    def mount(self, clerk, lanes):
        start = time.monotonic()
        mount = self.begin(clerk, lanes)
        out, status = end_of(mount, LONGEST)
        return status, out, time.monotonic() - start

    def __enter__(self):
        return self

    def __exit__(self, *_):
        self.process.kill()
        self.process.wait()
        self.told.close()
        self.folder.cleanup()


def feed(into, lanes):
    try:
        with into:
            into.write(lanes)
    except BrokenPipeError:
        pass


# What a mount prints to its end, and its status.
def end_of(mount, seconds):
    timer = threading.Timer(seconds, mount.kill)
    timer.start()
    out = mount.stdout.read()
    status = mount.wait()
    timer.cancel()
    mount.stdout.close()
    mount.stderr.close()
    return out, status


def says(told, *lines):
    return [line for line in lines if line not in told]


# A drill leaves the sessions of its clerks open.
def drilled():
    with Server(port, b"A create /a\nA fsync /a\nC stat /\n") as server:
        status, out, took = server.mount("B", b"1 stat /\n")
        if status != 0 or not SHORTEST < took < LONGEST:
            return f"the first mount ended with {status} after {took:.1f} s: {out!r} {server.says()!r}"
        status, out, took = server.mount("D", b"1 stat /a\n")
        if status != 0 or took > AT_ONCE:
            return f"the next mount ended with {status} after {took:.1f} s: {out!r} {server.says()!r}"
        missing = says(server.says(), b"A has an open session and no link", b"C has an open session and no link", b"A didn't link again", b"C didn't link again")
        return f"the server doesn't say {missing}: {server.says()!r}" if missing else None


# A mount dies that holds what another one needs.
def dead():
    with Server(port + 1) as server:
        mount = server.begin("A", BUSY)
        server.wait_for(b"link 1 is A's")
        time.sleep(AT_WORK)
        if mount.poll() is not None:
            return f"the first mount ended with {mount.returncode}: {server.says()!r}"
        mount.kill()
        end_of(mount, LONGEST)
        status, out, took = server.mount("B", b"1 read /f 0 1\n")
        if status != 0 or not SHORTEST < took < LONGEST or b"-> data " not in out:
            return f"the other mount ended with {status} after {took:.1f} s: {out!r} {server.says()!r}"
        missing = says(server.says(), b"A has an open session and no link", b"A didn't link again")
        return f"the server doesn't say {missing}: {server.says()!r}" if missing else None


# The older of two mounts of one name ends.
def twice():
    with Server(port + 2) as server:
        older = server.begin("A", BUSY)
        server.wait_for(b"link 1 is A's")
        # a start one second later is a later boot
        time.sleep(AT_WORK)
        status, out, took = server.mount("A", b"1 stat /\n")
        if status != 0 or took > AT_ONCE:
            return f"the newer mount ended with {status} after {took:.1f} s: {out!r} {server.says()!r}"
        start = time.monotonic()
        out, status = end_of(older, LONGEST)
        took = time.monotonic() - start
        if status not in (8, 13) or took > AT_ONCE:
            return f"the older mount ended with {status} after {took:.1f} s: {out[-200:]!r} {server.says()!r}"
        missing = says(server.says(), b"of A was hung up: A has a newer one")
        return f"the server doesn't say {missing}: {server.says()!r}" if missing else None


CASES = {"a drill's sessions": drilled, "a mount that dies": dead, "two mounts of one name": twice}


def main():
    faults = {}

    def run(name, case):
        try:
            faults[name] = case()
        except Exception as fault:
            faults[name] = repr(fault)

    threads = [threading.Thread(target=run, args=case) for case in CASES.items()]
    for thread in threads:
        thread.start()
    for thread in threads:
        thread.join()
    failed = {name: fault for name, fault in faults.items() if fault}
    for name, fault in failed.items():
        print(f"{name}: {fault}")
    print(f"sessions: {len(CASES) - len(failed)} passed, {len(failed)} failed")
    return bool(failed)


sys.exit(main())
