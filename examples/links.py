#!/usr/bin/env python3
"""What the links of a server cost, and what ends it: many links one after another and at once under few descriptors, a disk that fails and a counter that is spent
while nobody comes, links that never greet, and the words on standard error.
Usage: examples/links.py PROGRAM [PORT] [COUNT]   (the port is 4721 where none is given; so many links come one after another, 2,000 where none is given)

Each server has at most 64 descriptors."""
import os
import re
import resource
import signal
import socket
import struct
import subprocess
import sys
import tempfile
import threading
import time

program = os.path.realpath(sys.argv[1])
port = int(sys.argv[2]) if len(sys.argv) > 2 else 4721
count = int(sys.argv[3]) if len(sys.argv) > 3 else 2_000
WAIT = 60
DESCRIPTORS = 64
BURST = 200
LANES = b"1 create /f\n1 fsync /f\n"
ANSWERS = b"1 1 create /f -> ok op 1\n2 1 fsync /f -> ok\nend sync -> ok\n"


class Wrong(Exception):
    """What a case found."""


def demand(holds, words):
    if not holds:
        raise Wrong(words)


# A write past the greatest length of a file fails, and doesn't end the server.
def few_descriptors():
    signal.signal(signal.SIGXFSZ, signal.SIG_IGN)
    resource.setrlimit(resource.RLIMIT_NOFILE, (DESCRIPTORS, DESCRIPTORS))


# The place of the next id on a new disk.
NEXT_ID = 2_101_253


# Leaves a disk there that has no further ids.
def spend_ids(folder):
    subprocess.run([program, "drill"], cwd=folder, stdin=subprocess.DEVNULL, stdout=subprocess.DEVNULL, check=True)
    with open(os.path.join(folder, "echofs.disk"), "r+b") as disk:
        disk.seek(NEXT_ID)
        disk.write(b"\xff" * 4)


class Server:
    """A server of so many links, in a folder of its own."""

    def __init__(self, links, address=None, disk=False):
        self.words = [program, "serve", address or f"127.0.0.1:{port}", str(links)]
        self.disk = disk

    def __enter__(self):
        self.folder = tempfile.TemporaryDirectory()
        if self.disk:
            spend_ids(self.folder.name)
        self.told = open(os.path.join(self.folder.name, "told"), "w+b")
        self.run = subprocess.Popen(self.words, cwd=self.folder.name, stdout=subprocess.PIPE, stderr=self.told, preexec_fn=few_descriptors, restore_signals=False)
        return self

    def __exit__(self, *why):
        self.run.kill()
        self.run.wait()
        self.told.close()
        self.folder.cleanup()

    # What it said so far.
    def lines(self):
        with open(self.told.name, "rb") as told:
            return told.read().decode().splitlines()

    # The port that it says it serves at.
    def port(self):
        end = time.monotonic() + WAIT
        while time.monotonic() < end:
            for line in self.lines():
                found = re.fullmatch(r"echofs: serves at .*:(\d+)", line)
                if found:
                    return int(found[1])
            demand(self.run.poll() is None, f"the server ended with {self.run.returncode}: {self.lines()[:3]}")
            time.sleep(0.005)
        raise Wrong("the server doesn't say where it serves")

    def status(self, within=WAIT):
        try:
            return self.run.wait(within)
        except subprocess.TimeoutExpired:
            raise Wrong(f"the server doesn't end in {within} s: {self.lines()[-3:]}") from None

    # Its memory in KiB.
    def memory(self):
        with open(f"/proc/{self.run.pid}/status") as status:
            return int(re.search(r"VmRSS:\s+(\d+)", status.read())[1])

    # The seconds of a processor that it took.
    def busy(self):
        with open(f"/proc/{self.run.pid}/stat") as stat:
            parts = stat.read().rsplit(")", 1)[1].split()
        return (int(parts[11]) + int(parts[12])) / os.sysconf("SC_CLK_TCK")


def mounted(clerk, lanes, at):
    try:
        return subprocess.run([program, "mount", f"127.0.0.1:{at}", clerk], input=lanes, capture_output=True, timeout=WAIT)
    except subprocess.TimeoutExpired:
        raise Wrong(f"mount {clerk} doesn't end") from None


def mounts_well(at):
    done = mounted("A", LANES, at)
    demand((done.returncode, done.stdout) == (0, ANSWERS), f"the mount ended with {done.returncode}, {done.stdout!r} {done.stderr!r}")


# How long behind the end of a mount's link the server ends, and with which status. The mount would call again for long.
def ends_behind(server, lanes, at):
    with subprocess.Popen([program, "mount", f"127.0.0.1:{at}", "A"], stdin=subprocess.PIPE, stdout=subprocess.DEVNULL, stderr=subprocess.PIPE) as mount:
        late = threading.Timer(WAIT, mount.kill)
        late.start()
        try:
            mount.stdin.write(lanes)
            mount.stdin.close()
            told = b""
            while b"lost its link" not in told:
                line = mount.stderr.readline()
                demand(line, f"the mount ended: {told!r}")
                told += line
            begin = time.monotonic()
            status = server.status(10)
            return time.monotonic() - begin, status
        finally:
            late.cancel()
            mount.kill()


def linked(at):
    return socket.create_connection(("127.0.0.1", at), timeout=WAIT)


# Goes, and waits until the server has gone too. It leaves the system nothing to remember.
def part(link):
    link.shutdown(socket.SHUT_WR)
    while link.recv(1 << 16):
        pass
    link.setsockopt(socket.SOL_SOCKET, socket.SO_LINGER, struct.pack("ii", 1, 0))
    link.close()


def one_after_another():
    early = min(500, count // 4)
    with Server(count + 1) as server:
        at = server.port()
        for number in range(count):
            if number == early:
                before = server.memory()
            part(linked(at))
        after = server.memory()
        mounts_well(at)
        status = server.status()
        demand(status == 0, f"the server ended with {status}: {server.lines()[-3:]}")
    demand(after <= before * 1.1, f"{before} KiB after {early} links, {after} KiB after {count}")
    return f"{before} KiB after {early} links, {after} KiB after {count}"


def at_once():
    with Server(BURST + 1) as server:
        at = server.port()
        go = threading.Event()

        def come():
            try:
                link = linked(at)
                go.wait(WAIT)
                part(link)
            except OSError:
                pass

        links = [threading.Thread(target=come, daemon=True) for _ in range(BURST)]
        for link in links:
            link.start()
        time.sleep(1)
        busy = server.busy()
        time.sleep(2)
        busy = server.busy() - busy
        go.set()
        for link in links:
            link.join(WAIT)
        mounts_well(at)
        status = server.status()
        demand(status == 0, f"the server ended with {status}: {server.lines()[-3:]}")
    demand(busy < 0.5, f"it took {busy} s of a processor in 2 s in which there was no room")
    return f"{busy:.2f} s of a processor in 2 s without room"


def failing_disk():
    with Server(9) as server:
        at = server.port()
        mounts_well(at)
        # the goodbye is durable then, and the next start has another second
        time.sleep(1.5)
        resource.prlimit(server.run.pid, resource.RLIMIT_FSIZE, (0, resource.RLIM_INFINITY))
        took, status = ends_behind(server, b"1 create /g\n1 fsync /g\n", at)
    demand(status == 6, f"the server ended with {status}")
    demand(took <= 1, f"the server ended {took:.2f} s behind the link")
    return f"ended {took:.2f} s behind the link"


def spent_counter():
    with Server(9, disk=True) as server:
        at = server.port()
        took, status = ends_behind(server, b"1 create /f\n", at)
        told = server.run.stdout.read()
    demand((status, told) == (15, b"spent Id\n"), f"the server ended with {status}, {told!r}")
    demand(took <= 1, f"the server ended {took:.2f} s behind the link")
    return f"ended {took:.2f} s behind the link"


def hello(clerk, boot):
    body = struct.pack(">BBQI", 8, clerk, boot, 0)
    return struct.pack(">I", len(body)) + body


# A message of an unknown session, which a server passes over.
def bye():
    body = struct.pack(">BQQ", 7, 9, 9)
    return struct.pack(">I", len(body)) + body


# Sends this again and again, and reads nothing.
def chatter(link, sent, is_over):
    try:
        while not is_over.wait(0.002):
            link.sendall(sent)
    except OSError:
        pass


# The seconds that two mounts take which have one file by turns, alone or beside a link that never greets.
def by_turns(is_beside):
    lanes = b"1 write /f 0 x\n1 fsync /f\n" * 20
    with Server(3 + is_beside) as server:
        at = server.port()
        mounts_well(at)
        is_over = threading.Event()
        if is_beside:
            link = linked(at)
            beside = threading.Thread(target=chatter, args=[link, bye(), is_over], daemon=True)
            beside.start()
        begin = time.monotonic()
        runs = [subprocess.Popen([program, "mount", f"127.0.0.1:{at}", clerk], stdin=subprocess.PIPE, stdout=subprocess.DEVNULL, stderr=subprocess.DEVNULL) for clerk in "AB"]
        try:
            for run in runs:
                run.stdin.write(lanes)
                run.stdin.close()
            statuses = [run.wait(WAIT) for run in runs]
        except subprocess.TimeoutExpired:
            raise Wrong("two mounts on one file don't end") from None
        finally:
            for run in runs:
                run.kill()
        took = time.monotonic() - begin
        is_over.set()
        if is_beside:
            beside.join(WAIT)
            part(link)
        demand(statuses == [0, 0], f"the mounts ended with {statuses}")
        status = server.status()
        demand(status == 0, f"the server ended with {status}: {server.lines()[-3:]}")
    return took


def never_greets():
    alone, beside = by_turns(False), by_turns(True)
    demand(beside < 3 * alone + 1, f"{beside:.2f} s beside a link that never greets, {alone:.2f} s alone")
    return f"{beside:.2f} s beside a link that never greets, {alone:.2f} s alone"


def words():
    with Server(2, "127.0.0.1:0") as server:
        at = server.port()
        demand(at != 0, "it serves at port 0")
        with tempfile.TemporaryDirectory() as folder:
            done = subprocess.run([program, "serve", f"127.0.0.1:{at}", "1"], cwd=folder, capture_output=True, timeout=WAIT)
            demand((done.returncode, b"in use" in done.stderr.lower()) == (8, True), f"a port in use: {done.returncode}, {done.stderr!r}")
        with tempfile.TemporaryDirectory() as folder:
            done = subprocess.run([program, "serve", "no.such.host.invalid:1", "1"], cwd=folder, capture_output=True, timeout=WAIT)
            demand((done.returncode, b"no.such.host.invalid:1: " in done.stderr) == (8, True), f"no such host: {done.returncode}, {done.stderr!r}")
        link = linked(at)
        link.sendall(hello(2, 1))
        demand(link.recv(1), "a greeting has no answer")
        part(link)
        part(linked(at))
        demand(server.status() == 0, "the server doesn't end with 0")
        lines = server.lines()
        demand(any("link 1 of C " in line for line in lines), f"no line names the clerk: {lines}")
        demand(any("link 2 was closed" in line for line in lines), f"no line names the link: {lines}")
    return "told"


def main():
    cases = {
        f"{count} links one after another": one_after_another,
        f"{BURST} links at once": at_once,
        "a disk that fails": failing_disk,
        "a counter that is spent": spent_counter,
        "a link that never greets": never_greets,
        "the words": words,
    }
    failed = 0
    for name, case in cases.items():
        begin = time.monotonic()
        try:
            said = case()
        except (Wrong, OSError) as wrong:
            failed += 1
            said = f"WRONG: {wrong}"
        print(f"{name}: {said} ({time.monotonic() - begin:.1f} s)", flush=True)
    print(f"links: {len(cases) - failed} passed, {failed} failed")
    return failed != 0


sys.exit(main())
