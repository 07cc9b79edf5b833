#!/usr/bin/env python3
"""Mounts that outlive their links: each of these ends with status 0, and each of its calls is answered.
Usage: examples/relinks.py PROGRAM [PORT]   (the port is 4791 where none is given, and the 15 above it are used too)

The server is killed with -9 and started again under two mounts. A relay breaks the links of two mounts at random moments. The server is stopped for ten
seconds, and away for ten seconds. A relay holds a mount's link for 30 seconds, longer than the server waits for it: another one reads what it held, and
then the first one is told exactly what it lost. A relay cuts each link soon behind the answer to its greeting, for longer than 30 seconds. And where the
server is gone for good, a mount ends with status 8, but not before it has called for 30 seconds; so it does where somebody takes each link and drops it.
All at once in some 45 seconds."""
import os
import random
import select
import signal
import socket
import struct
import subprocess
import sys
import tempfile
import threading
import time

program = os.path.realpath(sys.argv[1])
port = int(sys.argv[2]) if len(sys.argv) > 2 else 4791
LONGEST = 90
CALLS = 60
PAUSE = 10
HELD = 30
SHORT = 0.3
SHORTS = 35


# The second batch is held.
HELD_LANES = "".join(f"1 {row}\n" for row in ["create /f", "write /f 0 kept", "fsync /f", "write /f 0 GONE", "fsync /f", "read /f 0 9", "write /f 0 more", "fsync /f"])
HELD_ANSWERS = """1 1 create /f -> ok op 1
2 1 write /f 0 kept -> ok op 2
3 1 fsync /f -> ok
4 1 write /f 0 GONE -> ok op 3
5 1 fsync /f -> lost 3
6 1 read /f 0 9 -> data 4 kept
7 1 write /f 0 more -> ok op 4
8 1 fsync /f -> ok
told lost 3
end sync -> ok
"""


class Server:
    """A server in a folder, which can be killed and started again at its address."""

    def __init__(self, at, folder):
        self.at, self.folder, self.told, self.process = at, folder, os.path.join(folder, "told"), None
        self.start()

    def start(self):
        with open(self.told, "wb") as told:
            self.process = subprocess.Popen([program, "serve", f"127.0.0.1:{self.at}", "400"], cwd=self.folder, stdout=subprocess.DEVNULL, stderr=told)
        self.awaits(b"serves at")

    # Until it has told all this.
    def awaits(self, *words):
        end = time.monotonic() + LONGEST
        while time.monotonic() < end:
            with open(self.told, "rb") as told:
                text = told.read()
            if all(word in text for word in words):
                return
            time.sleep(0.01)

    def kill(self):
        self.process.kill()
        self.process.wait()

    def __enter__(self):
        return self

    def __exit__(self, *_):
        self.process.send_signal(signal.SIGCONT)
        self.kill()


class Relay:
    """Passes what comes at an address on to another one, link by link, and can cut all links. It may pass on greetings and their answers alone."""

    def __init__(self, at, server_at, holds=None, greets_only=False):
        self.door, self.server_at, self.holds = socket.create_server(("127.0.0.1", at)), server_at, holds
        self.links, self.held, self.greets_only, self.greeted = [], threading.Event(), greets_only, 0
        threading.Thread(target=self.accept, daemon=True).start()

    def accept(self):
        while True:
            try:
                mount, _ = self.door.accept()
            except OSError:
                return
            try:
                server = socket.create_connection(("127.0.0.1", self.server_at))
            except OSError:
                mount.close()
                continue
            self.links.append((mount, server))
            threading.Thread(target=self.carry, args=[mount, server], daemon=True).start()

    # Where the mount sends what is to be held, the server's side is closed, and the mount's side stays.
    def carry(self, mount, server):
        greets_only, kept, is_greeted, is_answered = self.greets_only, b"", False, False
        while True:
            for link in select.select([mount, server], [], [], 1)[0]:
                try:
                    got = link.recv(1 << 16)
                    if link is mount and self.holds and self.holds in got and not self.held.is_set():
                        server.shutdown(socket.SHUT_RDWR)
                        self.held.set()
                        return
                    if not got:
                        raise OSError
                    if link is server and not is_answered:
                        is_answered = True
                        self.greeted += 1
                    if link is mount and greets_only:
                        kept += got
                        end = 4 + struct.unpack(">I", kept[:4])[0] if len(kept) >= 4 else 4
                        if is_greeted or len(kept) < max(end, 5):
                            continue
                        got, is_greeted = kept[:end], True
                    (server if link is mount else mount).sendall(got)
                except (OSError, ValueError):
                    close(mount)
                    close(server)
                    return

    def cut(self):
        links, self.links = self.links, []
        for mount, server in links:
            close(mount)
            close(server)

    def __enter__(self):
        return self

    def __exit__(self, *_):
        close(self.door)
        self.door.close()
        self.cut()


def close(link):
    try:
        link.shutdown(socket.SHUT_RDWR)
    except OSError:
        pass


class Mount:
    """A mount that runs beside the test."""

    def __init__(self, at, clerk, lanes):
        self.lanes, self.done = lanes, None
        self.process = subprocess.Popen([program, "mount", f"127.0.0.1:{at}", clerk], stdin=subprocess.PIPE, stdout=subprocess.PIPE, stderr=subprocess.PIPE)
        self.thread = threading.Thread(target=self.run)
        self.thread.start()
        self.begin = time.monotonic()

    def run(self):
        try:
            out, told = self.process.communicate(self.lanes.encode(), LONGEST)
        except subprocess.TimeoutExpired:
            self.process.kill()
            out, told = self.process.communicate()
        self.done = self.process.returncode, out.decode(), told.decode()
        self.took = time.monotonic() - self.begin

    def runs(self):
        return self.done is None

    def end(self):
        self.thread.join()
        return self.done

    # What is wrong with it where all its calls are to be answered well, and these words told, or None.
    def wrong(self, *words):
        status, out, told = self.end()
        lines, rows = out.splitlines(), self.lanes.splitlines()
        if status != 0 or len(lines) != len(rows) + 1 or lines[-1] != "end sync -> ok" or " lost" in out or any(word not in told for word in words):
            return f"status {status}, {len(lines)} lines for {len(rows)} calls: {out[-300:]!r} {told[-600:]!r}"
        return None


def writes(clerk, calls, rest):
    folder = f"/{clerk}"
    rows = [f"mkdir {folder}"]
    for i in range(calls):
        rows += [f"create {folder}/{i}", f"write {folder}/{i} 0 {clerk}{i}", f"fsync {folder}/{i}", f"rename {folder}/{i} {folder}/n{i}"]
    return "".join(f"1 {row}\n" for row in rows + rest)


# What is wrong with what the server has of these mounts behind one more kill, or None.
def wrong_there(server, clerks, calls):
    server.kill()
    server.start()
    for clerk in clerks:
        reads = Mount(server.at, "P", "".join(f"1 read /{clerk}/n{i} 0 9\n" for i in range(calls)))
        status, out, told = reads.end()
        for i, line in enumerate(out.splitlines()[:-1]):
            text = f"{clerk}{i}"
            if line != f"{i + 1} 1 read /{clerk}/n{i} 0 9 -> data {len(text)} {text}":
                return f"{line!r} {told!r}"
        if status != 0:
            return f"status {status} of the reads, {told!r}"
    return None


def first_wrong(*ways):
    return next((way for way in ways if way), None)


def wrong_where_killed(at):
    with tempfile.TemporaryDirectory() as folder, Server(at, folder) as server:
        mounts = [Mount(at, clerk, writes(clerk, CALLS, [])) for clerk in "AB"]
        kills = 0
        server.awaits(b"is A's", b"is B's")
        while any(one.runs() for one in mounts) and kills < 4:
            time.sleep(random.uniform(0, 0.4))
            server.kill()
            server.start()
            kills += 1
        return first_wrong(*(one.wrong() for one in mounts), wrong_there(server, "AB", CALLS))


def wrong_where_cut(at):
    with tempfile.TemporaryDirectory() as folder, Server(at, folder) as server, Relay(at + 1, at) as relay:
        mounts = [Mount(at + 1, clerk, writes(clerk, CALLS, [])) for clerk in "AB"]
        end = time.monotonic() + 15
        server.awaits(b"is A's", b"is B's")
        while any(one.runs() for one in mounts) and time.monotonic() < end:
            time.sleep(random.uniform(0.05, 0.4))
            relay.cut()
        return first_wrong(*(one.wrong() for one in mounts), wrong_there(server, "AB", CALLS))


def wrong_where_stopped(at):
    with tempfile.TemporaryDirectory() as folder, Server(at, folder) as server:
        mount = Mount(at, "A", writes("A", CALLS, []))
        server.awaits(b"is A's")
        server.process.send_signal(signal.SIGSTOP)
        time.sleep(PAUSE)
        server.process.send_signal(signal.SIGCONT)
        return first_wrong(mount.wrong(), wrong_there(server, "A", CALLS))


def wrong_where_away(at):
    with tempfile.TemporaryDirectory() as folder, Server(at, folder) as server:
        mount = Mount(at, "A", writes("A", CALLS, []))
        server.awaits(b"is A's")
        server.kill()
        time.sleep(PAUSE)
        server.start()
        return first_wrong(mount.wrong(f"A lost its link, and calls 127.0.0.1:{at} again", "A is linked again"), wrong_there(server, "A", CALLS))


def wrong_where_held(at):
    with tempfile.TemporaryDirectory() as folder, Server(at, folder), Relay(at + 1, at, b"GONE") as relay:
        first = Mount(at + 1, "A", HELD_LANES)
        relay.held.wait(LONGEST)
        begin = time.monotonic()
        second = Mount(at, "B", "1 read /f 0 9\n")
        status, out, told = second.end()
        took = second.took
        time.sleep(max(begin + HELD - time.monotonic(), 0))
        relay.cut()
        first_status, first_out, first_told = first.end()
    if (status, out) != (0, "1 1 read /f 0 9 -> data 4 kept\nend sync -> ok\n") or not 18 <= took <= 25:
        return f"the other: status {status} behind {took:.1f} s, {out!r} {told!r}"
    if (first_status, first_out) != (0, HELD_ANSWERS):
        return f"status {first_status}, {first_out!r} {first_told!r}"
    return None


def wrong_where_gone(at):
    with tempfile.TemporaryDirectory() as folder, Server(at, folder) as server:
        mount = Mount(at, "A", writes("A", 5000, []))
        server.awaits(b"is A's")
        server.kill()
        begin = time.monotonic()
        status, out, told = mount.end()
        took = time.monotonic() - begin
    if status != 8 or not 29 <= took <= 40 or "A reached nobody for too long, and calls no more" not in told:
        return f"status {status} behind {took:.1f} s, {told!r}"
    return None


def wrong_where_short(at):
    with tempfile.TemporaryDirectory() as folder, Server(at, folder), Relay(at + 1, at, greets_only=True) as relay:
        mount = Mount(at + 1, "A", "1 create /f\n1 fsync /f\n")
        end = time.monotonic() + SHORTS
        while mount.runs() and time.monotonic() < end:
            time.sleep(SHORT)
            relay.cut()
        greeted, relay.greets_only = relay.greeted, False
        relay.cut()
        fault = mount.wrong("A is linked again")
        return fault or (None if greeted > 10 and mount.took > SHORTS else f"{greeted} greetings in {mount.took:.1f} s")


# Somebody takes each link and drops it.
def wrong_where_dropped(at):
    def drop(door):
        while True:
            try:
                door.accept()[0].close()
            except OSError:
                return

    with socket.create_server(("127.0.0.1", at)) as door:
        threading.Thread(target=drop, args=[door], daemon=True).start()
        mount = Mount(at, "A", "1 stat /\n")
        status, out, told = mount.end()
        close(door)
    if status != 8 or not 29 <= mount.took <= 45 or "A reached nobody for too long, and calls no more" not in told:
        return f"status {status} behind {mount.took:.1f} s, {out!r} {told[-600:]!r}"
    return None


def main():
    tests = {
        "the server is killed and started again": wrong_where_killed,
        "links are cut": wrong_where_cut,
        "the server is stopped for a while": wrong_where_stopped,
        "the server is away for a while": wrong_where_away,
        "a link is held for long": wrong_where_held,
        "each link is cut behind its greeting": wrong_where_short,
        "the server is gone for good": wrong_where_gone,
        "each link is dropped": wrong_where_dropped,
    }
    faults = {}
    running = [threading.Thread(target=lambda what, test, at: faults.__setitem__(what, test(at)), args=[what, test, port + 2 * i]) for i, (what, test) in enumerate(tests.items())]
    for one in running:
        one.start()
    for one in running:
        one.join()
    bad = [what for what in tests if faults.get(what, "no end")]
    for what in bad:
        print(f"{what}: {faults.get(what, 'no end')}", file=sys.stderr)
    print(f"relinks: {len(tests) - len(bad)} passed, {len(bad)} failed")
    sys.exit(1 if bad else 0)


main()
