#!/usr/bin/env python3
"""Calls over several volumes, each of a server of its own.
Usage: examples/mounts.py PROGRAM [PORT]   (the port is 4841 where none is given, and the 17 above it are used too)

Words that are no mount table give status 2. A call goes to the volume with the longest mount path, a call between two volumes is refused, and the places of
names that a refusal tells are those of the whole path. One of three servers is killed with -9 while calls go on: those before it were answered, and where it's started
again, what was durable is there. Of two clerks of which each has what the other wants, on different volumes, both go on. And where one of two volumes is of a peer
that knows a later start of the clerk, or sends what is no message, the status says so. All of it in at most two minutes."""
import os
import socket
import struct
import subprocess
import sys
import tempfile
import threading
import time

program = os.path.realpath(sys.argv[1])
port = int(sys.argv[2]) if len(sys.argv) > 2 else 4841
LONGEST = 60
CALLS = 400
ROUNDS = 100

# The words behind `mounts`, and why they are none.
NO_TABLES = {
    "no volume": ["A"],
    "nine volumes": ["A", *(f"/{i}=x" for i in range(9))],
    "no clerk": ["Q", "/v=x"],
    "a small letter": ["a", "/v=x"],
    "an empty clerk": ["", "/v=x"],
    "no slash": ["A", "v=x"],
    "an empty name": ["A", "/v//w=x"],
    "a dot": ["A", "/.=x"],
    "17 names": ["A", "/a" * 17 + "=x"],
    "a long name": ["A", "/" + "n" * 65 + "=x"],
    "no address": ["A", "/v"],
    "an empty address": ["A", "/v="],
    "one path twice": ["A", "/v=x", "/v=y"],
}
# Words that are a table, of servers that aren't there.
TABLES = {
    "eight volumes": ["A", *(f"/{i}=x" for i in range(8))],
    "an equals sign in an address": ["A", "/v=x=y"],
    "a hyphen before an address": ["P", "/=-x"],
}

APART = """mkdir /v/a
rename /v/a /w/a
stat /x
stat /v/b/c
"""
APART_ANSWERS = """1 mkdir /v/a -> ok op 1
2 rename /v/a /w/a -> refused CrossVolume
3 stat /x -> refused NoVolume 1
4 stat /v/b/c -> refused NotFound 2
end /v sync -> ok
end /w sync -> ok
"""

WITHIN = """create /v
create /vv
rename /vv /v/f
sync
"""
WITHIN_ANSWERS = """1 create /v -> refused Root
2 create /vv -> ok op 1
3 rename /vv /v/f -> refused CrossVolume
4 / sync -> ok
4 /v sync -> ok
end / sync -> ok
end /v sync -> ok
"""


class Server:
    """A server in a folder of its own, which can be killed and started again at its address."""

    def __init__(self, at, folder):
        self.at, self.folder = at, os.path.join(folder, str(at))
        os.mkdir(self.folder)
        self.start()

    def start(self):
        told = os.path.join(self.folder, "told")
        with open(told, "wb") as out:
            self.process = subprocess.Popen([program, "serve", f"127.0.0.1:{self.at}", "400"], cwd=self.folder, stdout=subprocess.DEVNULL, stderr=out)
        end = time.monotonic() + LONGEST
        while time.monotonic() < end:
            with open(told, "rb") as text:
                if b"serves at" in text.read():
                    return
            time.sleep(0.01)

    # Waits until the disk was written so often, as its clock tells.
    def wait_for_writes(self, count):
        end, seen = time.monotonic() + LONGEST, set()
        while len(seen) <= count and time.monotonic() < end:
            seen.add(os.stat(os.path.join(self.folder, "echofs.disk")).st_mtime_ns)
            time.sleep(0.001)

    def kill(self):
        self.process.kill()
        self.process.wait()

    def __enter__(self):
        return self

    def __exit__(self, *_):
        self.kill()


class Mounts:
    """Calls over volumes, beside the test."""

    def __init__(self, clerk, table, calls):
        words = [f"{path}=127.0.0.1:{at}" for path, at in table.items()]
        self.calls, self.done = calls, None
        self.process = subprocess.Popen([program, "mounts", clerk, *words], stdin=subprocess.PIPE, stdout=subprocess.PIPE, stderr=subprocess.PIPE)
        self.thread = threading.Thread(target=self.run)
        self.thread.start()

    def run(self):
        begin = time.monotonic()
        try:
            out, told = self.process.communicate(self.calls.encode(), LONGEST)
        except subprocess.TimeoutExpired:
            self.process.kill()
            out, told = self.process.communicate()
        self.took = time.monotonic() - begin
        self.done = self.process.returncode, out.decode(), told.decode()

    def runs(self):
        return self.done is None

    def end(self):
        self.thread.join()
        return self.done

    # What is wrong where all calls are to be answered well, or None.
    def wrong(self, volumes):
        status, out, told = self.end()
        lines, rows = out.splitlines(), self.calls.splitlines()
        if status != 0 or len(lines) != len(rows) + volumes or " lost" in out or "refused" in out:
            return f"status {status} behind {self.took:.1f} s, {len(lines)} lines for {len(rows)} calls: {out[-400:]!r} {told[-600:]!r}"
        return None


def wrong_words(at, folder):
    for why, words in (NO_TABLES | TABLES).items():
        done = subprocess.run([program, "mounts", *words], stdin=subprocess.DEVNULL, capture_output=True, timeout=LONGEST)
        if done.returncode != (2 if why in NO_TABLES else 8) or done.stdout:
            return f"{why}: status {done.returncode}, {done.stdout!r}"
    return None


def wrong_answers(at, folder, table, calls, answers):
    with Server(at, folder), Server(at + 1, folder):
        status, out, told = Mounts("A", {path: at + i for i, path in enumerate(table)}, calls).end()
    return None if (status, out) == (0, answers) else f"status {status}, {out!r} {told!r}"


def wrong_apart(at, folder):
    return wrong_answers(at, folder, ["/v", "/w"], APART, APART_ANSWERS)


def wrong_within(at, folder):
    return wrong_answers(at, folder, ["/", "/v"], WITHIN, WITHIN_ANSWERS)


def wrong_where_killed(at, folder):
    table = {"/u": at, "/v": at + 1, "/w": at + 2}
    rows = []
    for i in range(CALLS):
        path = list(table)[i % 3]
        rows += [f"create {path}/{i}", f"write {path}/{i} 0 text{i}", f"fsync {path}/{i}"]
    with Server(at, folder), Server(at + 1, folder) as killed, Server(at + 2, folder) as last:
        writer = Mounts("A", table, "".join(f"{row}\n" for row in rows))
        last.wait_for_writes(3)
        killed.kill()
        status, out, told = writer.end()
        lines = [line for line in out.splitlines() if line[0].isdigit()]
        if status != 8 or not 0 < len(lines) < len(rows) or any(not line.startswith(f"{i + 1} {rows[i]} -> ok") for i, line in enumerate(lines)):
            return f"status {status}, {len(lines)} lines for {len(rows)} calls: {out[-400:]!r} {told[-600:]!r}"
        status, out, told = Mounts("B", table, "stat /u\n").end()
        if (status, out) != (8, ""):
            return f"status {status} where one server is gone, {out!r} {told!r}"
        killed.start()
        durable = range(len(lines) // 3)
        reads = "".join(f"read {list(table)[i % 3]}/{i} 0 20\n" for i in durable)
        status, out, told = Mounts("B", table, reads).end()
        for i, line in zip(durable, out.splitlines()):
            if not line.endswith(f"-> data {len(f'text{i}')} text{i}"):
                return f"{line!r} {told!r}"
        return None if status == 0 else f"status {status} of the reads, {told!r}"


def wrong_where_crossed(at, folder):
    def turns(clerk, one, other):
        rows = []
        for i in range(ROUNDS):
            rows += [f"write {one} 0 {clerk}{i}", f"read {one} 0 9", f"write {other} 0 {clerk}{i}", f"read {other} 0 9"]
        return "".join(f"{row}\n" for row in rows)

    table = {"/v": at, "/w": at + 1}
    with Server(at, folder), Server(at + 1, folder):
        if wrong := Mounts("C", table, "create /v/f\ncreate /w/g\nsync\n").end()[0]:
            return f"status {wrong} of who creates"
        both = [Mounts("A", table, turns("A", "/v/f", "/w/g")), Mounts("B", table, turns("B", "/w/g", "/v/f"))]
        return next((wrong for wrong in [one.wrong(2) for one in both] if wrong), None)


def frame(body):
    return struct.pack(">I", len(body)) + body


# A peer that knows a later start of the clerk than the one that greets.
def knows(body):
    boot = struct.unpack_from(">Q", body, 2)[0] + 1
    return frame(b"\x49" + body[2:14] + struct.pack(">QI", boot, 0)), (13, f"oldboot {boot}\n")


# One that answers with what is no message.
def garbles(body):
    return frame(b"\0") * 2, (14, "peer 0\n")


# A server beside a peer that gives its greeting this answer.
def wrong_beside(at, folder, answer):
    with Server(at, folder), socket.create_server(("127.0.0.1", at + 1)) as door:
        door.settimeout(LONGEST)
        mounts = Mounts("A", {"/v": at, "/w": at + 1}, "stat /w\n")
        link, _ = door.accept()
        with link, link.makefile("rb") as heard:
            sent, end = answer(heard.read(*struct.unpack(">I", heard.read(4))))
            link.sendall(sent)
            status, out, told = mounts.end()
    return None if (status, out) == end else f"status {status}, {out!r} {told!r}"


WAYS = {
    "words that are no table": wrong_words,
    "volumes side by side": wrong_apart,
    "one volume within another": wrong_within,
    "a server that is killed": wrong_where_killed,
    "two clerks that cross": wrong_where_crossed,
    "a peer that knows a later start": lambda at, folder: wrong_beside(at, folder, knows),
    "a peer that sends what is no message": lambda at, folder: wrong_beside(at, folder, garbles),
}


def main():
    failed = False
    for i, (name, way) in enumerate(WAYS.items()):
        begin = time.monotonic()
        with tempfile.TemporaryDirectory() as folder:
            wrong = way(port + 3 * (i - 1) if i else port, folder)
        took = time.monotonic() - begin
        print(f"{name}: {wrong or 'ok'} ({took:.1f} s)", flush=True)
        failed = failed or wrong is not None
    return int(failed)


sys.exit(main())
