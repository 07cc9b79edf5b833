#!/usr/bin/env python3
"""What a mount says again: messages that are lost on the way, which nobody else repeats, and a goodbye that came before there was a session.
Usage: examples/again.py PROGRAM [PORT]   (the port is 4741 where none is given, and the 32 above it are used too)

A relay between a mount and its server loses the first body of one kind. The mount waits for two seconds, sends again what is outstanding, and ends
with status 0 and its answers, in at most twelve seconds. And of fifteen mounts without calls none leaves a session behind: the server is killed and
started again, and what a sixteenth one wants is granted at once, which a session that is open on the disk would prevent."""
import os
import select
import socket
import struct
import subprocess
import sys
import tempfile
import threading
import time

program = os.path.realpath(sys.argv[1])
port = int(sys.argv[2]) if len(sys.argv) > 2 else 4741
WAIT = 30

SYNCED = b"1 create /f\n1 write /f 0 hi\n1 fsync /f\n1 read /f 0 9\n", b"1 1 create /f -> ok op 1\n2 1 write /f 0 hi -> ok op 2\n3 1 fsync /f -> ok\n4 1 read /f 0 9 -> data 2 hi\nend sync -> ok\n"
UNSYNCED = b"1 create /f\n1 write /f 0 hi\n", b"1 1 create /f -> ok op 1\n2 1 write /f 0 hi -> ok op 2\nend sync -> ok\n"
EMPTY = b"", b"end sync -> ok\n"

# What is lost, by the kind of the body, how long the mount waits at least, its lanes and its answers. A server that was just started tells so, and a
# clerk without a session greets again then.
LOST = {
    "the greeting": (8, 0, SYNCED),
    "the session's opening": (65, 0, SYNCED),
    "a want": (2, 2, SYNCED),
    "a grant": (66, 2, SYNCED),
    "a batch": (4, 2, SYNCED),
    "that a batch is kept": (68, 2, SYNCED),
    "an asking for ids": (5, 2, SYNCED),
    "the ids": (69, 2, SYNCED),
    "the last sync's batch": (4, 2, UNSYNCED),
    "that the last sync's batch is kept": (68, 2, UNSYNCED),
    "the greeting of a mount without calls": (8, 0, EMPTY),
    "the opening of a mount without calls": (65, 0, EMPTY),
}


def frame(body):
    return struct.pack(">I", len(body)) + body


class Server:
    """A server in a folder."""

    def __init__(self, at, folder):
        self.told = open(os.path.join(folder, "told"), "w+b")
        self.process = subprocess.Popen([program, "serve", f"127.0.0.1:{at}", "40"], cwd=folder, stdout=subprocess.DEVNULL, stderr=self.told)
        end = time.monotonic() + WAIT
        while b"serves at" not in self.says() and time.monotonic() < end:
            time.sleep(0.01)

    def says(self):
        with open(self.told.name, "rb") as told:
            return told.read()

    def __enter__(self):
        return self

    def __exit__(self, *_):
        self.process.kill()
        self.process.wait()
        self.told.close()


# Passes each body on, but the first one of the kind, up to the first close. It says whether it lost one.
def relay(door, server_at, kind, lost):
    mount, _ = door.accept()
    server = socket.create_connection(("127.0.0.1", server_at))
    kept = {mount: b"", server: b""}
    with mount, server:
        while True:
            for link in select.select(list(kept), [], [], WAIT)[0]:
                try:
                    got = link.recv(1 << 16)
                except OSError:
                    got = b""
                if not got:
                    return
                kept[link] += got
                while len(kept[link]) >= 4 and len(kept[link]) >= (end := 4 + struct.unpack(">I", kept[link][:4])[0]):
                    body, kept[link] = kept[link][4:end], kept[link][end:]
                    if body[0] == kind and not lost.is_set():
                        lost.set()
                        continue
                    try:
                        (server if link is mount else mount).sendall(frame(body))
                    except OSError:
                        return


def mounted(at, clerk, lanes):
    try:
        done = subprocess.run([program, "mount", f"127.0.0.1:{at}", clerk], input=lanes, capture_output=True, timeout=WAIT)
    except subprocess.TimeoutExpired:
        return None, b"", b"it doesn't end"
    return done.returncode, done.stdout, done.stderr


# What is wrong with a mount of which one body is lost, or None.
def wrong_where_lost(at, kind, least, script):
    lost = threading.Event()
    lanes, answers = script
    with tempfile.TemporaryDirectory() as folder, Server(at, folder), socket.create_server(("127.0.0.1", at + 1)) as door:
        threading.Thread(target=relay, args=[door, at, kind, lost], daemon=True).start()
        begin = time.monotonic()
        status, out, told = mounted(at + 1, "A", lanes)
        took = time.monotonic() - begin
    if not lost.is_set():
        return "nothing was lost"
    if (status, out) != (0, answers):
        return f"status {status}, {out!r} {told!r}"
    if not least <= took <= 12:
        return f"it took {took:.1f} s"
    return None


# What is wrong behind mounts that have no calls, or None.
def wrong_behind_empty(at):
    with tempfile.TemporaryDirectory() as folder:
        with Server(at, folder):
            ends = [None] * 15
            empty = [threading.Thread(target=lambda i: ends.__setitem__(i, mounted(at, chr(65 + i), b"")), args=[i]) for i in range(15)]
            for one in empty:
                one.start()
            for one in empty:
                one.join()
            for end in ends:
                if end[:2] != (0, b"end sync -> ok\n"):
                    return f"status {end[0]}, {end[1]!r} {end[2]!r}"
        with Server(at + 1, folder):
            status, out, told = mounted(at + 1, "P", b"1 stat /\n")
    if status != 0:
        return f"a session was left: {status}, {out!r} {told!r}"
    return None


def main():
    faults, rows = {}, []
    for i, (what, row) in enumerate(LOST.items()):
        rows.append((f"{what} is lost", wrong_where_lost, (port + 2 * i, *row)))
    rows.append(("mounts without calls", wrong_behind_empty, (port + 2 * len(LOST),)))
    running = [threading.Thread(target=lambda row: faults.__setitem__(row[0], row[1](*row[2])), args=[row]) for row in rows]
    for one in running:
        one.start()
    for one in running:
        one.join()
    for what, _, _ in rows:
        if faults.get(what, "it failed"):
            print(f"{what}: {faults.get(what, 'it failed')}", file=sys.stderr)
    bad = sum(1 for row in rows if faults.get(row[0], "it failed"))
    print(f"again: {len(rows) - bad} passed, {bad} failed")
    sys.exit(1 if bad else 0)


main()
