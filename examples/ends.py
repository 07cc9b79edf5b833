#!/usr/bin/env python3
"""How mounts end: what they print where the server dies or sends nonsense, where no thread can be started, and what becomes of a mount that dies.
Usage: examples/ends.py PROGRAM [PORT [ROUNDS]]   (the port is 4811 where none is given, and the 11 above it are used too; 16 healthy mounts run at
once, so often: 2 times)

All cases run at the same time: a mount whose server is gone calls for 30 seconds."""
import os
import resource
import select
import signal
import socket
import struct
import subprocess
import sys
import tempfile
import threading
import time

program = os.path.realpath(sys.argv[1])
port = int(sys.argv[2]) if len(sys.argv) > 2 else 4811
rounds = int(sys.argv[3]) if len(sys.argv) > 3 else 2
WAIT = 60
USERS = 100_000
CLERKS = "ABCDEFGHIJKLMNOP"

LANES = b"1 create /f\n1 fsync /f\n1 write /f 0 hi\n1 fsync /f\n1 read /f 0 9\n"
# What is answered before the second batch.
CAME = b"1 1 create /f -> ok op 1\n2 1 fsync /f -> ok\n3 1 write /f 0 hi -> ok op 2\n"
FLUSH = 4


def frame(body):
    return struct.pack(">I", len(body)) + body


# Whether the body is a batch that begins with the second operation.
def is_second_batch(body):
    return len(body) >= 34 and body[0] == FLUSH and struct.unpack_from(">Q", body, 26)[0] >= 2


def address(at):
    return f"127.0.0.1:{at}"


class Server:
    """A server of so many links in a folder of its own."""

    def __init__(self, at, count):
        self.folder = tempfile.TemporaryDirectory()
        self.told = open(os.path.join(self.folder.name, "told"), "w+b")
        self.process = subprocess.Popen([program, "serve", address(at), str(count)], cwd=self.folder.name, stdout=subprocess.DEVNULL, stderr=self.told)
        end = time.monotonic() + WAIT
        while b"serves at" not in self.says() and time.monotonic() < end:
            time.sleep(0.01)

    def says(self):
        with open(self.told.name, "rb") as told:
            return told.read()

    def __enter__(self):
        return self

    def __exit__(self, *_):
        self.process.kill()
        self.process.wait()
        self.told.close()
        self.folder.cleanup()


class Relay(threading.Thread):
    """Passes on what a mount and the server at this port send, up to the second batch. Then it does what it's given, with both links. The mount comes
    to the port behind."""

    def __init__(self, at, then):
        super().__init__(daemon=True)
        self.at, self.then = at, then
        self.door = socket.create_server(("127.0.0.1", at + 1))
        self.is_there = threading.Event()
        self.start()

    def run(self):
        mount, _ = self.door.accept()
        server = socket.create_connection(("127.0.0.1", self.at))
        with self.door, mount, server:
            kept = b""
            while True:
                for link in select.select([mount, server], [], [])[0]:
                    try:
                        got = link.recv(1 << 16)
                    except OSError:
                        got = b""
                    if not got:
                        return
                    if link is server:
                        mount.sendall(got)
                        continue
                    kept += got
                    while len(kept) >= 4 and len(kept) >= (end := 4 + struct.unpack(">I", kept[:4])[0]):
                        if is_second_batch(kept[4:end]):
                            self.is_there.set()
                            self.then(mount, server)
                            return
                        server.sendall(kept[:end])
                        kept = kept[end:]


def start(clerk, at, lanes=None, **more):
    mount = subprocess.Popen([program, "mount", address(at), clerk], stdin=subprocess.PIPE, stdout=subprocess.PIPE, stderr=subprocess.PIPE, **more)
    mount.stdin.write(lanes or b"")
    mount.stdin.close()
    mount.stdin = None
    return mount


# What is wrong with the end of a mount, or None.
def wrong(mount, status, text, *words):
    try:
        out, told = mount.communicate(timeout=WAIT)
    except subprocess.TimeoutExpired:
        mount.kill()
        out, told = mount.communicate()
        return f"it doesn't end: {told!r}"
    if (mount.returncode, out) != (status, text) or any(word not in told for word in words):
        return f"status {mount.returncode}, {out!r} {told!r}"
    return None


def killed_server(at):
    with Server(at, 1) as server:
        def kill(mount, link):
            server.process.kill()
            while link.recv(1 << 16):
                pass
        Relay(at, kill)
        return wrong(start("A", at + 1, LANES), 8, CAME, b"operation 2 isn't known to be durable")


def nonsense(at):
    with Server(at, 1):
        Relay(at, lambda mount, server: (mount.sendall(frame(b"\xff")), time.sleep(1)))
        return wrong(start("A", at + 1, LANES), 14, CAME + b"peer 0\n", b"operation 2 isn't known to be durable")


def nobody_listens(at):
    return wrong(start("A", at, LANES), 8, b"", b"A can't reach " + address(at).encode() + b": ", b"efused")


def healthy(at):
    count = len(CLERKS) * rounds
    with Server(at, count) as server:
        for _ in range(rounds):
            mounts = [start(clerk, at, f"1 create /{clerk}\n2 stat /\n".encode()) for clerk in CLERKS]
            for mount in mounts:
                mount.communicate(timeout=WAIT)
                if mount.returncode != 0:
                    return f"a mount ended with status {mount.returncode}"
            # a clerk's next start needs a later second
            time.sleep(1)
        server.process.wait(WAIT)
        told = server.says()
    closed = told.count(b" was closed\n")
    return None if closed == count and b" ended: " not in told else f"{closed} of {count} links were closed: {told!r}"


def dead_mount(at):
    with Server(at, 3):
        relay = Relay(at, lambda mount, server: dead.kill())
        dead = start("A", at + 1, LANES)
        if not relay.is_there.wait(WAIT):
            return "the first mount doesn't get on"
        dead.communicate()
        later = start("B", at, b"1 read /f 0 9\n")
        line, told = b"", b""
        while b" waits for " not in told:
            line = later.stderr.readline()
            told += line
            if not line:
                return f"the second mount doesn't wait: {told!r}"
        # what the dead mount held is free once its session has ended
        fault = wrong(start("A", at), 0, b"end sync -> ok\n")
        return fault or wrong(later, 0, b"1 1 read /f 0 9 -> data 0\nend sync -> ok\n")


# A user who may start no further process, and who has no other one: the number of its process tells it from those of other runs.
def alone():
    resource.setrlimit(resource.RLIMIT_NPROC, (1, 1))
    if os.getuid() == 0:
        os.setuid(USERS + os.getpid())


def no_thread(at):
    with Server(at, 1):
        return wrong(start("A", at, LANES, preexec_fn=alone), 10, b"", b"no thread can be started")


CASES = {
    "nobody listens": nobody_listens,
    "a server that is killed": killed_server,
    "a server that sends nonsense": nonsense,
    "healthy mounts": healthy,
    "a mount that dies": dead_mount,
    "no thread": no_thread,
}


def main():
    faults = {}
    running = [threading.Thread(target=lambda name, at: faults.__setitem__(name, CASES[name](at)), args=[name, port + 2 * i]) for i, name in enumerate(CASES)]
    for one in running:
        one.start()
    for one in running:
        one.join()
    failed = [name for name in CASES if faults.get(name, "it failed")]
    for name in failed:
        print(f"{name}: {faults.get(name, 'it failed')}")
    print(f"ends: {len(CASES) - len(failed)} passed, {len(failed)} failed")
    return len(failed) != 0


sys.exit(main())
