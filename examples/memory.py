#!/usr/bin/env python3
"""Serves a volume over loopback to links that never read and repeat a want, and looks how much memory the server takes.
Usage: examples/memory.py PROGRAM [PORT]   (the port is 4711 where none is given)

A mount makes a file of 64 KiB and a full directory of long names. Then four clerks greet, and each one wants one of the two over and over, more often
than an outbox has room for, and reads nothing behind the first grant. The images that wait for them stand once, so the server stays below 150 MiB."""
import os
import socket
import struct
import subprocess
import sys
import tempfile
import time

program = os.path.realpath(sys.argv[1])
port = int(sys.argv[2]) if len(sys.argv) > 2 else 4711
address = f"127.0.0.1:{port}"
LIMIT = 150 << 10  # KiB
LINKS, WANTS, PART = 4, 4200, 100
SECONDS = 3

NAMES = ["n" * 61 + f"{number:03}" for number in range(128)]
FILE = ["1 create /f"] + [f"1 write /f {at * 2048} {'x' * 2048}" for at in range(32)]
DIRECTORY = ["1 mkdir /d"] + [f"1 create /d/{name}" for name in NAMES]


def frame(body):
    return struct.pack(">I", len(body)) + body


def received(link):
    head = b""
    while len(head) < 4:
        head += link.recv(4 - len(head)) or sys.exit("the server closed a link")
    length, body = struct.unpack(">I", head)[0], b""
    while len(body) < length:
        body += link.recv(length - len(body)) or sys.exit("the server closed a link")
    return body


def want(session, epoch, obj):
    return frame(struct.pack(">BQQIBQ", 2, session, epoch, obj, 1, 0))


# The first grant of this object.
def granted(link, session, epoch, obj):
    link.sendall(want(session, epoch, obj))
    while True:
        body = received(link)
        if body[0] == 66 and struct.unpack_from(">I", body, 17)[0] == obj:
            return body


# The ids in a directory's image in a grant, by name.
def ids(body):
    at, ids = 30 + 1 + 2 + 8 + 4 + 1, {}
    for _ in range(body[at - 1]):
        end = at + 1 + body[at]
        ids[body[at + 1 : end]] = struct.unpack_from(">I", body, end)[0]
        at = end + 4
    return ids


def greeted(clerk):
    link = socket.create_connection(("127.0.0.1", port))
    link.setsockopt(socket.SOL_SOCKET, socket.SO_RCVBUF, 4096)
    link.sendall(frame(struct.pack(">BBQI", 8, clerk, 1, 0)))
    while True:
        body = received(link)
        if body[0] == 65:
            return link, *struct.unpack_from(">QQ", body, 13)


# Sends wants for so long, on all links, as far as the server takes them.
def repeat(links, wanted):
    sent, end = [0] * LINKS, time.monotonic() + SECONDS
    parts = [want(session, epoch, wanted) * PART for _, session, epoch in links]
    rest = list(parts)
    while time.monotonic() < end and min(sent) < WANTS:
        for place, (link, _, _) in enumerate(links):
            try:
                rest[place] = rest[place][link.send(rest[place], socket.MSG_DONTWAIT) :]
            except BlockingIOError:
                time.sleep(0.01)
            except OSError:
                sent[place] = WANTS
            if not rest[place]:
                sent[place], rest[place] = sent[place] + PART, parts[place]
    return sent


# The most memory that a process had so far, in KiB.
def most(process):
    with open(f"/proc/{process.pid}/status") as status:
        return next(int(line.split()[1]) for line in status if line.startswith("VmHWM"))


# The time of processors that a process took so far, in ticks.
def ticks(process):
    with open(f"/proc/{process.pid}/stat") as stat:
        return sum(int(word) for word in stat.read().rsplit(")", 1)[1].split()[11:13])


# Waits until a process has done nothing for half a second.
def settle(process):
    took, end = -1, time.monotonic() + 3 * SECONDS
    while ticks(process) != took and time.monotonic() < end:
        took = ticks(process)
        time.sleep(0.5)


def measured(name, lines):
    with tempfile.TemporaryDirectory() as folder:
        server = subprocess.Popen([program, "serve", address, str(LINKS + 1)], cwd=folder, stderr=subprocess.PIPE)
        try:
            server.stderr.readline()
            script = "\n".join(lines) + "\n"
            mount = subprocess.run([program, "mount", address, "P"], input=script.encode(), capture_output=True, timeout=30)
            if mount.returncode != 0 or not mount.stdout.endswith(b"end sync -> ok\n"):
                return f"{name}: the mount ended with status {mount.returncode}, {mount.stdout[-200:]!r}"
            before = most(server)
            links = [greeted(clerk) for clerk in range(LINKS)]
            wanted = ids(granted(*links[0], 1))[name.encode()]
            sent = repeat(links, wanted)
            settle(server)
            took = most(server)
            if server.poll() is not None:
                return f"{name}: the server ended with status {server.returncode}"
        finally:
            server.kill()
            server.wait()
    print(f"memory: {LINKS} links wanted /{name} {sent} times, the server had {before >> 10} MiB before and {took >> 10} MiB at most")
    return f"{name}: {took} KiB" if took > LIMIT else None


def main():
    faults = [fault for fault in (measured("f", FILE), measured("d", DIRECTORY)) if fault]
    for fault in faults:
        print(fault)
    print(f"memory: {2 - len(faults)} passed, {len(faults)} failed")
    return len(faults) != 0


sys.exit(main())
