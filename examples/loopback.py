#!/usr/bin/env python3
"""Serves a volume over loopback and mounts it, alone and beside links that misbehave.
Usage: examples/loopback.py PROGRAM [PORT]   (the port is 4711 where none is given)

The last case shows that a mount's lanes run at the same time: a relay between it and the server keeps back the first object that is granted
until two objects were asked for.

Each case is a server with so many links. Before the mounts a link sends what its case says, and stays until they have ended. Each mount has to
end with status 0 and its answers, and so has the server once all links are gone, with one line for each link that came and for each that ended."""
import os
import select
import socket
import struct
import subprocess
import sys
import tempfile
import threading
import time

program = os.path.realpath(sys.argv[1])
port = int(sys.argv[2]) if len(sys.argv) > 2 else 4711
address = f"127.0.0.1:{port}"
WAIT = 60

LANES = b"1 create /f\n1 write /f 0 hi\n1 fsync /f\n1 read /f 0 9\n"
ANSWERS = b"1 1 create /f -> ok op 1\n2 1 write /f 0 hi -> ok op 2\n3 1 fsync /f -> ok\n4 1 read /f 0 9 -> data 2 hi\nend sync -> ok\n"
AGAIN = b"1 read /f 0 9\n"
ANSWERS_AGAIN = b"1 1 read /f 0 9 -> data 2 hi\nend sync -> ok\n"


def frame(body):
    return struct.pack(">I", len(body)) + body


def hello(clerk, boot):
    return frame(struct.pack(">BBQI", 8, clerk, boot, 0))


# What a link sends that misbehaves.
PEERS = {
    "nothing": b"",
    "an unknown kind": frame(b"\xff"),
    "an empty message": frame(b""),
    "half a message": frame(b"\x08\x00\x00"),
    "a frame that is too long": struct.pack(">I", 1 << 20 | 1),
    "half a frame": struct.pack(">I", 14) + b"\x08\x00",
    "a greeting of another clerk, and reads nothing": hello(1, 1),
    "a greeting and then nonsense": hello(1, 1) + frame(b"\xff" * 40),
}


def mounted(clerk, lanes, answers, at=address):
    try:
        done = subprocess.run([program, "mount", at, clerk], input=lanes, capture_output=True, timeout=WAIT)
    except subprocess.TimeoutExpired:
        return f"mount {clerk} doesn't end"
    if (done.returncode, done.stdout) != (0, answers):
        return f"mount {clerk}: status {done.returncode}, {done.stdout!r} {done.stderr!r}"
    return None


# A greeting of the clerk that is mounted then, with an older start. It's answered before the mount begins: of two links of a clerk the later
# greeting's gets what is sent to it.
OLDER = hello(0, 1)

FILES = b"1 create /a\n1 create /b\n"
ANSWERS_FILES = b"1 1 create /a -> ok op 1\n2 1 create /b -> ok op 2\nend sync -> ok\n"
READS = b"1 read /a 0 1\n2 read /b 0 1\n"
ANSWERS_READS = b"1 1 read /a 0 1 -> data 0\n2 2 read /b 0 1 -> data 0\nend sync -> ok\n"

WANT, GRANT, ROOT = 2, 66, 1


# The object of a want or a grant that isn't the root, else None.
def wanted(body, kind):
    if len(body) < 21 or body[0] != kind:
        return None
    obj = struct.unpack_from(">I", body, 17)[0]
    return obj if obj != ROOT else None


class Bodies:
    """The bodies that come from a socket."""

    def __init__(self, link):
        self.link, self.bytes = link, b""

    # Those that are whole, or None where the link was closed.
    def more(self):
        got = self.link.recv(1 << 16)
        if not got:
            return None
        self.bytes += got
        bodies = []
        while len(self.bytes) >= 4:
            end = 4 + struct.unpack(">I", self.bytes[:4])[0]
            if len(self.bytes) < end:
                break
            bodies.append(self.bytes[4:end])
            self.bytes = self.bytes[end:]
        return bodies


# Passes each body on between a mount and the server, up to the first close. It keeps back the first object that is granted, and what follows
# it, until two objects were wanted; after half a minute of that it drops both links.
def relay(door):
    mount, _ = door.accept()
    server = socket.create_connection(("127.0.0.1", port))
    links = {mount: Bodies(mount), server: Bodies(server)}
    wants, kept, since = set(), [], None
    while since is None or time.monotonic() < since + 30:
        for link in select.select(list(links), [], [], 1)[0]:
            bodies = links[link].more()
            if bodies is None:
                return mount.close(), server.close()
            for body in bodies:
                if link is mount:
                    wants |= {wanted(body, WANT)} - {None}
                    server.sendall(frame(body))
                elif kept or (wanted(body, GRANT) and len(wants) < 2):
                    kept.append(body)
                    since = since or time.monotonic()
                else:
                    mount.sendall(frame(body))
        if kept and len(wants) >= 2:
            mount.sendall(b"".join(map(frame, kept)))
            kept, since = [], None
    mount.close(), server.close()


# A mount over the relay.
def mounted_by_relay(clerk, lanes, answers):
    with socket.create_server(("127.0.0.1", port + 1)) as door:
        between = threading.Thread(target=relay, args=[door], daemon=True)
        between.start()
        fault = mounted(clerk, lanes, answers, f"127.0.0.1:{port + 1}")
        between.join(WAIT)
    return fault


def tells(lines, count):
    came = sum(line.endswith(b" came") for line in lines)
    ended = sum(any(how in line for how in (b" was closed", b" was hung up: ", b" ended: ")) for line in lines)
    return came == count and ended == count


# What is wrong with a server of these links, or None.
def wrong(peer, mounts):
    count = len(mounts) + (peer is not None)
    with tempfile.TemporaryDirectory() as folder:
        server = subprocess.Popen([program, "serve", address, str(count)], cwd=folder, stdout=subprocess.PIPE, stderr=subprocess.PIPE)
        first = server.stderr.readline()
        try:
            if first != f"echofs: serves at {address}\n".encode():
                return f"the server says {first!r}"
            if peer is not None:
                link = socket.create_connection(("127.0.0.1", port))
                link.sendall(peer)
                if peer == OLDER:
                    link.recv(1)
            for run, *mount in mounts:
                fault = run(*mount)
                if fault:
                    return fault
            if peer is not None:
                link.close()
            out, told = server.communicate(timeout=WAIT)
        finally:
            server.kill()
        if server.returncode != 0 or out != b"":
            return f"the server ended with status {server.returncode}, {out!r} {told!r}"
        return None if tells(told.splitlines(), count) else f"the server says {told!r}"


# A server that knows a later start of the clerk than the one that greets.
def knows(body):
    boot = struct.unpack_from(">Q", body, 2)[0] + 1
    return frame(b"\x49" + body[2:14] + struct.pack(">QI", boot, 0)), 13, f"oldboot {boot}\n"


# One that answers with what is no message.
def garbles(body):
    return frame(b"\0") * 2, 14, "peer 0\n"


def refused(answer):
    """A mount beside a peer that gives its greeting this answer."""
    with socket.create_server(("127.0.0.1", port)) as door:
        door.settimeout(WAIT)
        mount = subprocess.Popen([program, "mount", address, "A"], stdin=subprocess.PIPE, stdout=subprocess.PIPE, stderr=subprocess.PIPE)
        try:
            mount.stdin.write(b"1 stat /\n")
            mount.stdin.close()
            link, _ = door.accept()
            with link:
                greeting = Bodies(link)
                bodies = []
                while not bodies:
                    bodies = greeting.more()
                sent, status, text = answer(bodies[0])
                link.sendall(sent)
                out = mount.stdout.read()
                mount.wait(WAIT)
        finally:
            mount.kill()
    if (mount.returncode, out) != (status, text.encode()):
        return f"the mount ended with status {mount.returncode}, {out!r}"
    return None


def main():
    failed = 0
    first, again = (mounted, "A", LANES, ANSWERS), (mounted, "B", AGAIN, ANSWERS_AGAIN)
    files, reads = (mounted, "B", FILES, ANSWERS_FILES), (mounted_by_relay, "A", READS, ANSWERS_READS)
    cases = {"a mount": (None, [first]), "one mount after another": (None, [first, again])}
    cases |= {f"a link that sends {name}": (peer, [first]) for name, peer in PEERS.items()}
    cases["an older start of the clerk"] = (OLDER, [first])
    cases["two lanes at the same time"] = (None, [files, reads])
    runs = {name: (wrong, *case) for name, case in cases.items()}
    runs |= {"a peer that knows a later start": (refused, knows), "a peer that sends what is no message": (refused, garbles)}
    for name, (run, *case) in runs.items():
        fault = run(*case)
        if fault:
            failed += 1
            print(f"{name}: {fault}")
    print(f"loopback: {len(runs) - failed} passed, {failed} failed")
    return failed != 0


sys.exit(main())
