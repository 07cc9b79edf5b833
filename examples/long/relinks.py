#!/usr/bin/env python3
"""The long form of examples/relinks.py: eight mounts whose links go while they work. Each ends with status 0, each of its calls is answered, nothing is
told lost, and the disk has what was answered.
Usage: examples/long/relinks.py PROGRAM [PORT [WAY [TIMES]]]   (port 4831, all ways, and 30 kills, 300 cuts, 2 stops and 2 times away where none are given)

The ways in which links go:
  kills  the server is killed with -9 at random moments, and started again at once
  cuts   a relay before the server breaks one link after another, at random moments
  stops  the server is stopped for ten seconds, and goes on
  away   the server is killed with -9, and started again ten seconds later

Each mount makes a folder of its own and files in it, writes, syncs, renames and reads them, and looks at a folder that all share. Where all have ended
and links are to go still, eight more come. Then the server is killed once more, and a last mount reads all files. The relay uses the port behind."""
import os
import random
import select
import signal
import socket
import subprocess
import sys
import tempfile
import threading
import time

program = os.path.realpath(sys.argv[1])
port = int(sys.argv[2]) if len(sys.argv) > 2 else 4831
LONGEST = 240
PAUSE = 10
CLERKS = "ABCDEFGH"
FILES = 30
# how often each file is written over, so that a mount works for some seconds
TURNS = 60
# as many as the disk has room for: a volume has 1,024 objects
MOST_ROUNDS = 4


class Server:
    """A server in a folder."""

    def __init__(self, folder):
        self.folder, self.told = folder, os.path.join(folder, "told")
        self.start()

    def start(self):
        with open(self.told, "wb") as told:
            self.process = subprocess.Popen([program, "serve", f"127.0.0.1:{port}", "1000"], cwd=self.folder, stdout=subprocess.DEVNULL, stderr=told)
        self.awaits("serves at")

    # Until it has told all this.
    def awaits(self, *words):
        end = time.monotonic() + LONGEST
        while time.monotonic() < end:
            with open(self.told) as told:
                text = told.read()
            if all(word in text for word in words):
                return
            time.sleep(0.01)

    def kill(self):
        self.process.kill()
        self.process.wait()


class Relay:
    """Passes on what comes at the port behind the server's, link by link, and can break one of them."""

    def __init__(self):
        self.door, self.links = socket.create_server(("127.0.0.1", port + 1)), []
        threading.Thread(target=self.accept, daemon=True).start()

    def accept(self):
        while True:
            try:
                mount, _ = self.door.accept()
            except OSError:
                return
            try:
                server = socket.create_connection(("127.0.0.1", port))
            except OSError:
                mount.close()
                continue
            self.links.append((mount, server))
            threading.Thread(target=carry, args=[mount, server], daemon=True).start()

    def cut(self):
        if self.links:
            for end in self.links.pop(random.randrange(len(self.links))):
                hang_up(end)

    def close(self):
        hang_up(self.door)
        self.door.close()


def carry(mount, server):
    others = {mount: server, server: mount}
    with mount, server:
        try:
            while True:
                for end in select.select(list(others), [], [])[0]:
                    got = end.recv(1 << 16)
                    if not got:
                        return
                    others[end].sendall(got)
        except OSError:
            pass
        finally:
            hang_up(mount)
            hang_up(server)


def hang_up(end):
    try:
        end.shutdown(socket.SHUT_RDWR)
    except OSError:
        pass


def kills(server, relay):
    time.sleep(random.uniform(0, 2))
    server.kill()
    server.start()


def cuts(server, relay):
    time.sleep(random.uniform(0.02, 0.25))
    relay.cut()


def stops(server, relay):
    time.sleep(random.uniform(0, 1))
    server.process.send_signal(signal.SIGSTOP)
    time.sleep(PAUSE)
    server.process.send_signal(signal.SIGCONT)


def away(server, relay):
    time.sleep(random.uniform(0, 0.1))
    server.kill()
    time.sleep(PAUSE)
    server.start()


WAYS = {"kills": (kills, 30), "cuts": (cuts, 300), "stops": (stops, 2), "away": (away, 2)}


def lanes_of(folder):
    draw = random.Random(folder)
    rows = [f"mkdir /{folder}"]
    for i in range(FILES):
        name = f"/{folder}/{i}"
        rows.append(f"create {name}")
        for _ in range(TURNS):
            rows.append(f"write {name} 0 x")
            if draw.random() < 0.4:
                rows.append(f"fsync {name}")
        rows += [f"rename {name} /{folder}/n{i}", f"write /{folder}/n{i} 0 {folder}.{i}"]
        if draw.random() < 0.6:
            rows.append(f"fsync /{folder}/n{i}")
        if draw.random() < 0.3:
            rows.append(f"read /{folder}/n{draw.randrange(i + 1)} 0 9")
        if draw.random() < 0.2:
            rows.append("stat /shared")
    return "".join(f"1 {row}\n" for row in rows)


class Mount(threading.Thread):
    """A mount to its end."""

    def __init__(self, at, clerk, lanes):
        super().__init__()
        self.at, self.clerk, self.lanes = at, clerk, lanes
        self.start()

    def run(self):
        begin = time.monotonic()
        process = subprocess.Popen([program, "mount", f"127.0.0.1:{self.at}", self.clerk], stdin=subprocess.PIPE, stdout=subprocess.PIPE, stderr=subprocess.PIPE, text=True)
        try:
            self.out, self.told = process.communicate(self.lanes, LONGEST)
        except subprocess.TimeoutExpired:
            process.kill()
            self.out, self.told = process.communicate()
        self.status, self.took = process.returncode, time.monotonic() - begin

    # What is wrong where each call is to be answered and nothing told lost, or None.
    def wrong(self):
        lines, rows = self.out.splitlines(), self.lanes.splitlines()
        if self.status != 0 or len(lines) != len(rows) + 1 or lines[-1] != "end sync -> ok" or " lost" in self.out:
            return f"{self.clerk}: status {self.status} behind {self.took:.1f} s, {len(lines)} lines for {len(rows)} calls, {self.out[-200:]!r} {self.told[-500:]!r}"
        return None


# Eight mounts, whose links go up to so often. How often they went, how often one came again, and what went wrong.
def round_of(go, server, relay, number, most):
    # what it told is empty then
    server.kill()
    server.start()
    mounts = [Mount(port + 1 if go is cuts else port, clerk, lanes_of(f"{clerk}{number}")) for clerk in CLERKS]
    server.awaits(*(f"is {clerk}'s" for clerk in CLERKS))
    times = 0
    while times < most and any(mount.is_alive() for mount in mounts):
        go(server, relay)
        times += 1
    for mount in mounts:
        mount.join()
    return times, sum(mount.told.count("is linked again") for mount in mounts), [fault for mount in mounts if (fault := mount.wrong())]


# What the disk lacks, or None.
def wrong_there(folders):
    reads = [(folder, i, f"{folder}.{i}") for folder in folders for i in range(FILES)]
    mount = Mount(port, "P", "".join(f"1 read /{folder}/n{i} 0 9\n" for folder, i, _ in reads))
    mount.join()
    want = [f"{k + 1} 1 read /{folder}/n{i} 0 9 -> data {len(text)} {text}" for k, (folder, i, text) in enumerate(reads)] + ["end sync -> ok"]
    lines = mount.out.splitlines()
    missing = [line for line, is_there in zip(want, lines) if line != is_there]
    if mount.status != 0 or missing or len(lines) != len(want):
        return f"the disk: status {mount.status}, {len(missing)} of {len(want)} lines differ, {missing[:2]} {mount.told[-300:]!r}"
    return None


# Whether all went well where links go this way, so often.
def is_well(way, most):
    go = WAYS[way][0]
    faults, rounds, times, again = [], 0, 0, 0
    begin = time.monotonic()
    with tempfile.TemporaryDirectory() as folder:
        server, relay = Server(folder), Relay()
        try:
            Mount(port, "I", "1 mkdir /shared\n").join()
            # where nothing else takes the processors all mounts may have ended before a link goes
            while (times < most or (again == 0 and go is not stops)) and rounds < MOST_ROUNDS and not faults:
                more, links, faults = round_of(go, server, relay, rounds, max(1, most - times))
                rounds, times, again = rounds + 1, times + more, again + links
            server.kill()
            server.start()
            fault = wrong_there([f"{clerk}{number}" for number in range(rounds) for clerk in CLERKS])
            faults += [fault] if fault else []
        finally:
            relay.close()
            server.kill()
    if again == 0 and go is not stops:
        faults.append("no mount linked again")
    for fault in faults:
        print(fault, file=sys.stderr)
    print(f"{way}: {times} times, {again} links again, {8 * rounds} mounts, {time.monotonic() - begin:.0f} s: {'failed' if faults else 'passed'}", flush=True)
    return not faults


def main():
    ways = sys.argv[3:4] or list(WAYS)
    times = int(sys.argv[4]) if len(sys.argv) > 4 else None
    well = [is_well(way, times or WAYS[way][1]) for way in ways]
    sys.exit(0 if all(well) else 1)


main()
