#!/usr/bin/env python3
"""Kills mounts and starts them again at once: no two starts of a clerk, one after the other, share a boot.
Usage: examples/boots.py PROGRAM [COUNT] [PORT]   (10 rounds, and ports from 11000 on, where none are given)

In each round a mount of clerk A writes and syncs, and is killed meanwhile, each time after another while. At once another mount of A makes a
file, writes it, and waits until it's durable. Where that one ends with status 0 a mount of clerk B has to read what it wrote. Ten rounds run
at the same time, each with a server of its own.

Then eight mounts of one clerk, one after the other, end with status 0, and each reads what the one before it wrote."""
import concurrent.futures
import os
import subprocess
import sys
import tempfile
import time

program = os.path.realpath(sys.argv[1])
rounds = int(sys.argv[2]) if len(sys.argv) > 2 else 10
first_port = int(sys.argv[3]) if len(sys.argv) > 3 else 11000
WAIT = 60
AT_ONCE = 10

# More calls than a mount carries out before it's killed.
BUSY = b"1 create /busy\n" + b"".join(b"1 write /busy 0 text%d\n1 fsync /busy\n" % i for i in range(20000))
WRITES = b"1 create /f\n1 write /f 0 second\n1 fsync /f\n"
WROTE = b"1 1 create /f -> ok op 1\n2 1 write /f 0 second -> ok op 2\n3 1 fsync /f -> ok\nend sync -> ok\n"
READS = b"1 read /f 0 9\n"
READ = b"1 1 read /f 0 9 -> data 6 second\nend sync -> ok\n"


class Server:
    """A server of so many links in a folder of its own, which is killed at the end."""

    def __init__(self, port, links):
        self.address, self.links = f"127.0.0.1:{port}", links

    def __enter__(self):
        self.folder = tempfile.TemporaryDirectory()
        words = [program, "serve", self.address, str(self.links)]
        self.process = subprocess.Popen(words, cwd=self.folder.name, stdin=subprocess.DEVNULL, stdout=subprocess.DEVNULL, stderr=subprocess.PIPE)
        self.process.stderr.readline()
        return self

    def __exit__(self, *why):
        self.process.kill()
        self.process.communicate()
        self.folder.cleanup()

    # Waits until a link has come.
    def wait_for_link(self):
        for line in self.process.stderr:
            if line.endswith(b" came\n"):
                return

    def mount(self, clerk, lanes):
        return subprocess.run([program, "mount", self.address, clerk], input=lanes, capture_output=True, timeout=WAIT)


# Starts a mount of clerk A that is busy, at the beginning of a second of the clock, and kills it after this while.
def kill_busy(server, seconds):
    time.sleep(-time.time() % 1)
    with tempfile.TemporaryFile() as lanes:
        lanes.write(BUSY)
        lanes.seek(0)
        with subprocess.Popen([program, "mount", server.address, "A"], stdin=lanes, stdout=subprocess.DEVNULL, stderr=subprocess.DEVNULL) as busy:
            server.wait_for_link()
            time.sleep(seconds)
            was_busy = busy.poll() is None
            busy.kill()
    return was_busy


# What is wrong in the round of this number, or None.
def wrong_in_round(number):
    with Server(first_port + number % 1000, 3) as server:
        if not kill_busy(server, 0.02 + number % 10 * 0.01):
            return "the first mount ended before it was killed"
        second = server.mount("A", WRITES)
        if second.returncode != 0:
            return None
        if second.stdout != WROTE:
            return f"the second mount: {second.stdout!r}"
        third = server.mount("B", READS)
        if (third.returncode, third.stdout) != (0, READ):
            return f"the third mount: status {third.returncode}, {third.stdout!r} {third.stderr!r}"
    return None


# What is wrong with eight mounts in a row, or None.
def wrong_in_a_row():
    with Server(first_port + rounds, 8) as server:
        for number in range(8):
            lanes = b"1 create /f%d\n1 write /f%d 0 text\n1 fsync /f%d\n" % (number, number, number)
            if number > 0:
                lanes += b"1 read /f%d 0 9\n" % (number - 1)
            mount = server.mount("A", lanes)
            if mount.returncode != 0 or (number > 0 and b"-> data 4 text\n" not in mount.stdout):
                return f"mount {number}: status {mount.returncode}, {mount.stdout!r} {mount.stderr!r}"
        if server.process.wait(WAIT) != 0:
            return f"the server ended with status {server.process.returncode}"
    return None


def found(run, *number):
    try:
        return run(*number)
    except subprocess.TimeoutExpired as late:
        return f"{' '.join(late.cmd[1:])} doesn't end"


def main():
    with concurrent.futures.ThreadPoolExecutor(AT_ONCE) as pool:
        runs = {f"round {number}": pool.submit(found, wrong_in_round, number) for number in range(rounds)}
        runs["eight mounts in a row"] = pool.submit(found, wrong_in_a_row)
        faults = {name: run.result() for name, run in runs.items()}
    failed = 0
    for name, fault in faults.items():
        if fault:
            failed += 1
            print(f"{name}: {fault}")
    print(f"boots: {len(faults) - failed} passed, {failed} failed")
    return failed != 0


sys.exit(main())
