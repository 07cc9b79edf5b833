#!/usr/bin/env python3
"""What the program does over two disks, which hold the same content.
Usage: examples/mirror.py PROGRAM

Each script of the examples that begins on a new disk comes to its transcript and its status over two empty disks too, and both are equal then from
byte 4,096 on. One of them is replaced by an empty file: what was durable is there at the next drill, and both are equal again. One is on a device
that gets full while a drill runs: the drill ends well on the other one, and says why on standard error; this part is left out where a file system
can't be mounted in a namespace of its own. Two files that are no mirror are refused, and so is a second one that another program has."""
import fcntl
import glob
import os
import shutil
import subprocess
import sys
import tempfile

program = os.path.realpath(sys.argv[1])
here = os.path.dirname(os.path.realpath(__file__))
FIRST, SECOND = "echofs.disk", "echofs.disk2"
HEADER = 4096
WAIT = 120

passed = failed = 0


def check(what, is_so, why=""):
    global passed, failed
    if is_so:
        passed += 1
    else:
        failed += 1
        print(f"{what}: {why}")


def read(path):
    with open(path, "rb") as file:
        return file.read()


def run(folder, script, *words):
    return subprocess.run([program, *(words or ["drill"])], cwd=folder, input=script, capture_output=True, timeout=WAIT)


def write(folder, name, content=b""):
    with open(os.path.join(folder, name), "wb") as file:
        file.write(content)


def are_alike(folder):
    first, second = (read(os.path.join(folder, name)) for name in (FIRST, SECOND))
    return first[:8] == second[:8] == b"ECHOMIR1" and len(first) > HEADER and first[HEADER:] == second[HEADER:] and first[HEADER:].startswith(b"ECHOFS1")


def same_transcripts(room):
    """Each example of a drill, with leases or without, over two empty disks."""
    for script in sorted(glob.glob(f"{here}/*.script")):
        name = script.removesuffix(".script")
        words = read(f"{name}.args").decode().splitlines() if os.path.exists(f"{name}.args") else ["drill"]
        if words[:1] != ["leases"] and words != ["drill"]:
            continue
        folder = tempfile.mkdtemp(dir=room)
        write(folder, SECOND)
        did = run(folder, read(script), *words)
        wanted = int(read(f"{name}.status"))
        check(os.path.basename(name), (did.returncode, did.stdout) == (wanted, read(f"{name}.expected")), f"status {did.returncode}, or another transcript: {did.stderr}")
        if os.path.getsize(os.path.join(folder, FIRST)):
            check(os.path.basename(name), are_alike(folder), "the disks differ")


SAVES = b"A mkdir /d\nA create /d/f\nA write /d/f 0 hi\nA sync\n"
READS = b"A read /d/f 0 9\n"
READ = b"1 A read /d/f 0 9 -> waits\n1 A read /d/f 0 9 -> data 2 hi\n"


def replaced(room):
    """One of both is replaced by an empty file, while nothing runs."""
    for name in (FIRST, SECOND):
        folder = tempfile.mkdtemp(dir=room)
        write(folder, SECOND)
        check(f"{name} is replaced", run(folder, SAVES).returncode == 0, "the first drill")
        write(folder, name)
        did = run(folder, READS)
        check(f"{name} is replaced", (did.returncode, did.stdout) == (0, READ), f"{did}")
        check(f"{name} is replaced", are_alike(folder), "the disks differ")


# In a namespace of its own: a small file system for one of the disks, of which FILE is a link, then the program. What is left of that disk is copied.
FULL = """mkdir small && mount -t tmpfs -o size=$1k none small && : > small/disk && ln -s small/disk "$2" || exit 77
"$3" drill; status=$?; cp small/disk left; exit $status"""


def gets_full(room):
    """A disk's device gets full in a drill: the disk is dropped, and the drill goes on with the other one."""
    dropped = 0
    for name, other in ((SECOND, FIRST), (FIRST, SECOND)):
        for size in (4, 8, 12, 16, 20):
            folder = tempfile.mkdtemp(dir=room)
            if other == SECOND:
                write(folder, SECOND)
            did = subprocess.run(["unshare", "--user", "--map-root-user", "--mount", "sh", "-c", FULL, "sh", str(size), name, program], cwd=folder, input=SAVES, capture_output=True, timeout=WAIT)
            if did.returncode in (1, 77) and b"drill" not in did.stderr and not os.path.exists(os.path.join(folder, "left")):
                print(f"mirror: no file system of its own for a disk, so none gets full: {did.stderr.decode().strip()}")
                return
            what = f"{name} gets full at {size} KiB"
            if did.returncode == 6:
                check(what, did.stdout == b"", f"{did}")
                continue
            check(what, did.returncode == 0 and b"A sync -> ok\n" in did.stdout, f"{did}")
            if b"can't be" not in did.stderr:
                continue
            dropped += 1
            check(what, f"echofs: {name} can't be written".encode() in did.stderr and other.encode() + b" " not in did.stderr, f"{did.stderr}")
            # An empty file takes its place, or what is left of it: the survivor's generation is greater.
            for content in (b"", read(os.path.join(folder, "left"))):
                again = tempfile.mkdtemp(dir=room)
                shutil.copy(os.path.join(folder, other), os.path.join(again, other))
                write(again, name, content)
                did = run(again, READS)
                check(what, (did.returncode, did.stdout) == (0, READ), f"{did}")
                check(what, are_alike(again), "the disks differ")
    check("a disk gets full", dropped > 1, f"{dropped} drills went on with one disk")


def refused(room):
    """Files that are no mirror, and words that use no disk."""
    for first, second, line in ((bytes(5000), b"", b"mirror bad 1 0\n"), (b"", bytes(5000), b"mirror bad 2 0\n"), (b"ECHOMIR1" + bytes(4992), b"", b"mirror bad 1 512\n")):
        folder = tempfile.mkdtemp(dir=room)
        write(folder, FIRST, first)
        write(folder, SECOND, second)
        did = run(folder, SAVES)
        check(line, (did.returncode, did.stdout) == (7, line) and did.stderr, f"{did}")
        check(line, (read(os.path.join(folder, FIRST)), read(os.path.join(folder, SECOND))) == (first, second), "a disk has changed")
        did = run(folder, b"", "check")
        check(line, (did.returncode, did.stdout) == (0, b"legal\n"), f"{did}")
        check(line, run(folder, b"", "drill", "x").returncode == 2, "words of no form")
    folder = tempfile.mkdtemp(dir=room)
    write(folder, SECOND)
    with open(os.path.join(folder, SECOND), "rb+") as file:
        fcntl.flock(file, fcntl.LOCK_EX)
        did = run(folder, SAVES)
    check("a second disk in use", (did.returncode, did.stdout) == (6, b"") and b"echofs.disk2 is in use" in did.stderr, f"{did}")


with tempfile.TemporaryDirectory() as room:
    same_transcripts(room)
    replaced(room)
    gets_full(room)
    refused(room)
print(f"mirror: {passed} passed, {failed} failed")
sys.exit(failed > 0)
