#!/usr/bin/env python3
"""Tries what the program asks of the system: standard streams that are closed at its start, a disk that another program has, one that can't be
opened, a file system without room, and words that are none of its own.
Usage: examples/process.py PROGRAM [PORT]   (ports from 11500 on where none is given)

Each case has a folder of its own and a limit of time. With a standard stream closed, what is read there is at its end, what is written there is
gone, the status is as ever, and the disk has what it should. Of two programs on one disk the second ends at once with status 6."""
import errno
import fcntl
import os
import resource
import signal
import subprocess
import sys
import tempfile
import time

program = os.path.realpath(sys.argv[1])
port = int(sys.argv[2]) if len(sys.argv) > 2 else 11500
address = f"127.0.0.1:{port}"
WAIT = 60
DISK = "echofs.disk"
FIRST_SLOT = 4329472

CLOSED = {"input": "<&-", "output": ">&-", "error": "2>&-"}
FORMS = ["drill", "check", "make", "soak", "leases", "serve", "mount"]

WRITES = b"A create /f\nA write /f 0 hi\nA fsync /f\n"
WROTE = b"3 A fsync /f -> ok\n"
READS = b"A read /f 0 9\n"
READ = b"1 A read /f 0 9 -> data 2 hi\n"
MISSES = b"1 A read /f 0 9 -> refused NotFound 1\n"
LANES = b"1 create /f\n1 write /f 0 hi\n1 fsync /f\n"
ANSWERS = b"1 1 create /f -> ok op 1\n2 1 write /f 0 hi -> ok op 2\n3 1 fsync /f -> ok\nend sync -> ok\n"
SOAKED = b"soak 1 lines 2000 answers "


class Wrong(Exception):
    """What is wrong in a case."""


def holds(is_so, *what):
    if not is_so:
        raise Wrong(*what)


def shell(words, behind):
    return ["sh", "-c", f'exec "$0" "$@" {behind}', program, *words]


class Folder:
    """A folder of its own, in which the program runs."""

    def __enter__(self):
        self.kept = tempfile.TemporaryDirectory()
        self.disk = os.path.join(self.kept.name, DISK)
        return self

    def __exit__(self, *why):
        self.kept.cleanup()

    # The program with these words, as a shell begins it with this behind them. Where a number of bytes is given, its files can't grow beyond that, and
    # no signal tells it.
    def run(self, *words, given=b"", behind="", most_bytes=None):
        def limit():
            if most_bytes is not None:
                signal.signal(signal.SIGXFSZ, signal.SIG_IGN)
                resource.setrlimit(resource.RLIMIT_FSIZE, (most_bytes, most_bytes))

        command = shell(words, behind)
        return subprocess.run(command, cwd=self.kept.name, input=given, capture_output=True, timeout=WAIT, preexec_fn=limit)

    def start(self, *words, behind=""):
        command = shell(words, behind)
        return subprocess.Popen(command, cwd=self.kept.name, stdin=subprocess.DEVNULL, stdout=subprocess.PIPE, stderr=subprocess.PIPE)

    def bytes(self):
        with open(self.disk, "rb") as disk:
            return disk.read()

    # Waits until nothing has been written to the disk for half a second.
    def rest(self):
        while time.time() < os.stat(self.disk).st_mtime + 0.5:
            time.sleep(0.1)

    # A drill of this script ends well, and its output ends so.
    def drills(self, script, end):
        drill = self.run("drill", given=script)
        holds(drill.returncode == 0 and drill.stdout.endswith(end), "a drill then", drill)


# Waits until the mount ends otherwise than for want of a server.
def mounted(folder, lanes, behind=""):
    end = time.monotonic() + WAIT
    while True:
        mount = folder.run("mount", address, "A", given=lanes, behind=behind)
        if mount.returncode != 8 or time.monotonic() > end:
            return mount


# What a run with this stream closed has to give, where with none closed it gives this.
def given_with(closed, stream, whole):
    return {"input": closed, "output": b"", "error": whole}[stream]


def drill_with(stream):
    with Folder() as folder:
        drill = folder.run("drill", given=WRITES, behind=CLOSED[stream])
        holds(drill.returncode == 0 and drill.stdout.endswith(given_with(b"", stream, WROTE)), drill)
        holds(stream == "error" or drill.stdout == b"", drill)
        folder.drills(READS, MISSES if stream == "input" else READ)


# The same on a disk that isn't new, which is read first.
def drill_again_with(stream):
    with Folder() as folder:
        folder.drills(WRITES, WROTE)
        drill = folder.run("drill", given=READS, behind=CLOSED[stream])
        holds(drill.returncode == 0 and drill.stdout.endswith(given_with(b"", stream, READ)), drill)
        folder.drills(READS, READ)


def soak_with(stream):
    with Folder() as folder:
        soak = folder.run("soak", "1", behind=CLOSED[stream])
        holds(soak.returncode == 0 and soak.stdout.startswith(given_with(SOAKED, stream, SOAKED)), soak)
        folder.drills(WRITES, WROTE)
        folder.drills(READS, READ)


# The descriptors of a process, each with its file.
def open_files(process):
    folder = f"/proc/{process.pid}/fd"
    return {int(number): os.readlink(f"{folder}/{number}") for number in os.listdir(folder)}


def serve_with(stream):
    with Folder() as folder:
        server = folder.start("serve", address, "2", behind=CLOSED[stream])
        try:
            first = mounted(folder, LANES)
            files = open_files(server)
            again = mounted(folder, b"1 read /f 0 9\n")
            server.wait(WAIT)
        finally:
            server.kill()
            out, _ = server.communicate()
        holds((first.returncode, first.stdout) == (0, ANSWERS), first)
        holds((again.returncode, again.stdout) == (0, b"1 1 read /f 0 9 -> data 2 hi\nend sync -> ok\n"), again)
        holds((server.returncode, out) == (0, b""), server.returncode, out)
        number = list(CLOSED).index(stream)
        holds(files[number] == "/dev/null", files)
        holds(os.path.basename(files[3]) == DISK and "/dev/null" not in [files[other] for other in files if other > 2], files)
        folder.drills(READS, READ)


def mount_with(stream):
    with Folder() as folder:
        server = folder.start("serve", address, "1")
        try:
            mount = mounted(folder, LANES, CLOSED[stream])
            server.wait(WAIT)
        finally:
            server.kill()
            server.communicate()
        holds(mount.returncode == 0 and mount.stdout == given_with(b"end sync -> ok\n", stream, ANSWERS), mount)
        holds(server.returncode == 0, server.returncode)
        folder.drills(READS, MISSES if stream == "input" else READ)


def all_closed():
    with Folder() as folder:
        drill = folder.run("drill", given=WRITES, behind="<&- >&- 2>&-")
        holds(drill.returncode == 0, drill)
        soak = folder.run("soak", "1", behind="<&- >&- 2>&-")
        holds(soak.returncode == 0, soak)
        bad = folder.run("drill", "7", behind="<&- >&- 2>&-")
        holds(bad.returncode == 2, bad)
        folder.drills(WRITES, WROTE)


# Each word that uses the disk ends at once, and leaves it as it is.
def holds_off(folder):
    before = folder.bytes()
    for words in ["drill"], ["drill", "32"], ["soak", "1"], ["serve", f"127.0.0.1:{port + 1}", "1"]:
        start = time.monotonic()
        late = folder.run(*words, given=WRITES)
        holds((late.returncode, late.stdout) == (6, b"") and b"in use" in late.stderr.splitlines()[-1], late)
        holds(time.monotonic() < start + 5, words, "took long")
    holds(folder.bytes() == before, "the disk has changed")
    makes = folder.run("make", "1")
    holds(makes.returncode == 0, makes)


def held_by_a_server():
    with Folder() as folder:
        server = folder.start("serve", address, "100")
        try:
            mount = mounted(folder, LANES)
            holds((mount.returncode, mount.stdout) == (0, ANSWERS), mount)
            folder.rest()
            holds_off(folder)
        finally:
            server.kill()
            server.communicate()
        folder.drills(READS, READ)


def held_when_empty():
    with Folder() as folder, open(folder.disk, "wb") as disk:
        fcntl.flock(disk, fcntl.LOCK_EX)
        holds_off(folder)
        holds(folder.bytes() == b"", "an empty disk was laid out")
        fcntl.flock(disk, fcntl.LOCK_UN)
        folder.drills(WRITES, WROTE)


# A drill that can't have its disk ends with status 6, and says the system's reason.
def refused(folder, reason, most_bytes=None):
    drill = folder.run("drill", given=WRITES, most_bytes=most_bytes)
    said = os.strerror(reason).encode()
    holds(drill.returncode == 6 and drill.stdout == b"" and said in drill.stderr, drill)


def directory_in_its_place():
    with Folder() as folder:
        os.mkdir(folder.disk)
        refused(folder, errno.EISDIR)


def not_permitted():
    with Folder() as folder:
        folder.drills(WRITES, WROTE)
        os.chmod(folder.disk, 0o400)
        if os.access(folder.disk, os.W_OK):
            return
        refused(folder, errno.EACCES)


# Where a file may not grow beyond its first slot, the layout breaks off behind its first call, and the disk is bad until it's removed.
def no_room():
    with Folder() as folder:
        refused(folder, errno.EFBIG, FIRST_SLOT)
        for words in ["drill"], ["soak", "1"], ["serve", address, "1"]:
            bad = folder.run(*words, given=WRITES)
            holds((bad.returncode, bad.stdout) == (7, b"disk bad 0\n") and b"can be removed" in bad.stderr, bad)
        os.remove(folder.disk)
        folder.drills(WRITES, WROTE)


# Nothing of it is written where the file can't grow at all.
def no_room_at_all():
    with Folder() as folder:
        refused(folder, errno.EFBIG, 8192)
        holds(folder.bytes() == b"", "a part of the layout is there")
        folder.drills(WRITES, WROTE)


def another_number():
    with Folder() as folder:
        for words, told in (["drill", "32"], b""), (["drill", "64"], b"for 32 objects"), (["drill"], b""), (["drill", "32"], b""):
            drill = folder.run(*words, given=b"A stat /\n")
            holds(drill.returncode == 0 and drill.stdout.endswith(b"-> stat dir 0755 0 0\n"), drill)
            holds(told in drill.stderr if told else drill.stderr == b"", drill)


def no_words():
    with Folder() as folder:
        for words in [], ["--help"], ["drill", "7"], ["mount", address]:
            usage = folder.run(*words)
            said = usage.stderr.decode()
            holds((usage.returncode, usage.stdout) == (2, b""), usage)
            holds(all(f"  echofs {form} " in said for form in FORMS) and "docs/echofs.1" in said, usage)
        holds(not os.path.exists(folder.disk), "there is a disk")


def found(run, *given):
    try:
        run(*given)
    except Wrong as wrong:
        return " ".join(map(str, wrong.args))
    except subprocess.TimeoutExpired as late:
        return f"{late.cmd} doesn't end"


def main():
    runs = {f"{run.__name__} {stream} closed".replace("_", " "): (run, stream) for stream in CLOSED
            for run in (drill_with, drill_again_with, soak_with, serve_with, mount_with)}
    alone = (all_closed, held_by_a_server, held_when_empty, directory_in_its_place, not_permitted, no_room, no_room_at_all, another_number, no_words)
    runs |= {run.__name__.replace("_", " "): (run,) for run in alone}
    failed = 0
    for name, run in runs.items():
        fault = found(*run)
        if fault:
            failed += 1
            print(f"{name}: {fault}")
    print(f"process: {len(runs) - failed} passed, {failed} failed")
    return failed != 0


sys.exit(main())
