#!/usr/bin/env python3
"""What the program does over two disks where a call on one of their files fails, or where the power goes before one.
Usage: examples/mirror_calls.py PROGRAM

The program runs traced, so that each call on a disk's file is seen: reads, writes, syncs and those for its length. Where that can't be, all of this is
left out.

Each call on either file fails in turn, once or from there on, up to the 200th. A drill over two new disks ends with 6 and no bytes then, or as ever.
One over two disks that have a state does so too, and the next drill has what it made durable, or what was there; of the calls that copy one disk to
the other some are taken.

And the power goes before each call on either file in turn. Of what was written since a file's last sync nothing is left, all, or each second byte, of
each file by itself. The disks are two new ones, two that have a state, one that has it beside an empty one, and two of which one is behind. Then a
drill reads what is there, and both files are equal from byte 4,096 on."""
import collections
import concurrent.futures
import ctypes
import errno
import itertools
import os
import shutil
import signal
import subprocess
import sys
import tempfile

program = os.path.realpath(sys.argv[1])
NAMES = FIRST, SECOND = "echofs.disk", "echofs.disk2"
HEADER = PAGE = 4096
ZEROS = bytes(PAGE)
WAIT = 120
MOST_CALLS = 200

CALLS = b"A create /f\nA write /f 0 hi\nA read /f 0 9\n"
CALLED = b"1 A create /f -> waits\n1 A create /f -> ok op 1\n2 A write /f 0 hi -> ok op 2\n3 A read /f 0 9 -> data 2 hi\n"
OLDER = b"A create /f\nA write /f 0 no\nA fsync /f\n"
SAVES = b"A create /f\nA write /f 0 hi\nA fsync /f\n"
SAVED = b"3 A fsync /f -> ok\n"
WRITES_HI = b"A write /f 0 hi\nA fsync /f\n"
WRITES = b"A write /f 0 ho\nA fsync /f\n"
WRITTEN = b"1 A write /f 0 ho -> waits\n1 A write /f 0 ho -> ok op 1\n2 A fsync /f -> waits\ndurable A 1\n2 A fsync /f -> ok\n"
READS = b"A read /f 0 9\n"
UNMADE = b"disk bad 0\n"
NOTHING, EMPTY, HI, HO = (
    b"1 A read /f 0 9 -> waits\n1 A read /f 0 9 -> " + answer for answer in (b"refused NotFound 1\n", b"data 0 \n", b"data 2 hi\n", b"data 2 ho\n")
)

# What ptrace is asked for, and where the registers of a call stand: its number, its first argument, which is the file, and its answer.
libc = ctypes.CDLL(None, use_errno=True)
libc.ptrace.argtypes = [ctypes.c_long, ctypes.c_long, ctypes.c_void_p, ctypes.c_void_p]
libc.ptrace.restype = ctypes.c_long
TRACE_ME, PEEK, POKE, GO_ON, SET_OPTIONS = 0, 3, 6, 24, 0x4200
TELL_CALLS, END_WITH_US = 1, 1 << 20
NUMBER, FILE, ANSWER = 120, 112, 80
AT_CALL = signal.SIGTRAP | 0x80
READ, WRITE, SYNC, LENGTHEN, LENGTH = 17, 18, 75, 77, 332


def ptrace(what, process, place=0, value=0):
    ctypes.set_errno(0)
    answer = libc.ptrace(what, process, place, value)
    if ctypes.get_errno():
        raise OSError(ctypes.get_errno(), "ptrace")
    return answer


def read(path):
    with open(path, "rb") as file:
        return file.read()


def write(path, content=b""):
    with open(path, "wb") as file:
        file.write(content)


class Drill:
    """A traced drill in a folder: what it wrote so far, its status at the end, and of each disk what it had at its last sync."""

    def __init__(self, folder):
        self.folder = folder
        self.synced = {name: self.content(name) for name in NAMES}

    def content(self, name):
        path = os.path.join(self.folder, name)
        return read(path) if os.path.exists(path) else b""

    def text(self):
        return read(os.path.join(self.folder, "said"))

    def run(self, script, before):
        """`before` is told each call before it's carried out: the file and the call's number. Where it answers so, the call fails."""
        write(os.path.join(self.folder, "script"), script)
        with open(os.path.join(self.folder, "script"), "rb") as given, open(os.path.join(self.folder, "said"), "wb") as said:
            trace_me = lambda: libc.ptrace(TRACE_ME, 0, 0, 0)
            self.process = subprocess.Popen([program, "drill"], cwd=self.folder, stdin=given, stdout=said, stderr=subprocess.DEVNULL, preexec_fn=trace_me)
        _, how = os.waitpid(self.process.pid, 0)
        self.is_traced = os.WIFSTOPPED(how)
        if self.is_traced:
            ptrace(SET_OPTIONS, self.process.pid, 0, TELL_CALLS | END_WITH_US)
            how = self.follow(before)
        self.process.returncode = self.status = os.waitstatus_to_exitcode(how)
        return self

    def follow(self, before):
        """From stop to stop, of which each call has two, until the drill has ended."""
        name = call = None
        is_begun = fails = False
        signal.alarm(WAIT)
        while True:
            ptrace(GO_ON, self.process.pid)
            _, how = os.waitpid(self.process.pid, 0)
            if not os.WIFSTOPPED(how):
                signal.alarm(0)
                return how
            if os.WSTOPSIG(how) != AT_CALL:
                continue
            is_begun = not is_begun
            if is_begun:
                call = ptrace(PEEK, self.process.pid, NUMBER)
                name = self.file_of(call)
                fails = bool(name and before(self, name, call))
                if fails:
                    ptrace(POKE, self.process.pid, NUMBER, ctypes.c_void_p(-1))
            elif fails:
                ptrace(POKE, self.process.pid, ANSWER, ctypes.c_void_p(-errno.EIO))
            elif name and call == SYNC:
                self.synced[name] = self.content(name)

    def file_of(self, call):
        """The disk that a call is on."""
        if call not in (READ, WRITE, SYNC, LENGTHEN, LENGTH):
            return None
        file = ptrace(PEEK, self.process.pid, FILE)
        try:
            name = os.path.basename(os.readlink(f"/proc/{self.process.pid}/fd/{file}"))
        except OSError:
            return None
        return name if name in NAMES else None


def write_sparse(path, content):
    """Without the pages of zeros, which most of a disk is."""
    with open(path, "wb") as file:
        for at in range(0, len(content), PAGE):
            page = content[at : at + PAGE]
            if page != ZEROS:
                file.seek(at)
                file.write(page)
        file.truncate(len(content))


def folder_with(room, disks):
    folder = tempfile.mkdtemp(dir=room)
    for name, path in zip(NAMES, disks):
        write_sparse(os.path.join(folder, name), read(path) if path else b"")
    return folder


def drill(folder, script):
    did = subprocess.run([program, "drill"], cwd=folder, input=script, capture_output=True, timeout=WAIT)
    return did.returncode, did.stdout


def wrong_with(folder):
    """What is wrong with two disks behind a drill."""
    first, second = (read(os.path.join(folder, name))[HEADER:] for name in NAMES)
    return "" if first == second and first.startswith(b"ECHOFS1") else "the disks differ"


def wrong_behind(folder, texts):
    """What is wrong with the next drill there, which is to read one of these."""
    did = drill(folder, READS)
    if did not in [(7 if text == UNMADE else 0, text) for text in texts]:
        return f"the next drill: {did}"
    if did[0]:
        return ""
    return wrong_with(folder)


# A drill over two disks, each of which is a path or empty, its transcript, and what the next one may read: where this one ends with 6, and where it
# ends well.
Case = collections.namedtuple("Case", "disks script text refused done")

# A call on a disk that fails, by its number, and whether all behind it do.
Fault = collections.namedtuple("Fault", "name number all_behind")


def fail(room, case, fault):
    """Whether that call came, whether the drill ended with 6, and what is wrong."""
    folder, calls = folder_with(room, case.disks), collections.Counter()

    def before(_, name, call):
        calls[name] += 1
        return name == fault.name and (calls[name] == fault.number or (fault.all_behind and calls[name] > fault.number))

    did = Drill(folder).run(case.script, before)
    came = did.status, did.text()
    wrong = "" if came in ((0, case.text), (6, b"")) else f"{came}"
    wrong = wrong or wrong_behind(folder, case.done if did.status == 0 else case.refused)
    shutil.rmtree(folder)
    return calls[fault.name] >= fault.number, did.status == 6, wrong


def left_of(did, name):
    """What a power cut may leave of a disk."""
    old, new = did.synced[name], did.content(name)
    if old == new:
        return [old]
    torn = bytearray(new)
    for at in range(0, len(new), PAGE):
        before, now = old[at : at + PAGE], new[at : at + PAGE]
        if before != now:
            torn[at + 1 : at + len(now) : 2] = before.ljust(len(now), b"\0")[1::2]
    return [old, new, bytes(torn)]


def cuts(room, disks, script, may_read):
    """All pairs of images that a power cut in this drill may leave, with what the next drill may read there."""
    folder, pairs, images, since = folder_with(room, disks), {}, {}, 0

    def kept(content):
        path = os.path.join(room, f"{hash(content):x}")
        if not os.path.exists(path):
            write_sparse(path, content)
        return path

    def note(did):
        for name in NAMES:
            images.setdefault(name, [kept(content) for content in left_of(did, name)])
        for pair in itertools.product(*(images[name] for name in NAMES)):
            pairs[pair] = may_read(did.text())

    def before(did, name, call):
        nonlocal since
        since = 0 if call == SYNC else since + 1
        if since < 8 or since % 97 == 0:
            note(did)
        if call in (WRITE, LENGTHEN, SYNC):
            images.pop(name, None)

    did = Drill(folder).run(script, before)
    note(did)
    shutil.rmtree(folder)
    return did.status, pairs


def read_behind(room, pair, texts):
    folder = folder_with(room, pair)
    wrong = wrong_behind(folder, texts)
    shutil.rmtree(folder)
    return wrong


passed = failed = 0


def check(what, wrong):
    global passed, failed
    if wrong:
        failed += 1
        print(f"{what}: {wrong}")
    else:
        passed += 1


def count_calls(room, case):
    """How many calls come on each disk, and whether the drill is as ever while it's traced."""
    folder, calls = folder_with(room, case.disks), collections.Counter()
    did = Drill(folder).run(case.script, lambda did, name, call: calls.update([name]))
    check("a traced drill", "" if (did.status, did.text()) == (0, case.text) else f"{did.status} {did.text()}")
    check("a traced drill", wrong_with(folder))
    return calls


def failing(pool, room, what, case, numbers):
    """Each of these calls fails."""
    calls = count_calls(room, case)
    faults = [Fault(name, number, all_behind) for name in NAMES for number, all_behind in numbers(calls[name])]
    refused, went_on = set(), set()
    for fault, (came, is_refused, wrong) in zip(faults, pool.map(fail, itertools.repeat(room), itertools.repeat(case), faults)):
        check(f"{what}, {fault}", wrong or ("" if came else "that call didn't come"))
        (refused if is_refused else went_on).add(fault.name)
    check(what, "" if refused == went_on == set(NAMES) else f"refused by {refused}, and not by {went_on}")


def cutting(pool, room, what, disks, script, may_read):
    """The power goes before each call."""
    status, pairs = cuts(room, disks, script, may_read)
    check(what, "" if status == 0 else f"status {status}")
    for wrong in pool.map(read_behind, itertools.repeat(room), pairs, pairs.values()):
        check(f"{what}, a power cut", wrong)


def made(room, disks, script):
    """Two disks behind this drill."""
    folder = folder_with(room, disks)
    did = drill(folder, script)
    check("a drill", "" if did[0] == 0 and did[1].endswith(b" -> ok\n") else f"{did}")
    return [os.path.join(folder, name) for name in NAMES]


# A new disk that isn't laid out to its end is a bad one.
def may_save(text):
    return [HI] if text.endswith(SAVED) else [NOTHING, EMPTY, HI] if text else [UNMADE, NOTHING]


def may_write(text):
    return [HO] if text == WRITTEN else [HI, HO] if b" -> ok op 1\n" in text else [HI]


def all_calls(count):
    return itertools.product(range(1, min(count, MOST_CALLS) + 1), (False, True))


def some_calls(count):
    numbers = [*range(1, 15), *range(15, count - 30, 499), *range(count - 30, count + 1)]
    return zip(numbers, itertools.cycle((False, True)))


def all_of(pool, room):
    new, older = ("", ""), made(room, ("", ""), OLDER)
    first, second = made(room, (older[0], ""), WRITES_HI)[0], made(room, ("", older[1]), WRITES_HI)[1]
    alike = made(room, (first, ""), b"A sync\n")
    failing(pool, room, "two new disks", Case(new, CALLS, CALLED, [NOTHING], [NOTHING, EMPTY, HI]), all_calls)
    failing(pool, room, "two disks", Case(alike, WRITES, WRITTEN, [HI], [HO]), some_calls)
    cutting(pool, room, "two new disks", new, SAVES, may_save)
    states = {
        "two disks": alike,
        "a new second disk": (first, ""),
        "a new first disk": ("", second),
        "an older second disk": (first, older[1]),
        "an older first disk": (older[0], second),
    }
    for what, disks in states.items():
        cutting(pool, room, what, disks, WRITES, may_write)


# In memory, where that's to be had: a sync of a real disk takes its time.
with tempfile.TemporaryDirectory(dir="/dev/shm" if os.access("/dev/shm", os.W_OK) else None) as room:
    with concurrent.futures.ProcessPoolExecutor(os.cpu_count()) as pool:
        if Drill(folder_with(room, ("", ""))).run(b"", lambda *call: False).is_traced:
            all_of(pool, room)
        else:
            print("mirror calls: left out, since no process can be traced here")
print(f"mirror calls: {passed} passed, {failed} failed")
sys.exit(failed > 0)
