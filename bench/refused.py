#!/usr/bin/env python3
"""Refuses the program one request for memory, by its number from 1, in a run of its own for each number, until a run has fewer requests. A run in which one was
refused is to end with 9, and what it wrote is to be a front of the transcript, unless the program does without what was refused; the first with fewer requests is to end
as if nothing had been refused. Each run begins without a disk file.

It isn't in the gate: no contract says that a refused request is answered with 9, only that what was written with 9 is a front.
Usage: bench/refused.py PROGRAM [NAME]...   (NAME.script and NAME.expected stand in examples/; without a name: read_back, told, stopped_end)"""
import os
import subprocess
import sys
import tempfile

here = os.path.dirname(os.path.realpath(__file__))
program = os.path.realpath(sys.argv[1])
names = sys.argv[2:] or ["read_back", "told", "stopped_end"]


def bytes_of(name):
    with open(f"{here}/../examples/{name}", "rb") as file:
        return file.read()


def ran(library, script, number):
    """The status, what was written, and how many requests there were, where the one of this number is refused."""
    with tempfile.TemporaryDirectory() as folder:
        counted = folder + "/counted"
        with open(counted, "wb") as file:
            file.write(bytes(8))
        env = {**os.environ, "LD_PRELOAD": library, "REFUSED": str(number), "COUNTED": counted}
        run = subprocess.run([program, "drill"], input=script, stdout=subprocess.PIPE, stderr=subprocess.DEVNULL, cwd=folder, env=env, timeout=60)
        with open(counted, "rb") as file:
            return run.returncode, run.stdout, int.from_bytes(file.read(), "little")


def refusals(library, name):
    """How many requests there are, how many of them the program does without, and the numbers of those behind whose refusal something else comes."""
    script, transcript = bytes_of(name + ".script"), bytes_of(name + ".expected")
    number, spared, wrong = 0, 0, []
    while True:
        number += 1
        status, text, count = ran(library, script, number)
        is_whole = (status, text) == (0, transcript)
        if count < number:
            return number - 1, spared, wrong + ([] if is_whole else [(number, status, text)])
        spared += is_whole
        if not is_whole and (status != 9 or not transcript.startswith(text)):
            wrong.append((number, status, text))


with tempfile.TemporaryDirectory() as folder:
    library = folder + "/refused.so"
    subprocess.run(["cc", "-O2", "-shared", "-fPIC", "-o", library, here + "/refused.c"], check=True)
    failed = False
    for name in names:
        count, spared, wrong = refusals(library, name)
        print(f"{name}: each of {count} requests refused once, {spared} of which aren't needed; {len(wrong)} runs with another end", flush=True)
        for number, status, text in wrong:
            print(f"  request {number}: status {status}, {text[-200:]!r}")
        failed |= bool(wrong) or count == 0
sys.exit(failed)
