#!/usr/bin/env python3
"""Runs the commands of README.md as they stand there, in a folder that looks like the repository's.
Usage: examples/readme.py PROGRAM    the blocks ```sh, all by one shell, with this program where README says that the proved one lies
       examples/readme.py --try      the block ```sh try, which makes an unproved program (some minutes), in the repository itself

The block ```sh look has to show the drill's script and the transcript that README reads.

The shell has to end with status 0. The transcript that README reads line by line has to be the one that the drill wrote, the answers that README
quotes of the mounts have to come, the next drill has to find an empty file, and the pictures have to be those of the examples."""
import os
import re
import signal
import subprocess
import sys
import tempfile

ROOT = os.path.dirname(os.path.dirname(os.path.abspath(__file__)))
PROGRAM = "crates/echofs/out/echofs"
WAIT = 60
TRY_WAIT = 1200
QUOTED = ["1 1 mkdir /d -> ok op 1", "1 1 read /d/note 0 64 -> data 5 hello"]
GOES_ON = "1 A stat /f -> stat file 0644 0 0"


def read(name):
    with open(os.path.join(ROOT, name), encoding="utf-8") as file:
        return file.read()


def blocks(kind):
    return re.findall(rf"^```{kind}\n(.*?)^```$", read("README.md"), re.M | re.S)


def run(commands, folder, wait):
    """What these commands wrote to standard output, and what is wrong with how they ended."""
    words = ["bash", "-c", "shopt -s expand_aliases\nset -e\n" + commands]
    shell = subprocess.Popen(words, cwd=folder, stdout=subprocess.PIPE, stderr=subprocess.PIPE, text=True, start_new_session=True)
    try:
        out, error = shell.communicate(timeout=wait)
        failed = [] if shell.returncode == 0 else [f"status {shell.returncode}: {error}"]
    except subprocess.TimeoutExpired:
        os.killpg(shell.pid, signal.SIGKILL)
        out, error = shell.communicate()
        failed = [f"not ended after {wait} s: {error}"]
    return out.splitlines(), failed


def pictures():
    """What is wrong with the pictures."""
    for name in sorted(re.findall(r"(\w+)\.svg", " ".join(os.listdir(os.path.join(ROOT, "docs/pictures"))))):
        chart = [sys.executable, os.path.join(ROOT, "examples/chart.py"), os.path.join(ROOT, f"examples/{name}.expected")]
        if read(f"docs/pictures/{name}.svg") != subprocess.run(chart, capture_output=True, text=True, timeout=WAIT, check=True).stdout:
            yield f"docs/pictures/{name}.svg isn't what examples/chart.py draws of examples/{name}.expected"


def transcript():
    """The transcript that README reads line by line."""
    return [re.split(r" {3,}", line)[0] for line in blocks("text")[0].splitlines()]


def recorded():
    """What is wrong with the drill that README shows without a program."""
    lines, failed = run("\n".join(blocks("sh look")), ROOT, WAIT)
    wanted = [read("examples/loss.script").splitlines(), transcript()]
    return failed + [f"README's first command doesn't show {part}" for part in wanted if "\n".join(part) not in "\n".join(lines)]


def with_program(program):
    """What is wrong with the commands, run by this program."""
    failed = list(pictures()) + recorded()
    with tempfile.TemporaryDirectory() as folder:
        os.makedirs(os.path.join(folder, os.path.dirname(PROGRAM)))
        os.symlink(os.path.realpath(program), os.path.join(folder, PROGRAM))
        os.symlink(os.path.join(ROOT, "examples"), os.path.join(folder, "examples"))
        lines, why = run("\n".join(blocks("sh")), folder, WAIT)
    failed += why
    shown = transcript()
    if lines[: len(shown)] != shown:
        failed.append(f"the drill wrote {lines[:len(shown)]} and README shows {shown}")
    if lines[len(shown) : len(shown) + 1] != ["legal"]:
        failed.append("check doesn't say legal")
    if GOES_ON not in lines:
        failed.append(f"the next drill doesn't say {GOES_ON}")
    failed += [f"README quotes {quote}" for quote in QUOTED if quote not in read("README.md") or quote not in lines]
    if lines[-1:] != ["0"]:
        failed.append(f"serve didn't end with 0: {lines[-1:]}")
    return failed


def without_proof():
    """What is wrong with the command that makes an unproved program."""
    lines, failed = run("\n".join(blocks("sh try")), ROOT, TRY_WAIT)
    wanted = read("examples/loss.expected").splitlines()
    return failed + ([] if lines[: len(wanted)] == wanted else [f"the unproved drill wrote {lines}"])


def main():
    failed = without_proof() if sys.argv[1] == "--try" else with_program(sys.argv[1])
    for why in failed:
        print(why)
    print(f"{0 if failed else 1} passed, {len(failed)} failed")
    return 1 if failed else 0


sys.exit(main())
