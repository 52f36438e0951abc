#!/usr/bin/env python3
"""Lets each allocation of a run fail in turn, over five inputs: a run gives its answer, or status 12 with nothing on standard output.

    nice -n 15 python3 tests/memory.py

It stands outside the gate: it takes some minutes, and most of them at a low load. `rt try --fail-alloc N` builds the program with a count of
its calls for memory, of which number N fails. A build a number would take hours, so one is made, with a number that no run reaches. It is
taken from the folder of `rt try` while it runs, and each other number is put in the place of that one.

Prints for each dump the runs, how many answered and how many ended with status 12, and each run that did neither; the exit status is 1 where
there was one."""
import os
import subprocess
import sys
import tempfile
import time

import cases

TOP = os.path.dirname(os.path.dirname(os.path.abspath(__file__)))
# a number that no run reaches, and that no other number of the program is
MARK = 1_000_003
# so many runs in a row that answer are taken for the last
QUIET = 50
DUMPS = {
    "one rule": ("upper", cases.forward("-s 10.0.0.0/8 -j ACCEPT")),
    "two visits explained": ("explain src=10.0.0.1", cases.LIMITED_ACCEPT),
    "a home router": ("upper", cases.ROUTER),
    "a matrix": ("matrix tcp:10000:22", cases.ONE_PAIR),
    "two dumps": ("cover", cases.pair(cases.LEFT_BY_GOTO, cases.LEFT_FILTER)),
}


def below(parent):
    """The processes that this one started, and those that they started."""
    parents = {}
    for name in filter(str.isdigit, os.listdir("/proc")):
        try:
            with open(f"/proc/{name}/stat") as stat:
                parents[int(name)] = int(stat.read().rpartition(")")[2].split()[1])
        except OSError:
            pass
    found, new = set(), {parent}
    while new:
        found |= new
        new = {pid for pid, its in parents.items() if its in new} - found
    return found


def running(pid):
    """The bytes of the program that a process runs out of the folder of `rt try`, if it is one."""
    try:
        with open(f"/proc/{pid}/cmdline") as line:
            words = line.read().split("\0")
        paths = [word for word in words if word.endswith("/program")]
        if len(paths) != 1:
            return None
        with open(paths[0], "rb") as program:
            return program.read()
    except OSError:
        return None


def built():
    """The program with a count of its calls for memory, of which number MARK fails."""
    trying = subprocess.Popen(["rt", "try", "--fail-alloc", str(MARK), "--", "load", "1000"], cwd=f"{TOP}/crates/fffuu",
                              stdin=subprocess.DEVNULL, stdout=subprocess.PIPE, stderr=subprocess.STDOUT)
    program = None
    while trying.poll() is None:
        if program is None:
            program = next(filter(None, map(running, below(trying.pid))), None)
        time.sleep(0.01)
    said = trying.stdout.read().decode()
    if program is None or program.count(MARK.to_bytes(4, "little")) != 2:
        sys.exit(f"`rt try` built no program that this script knows:\n{said}")
    return program


def turn(program, number, words, text):
    """The status and the streams of a run of which this call for memory fails."""
    path = os.path.join(FOLDER, "program")
    with open(path, "wb") as file:
        file.write(program.replace(MARK.to_bytes(4, "little"), number.to_bytes(4, "little")))
    os.chmod(path, 0o755)
    done = subprocess.run([path, *words.split()], input=text.encode(), capture_output=True, timeout=600)
    os.unlink(path)
    return done.returncode, done.stdout


def turns(program, name, words, text):
    """Whether each run answered or ended with status 12."""
    wanted = turn(program, MARK, words, text)
    answers = twelves = quiet = number = last = 0
    while quiet < QUIET:
        number += 1
        got = turn(program, number, words, text)
        if got == wanted:
            answers, quiet = answers + 1, quiet + 1
            continue
        quiet, last = 0, number
        if got == (12, b""):
            twelves += 1
        else:
            print(f"{name}: at call {number} status {got[0]}, {len(got[1])} bytes written")
    print(f"{name}: {number} runs, {answers} answered, {twelves} ended with status 12, the last at call {last}", flush=True)
    return answers + twelves == number


if __name__ == "__main__":
    BUILT = built()
    with tempfile.TemporaryDirectory() as FOLDER:
        right = [turns(BUILT, name, *dump) for name, dump in DUMPS.items()]
    sys.exit(0 if all(right) else 1)
