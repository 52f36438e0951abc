#!/usr/bin/env python3
"""Runs the examples of the documents as they stand, and compares what they print with what stands there.

    python3 tests/examples.py PROGRAM

An example is a line `$ COMMAND` in a block of README.md, docs/MANUAL.md, docs/VIEW.md or samples/README.md, and the lines under it up to
the next one.
`./run` stands for the program. Of samples/README.md each mode of the table is run. Prints each one that disagrees and a last line
'N passed, M failed'; the exit status is 1 where one failed. An example that needs Graphviz is left out where that is missing."""
import os
import re
import shutil
import subprocess
import sys

TOP = os.path.dirname(os.path.dirname(os.path.abspath(__file__)))
PAGES = ["README.md", "docs/MANUAL.md", "docs/VIEW.md", "samples/README.md"]
NEEDS = {"tools/fffuu-view graph": "dot"}
passed = failed = 0


def check(name, got, wanted):
    global passed, failed
    if got == wanted:
        passed += 1
    else:
        failed += 1
        print(f"{name}:\n--- got\n{got[:1500]}--- wanted\n{wanted[:1500]}")


def examples(path):
    """The commands of a page with what they print, each with its line's number."""
    found, inside = [], False
    with open(os.path.join(TOP, path), encoding="utf-8") as source:
        for number, line in enumerate(source, 1):
            if line.startswith("```"):
                inside = not inside
                command = None
            elif inside and line.startswith("$ "):
                command = [number, line[2:].rstrip("\n"), ""]
                found.append(command)
            elif inside and command:
                command[2] += line
    return found


def printed(command, program):
    """What a command prints, run at the top of the repository."""
    done = subprocess.run(["sh", "-c", command.replace("./run", program)], cwd=TOP, stdout=subprocess.PIPE, stderr=subprocess.STDOUT,
                          env={**os.environ, "FFFUU": program})
    return done.stdout.decode()


def missing(command):
    """A tool that an example needs and that isn't there, or nothing."""
    for start, tool in NEEDS.items():
        if start in command and "--format dot" not in command and not shutil.which(tool):
            return tool
    return ""


def samples(program):
    """The table of samples: each mode is answered, and filters are those beside the sample."""
    with open(os.path.join(TOP, "samples", "README.md"), encoding="utf-8") as source:
        rows = re.findall(r"^\| `(\S+\.rules)` \|.*\| ([^|]*) \|$", source.read(), re.M)
    check("samples/README.md names samples", str(len(rows) > 5), "True")
    for name, cell in rows:
        parts = re.findall(r"`([^`]+)`", cell)
        family = ["--family", "6"] if "--family 6" in parts else []
        for mode in parts:
            if mode.startswith("--"):
                continue
            with open(os.path.join(TOP, "samples", name), "rb") as source:
                done = subprocess.run([program, *mode.split(), *family], stdin=source, capture_output=True)
            check(f"samples/{name} {mode} is answered", f"{done.returncode} {done.stderr.decode()}", "0 ")
            if mode in ("upper", "lower"):
                with open(os.path.join(TOP, "samples", name.replace(".rules", "." + mode)), encoding="utf-8") as kept:
                    check(f"samples/{name} {mode}", done.stdout.decode(), kept.read())


def main():
    program = os.path.abspath(sys.argv[1])
    for path in PAGES:
        found = examples(path)
        check(f"{path} has examples", str(bool(found)), "True")
        for number, command, wanted in found:
            if missing(command):
                print(f"left out: {path} line {number}, since {missing(command)} isn't there")
            else:
                check(f"{path} line {number}: {command}", printed(command, program), wanted)
    samples(program)
    print(f"{passed} passed, {failed} failed")
    sys.exit(failed != 0)


if __name__ == "__main__":
    main()
