#!/usr/bin/env python3
"""Runs the built program over streams that fail, break off, come in pieces or never end, and over texts that are cut short.

    python3 tests/devices.py PROGRAM

Prints each case that disagrees and a last line 'N passed, M failed'; the exit status is 1 where one failed."""
import os
import pty
import resource
import signal
import socket
import subprocess
import sys
import termios
import threading

import cases
import reader
from pieces import cut
from pieces import run as run_over

MOST = 16_777_216
TEXT = cases.forward("-s 10.0.0.0/8 -j ACCEPT").encode()
REFUSED = cases.wrapped(":FORWARD DROP [0:0]", "-A FORWARD -s 10.0.").encode()
REFUSAL = b"fffuu: line 3: malformed\n"
TOO_LONG = b"fffuu: input is longer than 16777216 bytes\n"
PAIR = cases.pair(TEXT.decode(), TEXT.decode()).encode()
UNDIVIDED = b"fffuu: no dividing line\n"
passed = failed = 0


def check(name, got, wanted):
    global passed, failed
    if got == wanted:
        passed += 1
    else:
        failed += 1
        print(f"{name}: got {str(got)[:300]}, wanted {str(wanted)[:300]}")


def run(words, given=b"", **more):
    """The status, and what came on standard output and standard error, of a run whose other streams are pipes."""
    streams = {"stdout": subprocess.PIPE, "stderr": subprocess.PIPE, **more}
    if "stdin" not in streams:
        streams["input"] = given
    done = subprocess.run([PROGRAM, *words], timeout=120, **streams)
    return done.returncode, done.stdout, done.stderr


def closed(number):
    return lambda: os.close(number)


def cut_texts():
    """Each front of a dump is refused, but for the one that lacks only the last line feed."""
    text = cases.ROUTER.encode()
    for length in range(len(text)):
        status, out, err = run(["check"], text[:length])
        wanted = (0,) if length == len(text) - 1 else (5, 6)
        check(f"the first {length} bytes", (status in wanted, out == b"", err == b""), (True, status != 0, status == 0))
    for length in range(len(PAIR) + 1):
        status, line = reader.cover(PAIR[:length])
        wanted = status, b"" if status else b"covered\n", line.encode()
        check(f"the first {length} bytes of two dumps", run(["cover"], PAIR[:length]), wanted)


def pieces():
    """A text that comes in pieces is the same text, and has the same fault."""
    for text, wanted in [(TEXT, (0, TEXT, b"")), (cases.ROUTER.encode(), (0, cases.ROUTER_UPPER.encode(), b"")), (TEXT[:-1], (0, TEXT, b"")),
                         (REFUSED, (5, b"", REFUSAL)), (b"\n" * 9 + TEXT * 3, (5, b"", b"fffuu: line 14: malformed\n")),
                         (TEXT[:-7], (5, b"", b"fffuu: line 4: malformed\n")), (b"*nat\nCOMMIT\n", (6, b"", b"fffuu: no filter table\n"))]:
        for size in (1, 2, 7, 4096):
            check(f"{text[:60]} in pieces of {size} bytes", run_over(PROGRAM, ["upper"], cut(text, size)), wanted)
    for name, (words, text, (status, out, err)) in cases.CASES.items():
        for size in (1, 2, 7, 4096) if len(text) < 6000 else (7, 4096):
            check(f"{name}, in pieces of {size} bytes", run_over(PROGRAM, words.split(), cut(text.encode(), size)), (status, out.encode(), err.encode()))


def feed(end, piece):
    """Writes the piece again and again, until nobody reads any more."""
    try:
        while True:
            os.write(end, piece)
    except BrokenPipeError:
        os.close(end)


def endless():
    """Input that never ends is too long."""
    with open("/dev/zero", "rb") as zero:
        check("/dev/zero", run(["check"], stdin=zero), (4, b"", TOO_LONG))
    for name, piece in [("zeros", bytes(65_536)), ("line feeds", b"\n" * 4096), ("rules outside a table", b"-A FORWARD -j ACCEPT\n" * 100),
                        ("dividing lines", b"%%\n" * 1000)]:
        reading, writing = os.pipe()
        feeder = threading.Thread(target=feed, args=(writing, piece))
        feeder.start()
        got = run(["cover" if b"%" in piece else "check"], stdin=reading)
        os.close(reading)
        feeder.join()
        check(f"{name} without end", got, (4, b"", TOO_LONG))


def broken_inputs():
    """A read that fails ends the run, at the first read and after the whole text."""
    check("a folder as standard input", run(["upper"], stdin=os.open("/", os.O_RDONLY)), (2, b"", b"fffuu: read failed\n"))
    check("a closed standard input", run(["upper"], stdin=subprocess.DEVNULL, preexec_fn=closed(0)), (2, b"", b"fffuu: read failed\n"))
    for name, sent in [("nothing", b""), ("half of the text", TEXT[:30]), ("the whole text", TEXT), ("a line that is refused", REFUSED),
                       ("two dumps", PAIR), ("a dividing line", TEXT + b"%%\n"), ("a dump that is refused and a dividing line", REFUSED + b"%%\n")]:
        here, there = socket.socketpair()
        there.send(b"x")
        here.send(sent)
        here.close()
        got = run(["cover" if b"%%" in sent else "upper"], stdin=there.fileno())
        there.close()
        check(f"a connection that is reset after {name}", got, (2, b"", b"fffuu: read failed\n"))
    check("a load reads no closed standard input", run(["load", "1"], stdin=subprocess.DEVNULL, preexec_fn=closed(0))[::2], (0, b""))


def unread_inputs():
    """Words that spell no request, and a load, leave standard input where it stands."""
    held = os.memfd_create("unread")
    os.write(held, TEXT)
    for words, status in [([], 1), (["upper", "upper"], 1), (["upper", "--family", "5"], 1), (["cover", "--side", "upper"], 1), (["load", "5"], 0)]:
        os.lseek(held, 0, os.SEEK_SET)
        got = run(words, stdin=held)[0]
        check(f"what the words {words} read", (got, os.lseek(held, 0, os.SEEK_CUR)), (status, 0))
    os.close(held)


def nobody_reads():
    """The writing end of a pipe that nobody reads."""
    reading, writing = os.pipe()
    os.close(reading)
    return writing


def broken_outputs():
    """A write that fails is told by the status, and on standard error."""
    told = b"fffuu: write failed\n"
    with open("/dev/full", "wb") as full:
        check("a full device", run(["upper"], TEXT, stdout=full), (3, None, told))
        check("a full device for a text that is refused", run(["upper"], REFUSED, stdout=full), (5, None, REFUSAL))
        check("a full device for two dumps", run(["cover"], PAIR, stdout=full), (3, None, told))
        check("a full device for a text that isn't divided", run(["cover"], TEXT, stdout=full), (14, None, UNDIVIDED))
    check("a closed standard output", run(["upper"], TEXT, preexec_fn=closed(1)), (3, b"", told))
    check("a closed standard output of a text that is refused", run(["upper"], REFUSED, preexec_fn=closed(1)), (5, b"", REFUSAL))
    check("a closed standard output of a text that isn't divided", run(["cover"], TEXT, preexec_fn=closed(1)), (14, b"", UNDIVIDED))
    writing = nobody_reads()
    check("a pipe that nobody reads", run(["upper"], TEXT, stdout=writing), (3, None, told))
    os.close(writing)


def broken_errors():
    """A line that can't be told changes no status and nothing on standard output."""
    for name, words, text, status, out in [("refused", ["upper"], REFUSED, 5, b""), ("answered", ["upper"], TEXT, 0, TEXT),
                                           ("no words", [], TEXT, 1, b""), ("not divided", ["cover"], TEXT, 14, b"")]:
        with open("/dev/full", "wb") as full:
            check(f"{name}, standard error on a full device", run(words, text, stderr=full)[:2], (status, out))
        check(f"{name}, standard error closed", run(words, text, preexec_fn=closed(2))[:2], (status, out))
        writing = nobody_reads()
        check(f"{name}, standard error that nobody reads", run(words, text, stderr=writing)[:2], (status, out))
        os.close(writing)
    with open("/dev/full", "wb") as full:
        check("both on a full device", run(["upper"], TEXT, stdout=full, stderr=full)[0], 3)
        done = run(["upper"], stdin=os.open("/", os.O_RDONLY), stderr=full)
        check("a folder as standard input, standard error on a full device", done[:2], (2, b""))


def short_room(size):
    """The files of the process may have so many bytes, and a write past them fails."""
    def limit():
        signal.signal(signal.SIGXFSZ, signal.SIG_IGN)
        resource.setrlimit(resource.RLIMIT_FSIZE, (size, size))
    return limit


def rooms():
    """Where there is room for a front of the answer, that front is what stands there."""
    read = os.memfd_create("answer")
    for room in range(len(TEXT) + 2):
        os.ftruncate(read, 0)
        os.lseek(read, 0, os.SEEK_SET)
        status, _, err = run(["upper"], TEXT, stdout=read, preexec_fn=short_room(room))
        held = os.pread(read, len(TEXT) + 2, 0)
        wanted = (3, TEXT[:room], b"fffuu: write failed\n") if room < len(TEXT) else (0, TEXT, b"")
        check(f"room for {room} bytes", (status, held, err), wanted)
    os.close(read)


def terminal():
    """A terminal as each of the streams: two lines that end in a mark of the end, and the answer."""
    ours, theirs = pty.openpty()
    modes = termios.tcgetattr(theirs)
    modes[1] &= ~termios.OPOST
    modes[3] &= ~termios.ECHO
    termios.tcsetattr(theirs, termios.TCSANOW, modes)
    child = subprocess.Popen([PROGRAM, "upper"], stdin=theirs, stdout=theirs, stderr=theirs)
    for line in TEXT.splitlines(keepends=True):
        os.write(ours, line)
    os.write(ours, b"\x04")
    status = child.wait(timeout=120)
    os.close(theirs)
    got = b""
    try:
        while True:
            got += os.read(ours, 65_536)
    except OSError:
        pass
    os.close(ours)
    check("a terminal", (status, got), (0, TEXT))


def places():
    """Each stream stands in its place, and the status is the program's: none can be in another's place."""
    names = {0: "standard input", 1: "standard output", 2: "standard error"}
    files = {number: os.memfd_create(name) for number, name in names.items()}
    for text, status, out, err in [(TEXT, 0, TEXT, b""), (REFUSED, 5, b"", REFUSAL), (b"", 6, b"", b"fffuu: no filter table\n")]:
        for number, held in files.items():
            os.ftruncate(held, 0)
            os.lseek(held, 0, os.SEEK_SET)
        os.write(files[0], text)
        os.lseek(files[0], 0, os.SEEK_SET)
        done = subprocess.run([PROGRAM, "upper"], stdin=files[0], stdout=files[1], stderr=files[2])
        held = [os.pread(files[number], 10_000, 0) for number in (0, 1, 2)]
        check(f"the streams at status {status}", (done.returncode, held, os.lseek(files[0], 0, os.SEEK_CUR)), (status, [text, out, err], len(text)))
    for held in files.values():
        os.close(held)


if __name__ == "__main__":
    if len(sys.argv) != 2:
        sys.exit(__doc__)
    PROGRAM = os.path.abspath(sys.argv[1])
    for part in (cut_texts, pieces, endless, broken_inputs, unread_inputs, broken_outputs, broken_errors, rooms, terminal, places):
        part()
    print(f"{passed} passed, {failed} failed")
    sys.exit(1 if failed else 0)
