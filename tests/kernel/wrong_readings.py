#!/usr/bin/env python3
"""Tries whether the comparison with the kernel sees readings that are wrong on purpose.

    python3 tests/kernel/wrong_readings.py [--only WORD] [--dumps N] [--packets N]

Each reading is put into the text of a copy of the repository in a temporary folder; the program is built there by `rt try`, which
proves nothing (a proof would refuse the change) and takes some minutes; and run.py compares it with the kernel. The status is 1
where a reading wasn't seen that can be, or one was that can't."""
import argparse
import dataclasses
import os
import pathlib
import re
import shutil
import signal
import subprocess
import sys
import tempfile
import time

TOP = pathlib.Path(__file__).resolve().parents[2]


@dataclasses.dataclass(frozen=True)
class Reading:
    """What is read wrongly, the edits (a file, the text that stands once in it, the text that takes its place), and whether it can be seen."""
    name: str
    edits: tuple
    seen: bool
    # how many times the dumps, where few of them show it
    times: int = 1


TEST_ALONE = ("crates/primitives/src/prim.rt", "p.proto == 6 && p.flags & *mask == *comp", "p.flags & *mask == *comp")
LITERAL = """        } => match base_literal::<F, W>(alloc, negated, option, arguments)? {
            Some(literal) => Ok(Some(Some(literal))),
            None => Ok(None),
        },
"""
NO_LITERAL = """        } => {
            if is_same(option, b"-p") && is_flag_line(after) {
                return Ok(Some(None));
            }
            match base_literal::<F, W>(alloc, negated, option, arguments)? {
                Some(literal) => Ok(Some(Some(literal))),
                None => Ok(None),
            }
        }
"""
IS_FLAG_LINE = """
fn is_flag_option(group: GroupWords<'_>) -> bool {
    match group {
        GroupWords::Base { .. } => false,
        GroupWords::Module { .. } => false,
        GroupWords::ModuleOption { option, .. } => is_same(option, b"--tcp-flags"),
    }
}

fn is_flag_line(groups: &[GroupWords<'_>]) -> bool {
    for group in groups {
        if is_flag_option(*group) {
            return true;
        }
    }
    false
}

fn append<T: Drop>("""
LINES = "crates/dump_grammar/src/line_literals.rt"

LINE_ALONE = (
    (LINES, LITERAL, NO_LITERAL),
    (LINES, "\nfn append<T: Drop>(", IS_FLAG_LINE),
    (LINES, "use crate::protocols::", "use crate::pieces::is_same;\nuse crate::protocols::"),
)
LENGTH = ("crates/addr_text/src/nets.rt", "return Some(Some(len));", "return Some(Some(W - len));")
RETURN = ("crates/rewriting/src/rows.rt", "(ActionKind::GoBack, false, _) => Row::Leave(0)", "(ActionKind::GoBack, false, _) => Row::Leave(1)")

GOTO = ("crates/rewriting/src/kinds.rt", "ActionKind::GoTo(*target)", "ActionKind::CallTo(*target)")
DOUBTFUL_GOTO = ("crates/rewriting/src/rows.rt", "Row::RunLater(target)", "Row::Run(target, Mode::Soft(0))")
OF_PROTOCOL_1 = ("crates/opt_table/src/kind.rt", "Messages::Icmpv6 => 58,", "Messages::Icmpv6 => 1,")
OTHER_TYPES = ("crates/box_norm/src/pieces.rt", "minus_number(alloc, &cube.icmp, message.kind)?", "Set::range(alloc, 0, 255)?")
OTHER_PROTOCOLS = ("crates/box_norm/src/pieces.rt", "let others = minus_number(alloc, &cube.proto, message.proto)?;", "let others = Set::empty(alloc);")

READINGS = [
    Reading("a length of a network counted from the other end", (LENGTH,), True),
    Reading("a flag test without its protocol", (TEST_ALONE, *LINE_ALONE), True),
    Reading("a RETURN of a called chain that ends the calling one too", (RETURN,), True),
    Reading("a goto that comes back as a call does", (GOTO,), True),
    Reading("a doubtful goto that comes back as a call does", (DOUBTFUL_GOTO,), True, 5),
    Reading("a type of ipv6-icmp read as one of icmp", (OF_PROTOCOL_1,), True),
    Reading("types that a rule leaves out and that come back", (OTHER_TYPES,), True),
    # the tools take a test of types behind its protocol alone, which is cut before
    Reading("other protocols that a negated type loses", (OTHER_PROTOCOLS,), False),
    # the tools take a test of flags behind `-p tcp` alone, and that one is read as it was
    Reading("a flag test without its protocol on a line that has it", (TEST_ALONE,), False),
]


def copy_with(reading, to):
    shutil.copytree(TOP, to, ignore=shutil.ignore_patterns(".git", "out"))
    for file, old, new in reading.edits:
        text = (to / file).read_text()
        if text.count(old) != 1:
            raise ValueError(f"{file} has the text of an edit {text.count(old)} times: {old!r}")
        (to / file).write_text(text.replace(old, new))


def below(pid):
    """The processes that this one has started, and those that they have."""
    of = {}
    for name in filter(str.isdigit, os.listdir("/proc")):
        try:
            of[int(name)] = int(pathlib.Path(f"/proc/{name}/stat").read_text().rpartition(")")[2].split()[1])
        except OSError:
            pass
    found, new = set(), {pid}
    while new:
        found |= new
        new = {it for it, parent in of.items() if parent in new} - found
    return found - {pid}


def running(pid):
    """The built program, named by its whole path, where this process runs it, else None. The linker, which is still writing it, names it by less."""
    try:
        words = pathlib.Path(f"/proc/{pid}/cmdline").read_text().split("\0")
    except OSError:
        return None
    return next((word for word in words if word.startswith("/") and os.path.basename(word) == "program"), None)


def built(top, to):
    """Builds the program without proof. `rt try` removes what it built, so the file is copied while it runs; a `load` takes long enough."""
    words = ["rt", "try", "--steps", "1", "--seconds", "5", "--", "load", "1000"]
    with tempfile.TemporaryFile() as said:
        trying = subprocess.Popen(words, cwd=top / "crates/fffuu", stdin=subprocess.DEVNULL, stdout=said, stderr=subprocess.STDOUT)
        try:
            while trying.poll() is None and not to.exists():
                for file in filter(None, map(running, below(trying.pid))):
                    shutil.copyfile(file, to)
                    to.chmod(0o755)
                time.sleep(0.05)
            trying.wait(timeout=120)
        finally:
            trying.terminate()
        said.seek(0)
        if not to.exists():
            raise ValueError(f"the copy wasn't built: {said.read().decode(errors='replace')[-1500:]}")


def differences(program, dumps, packets):
    words = [sys.executable, str(TOP / "tests/kernel/run.py"), str(program), "--dumps", str(dumps), "--packets", str(packets), "--random-only"]
    made = subprocess.run(words, capture_output=True, text=True)
    last = re.search(r"kernel: ([\d,]+) dumps, ([\d,]+) packets, ([\d,]+) differences", made.stdout)
    if not last:
        raise ValueError(f"nothing was compared: {made.stdout[-400:]}{made.stderr[-400:]}")
    first = next((line for line in made.stdout.splitlines() if line.startswith("difference:")), "")
    return tuple(int(it.replace(",", "")) for it in last.groups()), first


def main():
    parser = argparse.ArgumentParser(description="Tries whether wrong readings are seen.")
    parser.add_argument("--only", default="")
    parser.add_argument("--dumps", type=int, default=40)
    parser.add_argument("--packets", type=int, default=150)
    words = parser.parse_args()
    signal.signal(signal.SIGTERM, lambda number, _: sys.exit(128 + number))
    wrong = 0
    for reading in [it for it in READINGS if words.only in it.name]:
        with tempfile.TemporaryDirectory(prefix="fffuu-wrong-") as folder:
            room = pathlib.Path(folder)
            copy_with(reading, room / "copy")
            built(room / "copy", room / "fffuu")
            (dumps, packets, found), first = differences(room / "fffuu", words.dumps * reading.times, words.packets)
        wrong += (found > 0) != reading.seen
        print(f"{reading.name}: {found:,} differences in {dumps:,} dumps and {packets:,} packets{'' if reading.seen else ' (none can be seen)'}\n  {first}", flush=True)
    return 1 if wrong else 0


if __name__ == "__main__":
    sys.exit(main())
