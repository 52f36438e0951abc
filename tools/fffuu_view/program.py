"""Finds the program, runs it, and reads what it printed."""
import ipaddress
import os
import re
import shutil
import subprocess
from dataclasses import dataclass, field
from typing import Dict, List, Optional, Tuple

from .trouble import Trouble


@dataclass
class Answer:
    """What one run of the program printed."""
    status: int
    out: str
    err: str

    def lines(self) -> List[str]:
        """The lines on standard output."""
        return self.out.splitlines()


@dataclass
class Program:
    """The program that is called."""
    path: str

    def ask(self, data: bytes, mode: str, words: List[str]) -> Answer:
        """Runs one mode on a text."""
        try:
            done = subprocess.run([self.path, mode, *words], input=data, capture_output=True)
        except OSError as fault:
            raise Trouble(f"{self.path} can't be run: {fault.strerror}", 1) from None
        return Answer(done.returncode, done.stdout.decode("utf-8", "replace"), done.stderr.decode("utf-8", "replace").strip())


def find(named: Optional[str], beside: str) -> Program:
    """The program that was named, or that FFFUU names, or beside fffuu-view, in this checkout, or on PATH."""
    if named or os.environ.get("FFFUU"):
        path = named or os.environ["FFFUU"]
        found = shutil.which(path)
        if not found:
            raise Trouble(f"{path} is no program that can be run", 1)
        return Program(os.path.abspath(found))
    for path in (os.path.join(beside, "fffuu"), os.path.join(beside, "..", "crates", "fffuu", "out", "fffuu")):
        if os.access(path, os.X_OK) and os.path.isfile(path):
            return Program(os.path.abspath(path))
    found = shutil.which("fffuu")
    if found:
        return Program(found)
    raise Trouble("the program fffuu isn't found: name it with --program PATH or in the environment variable FFFUU, or put it on PATH", 1)


@dataclass
class Check:
    """What `check` counts."""
    chains: int
    rules: int
    unknown: int


@dataclass
class Matrix:
    """Classes of addresses, each as ranges of numbers with both ends, and the edges between them."""
    classes: List[List[Tuple[int, int]]] = field(default_factory=list)
    edges: List[Tuple[int, int]] = field(default_factory=list)


@dataclass
class Verdict:
    """What `spoof` says of one claim: whether it holds, and else a packet that breaks it."""
    interface: str
    holds: bool
    packet: Dict[str, str]


@dataclass
class Place:
    """Where a match stands: the steps (chain, rule) to it, and its number in the last one."""
    steps: List[Tuple[str, int]]
    literal: int


@dataclass
class Explanation:
    """For each verdict the matches that have to hold; None where no choice gives it."""
    accept: Optional[List[Place]]
    drop: Optional[List[Place]]


def read_check(answer: Answer) -> Check:
    """The counts in an answer of `check`."""
    words = answer.out.split()
    return Check(int(words[2]), int(words[4]), int(words[6]))


def read_range(text: str) -> Tuple[int, int]:
    """The two ends of a printed range."""
    first, _, last = text.partition("-")
    return int(ipaddress.ip_address(first)), int(ipaddress.ip_address(last or first))


def read_matrix(answer: Answer) -> Matrix:
    """The classes and edges in an answer of `matrix`."""
    lines = answer.lines()
    count = int(lines[0].split()[1])
    classes = [[read_range(part) for part in line.split(" ")[1].split(",")] for line in lines[1:count + 1]]
    edges = [tuple(int(word) for word in line.split()) for line in lines[count + 2:]]
    return Matrix(classes, edges)


def read_spoof(answer: Answer) -> List[Verdict]:
    """The verdicts in an answer of `spoof`."""
    verdicts = []
    for line in answer.lines():
        words = line.split(" ")
        packet = dict(word.split("=", 1) for word in words[2:])
        verdicts.append(Verdict(words[0], words[1] == "holds", packet))
    return verdicts


def read_place(line: str) -> Place:
    """One printed place, as `FORWARD 4 > WAN 1 literal 2`."""
    steps, _, literal = line.rpartition(" literal ")
    found = [step.rsplit(" ", 1) for step in steps.split(" > ")]
    return Place([(name, int(number)) for name, number in found], int(literal))


def read_explanation(answer: Answer) -> Explanation:
    """Both verdicts in an answer of `explain`."""
    found: Dict[str, Optional[List[Place]]] = {}
    verdict = ""
    for line in answer.lines():
        head = re.fullmatch(r"(accept|drop) (never|under [0-9]+)", line)
        if head:
            verdict = head.group(1)
            found[verdict] = None if head.group(2) == "never" else []
        else:
            places = found[verdict]
            if places is not None:
                places.append(read_place(line))
    return Explanation(found["accept"], found["drop"])


def plain_name(shown: str) -> str:
    """The name behind a shown one: `hex:6574` is `et`."""
    if not shown.startswith("hex:"):
        return shown
    return bytes.fromhex(shown[4:]).decode("utf-8", "surrogateescape")
