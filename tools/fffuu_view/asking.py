"""One dump together with the program: what each subcommand asks by."""
import hashlib
from dataclasses import dataclass, field
from typing import Dict, List, Optional, Tuple

from . import dump as dumps
from . import program as programs
from . import refusal
from .dump import Dump, Match, Rule
from .program import Answer, Program
from .trouble import Trouble

PROTOCOLS = ("tcp", "udp", "udplite", "dccp", "sctp", "icmp", "ipv6-icmp", "icmpv6")


@dataclass
class Asked:
    """A dump that is asked about, its family, and the program that answers."""
    dump: Dump
    family: int
    program: Program
    kept: Dict[Tuple, Answer] = field(default_factory=dict)

    def options(self, chain: str) -> List[str]:
        """The program's options for a chain of this dump."""
        return ["--chain", chain] + (["--family", "6"] if self.family == 6 else [])

    def run(self, mode: str, chain: str, *words: str, front: Tuple[str, ...] = ()) -> Answer:
        """The program's answer, with lines `front` put before the first rule of the chain; a refusal as Trouble."""
        key = (mode, chain, words, front)
        if key not in self.kept:
            data = with_front(self.dump, front) if front else self.dump.data
            self.kept[key] = self.program.ask(data, mode, [*self.options(chain), *words])
        answer = self.kept[key]
        if answer.status != 0:
            if answer.status == 1:
                raise Trouble(f"the program doesn't take these words: {mode} {' '.join(words)}", 1, 0, answer.err)
            raise refusal.trouble_of(self.dump, answer, chain, self.family)
        return answer

    def check(self, chain: str) -> programs.Check:
        """What `check` counts."""
        return programs.read_check(self.run("check", chain))

    def matrix(self, chain: str, service: str, side: str) -> programs.Matrix:
        """The matrix of a service."""
        return programs.read_matrix(self.run("matrix", chain, "--side", side, service))

    def digest(self) -> str:
        """The SHA-256 of the text."""
        return hashlib.sha256(self.dump.data).hexdigest()


def with_front(dump: Dump, front: Tuple[str, ...]) -> bytes:
    """The text with these lines before the first rule of its filter table, or before the table's end where it has none."""
    first = min([rule.line for rule in dump.all_rules()] or [filter_end(dump)])
    lines = dump.data.split(b"\n")
    return b"\n".join(lines[:first - 1] + [line.encode() for line in front] + lines[first - 1:])


def filter_end(dump: Dump) -> int:
    """The line of the filter table's COMMIT."""
    inside = False
    for number, line in enumerate(dump.lines, 1):
        inside = inside or line.strip() == "*filter"
        if inside and line.strip() == "COMMIT":
            return number
    return len(dump.lines) + 1


def open_dump(name: str, program: Program, family: Optional[int]) -> Asked:
    """The dump in a file, once it looks like one."""
    data = dumps.read_bytes(name)
    dump = dumps.parse("standard input" if name == "-" else name, data)
    refusal.refuse_text(dump)
    return Asked(dump, family or dumps.family_of(dump), program)


def unknown_matches(asked: Asked) -> List[Tuple[Rule, Match]]:
    """Each match that the program doesn't understand, with its rule, in the order of the dump. The program itself says which: it
    counts the unknown matches of small dumps of one line for each different match."""
    pairs = [(rule, match) for rule in asked.dump.all_rules() for match in rule.matches]
    unknown = set(unknown_of(asked, sorted({probe_of(rule, match) for rule, match in pairs})))
    return sorted((pair for pair in pairs if probe_of(*pair) in unknown), key=lambda pair: pair[0].line)


def probe_of(rule: Rule, match: Match) -> str:
    """A line with this match alone, and beside a module's the protocol that the rule names."""
    beside = f"-p {rule.protocol()} " if match.module and rule.protocol() in PROTOCOLS else ""
    return f"-A FORWARD {beside}{match.text()}"


def unknown_of(asked: Asked, lines: List[str]) -> List[str]:
    """Of these lines, each of one match in question, those that the program doesn't understand."""
    waiting, found = [lines] if lines else [], []
    while waiting:
        part = waiting.pop()
        text = "\n".join(["*filter", ":FORWARD DROP [0:0]", *part, "COMMIT", ""]).encode("utf-8", "surrogateescape")
        answer = asked.program.ask(text, "check", asked.options("FORWARD"))
        count = programs.read_check(answer).unknown if answer.status == 0 else -1
        if count == len(part) or (len(part) == 1 and count > 0):
            found += part
        elif count != 0 and len(part) > 1:
            waiting += [part[:len(part) // 2], part[len(part) // 2:]]
    return found
