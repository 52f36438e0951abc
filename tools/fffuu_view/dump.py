"""A dump as text: its lines, chains, rules and matches, as far as they are shown. What they mean is for fffuu to say."""
import gzip
import re
import sys
import zlib
from dataclasses import dataclass, field
from typing import Dict, Iterator, List, Optional, Tuple

from .trouble import Trouble

BUILT_IN = ("INPUT", "FORWARD", "OUTPUT")
BASE = {"-s": 1, "-d": 1, "-i": 1, "-o": 1, "-p": 1, "-f": 0}
# Modules of which each option that is understood has a known number of arguments; they alone give no match of their own.
ARGUMENTS = {("tcp", "--tcp-flags"): 2, ("tcp", "--syn"): 0}
PLAIN_MODULES = ("tcp", "udp", "multiport", "iprange", "state", "conntrack", "comment", "icmp", "icmp6")
GOES_ON = ("LOG", "NFLOG", "ULOG", "MARK", "CONNMARK", "TCPMSS", "SET")
COUNTER = re.compile(r"\[[0-9]+:[0-9]+\]$")


@dataclass
class Word:
    """A word of a line, and whether it stood in quotes."""
    text: str
    quoted: bool

    def shown(self) -> str:
        """The word as it is written on a line."""
        if not self.quoted:
            return self.text
        return '"' + self.text.replace("\\", "\\\\").replace('"', '\\"') + '"'

    def ends_match(self) -> bool:
        """Whether the words of a match end before this one."""
        return not self.quoted and (self.text in ("!", "-m", "-j", "-g") or self.text in BASE or self.text.startswith("--"))


@dataclass
class Match:
    """One match of a rule, in the count that explain uses."""
    module: Optional[str]
    option: str
    negated: bool
    arguments: List[Word]

    def name(self) -> str:
        """Its module and option, as `limit --limit`."""
        return f"{self.module} {self.option}".strip() if self.module else self.option

    def text(self) -> str:
        """How it stands on a line by itself."""
        words = ["-m " + self.module] if self.module else []
        words += ["!"] if self.negated else []
        words += [self.option] if self.option else []
        return " ".join(words + [word.shown() for word in self.arguments])


@dataclass
class Rule:
    """One rule of the filter table: its line's number and text, its chain, and its number there."""
    line: int
    text: str
    chain: str
    number: int
    words: List[Word]
    matches: List[Match]
    jump: str
    target: str

    def protocol(self) -> str:
        """What `-p` says without `!`, or nothing."""
        return next((match.arguments[0].text for match in self.matches if match.option == "-p" and not match.negated), "")

    def leads(self) -> str:
        """By what it leads to another chain, in words for the line behind them."""
        return "by the goto of" if self.jump == "-g" else "called by"

    def decides(self) -> bool:
        """Whether its target does more than to go on."""
        return bool(self.target) and self.target not in GOES_ON


@dataclass
class Dump:
    """A text with its lines, and the chains and rules of its filter table."""
    name: str
    data: bytes
    lines: List[str]
    policies: Dict[str, str] = field(default_factory=dict)
    rules: Dict[str, List[Rule]] = field(default_factory=dict)
    has_filter: bool = False

    def all_rules(self) -> Iterator[Rule]:
        """The rules of all chains."""
        for rules in self.rules.values():
            yield from rules

    def line(self, number: int) -> str:
        """The text of a line, counted from 1; nothing past the end."""
        return self.lines[number - 1] if 1 <= number <= len(self.lines) else ""

    def asked_chains(self) -> List[str]:
        """The chains that can be asked about: those with a policy."""
        return [name for name, policy in self.policies.items() if policy != "-"]

    def reach(self, chain: str) -> Dict[str, Optional[Rule]]:
        """The chains in reach of this one, each with the rule that led to it first."""
        found: Dict[str, Optional[Rule]] = {chain: None}
        waiting = [chain]
        for name in waiting:
            for rule in self.rules.get(name, []):
                if rule.target in self.policies and rule.target not in found:
                    found[rule.target] = rule
                    waiting.append(rule.target)
        return found

    def reach_rules(self, chain: str) -> List[Rule]:
        """The rules in reach of this chain, in the order of their lines."""
        rules = [rule for name in self.reach(chain) for rule in self.rules.get(name, [])]
        return sorted(rules, key=lambda rule: rule.line)

    def way_to(self, chain: str, wanted: str) -> List[Rule]:
        """The rules with calls and gotos that lead from one chain to another, the first one first."""
        found, way = self.reach(chain), []
        at = wanted
        while found.get(at) is not None:
            rule = found[at]
            way.append(rule)
            at = rule.chain
        return way[::-1]


def words_of(line: str) -> List[Word]:
    """The words of a line as iptables-restore reads them: in quotes a backslash keeps the next sign."""
    words, at = [], 0
    pattern = re.compile(r'[ \t\r]*(?:"((?:[^"\\]|\\.)*)"|([^ \t\r]+))')
    while True:
        found = pattern.match(line, at)
        if not found:
            return words
        if found.group(2) is None:
            words.append(Word(re.sub(r"\\(.)", r"\1", found.group(1)), True))
        else:
            words.append(Word(found.group(2), False))
        at = found.end()


def named_by_option(words: List[Word]) -> bool:
    """Whether an option with two dashes follows before the next module, target or end."""
    for word in words:
        if not word.quoted and word.text in ("-m", "-j", "-g"):
            return False
        if not word.quoted and word.text.startswith("--"):
            return True
    return False


def taken(words: List[Word], module: Optional[str], option: str) -> List[Word]:
    """The arguments of an option of a module."""
    count = ARGUMENTS.get((module or "", option))
    if count is None:
        count = 0
        while count < len(words) and not words[count].ends_match():
            count += 1
    return words[:count]


def matches_of(words: List[Word]) -> List[Match]:
    """The matches of a rule from the words between its chain and its target, each in its place."""
    found: List[Match] = []
    module, at = None, 0
    while at < len(words):
        negated = words[at].text == "!" and not words[at].quoted
        at += negated
        if at >= len(words):
            break
        option, rest = words[at].text, words[at + 1:]
        at += 1
        if option == "-m":
            module = rest[0].text if rest else ""
            at += 1
            if module not in PLAIN_MODULES and not named_by_option(rest[1:]):
                found.append(Match(module, "", False, []))
            continue
        arguments = rest[:BASE[option]] if option in BASE else taken(rest, module, option)
        found.append(Match(None if option in BASE else module, option, negated, arguments))
        at += len(arguments)
    return found


def rule_of(number: int, line: str, words: List[Word], counts: Dict[str, int]) -> Rule:
    """The rule on a line `-A CHAIN ..`."""
    chain = words[1].text
    counts[chain] = counts.get(chain, 0) + 1
    end = next((at for at, word in enumerate(words) if not word.quoted and word.text in ("-j", "-g")), len(words))
    jump = words[end].text if end < len(words) else ""
    target = words[end + 1].text if end + 1 < len(words) else ""
    return Rule(number, line.strip(), chain, counts[chain], words, matches_of(words[2:end]), jump, target)


def parse(name: str, data: bytes) -> Dump:
    """The dump of a text. Lines that aren't understood are passed over: fffuu tells of them."""
    lines = data.decode("utf-8", "surrogateescape").split("\n")
    dump = Dump(name, data, lines[:-1] if lines[-1] == "" else lines)
    table, counts = None, {}
    for number, line in enumerate(dump.lines, 1):
        bare = line.strip(" \t\r")
        if not bare or bare.startswith("#"):
            continue
        if bare == "COMMIT":
            table = None
        elif table is None and bare.startswith("*"):
            table = bare[1:]
            dump.has_filter = dump.has_filter or table == "filter"
        elif table == "filter":
            read_line(dump, number, bare, counts)
    return dump


def read_line(dump: Dump, number: int, line: str, counts: Dict[str, int]) -> None:
    """Adds what a line of the filter table says to the dump."""
    words = words_of(line)
    if words and not words[0].quoted and COUNTER.match(words[0].text):
        words = words[1:]
    if len(words) < 2:
        return
    if words[0].text.startswith(":"):
        dump.policies[words[0].text[1:]] = words[1].text
        dump.rules.setdefault(words[0].text[1:], [])
    elif words[0].text == "-A":
        rule = rule_of(number, line, words, counts)
        dump.rules.setdefault(rule.chain, []).append(rule)


def read_bytes(name: str) -> bytes:
    """The bytes of a file, unpacked where gzip packed them; `-` is standard input."""
    try:
        if name == "-":
            data = sys.stdin.buffer.read()
        else:
            with open(name, "rb") as source:
                data = source.read()
        return gzip.decompress(data) if data.startswith(b"\x1f\x8b") else data
    except (OSError, EOFError, zlib.error) as fault:
        raise Trouble(f"{name}: can't be read: {getattr(fault, 'strerror', None) or fault}", 2) from None


def family_of(dump: Dump) -> int:
    """4 or 6: what the addresses of the filter table are, else those of other tables; else what the text's comments and protocols
    name; else 4."""
    for rule in dump.all_rules():
        for match in rule.matches:
            if match.option in ("-s", "-d", "--src-range", "--dst-range") and match.arguments:
                return 6 if ":" in match.arguments[0].text else 4
    for line in dump.lines:
        found = re.match(r"(?:\[\d+:\d+\] )?-A .*? -[sd] ([0-9a-fA-F:.]+)", line)
        if found:
            return 6 if ":" in found.group(1) else 4
    if any("ip6tables" in line for line in dump.lines if line.startswith("#")):
        return 6
    return 6 if any(names_icmp6(match) for rule in dump.all_rules() for match in rule.matches) else 4


def names_icmp6(match: Match) -> bool:
    """Whether a match is one on ICMP of IPv6."""
    return match.module == "icmp6" or (match.option == "-p" and match.arguments[:1] in ([Word("ipv6-icmp", False)], [Word("icmpv6", False)]))


def interfaces(rules: List[Rule]) -> Tuple[List[str], List[str]]:
    """The names that `-i` and `-o` have in these rules, each once, patterns with `+` too."""
    kinds = []
    for option in ("-i", "-o"):
        names = [match.arguments[0].text for rule in rules for match in rule.matches if match.option == option and match.arguments]
        kinds.append(list(dict.fromkeys(names)))
    return kinds[0], kinds[1]
