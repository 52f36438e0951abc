"""Turns each refusal into words that say what to do."""
import re
from typing import List, Optional

from .dump import BUILT_IN, GOES_ON, Dump, Rule
from .program import Answer
from .trouble import Trouble

SAVE = "fffuu reads what `iptables-save` or `ip6tables-save` writes"
PACKED = [(b"\xfd7zXZ", "xz"), (b"BZh", "bzip2"), (b"PK\x03\x04", "zip"), (b"\x28\xb5\x2f\xfd", "zstd")]
LONG_WORDS = {"--jump": "-j", "--goto": "-g", "--in-interface": "-i", "--out-interface": "-o", "--source": "-s", "--src": "-s",
              "--destination": "-d", "--dst": "-d", "--protocol": "-p", "--proto": "-p", "--match": "-m", "--fragments": "-f",
              "--append": "-A", "--destination-port": "--dport", "--source-port": "--sport", "--destination-ports": "--dports",
              "--source-ports": "--sports"}
FIELDS = ("in", "out", "src", "dst", "proto", "sport", "dport", "flags", "state", "icmp")
TARGETS = ("ACCEPT", "DROP", "REJECT", "RETURN", *GOES_ON)
COMMANDS = {"-N": "a command that makes a chain", "-P": "a command that sets a policy", "-I": "a command that inserts a rule",
            "-X": "a command", "-F": "a command", "-D": "a command that takes a rule out", "-R": "a command"}
LIMITS = {
    "depth": "some path of calls and gotos has more than 256 chains",
    "nodes": "there are more than 262,144 rules and matches once calls and gotos are unfolded: chains to which many rules lead, under "
             "matches that aren't understood, make it large",
    "literals": "there are more than 4,194,304 tests once calls and gotos are unfolded: rules behind many returns and gotos make it large",
    "boxes": "one rule comes to more than 16,384 sets of packets: many returns, gotos or negated matches before it make it large",
    "rules": "there are more than 131,072 simple rules",
    "lines": "the filter has more than 262,144 lines: lists of ports and ranges of addresses in one rule multiply",
    "atoms": "the addresses in the rules part all addresses at more than 4,096 places",
    "regions": "the forged packets fall into more than 65,536 pieces",
    "visits": "there are more than 16,777,216 rules over all paths of calls and gotos",
}


def refuse_text(dump: Dump) -> None:
    """Stops a text that is plainly none of iptables-save, with words for what it looks like."""
    refuse_bytes(dump)
    if not dump.has_filter:
        looks = looks_like(dump)
        if looks:
            raise Trouble(f"{dump.name}: {looks}. {SAVE}.", 5, 0, "not a dump")
    for rule in dump.all_rules():
        refuse_hand_written(dump, rule)


def refuse_bytes(dump: Dump) -> None:
    """Stops what is no plain text."""
    if not dump.data.strip():
        raise Trouble(f"{dump.name}: the input is empty. Was `iptables-save` run as root?", 6, 0, "empty")
    for start, packer in PACKED:
        if dump.data.startswith(start):
            raise Trouble(f"{dump.name}: packed by {packer}: unpack it first (gzip alone is read as it is)", 5, 0, "packed")
    if dump.data[:2] in (b"\xff\xfe", b"\xfe\xff"):
        raise Trouble(f"{dump.name}: a text of UTF-16: turn it with `iconv -f UTF-16 -t UTF-8`", 5, 1, "UTF-16")
    if dump.data.startswith(b"\xef\xbb\xbf"):
        raise Trouble(f"{dump.name}: the text begins with a byte order mark: take it off, as with `sed '1s/^\\xef\\xbb\\xbf//'`", 5, 1,
                      "byte order mark")


def looks_like(dump: Dump) -> str:
    """What a text without a filter table looks like, or nothing."""
    text = "\n".join(dump.lines[:2000])
    if re.search(r"^table (ip|ip6|inet|arp|bridge|netdev) \S+ \{", text, re.M):
        return "looks like `nft list ruleset`. Where iptables-nft made the rules, `iptables-save` prints them too"
    if text.lstrip().startswith('{"nftables"'):
        return "looks like `nft -j list ruleset`. Where iptables-nft made the rules, `iptables-save` prints them too"
    if re.search(r"^Chain \S+ \((policy|\d+ references)", text, re.M):
        return "looks like `iptables -L`, which leaves parts of rules out"
    if re.search(r"^-(P|N|A) \S+", text, re.M) and not re.search(r"^\*", text, re.M):
        return "looks like `iptables -S`, which has no lines `*filter` and `COMMIT`"
    if not re.search(r"^\s*\*\S", "\n".join(dump.lines), re.M):
        return "looks like no dump: it has no line `*filter`"
    return ""


def long_word(text: str, module: str) -> str:
    """What a save writes instead of this word, or nothing where it may be a save's own."""
    if text == "--proto" and module == "policy":
        return ""
    for word, short in LONG_WORDS.items():
        least = 3 if word in ("--jump", "--goto") else 6
        if text == word or (len(text) >= least and word.startswith(text)):
            return short
    return ""


def refuse_hand_written(dump: Dump, rule: Rule) -> None:
    """Stops a rule that no save wrote: the program would take `--jump ACCEPT` as a match that it doesn't understand."""
    module = ""
    for at, word in enumerate(rule.words[2:], 2):
        if word.quoted:
            continue
        if word.text in ("-j", "-g"):
            return
        if word.text == "-m" and at + 1 < len(rule.words):
            module = rule.words[at + 1].text
        short = long_word(word.text, module) if word.text.startswith("--") else ""
        if short or (word.text.startswith("--") and not module):
            instead = f"a save writes `{short}` for `{word.text}`" if short else f"a save writes `-m MODULE` before `{word.text}`"
            raise Trouble(at_line(dump, rule.line, f"not what iptables-save writes ({instead}). fffuu would take it as a match that it "
                                  "doesn't understand. Load the rules, in a namespace of their own if need be, and save them"),
                          5, rule.line, "hand-written")


def at_line(dump: Dump, number: int, words: str) -> str:
    """Words about a line, with the line."""
    text = dump.line(number).strip()
    shown = text if len(text) <= 200 else text[:200] + " .."
    return f"{dump.name}: line {number}: {words}\n    {shown}" if text else f"{dump.name}: line {number}: {words}"


def trouble_of(dump: Dump, answer: Answer, chain: str, family: int) -> Trouble:
    """The refusal of the program in words that say what to do."""
    said = answer.err or f"status {answer.status}"
    found = re.search(r"line ([0-9]+)", said)
    line = int(found.group(1)) if found else 0
    words = {4: too_long, 5: malformed, 6: no_filter, 7: undefined, 8: no_chain, 9: unsupported, 10: loop, 11: limit, 15: not_text}.get(answer.status)
    advice = words(dump, said, line, chain, family) if words else f"{dump.name}: the program said: {said}"
    return Trouble(advice, answer.status if answer.status > 0 else 1, line, said)


def too_long(dump: Dump, said: str, line: int, chain: str, family: int) -> str:
    """Words for a text past 16 MiB."""
    return (f"{dump.name}: {len(dump.data):,} bytes, and fffuu reads at most 16,777,216. Other tables than filter can be left out: "
            "`iptables-save -t filter`")


def malformed(dump: Dump, said: str, line: int, chain: str, family: int) -> str:
    """Words for a line that isn't of the grammar."""
    if line > len(dump.lines):
        return f"{dump.name}: the text ends before COMMIT: it was cut off, or a table isn't closed"
    return at_line(dump, line, malformed_cause(dump.line(line), family))


def malformed_cause(text: str, family: int) -> str:
    """What is wrong with a line, as far as it is seen at once."""
    words = [word.strip('"') for word in text.split()]
    addresses = [words[at + 1] for at, word in enumerate(words[:-1]) if word in ("-s", "-d")]
    if family == 4 and any(":" in address for address in addresses):
        return "an IPv6 address under family 4: ask with --family 6"
    if family == 6 and any(re.fullmatch(r"[0-9.]+(/[0-9.]+)?", address) for address in addresses):
        return "an IPv4 address under family 6: ask with --family 4"
    if "!" in addresses:
        return "`!` stands behind its option, as old versions wrote it: load the rules and save them anew"
    if words and words[0] in COMMANDS:
        return f"{COMMANDS[words[0]]}, no line of a save. {SAVE}"
    if re.search(r" -j (ACCEPT|DROP|RETURN) \S| -g \S+ \S", text) or re.search(r" -j \S+ .*-m ", text):
        return "words stand behind the target: a save writes all matches before `-j` and `-g`"
    if any(re.fullmatch(r"[A-Za-z][\w-]*\.[\w.-]+", address) for address in addresses):
        return "a host's name stands where a save writes an address"
    return f"this isn't a line that iptables-save writes. {SAVE}"


def no_filter(dump: Dump, said: str, line: int, chain: str, family: int) -> str:
    """Words for a text without a filter table."""
    tables = [text.strip()[1:] for text in dump.lines if text.strip().startswith("*")]
    has = f"it has {', '.join(tables)} alone" if tables else "it has no table at all"
    return f"{dump.name}: no filter table ({has}). `iptables-save -t filter` prints it, once it has a rule or was looked at"


def undefined(dump: Dump, said: str, line: int, chain: str, family: int) -> str:
    """Words for a rule of a chain that isn't declared, or a goto to no declared user chain."""
    rule = next((rule for rule in dump.all_rules() if rule.line == line), None)
    if rule is None or rule.chain not in dump.policies:
        return at_line(dump, line, "the rule's chain isn't declared above by a line `:CHAIN -`: a part of the dump is missing")
    if rule.target in BUILT_IN or rule.target in TARGETS:
        return at_line(dump, line, f"`-g` leads to a chain that is declared by a line `:CHAIN -`, and {rule.target} is none: no tool loads that")
    return at_line(dump, line, f"the chain {rule.target} behind `-g` isn't declared above by a line `:CHAIN -`: a part of the dump is missing")


def no_chain(dump: Dump, said: str, line: int, chain: str, family: int) -> str:
    """Words for an asked chain that isn't there, with those that are."""
    there = dump.asked_chains()
    which = f"there are {', '.join(there)}" if there else "no chain of this dump has a policy"
    if chain in dump.policies:
        return f"{dump.name}: {chain} is a chain to which others lead; only chains with a policy are asked about: {which}"
    upper = chain.upper()
    guess = f" (did you mean {upper}?)" if upper in there and upper in BUILT_IN else ""
    return f"{dump.name}: no chain {chain}: {which}{guess}"


def unsupported(dump: Dump, said: str, line: int, chain: str, family: int) -> str:
    """Words for a target in reach that isn't supported, with the calls and gotos that lead to it."""
    target = said.rsplit(" ", 1)[-1]
    advice = at_line(dump, line, f"the target {target} isn't supported, and this rule is in reach of {chain}")
    rule = next((rule for rule in dump.all_rules() if rule.line == line), None)
    way = dump.way_to(chain, rule.chain) if rule else []
    if way:
        advice += "\nwhat leads there:" + "".join(f"\n    line {call.line}: {call.text}" for call in way)
    others = [name for name in dump.asked_chains() if name != chain and not reaches(dump, name, line)]
    return advice + (f"\nnot in reach of it, so worth asking: {', '.join(others)}" if others else "")


def reaches(dump: Dump, chain: str, line: int) -> bool:
    """Whether the rule on this line is in reach of a chain."""
    return any(rule.line == line for rule in dump.reach_rules(chain))


def loop(dump: Dump, said: str, line: int, chain: str, family: int) -> str:
    """Words for a chain that leads to itself, with the calls and gotos."""
    name = said.rsplit(" ", 1)[-1]
    way = loop_through(dump, name)
    shown = "".join(f"\n    line {call.line}: {call.text}" for call in way)
    return f"{dump.name}: the chain {name} leads to itself; no kernel loads that" + shown


def not_text(dump: Dump, said: str, line: int, chain: str, family: int) -> str:
    """Words for a word that the program can't be given."""
    return f"{dump.name}: a name that isn't UTF-8 can't be given to the program as it stands: give it as hex: and its bytes, where the mode reads that"


def loop_through(dump: Dump, name: str) -> List[Rule]:
    """The rules with calls and gotos by which a chain comes back to itself."""
    for rule in dump.reach_rules(name):
        if rule.target == name:
            return dump.way_to(name, rule.chain) + [rule]
    return []


def limit(dump: Dump, said: str, line: int, chain: str, family: int) -> str:
    """Words for a limit that was passed, with the chains to which most rules lead."""
    word = said.rsplit(" ", 1)[-1]
    calls: dict = {}
    for rule in dump.reach_rules(chain):
        if rule.target in dump.policies:
            calls[rule.target] = calls.get(rule.target, 0) + 1
    most = sorted(calls.items(), key=lambda item: -item[1] * (1 + len(dump.rules.get(item[0], []))))[:3]
    listed = ", ".join(f"{name} (from {count} rules, to {len(dump.rules.get(name, []))} rules)" for name, count in most if count > 1)
    tail = f". Most rules lead to: {listed}" if listed else ""
    return f"{dump.name}: too large, limit {word}: {LIMITS.get(word, said)}{tail}"


def refuse_fields(fields: List[str]) -> None:
    """Stops a packet that gives a port or a type without a protocol, or a word that is no field."""
    given = {}
    for word in fields:
        name, equals, value = word.partition("=")
        if not equals or name not in FIELDS:
            raise Trouble(f"{word}: a packet is given by words FIELD=VALUE, with the fields {', '.join(FIELDS)}", 1)
        if name in given:
            raise Trouble(f"{name} is given twice", 1)
        given[name] = value
    ports = [name for name in ("sport", "dport") if name in given]
    if ports and "proto" not in given:
        raise Trouble(f"{ports[0]}={given[ports[0]]} without a protocol: add proto=tcp or proto=udp (without proto the program asks about "
                      "protocol 0, which has no ports)", 1)
    if "icmp" in given and "proto" not in given:
        raise Trouble(f"icmp={given['icmp']} without a protocol: add proto=icmp or proto=ipv6-icmp (without proto the program asks about "
                      "protocol 0, whose packets have no type that a rule tests)", 1)


def first_line(trouble: Optional[Trouble]) -> str:
    """The first line of a refusal, for tables."""
    return trouble.words.split("\n")[0] if trouble else ""
