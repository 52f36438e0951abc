"""Random filters that the real tools take, and packets at the borders of their rules."""
import dataclasses
import ipaddress

from lab import NAMES
from packets import Packet, WITH_PORTS, WITH_TYPES

PATTERNS = [*NAMES, "eth+", "eth1+", "pp+", "w+"]
UNKNOWN = ["-m limit --limit 5/sec --limit-burst 5", "-m recent --rcheck --name seen --rsource", "-m statistic --mode random --probability 0.5",
           "-m length --length 40:60", "-m mark --mark 0x1"]
PORT_WORDS = ["22", "80", "1024:65535", "0:21", "53", "65535", "443:444"]
LISTS = ["80,443", "22,25,80:90", "0:9,11:19,21:29", "53", "1,3,5,7,9,11,13,15,17,19,21,23,25,27,29", "1024:65535,80"]
PORTS = [0, 1, 9, 10, 21, 22, 23, 25, 53, 79, 80, 85, 90, 91, 443, 444, 445, 1023, 1024, 65535]
PROTOCOLS = ["tcp", "tcp", "tcp", "udp", "udp", "icmp", "icmp", "icmp", "sctp", "47", "dccp", "udplite", "esp", "igmp"]
NUMBERS = [1, 1, 1, 1, 2, 6, 6, 6, 17, 17, 33, 47, 50, 51, 58, 89, 132, 136, 255]
FLAG_TESTS = ["--syn", "--tcp-flags SYN,ACK SYN", "--tcp-flags ALL NONE", "--tcp-flags FIN,RST FIN", "--tcp-flags SYN,RST,ACK,FIN,PSH,URG SYN,ACK"]
STATES = ["INVALID", "NEW", "RELATED", "ESTABLISHED", "UNTRACKED"]
LINES = {4: ["0.0.0.5", "9.255.255.255", "10.0.0.0", "10.0.0.1", "10.0.1.0", "10.255.255.255", "11.0.0.0", "192.168.1.7", "192.168.1.8", "223.255.255.255"],
         6: ["2001:db8::", "2001:db8::1", "2001:db8::2", "2001:db8:0:1::", "2001:db8:ffff:ffff:ffff:ffff:ffff:ffff", "2001:db9::", "fc00::1", "fec0::1"]}
LENGTHS = {4: [1, 7, 8, 24, 31, 32], 6: [1, 31, 32, 64, 127, 128]}
# Types of ICMP messages as a rule may spell them, and spellings that stay unknown; types that packets have, and codes.
MESSAGES = {4: "-p icmp -m icmp {}--icmp-type {}", 6: "-p ipv6-icmp -m icmp6 {}--icmpv6-type {}"}
TYPE_WORDS = {4: ["0", "3", "5", "8", "8", "echo-request", "13", "17", "30", "254", "redirect", "0x0b"],
              6: ["1", "2", "127", "128", "128", "echo-request", "129", "133", "neighbour-solicitation", "254", "0x03"]}
UNKNOWN_TYPES = {4: ["3/1", "8/0", "any", "host-unreachable"], 6: ["1/0", "128/0", "255", "no-route"]}
TYPES = {4: [0, 1, 3, 3, 4, 5, 8, 8, 8, 9, 11, 13, 14, 17, 30, 254, 255], 6: [0, 1, 1, 2, 3, 127, 128, 128, 128, 129, 133, 135, 254, 255]}
CODES = [0, 0, 0, 1, 4, 255]
REFUSALS = {4: "icmp-port-unreachable", 6: "icmp6-port-unreachable"}


@dataclasses.dataclass(frozen=True)
class Corners:
    """What packets are drawn from: names of interfaces, addresses, whose neighbours are drawn too, ports, and types of ICMP messages."""
    names: list
    addresses: list
    ports: list
    types: list


CORNERS = {family: Corners(NAMES, LINES[family], PORTS, TYPES[family]) for family in (4, 6)}


def maybe_not(rng):
    return "! " if rng.random() < 0.35 else ""


def address_match(rng, family):
    lines = LINES[family]
    if rng.random() < 0.3:
        first, last = sorted(rng.sample(range(len(lines)), 2))
        return f"-m iprange {maybe_not(rng)}{rng.choice(['--src-range', '--dst-range'])} {lines[first]}-{lines[last]}"
    return f"{maybe_not(rng)}{rng.choice(['-s', '-d'])} {rng.choice(lines)}/{rng.choice(LENGTHS[family])}"


def ports_match(rng, name, negated):
    if negated or name not in ("tcp", "udp", "sctp", "dccp", "udplite"):
        return []
    found = []
    if name in ("tcp", "udp") and rng.random() < 0.5:
        found.append(f"-m {name} {maybe_not(rng)}{rng.choice(['--sport', '--dport'])} {rng.choice(PORT_WORDS)}")
    if name == "tcp" and rng.random() < 0.35:
        found.append(f"-m tcp {maybe_not(rng)}{rng.choice(FLAG_TESTS)}")
    if rng.random() < 0.4:
        found.append(f"-m multiport {maybe_not(rng)}{rng.choice(['--sports', '--dports', '--ports'])} {rng.choice(LISTS)}")
    return found


def message_match(rng, family, kind):
    """A test of the type of ICMP messages; in a few cases two of them, which hold together."""
    words = UNKNOWN_TYPES[family] if kind.unknown and rng.random() < 0.4 else TYPE_WORDS[family]
    found = MESSAGES[family].format(maybe_not(rng), rng.choice(words))
    if rng.random() < 0.15:
        second = MESSAGES[family].format(maybe_not(rng), rng.choice(TYPE_WORDS[family]))
        found += second[second.index(" -m"):]
    return [found]


def protocol_match(rng, family, kind):
    name = rng.choice(PROTOCOLS)
    negated = rng.random() < 0.25
    if name == "icmp" and not negated and rng.random() < 0.75:
        return message_match(rng, family, kind)
    name = "ipv6-icmp" if name == "icmp" and family == 6 else name
    return [f"{'! ' if negated else ''}-p {name}", *ports_match(rng, name, negated)]


def matches(rng, family, kind):
    found = []
    if rng.random() < 0.45:
        found.append(address_match(rng, family))
    for side in ("-i", "-o"):
        if kind.names and rng.random() < 0.25:
            found.append(f"{maybe_not(rng)}{side} {rng.choice(PATTERNS)}")
    if rng.random() < 0.6:
        found += protocol_match(rng, family, kind)
    if kind.states and rng.random() < 0.4:
        found.append(f"-m {rng.choice(['conntrack {}--ctstate', 'state {}--state']).format(maybe_not(rng))} {','.join(rng.sample(STATES, rng.choice([1, 1, 2, 3])))}")
    if rng.random() < 0.1:
        found.append('-m comment --comment "a word, \\"two\\" -j DROP"')
    if kind.unknown and rng.random() < 0.4:
        found.append(rng.choice(UNKNOWN))
    return found


def target(rng, family, chains, share=2):
    words = ["ACCEPT"] * 4 + ["DROP"] * 3 + [f"REJECT --reject-with {REFUSALS[family]}"] + ["RETURN"] * 2 + ["NFLOG --nflog-group 7", "CONNMARK --save-mark", "MARK --set-xmark 0x1/0xffffffff", ""] + chains * share
    return rng.choice(words)


def ending(rng, goes, users, gotos):
    """What a rule with this target ends with: to a chain of the table it leads by a goto in this share of the cases, else by a call."""
    if not goes:
        return []
    return [f"{'-g' if goes in users and rng.random() < gotos else '-j'} {goes}"]


def otherwise(rng, forward):
    """In most tables a last rule that decides otherwise than the policy of FORWARD, so that a chain that is left too early shows."""
    return [f"-A FORWARD -j {'DROP' if 'FORWARD ACCEPT' in forward else 'ACCEPT'}"] if rng.random() < 0.6 else []


def text(rng, family, kind):
    """A filter table as iptables-restore takes it. Chains call only later ones, or go to them. In a third of the tables many packets come
    to calls and gotos."""
    winding = rng.random() < 1 / 3
    users = ["A", "B", "C"] if winding else ["A", "B", "C"][:rng.randrange(4)]
    lines = ["*filter", ":INPUT ACCEPT [0:0]", f":FORWARD {rng.choice(['ACCEPT', 'DROP'])} [0:0]", ":OUTPUT ACCEPT [0:0]"]
    lines += [f":{name} - [0:0]" for name in users]
    for at, name in enumerate(["FORWARD", *users]):
        for _ in range(rng.randrange(2, 8)):
            goes = target(rng, family, users[at:], 6 if winding else 2)
            tests = matches(rng, family, kind)
            # calls, gotos and returns to which many packets come
            if winding or goes in ("RETURN", *users) and rng.random() < 0.6:
                tests = tests[:1]
            lines.append(" ".join([f"-A {name}", *tests, *ending(rng, goes, users, 0.5)]))
    return "\n".join([*lines, *otherwise(rng, lines[2]), "COMMIT", ""])


def doubtful_text(rng, family, kind):
    """A filter table as iptables-restore takes it, and how many doubtful rules it has. Each of them asks for a bit of its own of the
    packet's mark, and to no chain lead two rules, so that a mark is one truth of the unknown matches."""
    users = ["A", "B"][:rng.randrange(3)]
    rules = [[name, matches(rng, family, kind), target(rng, family, [])] for name in ["FORWARD", *users] for _ in range(rng.randrange(2, 6))]
    rules = [[name, tests, "" if goes.startswith("MARK") else goes] for name, tests, goes in rules]
    for at, name in enumerate(users):
        rules.insert(rng.randrange(len(rules) + 1), [rng.choice(["FORWARD", *users[:at]]), matches(rng, family, kind), name])
    decide = [at for at, (_, _, goes) in enumerate(rules) if goes.split(" ")[0] not in ("", "NFLOG", "CONNMARK")]
    # in half of the tables those first that lead to a chain
    first = [at for at in decide if rules[at][2] in users] if rng.random() < 0.5 else []
    doubtful = [*first, *rng.sample([at for at in decide if at not in first], min(len(decide) - len(first), 3 - len(first)))]
    for bit, at in enumerate(doubtful):
        # most of them without another test, so that many packets come under them
        rules[at][1] = rules[at][1] if rng.random() < 0.3 else []
        rules[at][1].append(f"-m mark {maybe_not(rng)}--mark {1 << bit:#x}/{1 << bit:#x}")
    lines = ["*filter", ":INPUT ACCEPT [0:0]", f":FORWARD {rng.choice(['ACCEPT', 'DROP'])} [0:0]", ":OUTPUT ACCEPT [0:0]", *[f":{name} - [0:0]" for name in users]]
    lines += [" ".join([f"-A {name}", *tests, *ending(rng, goes, users, 0.5)]) for name, tests, goes in rules]
    return "\n".join([*lines, *otherwise(rng, lines[2]), "COMMIT", ""]), len(doubtful)


def address(rng, family, corners=None):
    value = int(ipaddress.ip_address(rng.choice((corners or CORNERS[family]).addresses))) + rng.choice([-1, 0, 0, 0, 1])
    return min(max(value, 0), 2 ** (32 if family == 4 else 128) - 1)


def packet(rng, family, corners=None):
    corners = corners or CORNERS[family]
    number = rng.choice(NUMBERS)
    # which number is the protocol behind an authentication header of IPv6 is a case of borders.py
    number = {1: 58, 51: 50}.get(number, number) if family == 6 else number
    sport, dport = (rng.choice(corners.ports), rng.choice(corners.ports)) if number in WITH_PORTS else (0, 0)
    flags = rng.choice([2, 2, 16, 18, 0, 1, 17, 63, rng.randrange(64)]) if number == 6 else 0
    kind, code = (rng.choice(corners.types), rng.choice(CODES)) if number in WITH_TYPES else (0, 0)
    return Packet(family, rng.choice(corners.names), rng.choice(corners.names), address(rng, family, corners), address(rng, family, corners), number,
                  sport, dport, flags, kind, code)
