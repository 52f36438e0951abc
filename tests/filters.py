#!/usr/bin/env python3
"""Compares `upper`, `lower` and `explain` of the built program with walks over the dump itself, on random dumps: the printed
filter has to answer each packet as some truth, or every truth, of the unknown matches does.

    python3 tests/filters.py PROGRAM COUNT START

Prints the first cases that disagree and a last line 'N passed, M failed'; the exit status is 1 where one failed."""
import random
import subprocess
import sys

import walker

NAMES = ["", "eth0", "eth1", "eth10", "lo", "ppp0", "a b", "br-lan"]
PATTERNS = ["eth0", "eth+", "eth1+", "lo", "+", '"a b"', "br-+"]
UNKNOWN = ["-m limit --limit 5/sec", "-m recent --rcheck", "-m addrtype --dst-type LOCAL", "-m socket", "-m mark ! --mark 0x1", "-m comment ! --comment x",
           "-m icmp --icmp-type any", "-m icmp6 ! --icmpv6-type 1/0"]
PORT_WORDS = ["22", "1024:65535", "0:21", "53", "80", "65535"]
LISTS = ["80,443", "22,25,80:90", "0:9,11:19,21:29", "53", "1,3,5,7,9,11,13,15,17,19,21,23,25,27,29"]
PORTS = [0, 1, 10, 20, 21, 22, 23, 25, 53, 80, 85, 90, 443, 1024, 65535]
NUMBERS = [0, 1, 1, 6, 17, 47, 58, 58, 132, 255]
TYPES = [0, 3, 5, 8, 13, 128, 254, 255]
MESSAGES = {"icmp": "-m icmp {}--icmp-type {}", "ipv6-icmp": "-m icmp6 {}--icmpv6-type {}"}
EXCLUDED = ["-i eth0", "-i eth1", "-i lo", "-o eth0", "-o ppp0", "-o br-lan", "-p tcp", "-p udp", "-p icmp", "-p 47"]
STATE_LISTS = ["NEW", "RELATED,ESTABLISHED", "INVALID", "NEW,UNTRACKED", "INVALID,NEW,RELATED,ESTABLISHED,UNTRACKED"]
FLAG_TESTS = ["--syn", "--tcp-flags SYN,ACK SYN", "--tcp-flags ALL NONE", "--tcp-flags FIN,RST FIN", "--tcp-flags NONE NONE"]


def addresses(family):
    if family == 4:
        return ["0.0.0.0", "10.0.0.0", "10.0.0.1", "10.0.1.0", "10.255.255.255", "192.168.1.7", "255.255.255.255"]
    return ["::", "2001:db8::", "2001:db8::1", "2001:db8:0:1::", "fe80::1", "ffff:ffff:ffff:ffff:ffff:ffff:ffff:ffff"]


def maybe_not(rng):
    return "! " if rng.random() < 0.35 else ""


def address_match(rng, family):
    lengths = [0, 1, 8, 24, 31, 32] if family == 4 else [0, 1, 32, 64, 127, 128]
    if rng.random() < 0.3:
        first, last = sorted(rng.sample(range(len(addresses(family))), 2))
        side = rng.choice(["--src-range", "--dst-range"])
        return f"-m iprange {maybe_not(rng)}{side} {addresses(family)[first]}-{addresses(family)[last]}"
    return f"{maybe_not(rng)}{rng.choice(['-s', '-d'])} {rng.choice(addresses(family))}/{rng.choice(lengths)}"


def type_match(rng, name):
    return MESSAGES[name].format(maybe_not(rng), rng.choice([kind for kind in TYPES if kind < 255]))


def protocol_match(rng):
    name = rng.choice(["tcp", "tcp", "udp", "sctp", "icmp", "ipv6-icmp", "47", "all"])
    found = [f"{maybe_not(rng) if name != 'all' else ''}-p {name}"]
    if name in ("tcp", "udp") and rng.random() < 0.5:
        found.append(f"-m {name} {maybe_not(rng)}{rng.choice(['--sport', '--dport'])} {rng.choice(PORT_WORDS)}")
    if name == "tcp" and rng.random() < 0.4:
        found.append(f"-m tcp {maybe_not(rng)}{rng.choice(FLAG_TESTS)}")
    if rng.random() < 0.6 and name in MESSAGES:
        found.append(type_match(rng, name))
    if rng.random() < 0.4:
        found.append(f"-m multiport {maybe_not(rng)}{rng.choice(['--sports', '--dports', '--ports'])} {rng.choice(LISTS)}")
    return found


def matches(rng, family):
    found = []
    if rng.random() < 0.4:
        found.append(address_match(rng, family))
    if rng.random() < 0.35:
        found.append(f"{maybe_not(rng)}{rng.choice(['-i', '-o'])} {rng.choice(PATTERNS)}")
    if rng.random() < 0.4:
        found += protocol_match(rng)
    if rng.random() < 0.25:
        found.append(f"-m {rng.choice(['conntrack {}--ctstate', 'state {}--state']).format(maybe_not(rng))} {rng.choice(STATE_LISTS)}")
    if rng.random() < 0.1:
        found.append(type_match(rng, rng.choice(list(MESSAGES))))
    if rng.random() < 0.35:
        found += rng.sample(UNKNOWN, rng.choice([1, 1, 2]))
    rng.shuffle(found)
    return found


def exclusions(rng, name):
    """A chain that returns for some names and protocols, or for some types of messages, and gives the others a verdict: helper chains come
    of it."""
    wanted = rng.choice(["", "", "-i eth+ ", "-o br-+ "])
    if rng.random() < 0.4:
        proto = rng.choice(list(MESSAGES))
        wanted = rng.choice([f"-p {proto} ", f"-p {proto} ", f"-p {proto} {wanted}", wanted])
        excluded = [f"-p {proto} {MESSAGES[proto].format('', kind)}" for kind in TYPES if kind < 255] + EXCLUDED[:3]
    else:
        excluded = EXCLUDED
    return [*(f"-A {name} {match} -j RETURN" for match in rng.sample(excluded, rng.randrange(2, 6))),
            f"-A {name} {wanted}-j {rng.choice(['ACCEPT', 'ACCEPT', 'DROP'])}"]


def text(rng, family):
    """A dump. The rules of FORWARD and of the chains A to D stand in any order, those of E and F in theirs. Of what leads to another
    chain a fifth or so is a goto, and in some dumps most of it."""
    users = ["A", "B", "C", "D"][:rng.randrange(5)]
    returning = ["E", "F"][:rng.randrange(3)]
    lines = ["*filter", f":FORWARD {rng.choice(['ACCEPT', 'DROP'])} [0:0]", ":INPUT ACCEPT [1:2]"]
    lines += [f":{name} - [0:0]" for name in [*users, *returning]]
    gotos = rng.choice([0, 0.2, 0.2, 0.2, 0.6])

    def leads_by():
        return "-g" if rng.random() < gotos else "-j"

    rules = [" ".join(["-A FORWARD", *matches(rng, family)[:1], leads_by(), name]) for name in returning]
    for at, name in enumerate(["FORWARD", *users]):
        for _ in range(rng.randrange(5 if at else 6)):
            target = rng.choice(["ACCEPT", "DROP", "RETURN", "REJECT", "LOG"] + 3 * users[at:])
            rules.append(" ".join(["-A", name, *matches(rng, family), leads_by() if target in users else "-j", target]))
    rng.shuffle(rules)
    rules += [line for name in returning for line in exclusions(rng, name)]
    return "\n".join([*lines, *rules, "COMMIT", ""])


def winding(rng):
    """A dump of few tests and many calls, gotos and returns, so that the way from chain to chain decides."""
    users = ["A", "B", "C", "D"][:rng.randrange(1, 5)]
    lines = ["*filter", f":FORWARD {rng.choice(['ACCEPT', 'DROP'])} [0:0]", *(f":{name} - [0:0]" for name in users)]
    for at, name in enumerate(["FORWARD", *users]):
        for _ in range(rng.randrange(1, 5)):
            match = rng.choice(["", "", "-m limit --limit 5/sec ", "-m limit --limit 5/sec ", "-p tcp ", "! -p tcp "])
            verdict = rng.choice(["-j ACCEPT", "-j DROP", "-j RETURN"])
            leads = [f"{option} {callee}" for option in ("-j", "-g") for callee in users[at:]]
            lines.append(f"-A {name} {match}{rng.choice(leads) if leads and rng.random() < 0.55 else verdict}")
    return "\n".join([*lines, "COMMIT", ""])


def packet(rng, family):
    values = [int(walker.ipaddress.ip_address(text)) for text in addresses(family)]
    top = 2 ** (32 if family == 4 else 128) - 1

    def value():
        return min(top, max(0, rng.choice(values) + rng.choice([-1, 0, 0, 0, 1])))

    return {"in": rng.choice(NAMES), "out": rng.choice(NAMES), "src": value(), "dst": value(), "proto": rng.choice(NUMBERS),
            "sport": rng.choice(PORTS), "dport": rng.choice(PORTS), "flags": rng.choice([0, 2, 18, rng.randrange(64)]),
            "state": rng.randrange(5), "icmp": rng.choice([*TYPES, rng.randrange(256)])}


def words_of(packet, family):
    """The words of `explain` for a packet."""
    def address(value):
        return str(walker.ipaddress.IPv4Address(value) if family == 4 else walker.ipaddress.IPv6Address(value))

    def name(text):
        return text if " " not in text else "hex:" + text.encode().hex()

    names = [flag for at, flag in enumerate(walker.FLAGS) if packet["flags"] >> at & 1]
    return [f"in={name(packet['in'])}", f"out={name(packet['out'])}", f"src={address(packet['src'])}", f"dst={address(packet['dst'])}",
            f"proto={packet['proto']}", f"sport={packet['sport']}", f"dport={packet['dport']}", f"flags={','.join(names) or 'NONE'}",
            f"state={walker.STATES[packet['state']]}", f"icmp={packet['icmp']}"]


def asked(program, words, family, given):
    done = subprocess.run([program, *words, "--family", str(family)], input=given.encode(), capture_output=True)
    return done.returncode, done.stdout.decode(), done.stderr.decode()


def disagreements(program, rng, family):
    """What is wrong with the answers for one random dump."""
    given = text(rng, family) if rng.random() < 0.6 else winding(rng)
    chains = walker.dump(given)
    packets = [packet(rng, family) for _ in range(40)]
    for mode, wanted in (("upper", lambda found: "accept" in found), ("lower", lambda found: found == {"accept"})):
        status, out, err = asked(program, [mode], family, given)
        if status != 0:
            yield f"{mode}: {status} {err}\n{given}"
            continue
        printed = walker.dump(out)
        count = asked(program, ["check"], family, out)[1]
        if not count.endswith(" unknown 0\n"):
            yield f"{mode}: its answer is checked as {count}\n{out}"
        if list(printed)[0] != "FORWARD" or printed["FORWARD"][0] != chains["FORWARD"][0]:
            yield f"{mode}: another chain or policy\n{given}\n{out}"
        again = walker.dump(asked(program, [mode], family, out)[1])
        for p in packets:
            if walker.verdicts(again, "FORWARD", p) != walker.verdicts(printed, "FORWARD", p):
                yield f"{mode} of its own answer for {p}\n{out}"
            if (walker.verdicts(printed, "FORWARD", p) == {"accept"}) != wanted(walker.verdicts(chains, "FORWARD", p)):
                yield f"{mode} of {p}\n{given}\n{out}"
    for p in packets[:3]:
        status, out, err = asked(program, ["explain", *words_of(p, family)], family, given)
        lines = walker.explained(chains, "FORWARD", p, "accept") + walker.explained(chains, "FORWARD", p, "drop")
        if (status, out) != (0, "".join(line + "\n" for line in lines)):
            yield f"explain of {p}: {status} {err}{out}, wanted {lines}\n{given}"


def main(program, count, start, find=disagreements):
    """Looks for disagreements in so many random dumps, prints what is found, and answers the exit status."""
    rng = random.Random(start)
    failed = 0
    for _ in range(count):
        wrong = list(find(program, rng, rng.choice([4, 4, 6])))
        failed += bool(wrong)
        if wrong and failed <= 3:
            print(wrong[0])
    print(f"{count - failed} passed, {failed} failed")
    return 1 if failed else 0


if __name__ == "__main__":
    if len(sys.argv) != 4:
        sys.exit(__doc__)
    sys.exit(main(sys.argv[1], int(sys.argv[2]), int(sys.argv[3])))
