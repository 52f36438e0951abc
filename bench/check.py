#!/usr/bin/env python3
"""Times `check` of the built program on generated dumps, and prints seconds, peak memory and the growth from one size to
the next. It asserts nothing.

    python3 bench/check.py [PROGRAM]"""
from measure import HEAD, MOST, TAIL, measure, wrapped


def rules(line, share):
    return wrapped(line * int((MOST - len(HEAD) - len(TAIL)) // len(line) * share))


def chains(count):
    return b"".join(b":c%d -\n" % number for number in range(count))


def calls(count, times, end):
    return b"".join(b"-A c%d -j c%d\n" % (number, (number + 1) % count) * times for number in range(end))


def row(count, times, is_loop):
    return wrapped(chains(count), b"-A FORWARD -j c0\n", calls(count, times, count if is_loop else count - 1))


FIVE = b"-A FORWARD -s 10.1.2.0/24 -d 192.168.0.0/16 -i eth0 -o eth1 -p tcp -j ACCEPT\n"
PORTS = b"-A FORWARD -p tcp -m multiport --dports 1,2,3,4,5,6,7,8,9,10,11,12,13,14,15 -j ACCEPT\n"
FAMILIES = [
    ("rules of five matches", lambda share: rules(FIVE, share)),
    ("rules with 15 ports", lambda share: rules(PORTS, share)),
    ("one long line", lambda share: wrapped(b"-A FORWARD -m comment --comment " + b"x" * int(16_777_100 * share) + b"\n")),
    ("chains without rules", lambda share: wrapped(chains(int(1_000_000 * share)))),
    ("empty lines", lambda share: b"\n" * int(MOST * share)),
    ("one rule of many matches", lambda share: wrapped(b"-A FORWARD" + b" --abc" * int(2_000_000 * share) + b"\n")),
    ("chains that call one another in a row", lambda share: row(int(100_000 * share), 1, False)),
    ("the same, twice each", lambda share: row(int(100_000 * share), 2, False)),
    ("the same, in a loop", lambda share: row(int(100_000 * share), 1, True)),
    ("a chain that calls many", lambda share: wrapped(chains(int(100_000 * share)), b"".join(b"-A FORWARD -j c%d\n" % number for number in range(int(100_000 * share))))),
]

measure([(name, "check", make) for name, make in FAMILIES])
