#!/usr/bin/env python3
"""Times `upper`, `lower` and `explain` of the built program on generated dumps, and prints seconds, peak memory and the
growth from one size to the next. It asserts nothing.

    python3 bench/filters.py [PROGRAM]"""
from measure import MOST, doubtful, measure, wrapped


def many(count, make):
    return wrapped(b"".join(make(number) for number in range(count)))


def prefix(number):
    return b"-A FORWARD -s 10.%d.%d.0/24 -d 192.168.%d.0/24 -j ACCEPT\n" % (number >> 8 & 255, number & 255, number & 127)


def five(number):
    return (b"-A FORWARD -s 10.%d.%d.0/24 -d 192.168.0.0/16 -i eth%d -o eth1 -p tcp -m tcp --dport %d -j ACCEPT\n"
            % (number >> 8 & 255, number & 255, number & 7, number & 65535))


def called(*rules):
    return wrapped(b":C - [0:0]\n", *rules)


def cubes(share):
    """Returns that give 16,384 cubes in the end, of which half the work is in the last few."""
    count = int(127 * share ** 0.5)
    nets = [b"-A C -s 10.0.0.%d/32 -d 192.168.0.0/16 -j RETURN\n" % number for number in range(1, count + 1)]
    ports = [b"-A C -p tcp -m tcp --sport %d --dport 1 -j RETURN\n" % number for number in range(1, count + 1)]
    return called(b"-A FORWARD -p tcp -j C\n", *nets, *ports, b"-A C -j ACCEPT\n")


def literals(share):
    count = int(2048 * share ** 0.5)
    return called(b"-A FORWARD -j C\n", b"-A C -p esp -j RETURN\n" * count, b"-A C -j ACCEPT\n" * count)


def visits(share):
    count = int(4096 * share ** 0.5)
    return called(b"-A FORWARD -j C\n" * count, b"-A C -s 1.1.1.1/32 -j DROP\n" * (count - 1))


def long(share):
    line = b"-A FORWARD -s 10.1.2.0/24 -d 192.168.0.0/16 -p tcp -m multiport --dports 1,2,3,4,5,6,7,8,9,10,11,12,13,14,15 -j ACCEPT\n"
    return wrapped(line * int(min(131_072, MOST // len(line)) * share))


def sources(share):
    """Returns by every second address, and an accept. The set of the sources that are left has one range more with each."""
    returns = (b"-A C -s 10.%d.%d.%d/32 -j RETURN\n" % (number >> 15 & 255, number >> 7 & 255, number << 1 & 255) for number in range(int(16_384 * share)))
    return called(b"-A FORWARD -j C\n", *returns, b"-A C -j ACCEPT\n")


def outside(share):
    return wrapped(b"-A FORWARD ! -s 10.0.0.0/8 -j ACCEPT\n" * int(131_072 * share))


measure([
    ("accepts of everything, 131,072 of them", "upper", lambda share: wrapped(b"-A FORWARD -j ACCEPT\n" * int(131_072 * share))),
    ("two lines each, 262,144 in the end", "upper", outside),
    ("prefix rules, 131,072 of them", "upper", lambda share: many(int(131_072 * share), prefix)),
    ("the same", "lower", lambda share: many(int(131_072 * share), prefix)),
    ("rules of six matches, 131,072 of them", "upper", lambda share: many(int(131_072 * share), five)),
    ("rules with 15 ports, 131,072 of them", "upper", long),
    ("254 returns that give 16,384 cubes", "upper", cubes),
    ("4,194,304 literals over 2,048 rules", "upper", literals),
    ("doubtful calls of eight chains", "upper", doubtful),
    ("the same", "lower", doubtful),
    ("16,777,216 visits", "explain", visits),
    ("returns by 16,384 sources", "upper", sources),
])
