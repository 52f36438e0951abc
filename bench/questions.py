#!/usr/bin/env python3
"""Times `matrix`, `spoof`, `load` and `cover` of the built program on generated dumps, and prints seconds, peak memory and the growth
from one size to the next. It asserts nothing.

    python3 bench/questions.py [PROGRAM]"""
from measure import HEAD, doubtful, measure, wrapped


def even_nets(share):
    """Rules that accept from every second net: two boundaries each, 4,096 in the end."""
    return wrapped(*(b"-A FORWARD -s 10.%d.%d.0/24 -j ACCEPT\n" % (number >> 7, number % 128 * 2) for number in range(int(2048 * share))))


def pairs(share):
    """Rules that accept from one net to another, 1,024 in the end."""
    return wrapped(*(b"-A FORWARD -s 10.0.%d.%d/32 -d 10.1.%d.%d/32 -j ACCEPT\n" % (n >> 7, n % 128 * 2, n >> 7, n % 128 * 2)
                     for n in range(int(1024 * share))))


def crossed(share):
    """Each source is barred from one destination of its own, and each destination opened by a rule of its own: 4,096 boundaries."""
    hosts = [b"%d.%d/32" % (n >> 7, n % 128 * 2) for n in range(int(1024 * share))]
    return wrapped(*(b"-A FORWARD -s 10.0.%s -d 10.1.%s -j DROP\n" % (host, host) for host in hosts),
                   *(b"-A FORWARD -d 10.1.%s -j ACCEPT\n" % host for host in hosts))


def regions(share, *more):
    """Drops after which 65,536 pieces of the forged packets are left."""
    ports = int(314 * share)
    lines = [b"-A FORWARD -s 1.0.0.%d/32 -d 2.0.0.%d/32 -j DROP\n" % (number, number) for number in range(15)]
    lines += [b"-A FORWARD -p tcp -m tcp --sport %d -m tcp --dport 1000 -j DROP\n" % (number + 1) for number in range(ports)]
    lines += [b"-A FORWARD -p tcp -m tcp --dport %d -m tcp --tcp-flags SYN SYN -j DROP\n" % (2000 + number) for number in range(12)]
    return wrapped(*lines, *more)


def misses(share):
    """The same, and 2,000 accepting rules of other interfaces, which no forged packet comes in by."""
    return regions(share, *(b"-A FORWARD -i wan%d -j ACCEPT\n" % number for number in range(2000)))


def searches(share):
    """The same, and 2,000 accepting rules of forged packets that a drop before them has taken: each looks at every piece."""
    return regions(1, *(b"-A FORWARD -s 1.0.0.0/32 -d 2.0.0.0/32 -p udp -m udp --dport %d -j ACCEPT\n" % (number + 1)
                        for number in range(int(2000 * share))))


def itself(text):
    """Two dumps of this text."""
    return text + b"%%\n" + text


def services(share):
    """4,000 rules that accept a service from a net of its own, against the same."""
    return itself(wrapped(*(b"-A FORWARD -s 10.%d.%d.0/24 -p tcp -m tcp --dport %d -j ACCEPT\n" % (n >> 8, n % 256, 1000 + n)
                            for n in range(int(4000 * share)))))


def block_list(share):
    """20,000 drops by source and an accept behind them, against the same."""
    return itself(wrapped(*(b"-A FORWARD -s 10.%d.%d.%d/32 -j DROP\n" % (n >> 16, n >> 8 & 255, n % 256) for n in range(int(20000 * share))),
                          b"-A FORWARD -j ACCEPT\n"))


measure([
    ("a generated dump of 1,000 rules", "matrix tcp:1:3", doubtful),
    ("the same", "matrix tcp:1:3 --side lower", doubtful),
    ("4,096 boundaries, all accepted sources alike", "matrix tcp:1:1", even_nets),
    ("1,024 pairs of addresses", "matrix tcp:1:1", pairs),
    ("1,024 sources crossed with destinations", "matrix tcp:1:1", crossed),
    ("65,536 pieces of forged packets", "spoof eth0=9.9.9.9", regions),
    ("65,536 pieces, 2,000 accepts that miss", "spoof eth0=9.9.9.9", misses),
    ("65,536 pieces, 2,000 accepts behind drops", "spoof eth0=9.9.9.9", searches),
    ("nothing on standard input", "load 1000", lambda share: HEAD),
    ("4,000 accepted services against the same", "cover", services),
    ("20,000 drops and an accept against the same", "cover", block_list),
])
