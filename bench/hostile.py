#!/usr/bin/env python3
"""Times the built program on dumps that somebody made to keep it busy, each within all limits on the input, and prints
seconds, peak memory and the growth from one size to the next. It asserts nothing.

    python3 bench/hostile.py [PROGRAM]"""
from measure import measure, wrapped


def address(number):
    return b"10.%d.%d.%d" % (number >> 16 & 255, number >> 8 & 255, number & 255)


def block_list(count, *behind):
    """Drops by source, two calls below a doubtful match."""
    drops = (b"-A B -s %s/32 -j DROP\n" % address(number) for number in range(count))
    return wrapped(b":A - [0:0]\n:B - [0:0]\n-A FORWARD -m recent --update -j A\n-A A -j B\n", *behind, b"".join(drops))


def blocked(count):
    return lambda share: block_list(int(count * share))


def blocked_before(count):
    return lambda share: block_list(int(count * share), b"-A A -j ACCEPT\n")


def blocked_among_others(share):
    """The same list, where the asked chain has returned for many other addresses before."""
    others = b"".join(b"-A FORWARD -s 172.%d.%d.0/24 -j RETURN\n" % (16 + (number >> 8 & 15), number & 255) for number in range(0, 4096, 2))
    drops = (b"-A B -s %s/32 -j DROP\n" % address(number) for number in range(int(2_000 * share)))
    return wrapped(b":A - [0:0]\n:B - [0:0]\n", others, b"-A FORWARD -m recent --update -j A\n-A A -j B\n-A A -j ACCEPT\n", b"".join(drops))


def idle_calls(share):
    """Calls of a chain whose rules decide nothing."""
    return wrapped(b":C - [0:0]\n", b"-A FORWARD -j C\n" * int(5_000 * share), b"-A C -j LOG\n" * int(20_000 * share))


def late_verdict(share):
    """The same with one verdict at the end of the called chain."""
    return wrapped(b":C - [0:0]\n", b"-A FORWARD -j C\n" * int(5_000 * share), b"-A C -j LOG\n" * int(20_000 * share),
                   b"-A C -s 10.0.0.1/32 -j ACCEPT\n")


def doubtful_returns(*behind):
    return lambda share: wrapped(b"-A FORWARD -m recent --rcheck -j RETURN\n" * int(131_000 * share), *behind)


def sure_refusal(share):
    """Returns that give nearly 16,384 cubes, and then accepts of each."""
    pairs = [b"-A C -s 10.0.0.%d/32 -d 192.168.0.0/16 -j RETURN\n" % number for number in range(1, 11)]
    pairs += [b"-A C -i a%d -o b0 -j RETURN\n" % number for number in range(10)]
    pairs += [b"-A C -p tcp -m tcp --sport %d --dport 1 -j RETURN\n" % number for number in range(1, 11)]
    states = (b"NEW", b"ESTABLISHED", b"RELATED", b"INVALID", b"UNTRACKED")
    flags = (b"SYN", b"ACK", b"FIN")
    pairs += [b"-A C -p tcp -m tcp --tcp-flags %s %s -m conntrack --ctstate %s -j RETURN\n" % (flag, flag, state)
              for flag in flags for state in states][:11]
    return wrapped(b":C - [0:0]\n-A FORWARD -p tcp -j C\n", *pairs, b"-A C -j ACCEPT\n" * int(40_000 * share))


def names(share):
    """Returns for as many interfaces, and an accept."""
    return wrapped(b"".join(b"-A FORWARD -i port%d -j RETURN\n" % number for number in range(int(16_000 * share))), b"-A FORWARD -j ACCEPT\n")


def pieces(many, behind):
    """A region of 65,536 pieces, and rules that meet none of them."""
    def made(share):
        nets = [b"-A FORWARD -s 10.0.0.%d/32 -d 192.168.0.0/16 -j DROP\n" % number for number in range(1, 256)]
        ports = [b"-A FORWARD -p tcp -m tcp --sport %d --dport 1 -j DROP\n" % number for number in range(1, 256)]
        return wrapped(b"-A FORWARD ! -p tcp -j DROP\n", *nets, *ports, behind * int(many * share), b"-A FORWARD -j ACCEPT\n")
    return made


def turns(share):
    """Sources and destinations with rules of their own, so that each group is a class."""
    count = int(1_024 * share)
    return wrapped(b"".join(b"-A FORWARD -s %s/32 -j ACCEPT\n" % address(4 * number) for number in range(count)),
                   b"".join(b"-A FORWARD -d 172.16.%d.%d/32 -j ACCEPT\n" % (number >> 6, number << 2 & 255) for number in range(count - 1)))


def ports_of_machines(share):
    """Chains as a cloud's agent writes them for the ports of virtual machines."""
    lines = [b":sg-chain - [0:0]\n:sg-fallback - [0:0]\n"]
    rules = [b"-A FORWARD -j sg-chain\n"]
    for number in range(int(40 * share)):
        name = b"i%08x" % (number * 2654435761 & 0xFFFFFFFF)
        lines.append(b":%s - [0:0]\n:o%s - [0:0]\n:s%s - [0:0]\n" % (name, name, name))
        tap = b"tap%s" % name
        for option, chain in ((b"--physdev-out", name), (b"--physdev-in", b"o" + name)):
            rules.append(b"-A sg-chain -m physdev %s %s --physdev-is-bridged -j %s\n" % (option, tap, chain))
        rules += [b"-A %s -m state --state RELATED,ESTABLISHED -j RETURN\n" % name, b"-A %s -p tcp -m tcp --dport 22 -j RETURN\n" % name,
                  b"-A %s -p icmp -j RETURN\n" % name, b"-A %s -m state --state INVALID -j DROP\n" % name, b"-A %s -j sg-fallback\n" % name,
                  b"-A s%s -s %s/32 -m mac --mac-source FA:16:3E:00:00:%02X -j RETURN\n" % (name, address(number), number & 255),
                  b"-A s%s -j DROP\n" % name, b"-A o%s -j s%s\n" % (name, name),
                  b"-A o%s -p udp -m udp --sport 67 --dport 68 -j DROP\n" % name, b"-A o%s -m state --state RELATED,ESTABLISHED -j RETURN\n" % name,
                  b"-A o%s -j RETURN\n" % name]
    return wrapped(*lines, *rules, b"-A sg-fallback -j DROP\n-A sg-chain -j ACCEPT\n")


def doubling(share):
    """Seventy chains, each of which calls the next one twice."""
    chains = [b"c%d" % number for number in range(int(70 * share))]
    heads = b"".join(b":%s - [0:0]\n" % name for name in chains)
    calls = b"".join(b"-A %s -j %s\n" % (one, next_one) * 2 for one, next_one in zip(chains, chains[1:]))
    return wrapped(heads, b"-A FORWARD -j c0\n", calls, b"-A %s -j ACCEPT\n" % chains[-1])


measure([
    ("a block list of 10,000 below a doubtful call", "upper", blocked(10_000)),
    ("one of 200,000", "upper", blocked(200_000)),
    ("one of 1,000, with an accept behind", "upper", blocked_before(1_000)),
    ("one of 2,895, with an accept behind", "upper", blocked_before(2_895)),
    ("one of 2,000, behind 2,048 other networks", "upper", blocked_among_others),
    ("5,000 calls of 20,000 rules that log", "upper", idle_calls),
    ("the same with a verdict at the end", "upper", late_verdict),
    ("131,000 doubtful returns", "upper", doubtful_returns()),
    ("the same with an accept behind", "upper", doubtful_returns(b"-A FORWARD -s 10.0.0.1/32 -j ACCEPT\n")),
    ("40,000 accepts of 15,972 cubes each", "upper", sure_refusal),
    ("returns for 16,000 interfaces", "upper", names),
    ("20,000 drops of another interface, all pieces", "spoof eth0=127.0.0.0/8", pieces(20_000, b"-A FORWARD -i eth1 -j DROP\n")),
    ("20,000 accepts of another source, all pieces", "spoof eth0=127.0.0.0/8", pieces(20_000, b"-A FORWARD -s 8.8.8.8/32 -j ACCEPT\n")),
    ("1,024 sources crossed with 1,023 destinations", "matrix tcp:1:3", turns),
    ("the ports of 40 virtual machines", "upper", ports_of_machines),
    ("the same", "lower", ports_of_machines),
    ("seventy chains that call the next twice", "check", doubling),
    ("the same", "upper", doubling),
    ("the same", "matrix tcp:1:3", doubling),
    ("the same", "explain", doubling),
])
