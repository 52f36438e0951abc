#!/usr/bin/env python3
"""Compares `matrix` and `spoof` of the built program with walks over the dump itself, on random dumps: a matrix has to be the one
that the walks between all addresses give, and a verdict on forged sources has to be right.

    python3 tests/questions.py PROGRAM COUNT START

Prints the first cases that disagree and a last line 'N passed, M failed'; the exit status is 1 where one failed."""
import sys

import filters
import walker

SERVICES = ["tcp:1024:22", "tcp:1:80", "udp:53:53", "sctp:1:21", "icmp:0:0", "ipv6-icmp:1:2", "47:1:2", "0:0:0", "tcp:22:65535"]
# the type of a message that asks for an echo
ECHO_REQUESTS = {1: 8, 58: 128}
CLAIMED = ["eth0", "eth1", "lo", "ppp0", "br-lan", "eth+"]
ADDRESS_OPTIONS = ("-s", "-d", "--src-range", "--dst-range")


def address_text(value, family):
    return str(walker.ipaddress.IPv4Address(value) if family == 4 else walker.ipaddress.IPv6Address(value))


def ends_of(text):
    """The first and the last address of a net or a range."""
    if "-" in text:
        first, last = text.split("-")
        return int(walker.ipaddress.ip_address(first)), int(walker.ipaddress.ip_address(last))
    found = walker.ipaddress.ip_network(text, strict=False)
    return int(found.network_address), int(found.broadcast_address)


def atoms(given, family):
    """Intervals of addresses that no match of the dump parts."""
    top = 2 ** (32 if family == 4 else 128)
    firsts = {0}
    for line in given.splitlines():
        words = line.split()
        for option, text in zip(words, words[1:]):
            if option in ADDRESS_OPTIONS:
                first, last = ends_of(text)
                firsts |= {first, last + 1}
    firsts = sorted(first for first in firsts if first < top)
    return list(zip(firsts, [first - 1 for first in firsts[1:]] + [top - 1]))


def service_packet(service, source, destination):
    proto, sport, dport = service.split(":")
    number = walker.protocol(proto)
    return {"in": "", "out": "", "src": source, "dst": destination, "proto": number, "sport": int(sport), "dport": int(dport),
            "flags": 2 if number == 6 else 0, "state": 1, "icmp": ECHO_REQUESTS.get(number, 0)}


def ranges_text(intervals, family):
    merged = []
    for first, last in intervals:
        if merged and merged[-1][1] + 1 == first:
            merged[-1][1] = last
        else:
            merged.append([first, last])
    return ",".join(address_text(a, family) + (f"-{address_text(b, family)}" if a != b else "") for a, b in merged)


def matrix_text(given, family, service, accepts):
    """The one matrix: addresses are in one class where each edge to and from them is the same."""
    chains = walker.dump(given, hidden=("-i", "-o"))
    parts = atoms(given, family)
    edges = [[accepts(walker.verdicts(chains, "FORWARD", service_packet(service, s, d))) for d, _ in parts] for s, _ in parts]
    classes = {}
    for at, row in enumerate(edges):
        classes.setdefault((tuple(row), tuple(other[at] for other in edges)), []).append(at)
    members = list(classes.values())
    lines = [f"classes {len(members)}"]
    lines += [f"{number} {ranges_text([parts[at] for at in places], family)}" for number, places in enumerate(members)]
    pairs = [(i, j) for i, a in enumerate(members) for j, b in enumerate(members) if edges[a[0]][b[0]]]
    return "".join(f"{line}\n" for line in [*lines, f"edges {len(pairs)}", *(f"{i} {j}" for i, j in pairs)])


def matrix_disagreements(program, rng, family, given):
    service = rng.choice(SERVICES)
    for side, accepts in (("upper", lambda found: "accept" in found), ("lower", lambda found: found == {"accept"})):
        status, out, err = filters.asked(program, ["matrix", service, "--side", side], family, given)
        wanted = matrix_text(given, family, service, accepts)
        if (status, out) != (0, wanted):
            yield f"matrix {service} of side {side}: {status} {err}{out}, wanted {wanted}\n{given}"


def shown_packet(text):
    """The packet of a line of `spoof`, from its fields."""
    fields = dict(part.split("=", 1) for part in text.split(" "))

    def name(shown):
        return bytes.fromhex(shown[4:]).decode("latin-1") if shown.startswith("hex:") else shown

    return {"in": name(fields["in"]), "out": name(fields["out"]), "src": int(walker.ipaddress.ip_address(fields["src"])),
            "dst": int(walker.ipaddress.ip_address(fields["dst"])), "proto": int(fields["proto"]), "sport": int(fields["sport"]),
            "dport": int(fields["dport"]), "flags": walker.flags(fields["flags"]), "state": walker.STATES.index(fields["state"]),
            "icmp": int(fields["icmp"])}


def spoof_disagreements(program, rng, family, given):
    chains = walker.dump(given, hidden=("-o",))
    lengths = [0, 1, 8, 24, 32] if family == 4 else [0, 1, 32, 64, 128]
    claims = [(rng.choice(CLAIMED), f"{rng.choice(filters.addresses(family))}/{rng.choice(lengths)}") for _ in range(3)]
    status, out, err = filters.asked(program, ["spoof", *(f"{name}={net}" for name, net in claims)], family, given)
    if status != 0 or len(out.splitlines()) != len(claims):
        yield f"spoof of {claims}: {status} {err}{out}\n{given}"
        return
    for (name, net), line in zip(claims, out.splitlines()):
        first, last = ends_of(net)

        def is_forged(p):
            return p["in"] == name and p["state"] == 1 and not first <= p["src"] <= last

        if line == f"{name} holds":
            for _ in range(60):
                p = {**filters.packet(rng, family), "in": name, "state": 1}
                if is_forged(p) and "accept" in walker.verdicts(chains, "FORWARD", p):
                    yield f"{line} of {net}, but {p} may pass\n{given}"
                    break
        else:
            p = shown_packet(line.removeprefix(f"{name} violated "))
            if not is_forged(p) or "accept" not in walker.verdicts(chains, "FORWARD", p):
                yield f"{line} of {net}\n{given}"


def long_chain(rng, family):
    """A dump of one chain of many rules between the nets of eight hosts, some of them doubtful."""
    start, width = ("10.0.0.", 32) if family == 4 else ("2001:db8::", 128)

    def net():
        return f"{start}{rng.randrange(8)}/{rng.choice([width, width, width - 1, width - 2])}"

    rules = []
    for _ in range(rng.randrange(17, 70)):
        said = [f"-s {net()}"] * rng.randrange(2) + [f"-d {net()}"] * rng.randrange(2) + ["-m limit --limit 5/sec"] * (rng.random() < 0.1)
        rules.append(" ".join(["-A FORWARD", *(said or [f"-s {net()}"]), "-j", rng.choice(["ACCEPT", "DROP"])]))
    return "\n".join(["*filter", f":FORWARD {rng.choice(['ACCEPT', 'DROP'])} [0:0]", *rules, "COMMIT", ""])


def disagreements(program, rng, family):
    """What is wrong with the answers for two random dumps."""
    given = filters.text(rng, family)
    yield from matrix_disagreements(program, rng, family, given)
    yield from spoof_disagreements(program, rng, family, given)
    yield from matrix_disagreements(program, rng, family, long_chain(rng, family))


if __name__ == "__main__":
    if len(sys.argv) != 4:
        sys.exit(__doc__)
    sys.exit(filters.main(sys.argv[1], int(sys.argv[2]), int(sys.argv[3]), disagreements))
