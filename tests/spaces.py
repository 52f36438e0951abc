#!/usr/bin/env python3
"""Compares `matrix` with zones and routes, `zones` and `routes` of the built program with plain Python, on random dumps: an edge has to
be what walks through the dump itself say of packets that respect the words, and the texts have to be those that a plain search gives.

    python3 tests/spaces.py PROGRAM COUNT START

Prints the first cases that disagree and a last line 'N passed, M failed'; the exit status is 1 where one failed."""
import ipaddress
import sys

import filters
import questions
import walker

INTERFACES = ["eth0", "eth1", "eth10", "lo", "ppp0", "br-lan", "eth+", "a=b"]


def top_of(family):
    return 2 ** (32 if family == 4 else 128)


def nets(rng, family, count):
    """Some nets of random lengths, each once."""
    lengths = [0, 0, 1, 8, 24, 31, 32] if family == 4 else [0, 0, 1, 32, 64, 127, 128]
    found = [ipaddress.ip_network(f"{rng.choice(filters.addresses(family))}/{rng.choice(lengths)}", strict=False) for _ in range(count)]
    return list(dict.fromkeys(found))


def zones(rng, family):
    """Zones, each a name and disjoint intervals: what earlier ones left of some nets."""
    taken, found = [], []
    for name in rng.sample(INTERFACES, rng.randrange(1, 4)):
        inside = []
        for net in nets(rng, family, rng.randrange(1, 3)):
            parts = [(int(net.network_address), int(net.broadcast_address))]
            for first, last in taken:
                cut = [(a, min(b, first - 1)) for a, b in parts] + [(max(a, last + 1), b) for a, b in parts]
                parts = [(a, b) for a, b in cut if a <= b]
            inside += parts
            taken += parts
        if inside:
            found.append((name, inside))
    return found


def routes(rng, family):
    return [(net, rng.choice(INTERFACES)) for net in nets(rng, family, rng.randrange(1, 6))]


def zone_words(given, family):
    return [f"{name}={','.join(f'{questions.address_text(a, family)}-{questions.address_text(b, family)}' for a, b in inside)}"
            for name, inside in given]


def route_words(given):
    return [f"via:{net}={name}" for net, name in given]


def way_in(given, source):
    """The name of the zone that has the source, or nothing."""
    return next((name for name, inside in given if any(a <= source <= b for a, b in inside)), None)


def way_out(given, destination):
    """The name of the longest net that has the destination, or nothing."""
    fitting = [(net.prefixlen, name) for net, name in given if int(net.network_address) <= destination <= int(net.broadcast_address)]
    return max(fitting)[1] if fitting else None


def parts(dump, family, given_zones, given_routes):
    """Intervals of addresses that nothing in the dump or the words parts."""
    firsts = {first for first, _ in questions.atoms(dump, family)}
    for first, last in [pair for _, inside in given_zones for pair in inside]:
        firsts |= {first, last + 1}
    for net, _ in given_routes:
        firsts |= {int(net.network_address), int(net.broadcast_address) + 1}
    firsts = sorted(first for first in firsts if first < top_of(family))
    return list(zip(firsts, [first - 1 for first in firsts[1:]] + [top_of(family) - 1]))


def read_matrix(text):
    """The classes, each its intervals, and the edges of a printed matrix."""
    lines = text.splitlines()
    count = int(lines[0].split()[1])
    classes = []
    for line in lines[1:count + 1]:
        ends = [part.split("-") for part in line.split()[1].split(",")]
        classes.append([(int(ipaddress.ip_address(pair[0])), int(ipaddress.ip_address(pair[-1]))) for pair in ends])
    return classes, {tuple(map(int, line.split())) for line in lines[count + 2:]}


def class_of(classes, address):
    return next(at for at, inside in enumerate(classes) if any(a <= address <= b for a, b in inside))


def matrix_disagreements(program, rng, family, given, given_zones, given_routes):
    """Each edge against walks through the dump itself, for pairs of addresses of which the words say something."""
    hidden = [option for option, words in (("-i", given_zones), ("-o", given_routes)) if not words]
    chains = walker.dump(given, hidden=hidden)
    service = rng.choice(questions.SERVICES)
    words = zone_words(given_zones, family) + route_words(given_routes)
    rng.shuffle(words)
    places = [rng.choice(pair) for pair in parts(given, family, given_zones, given_routes)]
    for side, accepts in (("upper", lambda found: "accept" in found), ("lower", lambda found: found == {"accept"})):
        status, out, err = filters.asked(program, ["matrix", service, *words, "--side", side], family, given)
        if status != 0:
            yield f"matrix {service} {words}: {status} {err}\n{given}"
            return
        classes, edges = read_matrix(out)
        for source in places:
            for destination in places:
                into = way_in(given_zones, source) if given_zones else ""
                out_of = way_out(given_routes, destination) if given_routes else ""
                if into is None or out_of is None:
                    continue
                p = {**questions.service_packet(service, source, destination), "in": into, "out": out_of}
                wanted = accepts(walker.verdicts(chains, "FORWARD", p))
                if ((class_of(classes, source), class_of(classes, destination)) in edges) != wanted:
                    yield f"matrix {service} {words} of side {side}, {p}: wanted {wanted}\n{given}\n{out}"
                    return


def reached(given):
    """The chains that FORWARD calls or goes to, over any number of steps, in the order of the dump."""
    chains = walker.dump(given)
    found, left = {"FORWARD"}, ["FORWARD"]
    while left:
        for _, _, target in chains[left.pop()][1]:
            callee = walker.action(target)[1]
            if callee and callee not in found:
                found.add(callee)
                left.append(callee)
    return [name for name in chains if name in found]


def unnamed(given, option, names):
    """The patterns of this option in rules in reach that match none of the names, each once."""
    found = []
    for chain in reached(given):
        for line in given.splitlines():
            words = [word.decode() for word, _ in walker.reader.words_of(line.encode())]
            if words[:2] != ["-A", chain]:
                continue
            found += [text for word, text in zip(words[2:], words[3:]) if word == option]
    return [text for text in dict.fromkeys(found) if not any(walker.pattern(text)(name) for name in names)]


def unnamed_lines(given, option, names):
    left = [f'"{text}"' if " " in text else text for text in unnamed(given, option, names)]
    return [f"unnamed {len(left)}", *left]


def shown(name):
    """A name as answers show it."""
    plain = all(sign.isascii() and (sign.isalnum() or sign in "._+:@/-") for sign in name)
    return name if plain else "hex:" + name.encode().hex()


def text_disagreements(program, family, given, given_zones, given_routes):
    """The texts of both modes against a plain search."""
    cut = parts(given, family, given_zones, given_routes)
    if given_zones:
        left = questions.ranges_text([pair for pair in cut if way_in(given_zones, pair[0]) is None], family)
        wanted = [f"uncovered {left}" if left else "covered all", *unnamed_lines(given, "-i", [name for name, _ in given_zones])]
        got = filters.asked(program, ["zones", *zone_words(given_zones, family)], family, given)
        if got != (0, "".join(f"{line}\n" for line in wanted), ""):
            yield f"zones {given_zones}: {got}, wanted {wanted}\n{given}"
    if given_routes:
        names = list(dict.fromkeys(name for _, name in given_routes))
        wanted = [f"names {len(names)}"]
        for name in names:
            wanted.append(f"{shown(name)} " + (questions.ranges_text([pair for pair in cut if way_out(given_routes, pair[0]) == name], family) or "none"))
        wanted.append("unrouted " + (questions.ranges_text([pair for pair in cut if way_out(given_routes, pair[0]) is None], family) or "none"))
        wanted += unnamed_lines(given, "-o", names)
        got = filters.asked(program, ["routes", *route_words(given_routes)], family, given)
        if got != (0, "".join(f"{line}\n" for line in wanted), ""):
            yield f"routes {given_routes}: {got}, wanted {wanted}\n{given}"


def more_names(rng, given):
    """The same dump with a test of an interface in front of the matches of some rules that have none."""
    lines = []
    for line in given.splitlines():
        words = line.split(" ", 2)
        if line.startswith("-A") and " -i " not in line and " -o " not in line and rng.random() < 0.6:
            test = f"{filters.maybe_not(rng)}{rng.choice(['-i', '-o'])} {rng.choice(filters.PATTERNS)}"
            line = " ".join([words[0], words[1], test, *words[2:]])
        lines.append(line)
    return "\n".join([*lines, ""])


def disagreements(program, rng, family):
    """What is wrong with the answers for one random dump and random words."""
    given = more_names(rng, filters.text(rng, family))
    which = rng.choice(["zones", "routes", "both", "both"])
    given_zones = zones(rng, family) if which != "routes" else []
    given_routes = routes(rng, family) if which != "zones" or not given_zones else []
    yield from matrix_disagreements(program, rng, family, given, given_zones, given_routes)
    yield from text_disagreements(program, family, given, given_zones, given_routes)


if __name__ == "__main__":
    if len(sys.argv) != 4:
        sys.exit(__doc__)
    sys.exit(filters.main(sys.argv[1], int(sys.argv[2]), int(sys.argv[3]), disagreements))
