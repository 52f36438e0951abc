#!/usr/bin/env python3
"""Compares `cover` of the built program with walks over the dumps themselves, on random pairs of dumps, most of them one dump before and
behind a change. Where it says that all is covered, no packet of a grid may be accepted by the first dump that the second need not accept;
and where the grid has a packet for each way in which one can meet the matches of both, it has to say so exactly where there is none. Where it
shows a packet, that has to be such a one; of dumps of one chain whose rules are single regions, the one that a plain search of regions
finds. A dump has to be covered by its upper filter, and its lower filter by the dump.

    python3 tests/pairs.py PROGRAM COUNT START

Prints the first cases that disagree, how often each answer came, and a last line 'N passed, M failed'; the exit status is 1 where one
failed."""
import itertools
import math
import random
import sys

import filters
import questions
import reader
import walker

# so many packets of a grid are looked at
MOST = 600
ANSWERS = {"covered": 0, "not covered": 0}
SMALL = {
    "-i": ["{}-i eth0", "{}-i eth+", "-i +"], "-o": ["{}-o eth1", "{}-o lo"], "-p": ["{}-p tcp", "{}-p udp", "{}-p icmp", "-p all"],
    "ports": ["-m tcp {}--dport 22", "-m tcp {}--sport 0:21", "-m udp {}--dport 53"], "flags": ["-m tcp {}--syn", "-m tcp {}--tcp-flags ALL NONE"],
    "states": ["-m conntrack {}--ctstate NEW", "-m state {}--state RELATED,ESTABLISHED"],
    "types": ["-m icmp {}--icmp-type 8", "-m icmp6 {}--icmpv6-type 128"],
}
NETS = {4: ["10.0.0.0/8", "10.0.0.0/31", "0.0.0.0/1"], 6: ["2001:db8::/32", "2001:db8::/127", "::/1"]}


def asked(program, family, first, second):
    """The packet that is shown, with its words, None where all is covered, and a text where it is neither."""
    status, out, err = filters.asked(program, ["cover"], family, f"{first}%%\n{second}")
    if (status, out, err) == (0, "covered\n", ""):
        ANSWERS["covered"] += 1
        return None
    if status != 0 or err or not out.startswith("not covered in=") or out.count("\n") != 1:
        return f"{status} {err}{out}"
    ANSWERS["not covered"] += 1
    shown = out[len("not covered "):-1]
    return {**questions.shown_packet(shown), "words": shown.split(" ")}


def is_left_over(first, second):
    """Whether a packet with these verdicts by the two dumps may be accepted by the first and need not be by the second."""
    return "accept" in first and second != {"accept"}


def pairs_of_words(text):
    """Each word of the rules of a dump with the one behind it."""
    for line in text.splitlines():
        if line.startswith("-A "):
            words = [word.decode() for word, _ in reader.words_of(line.encode())]
            yield from zip(words, words[1:])


def names(patterns):
    found = {"", "~"}
    for text in patterns:
        found |= {text[:-1], text[:-1] + "~"} if text.endswith("+") else {text}
    return sorted(found)


def one_of_each(values, tests):
    """The first one of all values of which the same tests hold."""
    found = {}
    for value in values:
        found.setdefault(tuple(test(value) for test in tests), value)
    return list(found.values())


def flag_test(words):
    mask, comp = (23, 2) if words == ["--syn"] else map(walker.flags, words)
    return lambda value: value & mask == comp


def flag_tests(text):
    for line in text.splitlines():
        words = line.split(" ")
        for at, word in enumerate(words):
            if word in ("--syn", "--tcp-flags"):
                yield flag_test(["--syn"] if word == "--syn" else words[at + 1:at + 3])


def grid(text, family):
    """For each field of a packet some of its values, so that each other value meets the matches of the text as one of them does."""
    words = list(pairs_of_words(text))

    def behind(*options):
        return [after for option, after in words if option in options]

    ports = [end for after in behind("--sport", "--dport", "--sports", "--dports", "--ports") for first, last in walker.ports(after) for end in (first, last + 1)]
    ports = sorted({0, *(port for port in ports if port < 65536)})
    modules = {"tcp": 6, "udp": 17, "icmp": 1, "icmp6": 58}
    protocols = {walker.protocol(it) for it in behind("-p") if it not in ("all", "0")} | {modules[it] for it in behind("-m") if it in modules}
    states = [[walker.STATES.index(state) for state in it.split(",")] for it in behind("--state", "--ctstate")]
    types = {number for it in behind("--icmp-type", "--icmpv6-type") if (number := reader.number(it.encode(), 254)) is not None}
    addresses = [first for first, _ in questions.atoms(text, family)]

    def and_another(numbers):
        return sorted({*numbers, next(number for number in range(256) if number not in numbers)})

    return {"in": names(behind("-i")), "out": names(behind("-o")), "src": addresses, "dst": addresses, "proto": and_another(protocols),
            "sport": ports, "dport": ports, "flags": one_of_each(range(64), list(flag_tests(text))),
            "state": one_of_each(range(5), [lambda value, it=it: value in it for it in states]), "icmp": and_another(types)}


def packets(rng, values):
    """The packets of a grid, and whether these are all; else random ones."""
    if math.prod(map(len, values.values())) <= 4 * MOST:
        return [dict(zip(values, it)) for it in itertools.product(*values.values())], True
    return [{field: rng.choice(some) for field, some in values.items()} for _ in range(MOST)], False


def small_rules(rng, family):
    """Rules of few kinds of matches, so that the grid of two such dumps is small."""
    net = rng.sample(NETS[family], 2)
    kinds = {"-s": [f"{{}}-s {it}" for it in net], "-d": [f"{{}}-d {it}" for it in net], **SMALL}
    kinds = {kind: kinds[kind] for kind in rng.sample(sorted(kinds), 3)}
    doubt = rng.choice([0, 0.3])
    targets = [("FORWARD", "A")] + [(chain, target) for chain in ("FORWARD", "A") for target in ("ACCEPT", "ACCEPT", "DROP")] + [("A", "RETURN")]
    for _ in range(rng.randrange(2, 8)):
        found = [rng.choice(kinds[kind]).format(filters.maybe_not(rng)) for kind in rng.sample(sorted(kinds), rng.randrange(3))]
        found += ["-m limit --limit 5/sec"] * (rng.random() < doubt)
        chain, target = rng.choice(targets)
        yield " ".join(["-A", chain, *found, rng.choice(["-j", "-j", "-g"]) if target == "A" else "-j", target])


def small(rng, family):
    policy = rng.choice(["ACCEPT", "DROP"])
    return "\n".join(["*filter", f":FORWARD {policy} [0:0]", ":A - [0:0]", *small_rules(rng, family), "COMMIT", ""])


def without_doubt(text):
    for unknown in filters.UNKNOWN:
        text = text.replace(" " + unknown, "")
    return text


def changed(rng, text):
    """The dump behind some changes: a rule more, less or elsewhere, another verdict, no doubt in a rule, or another policy."""
    lines = text.splitlines()
    for _ in range(rng.choice([0, 1, 1, 2, 2, 3])):
        rules = [at for at, line in enumerate(lines) if line.startswith("-A ")] or [len(lines) - 1]
        at, to = rng.choice(rules), rng.choice(rules)
        kind = rng.randrange(7)
        if kind == 0:
            lines[1] = lines[1].replace("DROP", "*").replace("ACCEPT", "DROP").replace("*", "ACCEPT")
        elif lines[at] == "COMMIT":
            lines.insert(at, "-A FORWARD -p tcp -j ACCEPT")
        elif kind == 1:
            lines.insert(to, lines.pop(at))
        elif kind == 2:
            del lines[at]
        elif kind == 3:
            lines[at] = without_doubt(lines[at])
        elif kind == 4:
            lines[at] = lines[at].replace("-j DROP", "-j ACCEPT") if "-j DROP" in lines[at] else lines[at].replace("-j ACCEPT", "-j DROP")
        else:
            words = lines[at].split(" ")
            lines.insert(to, " ".join(["-A FORWARD", *words[2:-2], "-j", rng.choice(["ACCEPT", "ACCEPT", "DROP"])]))
    return "\n".join([*lines, ""])


def two_dumps(rng, family):
    made = rng.choice([small, small, filters.text, lambda rng, _: filters.winding(rng)])
    first = made(rng, family)
    second = changed(rng, first) if rng.random() < 0.9 else made(rng, family)
    if rng.random() < 0.3:
        first, second = without_doubt(first), without_doubt(second)
    return (first, second) if rng.random() < 0.5 else (second, first)


def answers(program, rng, family, dumps):
    """What is wrong with the answers for two dumps: for each against the other, and for each against itself."""
    chains = [walker.dump(it) for it in dumps]
    grid_packets, all_there = packets(rng, grid("".join(dumps), family))
    met = [[walker.verdicts(it, "FORWARD", p) for it in chains] for p in grid_packets]
    for i, j in itertools.product((0, 1), repeat=2):
        told = f"{dumps[i]}%%\n{dumps[j]}"
        shown = asked(program, family, dumps[i], dumps[j])
        left = next((p for p, found in zip(grid_packets, met) if is_left_over(found[i], found[j])), None)
        if isinstance(shown, str):
            yield f"{shown}of\n{told}"
        elif shown is None and left is not None:
            yield f"covered, but {left} is not\n{told}"
        elif shown is not None and not is_left_over(*(walker.verdicts(chains[at], "FORWARD", shown) for at in (i, j))):
            yield f"shown is {shown}, which is no such packet\n{told}"
        elif shown is not None and all_there and left is None:
            yield f"shown is {shown}, but no packet of the grid is left over\n{told}"
        elif isinstance(shown, dict):
            lines = [filters.asked(program, ["explain", *shown["words"]], family, dumps[at])[1] for at in (i, j)]
            if "accept never" in lines[0] or "drop never" in lines[1]:
                yield f"shown is {shown}, which `explain` tells otherwise: {lines}\n{told}"


def filters_of(program, family, given):
    """What is wrong with the answers for a dump and its two filters."""
    upper, lower = (filters.asked(program, [mode], family, given)[1] for mode in ("upper", "lower"))
    for name, first, second in (("the dump by upper", given, upper), ("lower by the dump", lower, given), ("lower by upper", lower, upper)):
        if asked(program, family, first, second) is not None:
            yield f"{name} is not covered\n{first}%%\n{second}"
    told = {name: asked(program, family, *them) is None for name, them in (("itself", (given, given)), ("lower", (given, lower)), ("filters", (upper, lower)))}
    if len(set(told.values())) != 1:
        yield f"covered differs: {told}\n{given}"


# From here on: dumps of one chain, of which each rule is a single region. A region has for each of these fields the values that it holds, one
# value standing for all those that no rule tells from it.
FIELDS = ["in", "out", "src", "dst", "proto", "dport", "state"]
NAME_SETS = {"eth0": {"eth0"}, "eth+": {"eth", "eth0"}, "lo": {"lo"}}


def single_words(family):
    """For each field all values, and the matches with the values that they hold of."""
    ends = {net: questions.ends_of(net) for net in NETS[family]}
    firsts = sorted({0, *(first for first, _ in ends.values()), *(last + 1 for _, last in ends.values())})
    nets = {net: {value for value in firsts if first <= value <= last} for net, (first, last) in ends.items()}
    lists = {text: {walker.STATES.index(state) for state in text.split(",")} for text in ("NEW", "RELATED,ESTABLISHED", "INVALID,NEW")}
    interfaces = {"", "eth", "eth0", "lo"}
    return {"in": (interfaces, {f"{{}}-i {name}": held for name, held in NAME_SETS.items()}),
            "out": (interfaces, {f"{{}}-o {name}": held for name, held in NAME_SETS.items()}),
            "src": (set(firsts), {f"{{}}-s {net}": held for net, held in nets.items()}),
            "dst": (set(firsts), {f"{{}}-d {net}": held for net, held in nets.items()}),
            "proto": ({0, 6, 17}, {"{}-p tcp": {6}, "{}-p udp": {17}}),
            "dport": ({0, 22, 23, 81}, {"-m tcp --dport 22": {22}, "-m tcp --dport 23:80": {23}}),
            "state": (set(range(5)), {f"-m conntrack {{}}--ctstate {text}": held for text, held in lists.items()})}


def common(a, b):
    found = [x & y for x, y in zip(a, b)]
    return found if all(found) else None


def without(a, b):
    """A region without another: a piece for each field, in which the fields before it are those in common and those behind it are as they were."""
    if common(a, b) is None:
        return [a]
    return [[*(x & y for x, y in zip(a[:at], b[:at])), a[at] - b[at], *a[at + 1:]] for at in range(len(a)) if a[at] - b[at]]


def first_hit(region, rules):
    regions = [region]
    for cube, accepts in rules:
        hits = [it for it in (common(region, cube) for region in regions) if it]
        if accepts and hits:
            return [min(values) for values in hits[0]]
        if not accepts:
            regions = [piece for it in regions for piece in without(it, cube)]
    return None


def stated(first, second, whole):
    """The packet that the search of what the second rules drop and the first accept finds."""
    flipped = [(cube, not accepts) for cube, accepts in second]
    regions = [whole]
    for cube, accepts in first:
        hits = (first_hit(it, flipped) for it in (common(region, cube) for region in regions) if accepts and it)
        shown = next((it for it in hits if it), None)
        if shown:
            return shown
        regions = [piece for it in regions for piece in without(it, cube)]
    return None


def single(rng, words):
    """A rule of one region: its text, the region, or None where nothing is in it, whether it accepts, and whether it is doubtful."""
    whole = [values for values, _ in words.values()]
    region, said = list(whole), []
    for field in rng.sample(FIELDS, rng.randrange(4)):
        at, (text, held) = FIELDS.index(field), rng.choice(list(words[field][1].items()))
        negated = "{}" in text and filters.maybe_not(rng)
        region[at] = region[at] & (whole[at] - held if negated else held)
        region[4] = region[4] & {6} if field == "dport" else region[4]
        said.append(text.format(negated))
    accepts, is_doubtful = rng.random() < 0.6, rng.random() < 0.15
    said += ["-m limit --limit 5/sec"] * is_doubtful
    return " ".join(["-A FORWARD", *said, "-j", "ACCEPT" if accepts else "DROP"]), region if all(region) else None, accepts, is_doubtful


def single_regions(program, rng, family):
    """What is wrong with the answer for two dumps whose rules are single regions: it has to be that of the search."""
    words = single_words(family)
    whole = [values for values, _ in words.values()]
    first = [single(rng, words) for _ in range(rng.randrange(7))]
    second = rng.sample(first, rng.randrange(len(first) + 1)) + [single(rng, words) for _ in range(rng.randrange(4))]
    texts, lists = [], []
    for rules, left_out in ((first, False), (second, True)):
        accepts = rng.random() < 0.4
        texts.append("\n".join(["*filter", f":FORWARD {'ACCEPT' if accepts else 'DROP'} [0:0]", *(rule[0] for rule in rules), "COMMIT", ""]))
        lists.append([(region, good) for _, region, good, is_doubtful in rules if region and not (is_doubtful and good == left_out)] + [(whole, accepts)])
    wanted = stated(*lists, whole)
    shown = asked(program, family, *texts)
    got = [shown[field] for field in FIELDS] if isinstance(shown, dict) else shown
    if got != wanted or isinstance(shown, dict) and (shown["sport"], shown["flags"], shown["icmp"]) != (0, 0, 0):
        yield f"shown is {shown}, wanted is {wanted} of\n{texts[0]}%%\n{texts[1]}"


def disagreements(program, rng, family):
    """What is wrong with the answers for some random dumps."""
    dumps = two_dumps(rng, family)
    yield from answers(program, rng, family, dumps)
    yield from filters_of(program, family, dumps[0])
    yield from single_regions(program, rng, family)
    yield from single_regions(program, rng, family)


def main(program, count, start):
    rng = random.Random(start)
    failed = 0
    for _ in range(count):
        wrong = list(disagreements(program, rng, rng.choice([4, 4, 6])))
        failed += bool(wrong)
        if wrong and failed <= 3:
            print(wrong[0])
    print("answers", ANSWERS)
    print(f"{count - failed} passed, {failed} failed")
    return 1 if failed else 0


if __name__ == "__main__":
    if len(sys.argv) != 4:
        sys.exit(__doc__)
    sys.exit(main(sys.argv[1], int(sys.argv[2]), int(sys.argv[3])))
