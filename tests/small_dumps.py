#!/usr/bin/env python3
"""Holds what crates/closure_trial has to write on its small dumps against plain walks, and its dumps against the table of the rewriting.

    python3 tests/small_dumps.py            compares crates/closure_trial/stdout with what the dumps of crates/closure_trial/stdin come to
    python3 tests/small_dumps.py --write    writes both files anew

A dump is a line: its chains between slashes, the first of which is asked. A chain is its policy, `+` or `-`, and its rules. A rule is its
literals and an action. A digit holds of the packet of that number, and behind `!` of the others; `?` is an unknown literal. A, D, P and R
accept, drop, pass and return; a small letter calls the chain of that place, `a` the first, and behind `>` goes to it.

A dump comes to a word for each packet and the number of items of each side: `must` where the walk under every meaning accepts, `never` where
none does, else `may`. A dump of too many items has its numbers alone. The exit status is 1 where a line differs or a row of the table isn't met."""
import functools
import os
import random
import re
import sys

FOLDER = os.path.join(os.path.dirname(os.path.dirname(os.path.abspath(__file__))), "crates", "closure_trial")
PACKETS = range(3)
MOST_ITEMS = 262_144
MOST_COUNT = 2 ** 64 - 1
HARD = -1

WORKED = [
    # a doubtful drop, return, accept and call
    "- ?D A", "- b 2A / + ?R D 1A", "- b D / - ?R 1D 1A", "- b b / - ?A", "- ?b A / - D", "- b / - c / - ??A", "- 1?A", "- !1?D A",
    # a return in the asked chain, a negated literal, a pass, a chain without rules
    "+ 1R D", "+ R D", "- !1A", "+ !0!1D", "- b b P A / -", "+", "-",
    # a goto: what stands behind it isn't met, and its chain's end is the end of the one that it was met in
    "- 1>b A / + 2A", "+ >b D / - 1D", "- b A / + 0>c D / - 1D", "- b D / + 0>c 1A / - d / -", "+ b D / - >c D / - >d D / - 1A R A",
    # a doubtful goto before an accept, before a drop, and to a chain that drops, accepts, returns or comes to its end
    "- ?>b A / - D", "- ?>b D / - A", "+ ?>b D / -", "- ?>b A / -", "+ ?>b 1D / - R D", "- b A / - ?>c D / - 1D", "- b A / - ?>c 0A 1D / - 0D 2D",
    "+ ?b D / - ?>c 1D / - 2D ?R", "- ?b A / - c D / - ?>d 1D / - 0R 2D", "+ b 2D / - ?>c ?D 1R D / - ?R 0D", "- b / - ?1>c ?!1>c D / - A",
    # a chain that calls itself, and one that isn't there
    "- b / - b", "- b / - 1>c / - ?b", "- c / -", "+ >b",
    # numbers of items: chains that double, the most that is taken, one more, and a number past 64 bits
    " / ".join(["- b", *(f"- {chr(98 + i)} {chr(98 + i)}" for i in range(1, 17)), "- R"]),
    " / ".join(["- b", *(f"- {chr(98 + i)} {chr(98 + i)}" for i in range(1, 18)), "- R"]),
    "- " + "b " * 64 + "/ - " + "c " * 63 + "/ - " + "d " * 8 + "/ -" + " R" * 7,
    "- A " + "b " * 64 + "/ - " + "c " * 63 + "/ - " + "d " * 8 + "/ -" + " R" * 7,
    " / ".join(["- b", *("-" + f" {chr(98 + i)}" * 8 for i in range(1, 25)), "- A"]),
]


class Rule:
    def __init__(self, word):
        literals, self.goto, self.action = re.fullmatch(r"((?:!?\d|\?)*)(>?)([ADPRa-z])", word).groups()
        self.literals = [None if text == "?" else (text[0] == "!", int(text[-1])) for text in re.findall(r"!?\d|\?", literals)]
        self.doubtful = None in self.literals
        self.target = ord(self.action) - ord("a") if self.action.islower() else None


class Chain:
    def __init__(self, text):
        policy, *words = text.split()
        self.accepts = policy == "+"
        self.rules = [Rule(word) for word in words]


def read(line):
    return [Chain(text) for text in line.split("/")]


def is_asked(dump, chain=0, path=()):
    """Whether every walk of a chain has an end: each call and goto names a chain, and none leads back to one that it comes from."""
    if chain >= len(dump) or chain in path:
        return False
    return all(is_asked(dump, target, (*path, chain)) for target in {rule.target for rule in dump[chain].rules} - {None})


class Unset(Exception):
    """A place whose truth the meaning doesn't say."""


def matches(rule, packet, place, meaning):
    for number, literal in enumerate(rule.literals):
        if literal is None:
            if (*place, number) not in meaning:
                raise Unset((*place, number))
            if not meaning[(*place, number)]:
                return False
        elif (packet == literal[1]) == literal[0]:
            return False
    return True


def accepts(dump, packet, meaning):
    """Whether the walk under a meaning, the truth of the unknown literals at their places, accepts."""
    chain, after, path, frames = 0, 0, (), []
    while True:
        if after < len(dump[chain].rules):
            rule, step = dump[chain].rules[after], (*path, chain, after)
            after += 1
            if not matches(rule, packet, step, meaning) or rule.action == "P":
                continue
            if rule.action in "AD":
                return rule.action == "A"
            if rule.target is not None:
                if not rule.goto:
                    frames.append((chain, after, path))
                chain, after, path = rule.target, 0, step
                continue
        if not frames:
            return dump[0].accepts
        chain, after, path = frames.pop()


def answers(dump, packet, meaning):
    """What the walks under all meanings answer that say at least so much."""
    try:
        return {accepts(dump, packet, meaning)}
    except Unset as unset:
        return set().union(*(answers(dump, packet, {**meaning, unset.args[0]: truth}) for truth in (False, True)))


WORDS = {frozenset([True]): "must", frozenset([False]): "never", frozenset([True, False]): "may"}


def items(dump, good, met):
    """The number of items of a side, whose good verdict is this action, by the table of the rewriting. The rows are put among those that are met."""
    @functools.cache
    def count(chain, first, mode):
        if first == len(dump[chain].rules):
            return 0
        rule, behind = dump[chain].rules[first], functools.partial(count, chain, first + 1)
        kind = "goto" if rule.goto else "call" if rule.target is not None else {"P": "pass", "R": "return", good: "good"}.get(rule.action, "bad")
        met.add((good, kind, rule.doubtful, min(mode, 1)))
        deeper = HARD if mode == HARD else mode + 1
        if kind == "pass" or rule.doubtful and (kind == "bad" or (kind, mode) == ("return", 0)):
            return behind(mode)
        if kind in ("good", "bad") or kind == "return" and not rule.doubtful:
            return 1 + behind(mode)
        if kind == "return":
            return 2 + behind(0) + behind(mode)
        if not rule.doubtful:
            return (2 if rule.goto else 1) + count(rule.target, 0, deeper) + behind(mode)
        if kind == "call" or mode == 0:
            return 1 + count(rule.target, 0, 0) + behind(mode)
        return 4 + behind(0) + count(rule.target, 0, 1) + behind(mode)

    return count(0, 0, HARD)


def wanted(line, met):
    dump = read(line)
    if not is_asked(dump):
        return "not asked"
    numbers = [items(dump, good, met) for good in "AD"]
    words = [] if max(numbers) > MOST_ITEMS else [WORDS[frozenset(answers(dump, packet, {}))] for packet in PACKETS]
    return " ".join([*words, *(str(min(number, MOST_COUNT)) for number in numbers)])


def made(rng, chains=4, most=7):
    """A dump in which calls and gotos lead to later chains, and of which a walk meets at most so many places of unknown literals."""
    texts, places = [""] * chains, [0] * chains
    for chain in reversed(range(chains)):
        words = [rng.choice("+-")]
        for _ in range(rng.randrange(1, 5)):
            literals = ""
            for _ in range(rng.randrange(3)):
                unknown = rng.random() < 0.4 and places[chain] < most
                places[chain] += unknown
                literals += "?" if unknown else rng.choice(["", "!"]) + str(rng.choice(PACKETS))
            targets = [target for target in range(chain + 1, chains) if places[chain] + places[target] <= most]
            action = rng.choice("AADDRRP" + "cccggg" * bool(targets))
            if action in "cg":
                target = rng.choice(targets)
                places[chain] += places[target]
                action = (">" if action == "g" else "") + chr(ord("a") + target)
            words.append(literals + action)
        texts[chain] = " ".join(words)
    return " / ".join(texts)


def main(words):
    if words not in ([], ["--write"]):
        sys.exit(__doc__)
    names = [os.path.join(FOLDER, name) for name in ("stdin", "stdout")]
    if words:
        rng = random.Random(1)
        dumps = WORKED + [made(rng) for _ in range(200)]
        for name, lines in zip(names, (dumps, [wanted(line, set()) for line in dumps])):
            with open(name, "w") as file:
                file.writelines(line + "\n" for line in lines)
    dumps, kept = (open(name).read().splitlines() for name in names)
    met = set()
    right = [wanted(line, met) for line in dumps]
    wrong = [f"{line}: {is_kept}, wanted {is_right}" for line, is_kept, is_right in zip(dumps, kept, right) if is_kept != is_right]
    kinds = ("good", "bad", "pass", "return", "call", "goto")
    unmet = {(good, kind, doubt, mode) for good in "AD" for kind in kinds for doubt in (False, True) for mode in (HARD, 0, 1)} - met
    for line in wrong + [f"no dump meets the row {row}" for row in sorted(unmet)]:
        print(line)
    print(f"{len(dumps)} dumps, {len(wrong)} wrong, {len(met)} rows of the table met")
    return 1 if wrong or unmet or len(kept) != len(dumps) else 0


if __name__ == "__main__":
    sys.setrecursionlimit(10_000)
    sys.exit(main(sys.argv[1:]))
