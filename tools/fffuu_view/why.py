"""`why`: of one packet the answer of `explain`, with each place as the line of the dump and its text."""
from typing import Dict, List, Optional

from . import program as programs
from . import refusal
from .asking import Asked
from .dump import Rule
from .program import Explanation, Place
from .services import ECHO_TYPES


def packet_words(fields: List[str]) -> List[str]:
    """The fields that are asked: those given, and those that a packet has which opens a connection."""
    refusal.refuse_fields(fields)
    return fields + opening_words(dict(word.split("=", 1) for word in fields))


def opening_words(given: Dict[str, str]) -> List[str]:
    """For a packet of state NEW the flag SYN where it is of tcp, or the type that asks for an echo where its messages have types,
    unless they are given."""
    if given.get("state", "NEW") != "NEW":
        return []
    protocol = given.get("proto", "")
    if protocol in ("tcp", "6"):
        return [] if "flags" in given else ["flags=SYN"]
    return [] if "icmp" in given or protocol not in ECHO_TYPES else [f"icmp={ECHO_TYPES[protocol]}"]


def explain(asked: Asked, chain: str, words: List[str]) -> Explanation:
    """The program's explanation of the packet with these fields."""
    return programs.read_explanation(asked.run("explain", chain, *words))


def rule_at(asked: Asked, chain: str, number: int) -> Optional[Rule]:
    """The rule of a step, or None where the dump has none such."""
    rules = asked.dump.rules.get(programs.plain_name(chain), [])
    return rules[number - 1] if number <= len(rules) else None


def place_lines(asked: Asked, place: Place) -> List[str]:
    """A place as lines of the dump: the rule with its match, and the calls and gotos that lead to it."""
    rules = [rule_at(asked, chain, number) for chain, number in place.steps]
    here = rules[-1]
    if here is None or place.literal > len(here.matches):
        return ["  " + " > ".join(f"{chain} {number}" for chain, number in place.steps) + f" literal {place.literal}"]
    lines = [f"  line {here.line}: {here.text}", f"      where this holds: {here.matches[place.literal - 1].text()}"]
    lines += [f"      {rule.leads()} line {rule.line}: {rule.text}" for rule in reversed(rules[:-1]) if rule]
    return lines


def verdict_lines(asked: Asked, verdict: str, places: Optional[List[Place]]) -> List[str]:
    """What is said of one verdict."""
    if places is None:
        return [f"{verdict}: never, whatever the matches are that fffuu doesn't understand"]
    if not places:
        return [f"{verdict}: yes, where no match holds that fffuu doesn't understand"]
    count = "this match holds" if len(places) == 1 else f"these {len(places)} matches hold"
    lines = [f"{verdict}: yes, where {count} and no other that fffuu doesn't understand"]
    for place in places:
        lines += place_lines(asked, place)
    return lines


def outcome(found: Explanation) -> str:
    """Both verdicts in one sentence."""
    if found.drop is None:
        return "So it is accepted in any case."
    if found.accept is None:
        return "So it is dropped in any case."
    return "So it depends on matches that fffuu doesn't understand."


def notes(given: Dict[str, str], asked_words: List[str], fields: List[str]) -> List[str]:
    """What a reader may miss in the packet that was asked about."""
    found = []
    for word in asked_words[len(fields):]:
        name = word.partition("=")[0]
        which = "the first packet of a tcp connection" if name == "flags" else "the message that asks for an echo"
        found.append(f"{word} was added: {which}; give {name}= to ask of another one")
    if given.get("proto") in ECHO_TYPES and "icmp" not in given:
        found.append("without icmp= the message is one of type 0")
    if "proto" not in given:
        found.append("without proto= the packet is one of protocol 0, which no tcp, udp or icmp rule matches")
    return found


def show(asked: Asked, chain: str, fields: List[str]) -> str:
    """The whole answer as text."""
    words = packet_words(fields)
    found = explain(asked, chain, words)
    given = dict(word.split("=", 1) for word in words)
    lines = [f"{asked.dump.name}, chain {chain}, IPv{asked.family}: {' '.join(words) or 'the packet with all fields 0'}"]
    lines += ["note: " + note for note in notes(given, words, fields)]
    lines += verdict_lines(asked, "accept", found.accept) + verdict_lines(asked, "drop", found.drop)
    return "\n".join(lines + [outcome(found)]) + "\n"
