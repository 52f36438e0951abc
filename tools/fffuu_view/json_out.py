"""`json`: each answer of the program as JSON, in the form of schema/answer.schema.json."""
import json
from typing import Any, Dict, List, Optional

from . import addresses, version
from . import program as programs
from . import refusal, why
from .asking import Asked
from .trouble import Trouble


def as_text(found: Dict[str, Any]) -> str:
    """The JSON of an answer. Bytes of a dump that are no UTF-8 are shown by the sign for that."""
    text = json.dumps(found, indent=2, ensure_ascii=False) + "\n"
    return text.encode("utf-8", "surrogateescape").decode("utf-8", "replace")


def header(asked: Asked, mode: str, chain: str) -> Dict[str, Any]:
    """What each answer begins with."""
    return {"by": f"fffuu-view {version()}", "file": asked.dump.name, "sha256": asked.digest(), "family": asked.family,
            "chain": chain, "mode": mode}


def check(asked: Asked, chain: str) -> Dict[str, Any]:
    """The counts of `check`."""
    found = asked.check(chain)
    return {"chains": found.chains, "rules": found.rules, "unknown": found.unknown}


def filter_of(asked: Asked, chain: str, mode: str) -> Dict[str, Any]:
    """A printed filter: its policy, and its rules in their order."""
    rules: List[Dict[str, str]] = []
    policy, helpers = "", []
    for line in asked.run(mode, chain).lines():
        if line.startswith(":"):
            name, said = line[1:].split(" ")[:2]
            if said == "-":
                helpers.append(name)
            else:
                policy = said
        elif line.startswith("-A "):
            rules.append({"chain": line.split(" ")[1], "text": line})
    return {"policy": policy, "helpers": helpers, "rules": rules}


def matrix(asked: Asked, chain: str, service: str, side: str) -> Dict[str, Any]:
    """A matrix: the classes with their networks, and the edges as pairs."""
    found = asked.matrix(chain, service, side)
    classes = [{"number": number, "ranges": addresses.ranges_shown(ranges, asked.family),
                "networks": addresses.networks(ranges, asked.family)} for number, ranges in enumerate(found.classes)]
    return {"service": service, "side": side, "classes": classes, "edges": [list(edge) for edge in found.edges]}


def spoof(asked: Asked, chain: str, claims: List[str]) -> Dict[str, Any]:
    """The verdicts on claims."""
    found = programs.read_spoof(asked.run("spoof", chain, *claims))
    verdicts = []
    for claim, verdict in zip(claims, found):
        name, _, members = claim.rpartition("=")
        entry: Dict[str, Any] = {"interface": name, "set": members, "holds": verdict.holds}
        if not verdict.holds:
            entry["packet"] = verdict.packet
        verdicts.append(entry)
    return {"claims": verdicts}


def place(asked: Asked, found: programs.Place) -> Dict[str, Any]:
    """A place: its steps with their lines, and the match."""
    steps = []
    for chain, number in found.steps:
        rule = why.rule_at(asked, chain, number)
        steps.append({"chain": programs.plain_name(chain), "rule": number, "line": rule.line if rule else 0, "text": rule.text if rule else ""})
    rule = why.rule_at(asked, *found.steps[-1])
    known = rule is not None and found.literal <= len(rule.matches)
    return {"steps": steps, "literal": found.literal, "match": rule.matches[found.literal - 1].text() if rule and known else ""}


def places(asked: Asked, found: Optional[List[programs.Place]]) -> Optional[List[Dict[str, Any]]]:
    """The places of a verdict, null where it never comes."""
    return None if found is None else [place(asked, one) for one in found]


def explain(asked: Asked, chain: str, fields: List[str]) -> Dict[str, Any]:
    """Both verdicts on a packet. The fields are asked as they are given: nothing is added."""
    refusal.refuse_fields(fields)
    found = why.explain(asked, chain, fields)
    return {"packet": dict(word.split("=", 1) for word in fields), "accept": places(asked, found.accept), "drop": places(asked, found.drop)}


def answer(asked: Asked, mode: str, chain: str, words: List[str], side: str) -> Dict[str, Any]:
    """The answer of one mode."""
    if mode in ("matrix", "spoof") and not words or mode == "matrix" and len(words) > 1:
        raise Trouble(f"{mode} wants {'one service PROTO:SPORT:DPORT' if mode == 'matrix' else 'claims NAME=SET'} behind the file", 1)
    if mode in ("check", "upper", "lower") and words:
        raise Trouble(f"{mode} takes no word behind the file: {words[0]}", 1)
    body = {"check": lambda: check(asked, chain), "upper": lambda: filter_of(asked, chain, "upper"),
            "lower": lambda: filter_of(asked, chain, "lower"), "matrix": lambda: matrix(asked, chain, words[0], side),
            "spoof": lambda: spoof(asked, chain, words), "explain": lambda: explain(asked, chain, words)}[mode]()
    return {**header(asked, mode, chain), **body}


def refused(name: str, mode: str, trouble: Trouble) -> Dict[str, Any]:
    """A refusal as JSON."""
    return {"by": f"fffuu-view {version()}", "file": name, "mode": mode,
            "refused": {"status": trouble.status, "line": trouble.line, "cause": trouble.cause, "words": trouble.words}}
