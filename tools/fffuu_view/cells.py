"""What stands in the cells of a report: answers of `matrix` and `spoof`, taken together by rows and services."""
import re
from dataclasses import dataclass, field
from typing import Dict, FrozenSet, List, Set, Tuple

from . import addresses
from . import program as programs
from .addresses import Ranges
from .asking import Asked
from .dump import Rule, interfaces
from .program import Matrix
from .services import ECHO_TYPES, Service
from .trouble import Trouble

MOST_GROUPS = 4
MOST_FLOWS = 6
WITH_PORTS = ("tcp", "udp", "sctp", "dccp", "udplite")
# A source that no packet of a new connection has: the claim that only it lives behind a name is broken by any other packet.
NO_SOURCE = {4: "255.255.255.255", 6: "ffff:ffff:ffff:ffff:ffff:ffff:ffff:ffff"}
PRIVATE = {4: "10.0.0.0/8,172.16.0.0/12,192.168.0.0/16,100.64.0.0/10", 6: "fc00::/7,2000::/3"}


@dataclass
class Row:
    """A row of a table of addresses: its sources and destinations, and how each of them is called."""
    source_label: str
    sources: Ranges
    destination_label: str
    destinations: Ranges

    @property
    def label(self) -> str:
        """How the row is called."""
        return f"{self.source_label} \u2192 {self.destination_label}" if self.destination_label else self.source_label


@dataclass
class Cell:
    """What a cell says (no, some may, some, yes, not known), the first flows behind it (sources, destinations, whether they must
    pass), how many more there are, and a note."""
    word: str
    flows: List[Tuple[Ranges, Ranges, bool]] = field(default_factory=list)
    more: int = 0
    note: str = ""


def groups(asked: Asked, rules: List[Rule], names: Dict[str, Ranges]) -> Dict[str, Ranges]:
    """The sets of addresses that rows are about: the named ones, or else the networks inside a site that rules name, the largest
    first; and what is in none of them."""
    found = dict(names) or inside(asked.family, rules)
    if not found:
        return {"any address": addresses.everything(asked.family)}
    rest = addresses.complement([part for ranges in found.values() for part in ranges], asked.family)
    if rest:
        found["elsewhere"] = rest
    return found


def inside(family: int, rules: List[Rule]) -> Dict[str, Ranges]:
    """Networks of private addresses (of IPv6: of any site) that rules name and that no other one of them holds."""
    private = addresses.spelled(addresses.read_set(PRIVATE[family], family))
    found: Dict[str, Ranges] = {}
    for rule in rules:
        for match in rule.matches:
            if match.option not in ("-s", "-d") or not match.arguments:
                continue
            ranges = addresses.read_set(match.arguments[0].text, family)
            if ranges and addresses.size(addresses.common(ranges, private)) == addresses.size(ranges):
                found[addresses.networks(ranges, family)[0]] = ranges
    widest = sorted(found.items(), key=lambda item: -addresses.size(item[1]))
    kept: Dict[str, Ranges] = {}
    for name, ranges in widest:
        if len(kept) < MOST_GROUPS and not any(addresses.common(ranges, other) for other in kept.values()):
            kept[name] = ranges
    return kept


def rows_to_host(found: Dict[str, Ranges], family: int) -> List[Row]:
    """Rows by source, for connections to this host: its own addresses aren't known, so any destination counts."""
    return [Row(name, ranges, "", addresses.everything(family)) for name, ranges in found.items()]


def rows_through(found: Dict[str, Ranges]) -> List[Row]:
    """Rows by pairs, for what passes through; none from a single address to itself."""
    return [Row(one, sources, other, destinations) for one, sources in found.items() for other, destinations in found.items()
            if one != other or addresses.size(sources) > 1]


def touching(matrix: Matrix, ranges: Ranges) -> List[Tuple[int, Ranges]]:
    """The classes that have addresses of a set, with those addresses."""
    found = [(number, addresses.common(members, ranges)) for number, members in enumerate(matrix.classes)]
    return [(number, part) for number, part in found if part]


def flows_of(matrix: Matrix, row: Row) -> Tuple[List[Tuple[Ranges, Ranges]], int]:
    """The first edges inside a row, sources with the same destinations together, and how many there are of these."""
    reached: Dict[int, Set[int]] = {}
    for first, last in matrix.edges:
        reached.setdefault(first, set()).add(last)
    parts = dict(touching(matrix, row.destinations))
    inside = set(parts)
    found: Dict[FrozenSet[int], Ranges] = {}
    for number, part in touching(matrix, row.sources):
        to = frozenset(reached.get(number, set()) & inside)
        if to:
            found.setdefault(to, []).extend(part)
    shown = [(addresses.spelled(sources), addresses.spelled([piece for other in to for piece in parts[other]]))
             for to, sources in list(found.items())[:MOST_FLOWS]]
    return shown, len(found)


def cell_of(upper: Matrix, lower: Matrix, row: Row) -> Cell:
    """What both matrices of a service say of a row."""
    (may, all_may), (must, all_must) = flows_of(upper, row), flows_of(lower, row)
    flows = [(sources, destinations, True) for sources, destinations in must]
    flows += [(sources, destinations, False) for sources, destinations in may if (sources, destinations) not in must]
    more = all_may - len(may) + all_must - len(must)
    if not may:
        return Cell("no")
    if not must:
        return Cell("some may", flows, more)
    return Cell("yes" if must == [(row.sources, row.destinations)] else "some", flows, more)


def row_cells(asked: Asked, chain: str, service: Service, rows: List[Row]) -> List[Cell]:
    """The cells of a service by addresses, one for each row."""
    try:
        upper = asked.matrix(chain, service.words(), "upper")
        lower = asked.matrix(chain, service.words(), "lower")
    except Trouble as trouble:
        return [Cell("not known", note=trouble.words) for _ in rows]
    return [cell_of(upper, lower, row) for row in rows]


def free_name(taken: List[str]) -> str:
    """A name of an interface that none of these names or patterns is."""
    number = 0
    while any(name_fits(f"other{number}", pattern) for pattern in taken):
        number += 1
    return f"other{number}"


def name_fits(name: str, pattern: str) -> bool:
    """Whether a name is one of a pattern."""
    return name.startswith(pattern[:-1]) if pattern.endswith("+") else name == pattern


def asked_names(rules: List[Rule]) -> List[Tuple[str, str]]:
    """The input interfaces that rows are about, each with how it is called: those that rules name, one of each pattern that no
    rule names, and one that fits none."""
    names, _ = interfaces(rules)
    found = []
    for pattern in names:
        name = pattern
        if pattern.endswith("+"):
            number = 0
            while f"{pattern[:-1]}{number}" in names:
                number += 1
            name = f"{pattern[:-1]}{number}"
        found.append((name, pattern))
    if "+" in names:
        return [(name, pattern) for name, pattern in found if pattern != "+"]
    return found + [(free_name(names), "any other" if names else "any interface")]


def front_of(chain: str, service: Service) -> Tuple[str, ...]:
    """Drops of all that is not the first packet of this service, to stand before the first rule."""
    lines = [f"-A {chain} ! -p {service.protocol} -j DROP"]
    if service.protocol in WITH_PORTS:
        lines.append(f"-A {chain} -p {service.protocol} -m multiport ! --dports {service.port} -j DROP")
    if service.protocol == "tcp":
        lines.append(f"-A {chain} -p tcp -m tcp ! --tcp-flags FIN,SYN,RST,ACK SYN -j DROP")
    if service.echo_type() is not None:
        module, option = ("icmp", "--icmp-type") if service.protocol in ("icmp", "1") else ("icmp6", "--icmpv6-type")
        lines.append(f"-A {chain} -p {service.protocol} -m {module} ! {option} {service.echo_type()} -j DROP")
    return tuple(lines)


def interface_cells(asked: Asked, chain: str, service: Service, names: List[Tuple[str, str]]) -> List[Cell]:
    """The cells of a service by input interface: `no` where no new connection may be accepted from it, whatever its source
    port and its source address (but NO_SOURCE), else `some may` with the packet that the program shows."""
    claims = [f"{name}={NO_SOURCE[asked.family]}" for name, _ in names]
    try:
        verdicts = programs.read_spoof(asked.run("spoof", chain, *claims, front=front_of(chain, service)))
    except Trouble as trouble:
        return [Cell("not known", note=trouble.words) for _ in names]
    return [Cell("no") if verdict.holds else Cell("some may", note=packet_shown(verdict.packet)) for verdict in verdicts]


def packet_shown(packet: Dict[str, str]) -> str:
    """A packet as the program shows it; its type where its protocol has types."""
    hidden = ("flags", "state") if packet.get("proto") in ECHO_TYPES else ("flags", "state", "icmp")
    return "for example " + " ".join(f"{name}={value}" for name, value in packet.items() if name not in hidden)


def names_interface(rules: List[Rule], name: str) -> bool:
    """Whether a rule names an interface, itself or by a pattern."""
    return any(name_fits(name, pattern) for kind in interfaces(rules) for pattern in kind)


def claim_parts(claim: str, family: int) -> Tuple[str, str]:
    """The name and the set of a claim NAME=SET, with words where it is none."""
    name, equals, members = claim.rpartition("=")
    try:
        right = bool(name) and bool(equals) and all(re.fullmatch(r"[0-9a-fA-F:.]+(/[0-9]+|-[0-9a-fA-F:.]+)?", part) for part in members.split(","))
        if right and all((":" in part) == (family == 6) for part in members.split(",")):
            addresses.read_set(members, family)
            return name, members
    except ValueError:
        pass
    raise Trouble(f"{claim}: a claim is NAME=SET, as eth0=10.0.0.0/8,192.168.1.1-192.168.1.9, with addresses of IPv{family}", 1)
