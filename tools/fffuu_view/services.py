"""The services that tables ask about: a name, a protocol, and the two ports of the first packet, or of ICMP its type."""
import re
from dataclasses import dataclass
from typing import List, Optional

from .dump import Rule
from .trouble import Trouble

SOURCE_PORT = 40000
USUAL = [("ssh", "tcp", 22), ("smtp", "tcp", 25), ("dns", "udp", 53), ("http", "tcp", 80), ("https", "tcp", 443), ("smb", "tcp", 445),
         ("mysql", "tcp", 3306), ("rdp", "tcp", 3389)]

# The type of the message that asks for an echo, for each word for a protocol that has types.
ECHO_TYPES = {"icmp": 8, "1": 8, "ipv6-icmp": 128, "icmpv6": 128, "58": 128}


@dataclass(frozen=True)
class Service:
    """A service: what it is called, its protocol, the source port that is asked of, and its own port."""
    name: str
    protocol: str
    source: int
    port: int

    def words(self) -> str:
        """As `matrix` reads it."""
        return f"{self.protocol}:{self.source}:{self.port}"

    def echo_type(self) -> Optional[int]:
        """The type that `matrix` asks about where messages of the protocol have types."""
        return ECHO_TYPES.get(self.protocol)

    def short(self, any_source: bool) -> str:
        """What is asked about, for the head of a table."""
        kind = self.echo_type()
        return f"type {kind}" if kind is not None else f"{'any' if any_source else self.source}\u2192{self.port}"

    def long(self, any_source: bool) -> str:
        """The same with the protocol, in words."""
        kind = self.echo_type()
        if kind is not None:
            return f"{self.protocol} type {kind}, which asks for an echo"
        return f"{self.protocol} port {self.port} from {'any source port' if any_source else f'source port {self.source}'}"


def usual() -> List[Service]:
    """The services that are asked about where none are named."""
    return [Service(name, protocol, SOURCE_PORT, port) for name, protocol, port in USUAL]


def read_services(text: Optional[str]) -> List[Service]:
    """The services of a list with commas: a usual name, PROTO:PORT, PROTO:SOURCE:PORT, and NAME= before any of them."""
    if not text:
        return usual()
    return [read_service(part.strip()) for part in text.split(",")]


def read_service(text: str) -> Service:
    """One service by its name or its numbers."""
    name, equals, rest = text.rpartition("=")
    for service in usual():
        if rest == service.name:
            return Service(name or service.name, service.protocol, service.source, service.port)
    found = re.fullmatch(r"([a-z0-9-]+):(?:([0-9]{1,5}):)?([0-9]{1,5})", rest)
    if not found or (equals and not name) or int(found.group(3)) > 65535 or int(found.group(2) or 0) > 65535:
        known = ", ".join(service.name for service in usual())
        raise Trouble(f"{text}: a service is one of {known}, or PROTO:PORT, or PROTO:SOURCEPORT:PORT, with NAME= before it where it "
                      "has a name, as web=tcp:40000:8080", 1)
    source = int(found.group(2)) if found.group(2) else SOURCE_PORT
    called = f"{found.group(1)} {'echo' if found.group(1) in ECHO_TYPES else found.group(3)}"
    return Service(name or called, found.group(1), source, int(found.group(3)))


def named_ports(rules: List[Rule], most: int) -> List[Service]:
    """Services for the single ports of tcp and udp that rules name and the usual ones leave out, the first ones."""
    have = {(service.protocol, service.port) for service in usual()}
    found: List[Service] = []
    for rule in rules:
        for match in rule.matches:
            if match.option not in ("--dport", "--dports") or not match.arguments or rule.protocol() not in ("tcp", "udp"):
                continue
            for part in match.arguments[0].text.split(","):
                if part.isdigit() and int(part) <= 65535 and (rule.protocol(), int(part)) not in have:
                    have.add((rule.protocol(), int(part)))
                    found.append(Service(f"{rule.protocol()} {part}", rule.protocol(), SOURCE_PORT, int(part)))
    return found[:most]
