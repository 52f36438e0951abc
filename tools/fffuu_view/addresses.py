"""Sets of addresses as networks and names, in the shortest of a few ways."""
import ipaddress
import re
from typing import Dict, List, Tuple

from .trouble import Trouble

Ranges = List[Tuple[int, int]]
WIDTH = {4: 32, 6: 128}


def everything(family: int) -> Ranges:
    """All addresses of a family."""
    return [(0, (1 << WIDTH[family]) - 1)]


def spelled(ranges: Ranges) -> Ranges:
    """The same numbers as sorted ranges that neither meet nor touch."""
    found: Ranges = []
    for first, last in sorted(ranges):
        if found and first <= found[-1][1] + 1:
            found[-1] = (found[-1][0], max(found[-1][1], last))
        else:
            found.append((first, last))
    return found


def complement(ranges: Ranges, family: int) -> Ranges:
    """What is in none of these ranges."""
    found, at = [], 0
    for first, last in spelled(ranges):
        if at < first:
            found.append((at, first - 1))
        at = last + 1
    if at < 1 << WIDTH[family]:
        found.append((at, (1 << WIDTH[family]) - 1))
    return found


def common(one: Ranges, other: Ranges) -> Ranges:
    """What two sorted lists of ranges have in common, in one pass over both."""
    found, at, beside = [], 0, 0
    while at < len(one) and beside < len(other):
        first, last = max(one[at][0], other[beside][0]), min(one[at][1], other[beside][1])
        if first <= last:
            found.append((first, last))
        if one[at][1] < other[beside][1]:
            at += 1
        else:
            beside += 1
    return found


def without(one: Ranges, other: Ranges, family: int) -> Ranges:
    """What is in the one and not in the other."""
    return common(spelled(one), complement(other, family))


def size(ranges: Ranges) -> int:
    """How many numbers there are."""
    return sum(last - first + 1 for first, last in ranges)


def networks(ranges: Ranges, family: int) -> List[str]:
    """The ranges as networks, a single address without its length."""
    kind = ipaddress.IPv4Address if family == 4 else ipaddress.IPv6Address
    found = []
    for first, last in ranges:
        for net in ipaddress.summarize_address_range(kind(first), kind(last)):
            found.append(str(net.network_address) if net.prefixlen == WIDTH[family] else str(net))
    return found


def ranges_shown(ranges: Ranges, family: int) -> List[str]:
    """The ranges as FIRST-LAST, a network where a range is one."""
    kind = ipaddress.IPv4Address if family == 4 else ipaddress.IPv6Address
    found = []
    for first, last in ranges:
        nets = networks([(first, last)], family)
        found.append(nets[0] if len(nets) == 1 else f"{kind(first)}-{kind(last)}")
    return found


def pieces(ranges: Ranges, family: int, names: Dict[str, Ranges]) -> List[str]:
    """The set in names whose addresses are all in it, the largest first, and networks for the rest; a range stays a range where
    its networks would be more than three."""
    left, found = spelled(ranges), []
    for name, members in sorted(names.items(), key=lambda item: -size(item[1])):
        if members and size(common(left, members)) == size(members):
            found.append(name)
            left = without(left, members, family)
    for part in left:
        nets = networks([part], family)
        found += nets if len(nets) <= 3 else ranges_shown([part], family)
    return found


def hull(ranges: Ranges, family: int) -> Ranges:
    """The smallest network that holds a set."""
    low, high = ranges[0][0], ranges[-1][1]
    free = (low ^ high).bit_length()
    first = low >> free << free
    return [(first, first + (1 << free) - 1)]


def described(ranges: Ranges, family: int, names: Dict[str, Ranges]) -> Tuple[str, List[str]]:
    """The set as a head and a list: its pieces with no head, or 'all but', 'NETWORK but' or 'NAME but' and what is missing, where
    that is shorter."""
    if not ranges:
        return "no address", []
    ways = [("", pieces(ranges, family, names))]
    wholes = [("all", everything(family))]
    wholes += [(name, members) for name, members in names.items() if size(common(ranges, members)) == size(ranges)]
    wholes.append((networks(hull(ranges, family), family)[0], hull(ranges, family)))
    for label, whole in wholes:
        missing = without(whole, ranges, family)
        if not missing:
            return ("all addresses" if label == "all" else label), []
        ways.append((f"{label} but", pieces(missing, family, names)))
    return min(ways, key=lambda way: len(way[0]) + sum(len(part) + 2 for part in way[1]))


def shown(ranges: Ranges, family: int, names: Dict[str, Ranges]) -> str:
    """The set in words, on one line."""
    head, parts = described(ranges, family, names)
    return " ".join(part for part in (head, ", ".join(parts)) if part)


def shown_inside(ranges: Ranges, whole: Ranges, label: str, family: int, names: Dict[str, Ranges]) -> str:
    """A part of a set that has a label: the label, or 'LABEL but' what is missing, where that is shorter than the part itself."""
    missing = without(whole, ranges, family)
    if not missing:
        return label
    own, other = shown(ranges, family, names), f"{label} but " + ", ".join(pieces(missing, family, names))
    return other if len(other) < len(own) else own


def read_set(text: str, family: int) -> Ranges:
    """The set that a list of addresses, networks and ranges spells; of another family nothing."""
    found: Ranges = []
    for part in text.split(","):
        part = part.strip()
        if (":" in part) != (family == 6):
            continue
        first, dash, last = part.partition("-")
        if dash:
            found.append((int(ipaddress.ip_address(first)), int(ipaddress.ip_address(last))))
        else:
            net = ipaddress.ip_network(part, strict=False)
            found.append((int(net.network_address), int(net.broadcast_address)))
    return spelled(found)


def read_names(path: str, family: int) -> Dict[str, Ranges]:
    """The names in a file of lines `NAME = SET`; a line that begins with # is passed over, and so are sets of another family."""
    names: Dict[str, Ranges] = {}
    try:
        with open(path, encoding="utf-8") as source:
            lines = source.read().splitlines()
    except (OSError, UnicodeDecodeError) as fault:
        raise Trouble(f"{path}: can't be read: {fault}", 1) from None
    for number, line in enumerate(lines, 1):
        if not line.strip() or line.lstrip().startswith("#"):
            continue
        found = re.fullmatch(r"\s*([^=]+?)\s*=\s*(\S.*?)\s*", line)
        try:
            ranges = read_set(found.group(2), family) if found else None
        except ValueError:
            ranges = None
        if not found or ranges is None:
            raise Trouble(f"{path}: line {number}: want NAME = SET, as LAN = 192.168.1.0/24,192.168.2.1-192.168.2.9\n    {line}", 1, number)
        if ranges:
            names[found.group(1)] = ranges
    return names
