#!/usr/bin/env python3
"""A plain reader of iptables-save texts, the answer of `check`, and how `cover` divides a text, written from the rules of the manual
alone, to compare the built program with."""
import ipaddress
import re
import socket

BLANKS = b" \t\r"
DIVIDER = b"%%"
TARGET_WORDS = {b"ACCEPT", b"DROP", b"REJECT", b"RETURN", b"LOG", b"NFLOG", b"ULOG", b"MARK", b"CONNMARK", b"TCPMSS", b"SET"}
PASSING = {b"LOG", b"NFLOG", b"ULOG", b"MARK", b"CONNMARK", b"TCPMSS", b"SET"}
BUILT_IN = {b"INPUT", b"FORWARD", b"OUTPUT"}
BASE = {b"-s": 1, b"-d": 1, b"-i": 1, b"-o": 1, b"-p": 1, b"-f": 0}
ROWS = {(b"tcp", b"--sport"): 1, (b"tcp", b"--dport"): 1, (b"udp", b"--sport"): 1, (b"udp", b"--dport"): 1,
        (b"tcp", b"--tcp-flags"): 2, (b"tcp", b"--syn"): 0, (b"multiport", b"--sports"): 1, (b"multiport", b"--dports"): 1,
        (b"multiport", b"--ports"): 1, (b"iprange", b"--src-range"): 1, (b"iprange", b"--dst-range"): 1,
        (b"state", b"--state"): 1, (b"conntrack", b"--ctstate"): 1, (b"comment", b"--comment"): 1, (b"icmp", b"--icmp-type"): 1,
        (b"icmp6", b"--icmpv6-type"): 1}
MODULES = {module for module, _ in ROWS}
PROTOCOLS = {b"icmp": 1, b"igmp": 2, b"tcp": 6, b"udp": 17, b"dccp": 33, b"gre": 47, b"esp": 50, b"ah": 51, b"ipv6-icmp": 58,
             b"icmpv6": 58, b"sctp": 132, b"udplite": 136}
STATES = {b"INVALID", b"NEW", b"RELATED", b"ESTABLISHED", b"UNTRACKED"}
FLAGS = {b"FIN", b"SYN", b"RST", b"PSH", b"ACK", b"URG"}
COUNTER = re.compile(rb"\[[0-9]+:[0-9]+\]")


class Malformed(Exception):
    pass


def words_of(line):
    """The words of a line, each with whether it stood in quotes."""
    words, at = [], 0
    while True:
        while at < len(line) and line[at] in BLANKS:
            at += 1
        if at == len(line):
            return words
        if line[at] == 34:
            text, at = bytearray(), at + 1
            while True:
                if at >= len(line):
                    raise Malformed
                if line[at] == 92:
                    if at + 1 >= len(line):
                        raise Malformed
                    text.append(line[at + 1])
                    at += 2
                elif line[at] == 34:
                    at += 1
                    break
                else:
                    text.append(line[at])
                    at += 1
            words.append((bytes(text), True))
        else:
            start = at
            while at < len(line) and line[at] not in BLANKS:
                at += 1
            words.append((line[start:at], False))


def number(text, most):
    if re.fullmatch(rb"0|[1-9][0-9]*", text) and len(text) < 8 and int(text) <= most:
        return int(text)
    return None


def protocol(text):
    return PROTOCOLS.get(text, number(text, 255))


def address(text, family):
    try:
        raw = socket.inet_pton(socket.AF_INET if family == 4 else socket.AF_INET6, text.decode("ascii"))
    except (OSError, UnicodeDecodeError, ValueError):
        return None
    return int.from_bytes(raw, "big")


def net(text, family):
    """'prefix', 'masked' or None."""
    width = 32 if family == 4 else 128
    front, slash, back = text.partition(b"/")
    if address(front, family) is None:
        return None
    if not slash:
        return "prefix"
    if number(back, width) is not None:
        return "prefix"
    mask = address(back, family)
    if mask is None:
        return None
    return "prefix" if any(mask == (1 << width) - (1 << (width - n)) for n in range(width + 1)) else "masked"


def is_range(text, family):
    first, dash, last = text.partition(b"-")
    low, high = address(first, family), address(last, family)
    return bool(dash) and low is not None and high is not None and low <= high


def port_range(text):
    first, colon, last = text.partition(b":")
    low = number(first, 65535)
    high = number(last, 65535) if colon else low
    return low is not None and high is not None and low <= high


def flags(text):
    return text in (b"ALL", b"NONE") or all(part in FLAGS for part in text.split(b","))


def option_known(module, option, negated, arguments, line_protocol, family):
    if (module, option) not in ROWS:
        return False
    if option in (b"--sport", b"--dport"):
        return port_range(arguments[0])
    if option == b"--tcp-flags":
        return all(flags(text) for text in arguments)
    if option == b"--syn":
        return True
    if module == b"multiport":
        parts = arguments[0].split(b",")
        return (line_protocol and all(port_range(part) for part in parts)
                and sum(2 if b":" in part else 1 for part in parts) <= 15)
    if module == b"iprange":
        return is_range(arguments[0], family)
    if module in (b"state", b"conntrack"):
        return all(part in STATES for part in arguments[0].split(b","))
    if module in (b"icmp", b"icmp6"):
        return number(arguments[0], 254) is not None
    return not negated


def stops(word):
    text, quoted = word
    return not quoted and (text == b"!" or text.startswith(b"--") or text in BASE or text in (b"-m", b"-j", b"-g"))


def rule(words, names, family):
    """The chain's name, the literals (True where known), and the action of a rule line."""
    at = 0
    if words and not words[0][1] and COUNTER.fullmatch(words[0][0]):
        at = 1
    if len(words) < at + 2 or words[at] != (b"-A", False):
        raise Malformed
    chain, at = words[at + 1][0], at + 2
    groups, module = [], None
    while at < len(words) and words[at] not in ((b"-j", False), (b"-g", False)):
        negated = words[at] == (b"!", False)
        at += negated
        if at == len(words) or words[at][1]:
            raise Malformed
        option = words[at][0]
        at += 1
        if option == b"-m":
            if negated or at == len(words):
                raise Malformed
            module = words[at][0]
            groups.append(("module", module))
            at += 1
        elif option in BASE:
            taken = words[at:at + BASE[option]]
            if len(taken) < BASE[option] or any(group[0] == "base" and group[2] == option for group in groups):
                raise Malformed
            at += len(taken)
            groups.append(("base", negated, option, [text for text, _ in taken]))
        elif option.startswith(b"--") and len(option) >= 3:
            if (module, option) in ROWS:
                taken = words[at:at + ROWS[(module, option)]]
                if len(taken) < ROWS[(module, option)]:
                    raise Malformed
            else:
                taken = []
                while at + len(taken) < len(words) and not stops(words[at + len(taken)]):
                    taken.append(words[at + len(taken)])
            at += len(taken)
            groups.append(("option", negated, option, [text for text, _ in taken], module))
        else:
            raise Malformed
    line_protocol = any(group[0] == "base" and group[2] == b"-p" and not group[1] and protocol(group[3][0]) in (6, 17, 33, 132, 136)
                        for group in groups)
    literals = []
    for index, group in enumerate(groups):
        if group[0] == "module":
            follows = False
            for later in groups[index + 1:]:
                if later[0] == "module":
                    break
                follows = follows or later[0] == "option"
            if group[1] not in MODULES and not follows:
                literals.append(False)
        elif group[0] == "option":
            literals.append(option_known(group[4], group[2], group[1], group[3], line_protocol, family))
        else:
            literals.append(base_known(group[1], group[2], group[3], family))
    return chain, literals, target(words[at:], names)


def base_known(negated, option, arguments, family):
    if option == b"-f":
        return False
    text = arguments[0]
    if option in (b"-s", b"-d"):
        kind = net(text, family)
        if kind is None:
            raise Malformed
        return kind == "prefix"
    if option in (b"-i", b"-o"):
        if not 1 <= len(text) <= 255:
            raise Malformed
        return True
    if text in (b"all", b"0"):
        if negated:
            raise Malformed
        return True
    return protocol(text) is not None


def target(words, names):
    """What a rule does. `-g` with a name that is no declared user chain is `lost`."""
    if not words:
        return ("pass",)
    if len(words) < 2:
        raise Malformed
    name, after = words[1][0], words[2:]
    if words[0][0] == b"-g":
        if after:
            raise Malformed
        return ("goto", name) if name in names and name not in BUILT_IN else ("lost",)
    if name in (b"ACCEPT", b"DROP", b"RETURN") and not after:
        return ({b"ACCEPT": "accept", b"DROP": "drop", b"RETURN": "back"}[name],)
    if name == b"REJECT" and (not after or (len(after) == 2 and after[0] == (b"--reject-with", False))):
        return ("drop",)
    if name in PASSING:
        return ("pass",)
    if name in TARGET_WORDS:
        raise Malformed
    if name in names and name not in BUILT_IN:
        if after:
            raise Malformed
        return ("call", name)
    return ("other", name)


def lines_of(text):
    lines = text.split(b"\n")
    return lines[:-1] if lines[-1] == b"" else lines


def read(text, family):
    """('malformed', N), ('nofilter',), ('undefined', N) or ('dump', chains) with chains as an ordered dict."""
    chains, undefined, table, phase = None, None, None, None
    seen = False
    lines = lines_of(text)
    for at, line in enumerate(lines, 1):
        bare = line.strip(BLANKS)
        if bare == b"" or bare.startswith(b"#"):
            continue
        try:
            if table is not None and table != b"filter":
                if bare == b"COMMIT":
                    table = None
                continue
            words = words_of(line)
            if table is None:
                if len(words) != 1 or words[0][1] or not words[0][0].startswith(b"*") or len(words[0][0]) < 2:
                    raise Malformed
                table = words[0][0][1:]
                if table == b"filter":
                    if seen:
                        raise Malformed
                    seen, chains, phase = True, {}, "chains"
                continue
            if words == [(b"COMMIT", False)]:
                table = None
                continue
            if not words[0][1] and words[0][0].startswith(b":"):
                name = words[0][0][1:]
                if (phase != "chains" or not 2 <= len(words) <= 3 or any(quoted for _, quoted in words) or not name
                        or name in TARGET_WORDS or name in chains
                        or (words[1][0] not in (b"ACCEPT", b"DROP") if name in BUILT_IN else words[1][0] != b"-")
                        or (len(words) == 3 and not COUNTER.fullmatch(words[2][0]))):
                    raise Malformed
                chains[name] = (words[1][0], [])
                continue
            phase = "rules"
            chain, literals, action = rule(words, chains, family)
            if chain in chains:
                chains[chain][1].append((at, literals, action))
            if undefined is None and (chain not in chains or action == ("lost",)):
                undefined = at
        except Malformed:
            return ("malformed", at)
    if table is not None:
        return ("malformed", len(lines) + 1)
    if not seen:
        return ("nofilter",)
    if undefined is not None:
        return ("undefined", undefined)
    return ("dump", chains)


def shown(name):
    if all(chr(byte) in "abcdefghijklmnopqrstuvwxyzABCDEFGHIJKLMNOPQRSTUVWXYZ0123456789._+:@/-" for byte in name) and not name.startswith(b"hex:"):
        return name.decode()
    return "hex:" + name.hex()


def check(text, asked=b"FORWARD", family=4):
    """The status and the line of `check`."""
    result = read(text, family)
    if result[0] == "malformed":
        return 5, f"fffuu: line {result[1]}: malformed\n"
    if result[0] == "nofilter":
        return 6, "fffuu: no filter table\n"
    if result[0] == "undefined":
        return 7, f"fffuu: line {result[1]}: undefined chain\n"
    chains = result[1]
    if asked not in chains or chains[asked][0] == b"-":
        return 8, f"fffuu: no chain {shown(asked)}\n"
    # from here on a goto is a call
    calls = {name: [action[1] for _, _, action in rules if action[0] in ("call", "goto")] for name, (_, rules) in chains.items()}
    reached, todo = {asked}, [asked]
    while todo:
        for name in calls[todo.pop()]:
            if name not in reached:
                reached.add(name)
                todo.append(name)
    other = min(((line, action[1]) for name in reached for line, _, action in chains[name][1] if action[0] == "other"), default=None)
    if other:
        return 9, f"fffuu: line {other[0]}: unsupported target {shown(other[1])}\n"
    for name in chains:
        if name in reached:
            met, todo = set(), list(calls[name])
            while todo:
                here = todo.pop()
                if here not in met:
                    met.add(here)
                    todo.extend(calls[here])
            if name in met:
                return 10, f"fffuu: call loop through {shown(name)}\n"
    depth, longest = {}, 0
    order = []
    todo = [(asked, False)]
    while todo:
        name, done = todo.pop()
        if done:
            depth[name] = 1 + max((depth[callee] for callee in calls[name]), default=0)
        elif name not in depth:
            todo.append((name, True))
            todo.extend((callee, False) for callee in calls[name] if callee not in depth)
    if depth[asked] > 256:
        return 11, "fffuu: limit depth\n"
    rules = [rule for _, chain in chains.values() for rule in chain]
    return 0, f"ok chains {len(chains)} rules {len(rules)} unknown {sum(lits.count(False) for _, lits, _ in rules)}\n"


def moved(line, lines):
    """The line of a refusal, whose number of a line counts from so many lines further up."""
    return re.sub(r"^fffuu: line (\d+)", lambda found: f"fffuu: line {int(found[1]) + lines}", line)


def cover(text, asked=b"FORWARD", family=4):
    """The status and the line of `cover`, as far as reading the two dumps tells them: no line where both can be asked about."""
    lines = lines_of(text)
    if DIVIDER not in lines:
        return 14, "fffuu: no dividing line\n"
    at = lines.index(DIVIDER)
    for before, part in ((0, lines[:at]), (at + 1, lines[at + 1:])):
        status, line = check(b"".join(it + b"\n" for it in part), asked, family)
        if status != 0:
            return status, moved(line, before)
    return 0, ""
