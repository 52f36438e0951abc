#!/usr/bin/env python3
"""What a filter means, from the rules of the manual alone: reads the lines of a dump as tests on packets, and walks one packet
through them. Each match that isn't understood is true or false at each visit."""
import ipaddress

import reader

FLAGS = ["FIN", "SYN", "RST", "PSH", "ACK", "URG"]
STATES = ["INVALID", "NEW", "RELATED", "ESTABLISHED", "UNTRACKED"]
PROTOCOLS = {name.decode(): number for name, number in reader.PROTOCOLS.items()}
PORTS = (6, 17, 33, 132, 136)
MESSAGES = {("icmp", "--icmp-type"): 1, ("icmp6", "--icmpv6-type"): 58}
PASSING = {name.decode() for name in reader.PASSING}


def protocol(text):
    return PROTOCOLS[text] if text in PROTOCOLS else int(text)


def flags(text):
    if text in ("ALL", "NONE"):
        return 63 if text == "ALL" else 0
    return sum(1 << FLAGS.index(part) for part in set(text.split(",")))


def ports(text):
    ranges = []
    for part in text.split(","):
        first, _, last = part.partition(":")
        ranges.append((int(first), int(last or first)))
    return ranges


def among(ranges, port):
    return any(first <= port <= last for first, last in ranges)


def pattern(text):
    if text.endswith("+"):
        return lambda name: name.startswith(text[:-1])
    return lambda name: name == text


def net(text):
    found = ipaddress.ip_network(text, strict=False)
    return lambda value: int(found.network_address) <= value <= int(found.broadcast_address)


def between(text):
    first, last = (int(ipaddress.ip_address(part)) for part in text.split("-"))
    return lambda value: first <= value <= last


def base_test(option, text):
    if option == "-s":
        test = net(text)
        return lambda p: test(p["src"])
    if option == "-d":
        test = net(text)
        return lambda p: test(p["dst"])
    if option in ("-i", "-o"):
        test, key = pattern(text), "in" if option == "-i" else "out"
        return lambda p: test(p[key])
    if text in ("all", "0"):
        return lambda p: True
    wanted = protocol(text)
    return lambda p: p["proto"] == wanted


def port_test(side, number, ranges):
    keys = {"s": ["sport"], "d": ["dport"], "": ["sport", "dport"]}[side]
    return lambda p: p["proto"] == number and any(among(ranges, p[key]) for key in keys)


def module_test(module, option, arguments, number):
    """The test of an option of a module, or None where it isn't understood."""
    if module in ("tcp", "udp") and option in ("--sport", "--dport"):
        return port_test(option[2], PROTOCOLS[module], ports(arguments[0]))
    if module == "tcp" and option in ("--syn", "--tcp-flags"):
        mask, comp = (23, 2) if option == "--syn" else (flags(arguments[0]), flags(arguments[1]))
        return lambda p: p["proto"] == 6 and p["flags"] & mask == comp
    if module == "multiport" and number in PORTS:
        return port_test({"--sports": "s", "--dports": "d", "--ports": ""}[option], number, ports(arguments[0]))
    if module == "iprange":
        test, key = between(arguments[0]), "src" if option == "--src-range" else "dst"
        return lambda p: test(p[key])
    if (module, option) in (("state", "--state"), ("conntrack", "--ctstate")):
        wanted = [STATES.index(part) if part in STATES else None for part in arguments[0].split(",")]
        return None if None in wanted else lambda p: p["state"] in wanted
    if (module, option) in MESSAGES:
        kind = reader.number(arguments[0].encode(), 254)
        return None if kind is None else lambda p: p["proto"] == MESSAGES[module, option] and p["icmp"] == kind
    if module == "comment":
        return lambda p: True
    return None


def has_option(words):
    """Whether an option of a module follows before the next module is named."""
    for text, _ in words:
        if text == "-m":
            return False
        if text.startswith("--"):
            return True
    return False


def literals_of(words, hidden=()):
    """The literals of a rule's words up to its target: pairs of `negated` and a test, where the test of an unknown one is None. The
    base options of `hidden` count as unknown."""
    number = None
    for at, (text, _) in enumerate(words):
        if text == "-p" and (at == 0 or words[at - 1][0] != "!") and words[at + 1][0] not in ("all", "0"):
            number = protocol(words[at + 1][0])
    found, module, at = [], None, 0
    while at < len(words):
        negated = words[at][0] == "!" and not words[at][1]
        at += negated
        option = words[at][0]
        at += 1
        if option == "-m":
            module = words[at][0]
            at += 1
            if module.encode() not in reader.MODULES and not has_option(words[at:]):
                found.append((False, None))
            continue
        if option.encode() in reader.BASE:
            arguments = [words[at][0]]
            found.append((False, None) if option in hidden else (negated, base_test(option, arguments[0])))
        else:
            count = reader.ROWS.get((module.encode(), option.encode()))
            if count is None:
                count = 0
                while at + count < len(words) and words[at + count][0] not in ("!", "-m") and not words[at + count][0].startswith("-"):
                    count += 1
            arguments = [text for text, _ in words[at:at + count]]
            test = module_test(module, option, arguments, number)
            if negated and option == "--comment":
                test = None
            found.append((negated and test is not None, test))
        at += len(arguments)
    return found


def dump(text, hidden=()):
    """The chains of the table `filter`, by name: the policy and the rules, each its line, its literals, and its target with whether
    that stands behind `-g`. The base options of `hidden` count as unknown."""
    chains, inside = {}, False
    for number, line in enumerate(text.splitlines(), 1):
        inside = line == "*filter" or (inside and line != "COMMIT")
        if not inside or line.startswith(("#", "*")):
            continue
        words = [(word.decode(), quoted) for word, quoted in reader.words_of(line.encode())]
        if line.startswith(":"):
            chains[words[0][0][1:]] = (words[1][0], [])
            continue
        at = next((at for at, word in enumerate(words) if word in (("-j", False), ("-g", False))), len(words))
        target = (words[at][0], words[at + 1][0]) if at < len(words) else None
        chains[words[1][0]][1].append((number, literals_of(words[2:at], hidden), target))
    return chains


def action(target):
    """What a target does, and the chain that it leads to."""
    if target is None:
        return "pass", None
    option, name = target
    if option == "-g":
        return "goto", name
    if name in PASSING:
        return "pass", None
    if name in ("ACCEPT", "DROP", "REJECT", "RETURN"):
        return {"ACCEPT": "accept", "DROP": "drop", "REJECT": "drop", "RETURN": "back"}[name], None
    return "call", name


def known_holds(literals, packet):
    return all(test is None or test(packet) != negated for negated, test in literals)


def is_doubtful(literals):
    return any(test is None for _, test in literals)


def outcomes(chains, name, at, packet):
    """What a walk from this rule of the chain on can come to: some of accept, drop and end. The end of a chain that a goto leads to
    is the end of this one."""
    rules = chains[name][1]
    if at == len(rules):
        return {"end"}
    _, literals, target = rules[at]
    if not known_holds(literals, packet):
        return outcomes(chains, name, at + 1, packet)
    kind, callee = action(target)
    found = outcomes(chains, callee, 0, packet) if callee else {"end" if kind in ("pass", "back") else kind}
    goes_on = kind in ("pass", "call") and "end" in found
    if goes_on:
        found = found - {"end"}
    return found | outcomes(chains, name, at + 1, packet) if goes_on or is_doubtful(literals) else found


def verdicts(chains, asked, packet):
    """The verdicts that some truth of the unknown matches gives."""
    policy = "accept" if chains[asked][0] == "ACCEPT" else "drop"
    return {policy if found == "end" else found for found in outcomes(chains, asked, 0, packet)}


def explained(chains, asked, packet, wanted):
    """The lines of `explain` for a verdict: the unknown matches that hold in the chosen walk."""
    policy = "accept" if chains[asked][0] == "ACCEPT" else "drop"

    def can(stack):
        """Whether some truth leads from here to the verdict. A stack has the chains to which a walk goes back, and the one that it is
        in, each with its next rule and the steps that led there."""
        for name, at, _ in reversed(stack):
            found = outcomes(chains, name, at, packet)
            if wanted in found:
                return True
            if "end" not in found:
                return False
        return policy == wanted

    stack, places = [(asked, 0, ())], []
    if not can(stack):
        return [f"{wanted} never"]
    while stack:
        name, at, steps = stack.pop()
        rules = chains[name][1]
        if at == len(rules):
            continue
        _, literals, target = rules[at]
        here = (*steps, f"{name} {at + 1}")
        behind = [*stack, (name, at + 1, steps)]
        kind, callee = action(target)
        if not known_holds(literals, packet):
            stack = behind
            continue
        if is_doubtful(literals):
            if can(behind):
                stack = behind
                continue
            places += [f"{' > '.join(here)} literal {index}" for index, (_, test) in enumerate(literals, 1) if test is None]
        if kind == "goto":
            stack.append((callee, 0, here))
        elif kind == "call":
            stack = [*behind, (callee, 0, here)]
        elif kind == "pass":
            stack = behind
        elif kind != "back":
            break
    return [f"{wanted} under {len(places)}", *places]
