#!/usr/bin/env python3
"""Compares `check` of the built program with the plain reader in reader.py, on random texts, most of them nearly right, and `cover` on
two such texts with a dividing line between them, or nearly one. Every other text comes as a whole, and every other one in pieces of
random sizes, some of them byte by byte.

    python3 tests/texts.py PROGRAM COUNT START

Prints the first texts on which they disagree, how often each status came, and a last line 'N passed, M failed'; the exit
status is 1 where one failed."""
import random
import subprocess
import sys

import pieces
import reader

CHAINS = ["FORWARD", "INPUT", "A", "B", "C", "hex:"]
LINES = ["", " ", "# x", "\t#", "\r", "  # y", "-A", "COMMIT ", " COMMIT", "COMMIT x", '"COMMIT"', "*filter", "*nat",
         ":D - [0:0]", "x", '"', '-A FORWARD "x', "*", "**"]
MATCHES = ["-i eth0", "-i eth+", '-o "a b"', "! -o lo", "-i +", '-i ""', "-p tcp", "-p udp", "! -p tcp", "-p 6", "-p 0", "! -p all",
           "-p 007", "-p foo", "-f", "! -f", "-m tcp --dport 22", "-m tcp --sport 1:5", "-m tcp --dport ssh", "-m tcp ! --dport 5:1",
           "-m udp --dport 53", "-m tcp --syn", "-m tcp ! --syn", "-m tcp --tcp-flags SYN,ACK SYN", "-m tcp --tcp-flags ALL NONE",
           "-m tcp --tcp-flags SYN", "-m multiport --dports 1,2:3,5", "-m multiport --ports 1:1,2:2,3:3,4:4,5:5,6:6,7:7,8:8",
           "-m multiport ! --sports 80", "-m iprange --dst-range x-y", "-m state --state NEW", "-m conntrack --ctstate NEW,SNAT",
           "-m conntrack ! --ctstate RELATED,ESTABLISHED", '-m comment --comment "hi -j there"', "-m comment ! --comment x",
           "-m comment", "-m limit --limit 5/sec --limit-burst 3", "-m limit", "-m socket", "-m recent ! --rcheck --name x",
           "--dport 22", "-m", "!", "! -m tcp", "-m base --sport 1", "-m addrtype -s 10.0.0.0/8 --dst-type LOCAL", "--", "--x", '"--x"',
           "-m icmp --icmp-type 8", "-m icmp ! --icmp-type 254", "-m icmp --icmp-type 255", "-m icmp --icmp-type any", "-m icmp --icmp-type 8 9",
           "-m icmp --icmp-type", "-m icmp6 --icmpv6-type 128", "-m icmp6 --icmpv6-type 1/0", "-m icmp6 --icmp-type 8", "-m icmp",
           "-m icmpv6", "-p icmp -m icmp --icmp-type 08", '-m icmp6 ! --icmpv6-type "0"',
           "-m tcp -p tcp", "foo", '-m "tcp" --dport "22"', '-i a"b', '"-s" 1.1.1.1', "-s", "-x"]
TARGETS = ["-j ACCEPT", "-j DROP", "-j REJECT", "-j REJECT --reject-with tcp-reset", "-j REJECT --reject-with", "-j RETURN",
           '-j LOG --log-prefix "x y"', "-j SET", "-j A", "-j B", "-j C", "-j A x", '-j "a b"', "-j INPUT", "-j NFQUEUE", "-j ACCEPT x",
           "-g A", '-g "B"', "-g A x", "-g", "-g LOST", "-g LOST x", "-g INPUT", "-g ACCEPT", "-g A -g B", "! -g A", '"-g" A', "", "-j",
           "-j MARK --set-mark 1"]
DIVIDERS = [b"%%"] * 60 + [b"%% ", b" %%", b"%%\r", b"%", b"%%%", b"#%%", b'"%%"', b"%%\n%%", b"*nat\n%%", b""]
PLAIN = ["", "-p tcp", "-i eth0", "-m limit --limit 1/s", "-m socket"]
PLAIN_TARGETS = ["-j ACCEPT", "-j DROP", "-j A", "-j B", "-j C", "-j RETURN", "-j NFQUEUE", "-j LOG", "-g A", "-g B", "-g C"]


def net_match(rng, family):
    address = f"10.0.0.{rng.randrange(9)}" if family == 4 else f"2001:db8::{rng.randrange(99):x}"
    mask = "255.0.255.0" if family == 4 else "ffff::"
    return rng.choice([f"-s {address}", f"! -s {address}/{rng.choice([8, 16, 24, 32, 33])}", f"-d {address}/{mask}", f"-d {address}/",
                       f"-m iprange --src-range {address}-{address}"])


def rule_line(rng, family):
    if rng.random() < 0.03:
        return rng.choice(LINES)
    counter = rng.choice(["[1:2] ", "[:] "]) if rng.random() < 0.1 else ""
    chain = rng.choice(CHAINS) if rng.random() < 0.9 else "LOST"
    matches = [net_match(rng, family) if rng.random() < 0.2 else rng.choice(MATCHES) for _ in range(rng.choice([0, 0, 1, 1, 2, 3]))]
    return " ".join([f"{counter}-A", chain, *matches, rng.choice(TARGETS)]).replace("  ", rng.choice(["  ", " ", "\t "]))


def chain_lines(rng):
    for name in CHAINS:
        if rng.random() < 0.9:
            policy = rng.choice(["ACCEPT", "DROP"]) if name in ("FORWARD", "INPUT") else "-"
            if rng.random() < 0.03:
                policy = rng.choice(["-", "DROP", "REJECT"])
            yield rng.choice([f":{name} {policy} [0:0]", f":{name} {policy}", f":{name} {policy} [12:34]"])
            if rng.random() < 0.02:
                yield rng.choice([f":{name} - [0:0]", ":LOG - [0:0]", ":x - []", ":x - [1:]"])


def text(rng, family):
    lines = []
    if rng.random() < 0.2:
        lines += ["*nat", ":X y z", 'junk "', rng.choice(["COMMIT", " COMMIT\t"])]
    lines.append(rng.choice(["*filter"] * 20 + ["* filter", "*filter x", '"*filter"', " *filter\r"]))
    lines += chain_lines(rng)
    is_plain = rng.random() < 0.7
    for _ in range(rng.randrange(6)):
        if is_plain:
            goes = rng.choice(PLAIN_TARGETS) if rng.random() < 0.97 else rng.choice(["-g LOST", "-g FORWARD", "-g DROP"])
            lines.append(f"-A {rng.choice(['FORWARD', 'A', 'B', 'C'])} {rng.choice(PLAIN)} {goes}")
        else:
            lines.append(rule_line(rng, family))
    lines.append(rng.choice(["COMMIT"] * 12 + ["", "COMMIT x", " COMMIT "]))
    if rng.random() < 0.1:
        lines += [rng.choice(["*raw", "*filter", "# end", "x"]), "COMMIT"]
    whole = "\n".join(lines) + rng.choice(["\n", "\n", "\n", ""])
    if rng.random() < 0.03:
        whole = whole[:rng.randrange(len(whole) + 1)]
    return whole.encode()


def tried_text(rng, family):
    """A text, or nothing; half of the time the first one of some that `check` doesn't refuse."""
    tried = [text(rng, family) for _ in range(rng.choice([1, 8]))]
    return b"" if rng.random() < 0.03 else next((it for it in tried if reader.check(it, b"FORWARD", family)[0] == 0), tried[0])


def two_texts(rng, family):
    """Two texts with a line between them that divides them, or nearly does. Some are cut off."""
    first, second = tried_text(rng, family), tried_text(rng, family)
    if first and not first.endswith(b"\n") and rng.random() < 0.9:
        first += b"\n"
    whole = first + rng.choice(DIVIDERS) + rng.choice([b"\n"] * 24 + [b""]) + second
    return whole[:rng.randrange(len(whole) + 1)] if rng.random() < 0.08 else whole


def wanted_of(mode, given, asked, family):
    """How a run has to end: its status, its output, or None for some answer of `cover`, and its line."""
    if mode == "cover":
        status, line = reader.cover(given, asked.encode(), family)
        return status, None if status == 0 else b"", line.encode()
    status, line = reader.check(given, asked.encode(), family)
    return (status, line.encode(), b"") if status == 0 else (status, b"", line.encode())


def is_wanted(got, wanted):
    if wanted[1] is None:
        return (got[0], got[2]) == (wanted[0], wanted[2]) and got[1].startswith((b"covered\n", b"not covered in="))
    return got == wanted


def ending(program, words, given, rng):
    """How a run over the text ends: its status, its output and its line."""
    if rng is None:
        done = subprocess.run([program, *words], input=given, capture_output=True)
        return done.returncode, done.stdout, done.stderr
    return pieces.run(program, words, pieces.cut_anywhere(rng, given, rng.choice([1, 2, 7, 40, 400])))


def main(program, count, start):
    rng, cuts = random.Random(start), random.Random(start)
    failed, statuses = 0, {}
    for number in range(count):
        family = rng.choice([4, 4, 6])
        mode = rng.choice(["check", "check", "cover"])
        given = two_texts(rng, family) if mode == "cover" else text(rng, family)
        asked = rng.choice(["FORWARD"] * 6 + ["INPUT", "A", "hex:", "OUTPUT", "", "hex:1"])
        wanted = wanted_of(mode, given, asked, family)
        statuses[wanted[0]] = statuses.get(wanted[0], 0) + 1
        got = ending(program, [mode, "--chain", asked, "--family", str(family)], given, cuts if number % 2 else None)
        if not is_wanted(got, wanted):
            failed += 1
            if failed <= 5:
                print(f"{mode} {asked} {family} {given}: got {got}, wanted {wanted}")
    print("statuses", dict(sorted(statuses.items())))
    print(f"{count - failed} passed, {failed} failed")
    return 1 if failed else 0


if len(sys.argv) != 4:
    sys.exit(__doc__)
sys.exit(main(sys.argv[1], int(sys.argv[2]), int(sys.argv[3])))
