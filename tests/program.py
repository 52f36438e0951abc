#!/usr/bin/env python3
"""Runs the built program at its edges, where no proof reaches: real streams, full devices, exit statuses, large inputs,
the sample dumps, and addresses against the platform's own parser.

    python3 tests/program.py PROGRAM

Prints each case that disagrees and a last line 'N passed, M failed'; the exit status is 1 where one failed."""
import glob
import ipaddress
import os
import random
import socket
import subprocess
import sys

import cases
import parts
import questions

MOST = 16_777_216
TOP = os.path.dirname(os.path.dirname(os.path.abspath(__file__)))
passed = failed = 0


def check(name, got, wanted):
    global passed, failed
    if got == wanted:
        passed += 1
    else:
        failed += 1
        print(f"{name}: got {str(got)[:300]}, wanted {str(wanted)[:300]}")


def run(words, given=b"", **streams):
    if "stdin" in streams:
        return subprocess.run([PROGRAM] + words, capture_output="stdout" not in streams, **streams)
    return subprocess.run([PROGRAM] + words, input=given, capture_output=True, **streams)


def told(done):
    return done.returncode, done.stdout, done.stderr


def table(*lines):
    return cases.wrapped(*lines).encode()


def wrapped(*lines):
    return table(":FORWARD DROP [0:0]", *lines)


def edges():
    four = wrapped("-A FORWARD -s 10.0.0.0/8 -j ACCEPT")
    check("four lines come back", told(run(["upper"], four)), (0, four, b""))
    usage = b"fffuu: usage: fffuu MODE [--chain NAME] [--family 4|6] [--side upper|lower] [ARGS]\n"
    for words in [[], ["upper", "upper"], ["upper", "lower"], ["upper", "--side", "lower"], ["check", "x"], ["check", "--side=upper"],
                  ["check", "--family", "5"], ["check", "--chain", "A", "--chain", "A"], ["upper", "--chain"], ["--help"]]:
        check(f"the words {words}", told(run(words, four)), (1, b"", usage))
    check("options before the mode", told(run(["--chain=FORWARD", "--family", "4", "upper"], four)), (0, four, b""))
    check("a chain that isn't there", told(run(["upper", "--chain", "OUTPUT"], four)), (8, b"", b"fffuu: no chain OUTPUT\n"))
    check("a folder as standard input", told(run(["upper"], stdin=os.open("/", os.O_RDONLY), stdout=-1, stderr=-1)),
          (2, b"", b"fffuu: read failed\n"))
    with open("/dev/full", "wb") as full:
        done = subprocess.run([PROGRAM, "upper"], input=four, stdout=full, stderr=subprocess.PIPE)
    check("a full device", (done.returncode, done.stderr), (3, b"fffuu: write failed\n"))
    check("a word that isn't UTF-8", told(run([b"\xff"], four)), (15, b"", b""))
    text = wrapped("-A FORWARD -j ACCEPT") + b"#"
    text += b"x" * (MOST - len(text))
    check("16,777,216 bytes are read", (len(text), told(run(["check"], text))), (MOST, counts(1, 1, 0)))
    check("16,777,217 bytes are too long", told(run(["check"], text + b"x")), refused(4, "input is longer than 16777216 bytes"))
    check("16,777,216 bytes without a dividing line", told(run(["cover"], text)), refused(14, "no dividing line"))
    check("16,777,217 bytes without a dividing line", told(run(["cover"], text + b"x")), refused(4, "input is longer than 16777216 bytes"))
    text = cases.pair(four.decode(), four.decode()).encode() + b"#"
    text += b"x" * (MOST - len(text))
    check("two dumps of 16,777,216 bytes", (len(text), told(run(["cover"], text))), (MOST, (0, b"covered\n", b"")))
    check("two dumps of 16,777,217 bytes", told(run(["cover"], text + b"x")), refused(4, "input is longer than 16777216 bytes"))
    check("two dumps and 16 MiB of dividing lines", told(run(["cover"], (text[:200] + b"\n%%" * (MOST // 3))[:MOST])), refused(5, "line 11: malformed"))


ROUTER = cases.ROUTER.encode()


def counts(chains, rules, unknown):
    return 0, f"ok chains {chains} rules {rules} unknown {unknown}\n".encode(), b""


def refused(status, line):
    return status, b"", f"fffuu: {line}\n".encode()


def checks():
    def checked(name, text, wanted, *options):
        check(name, told(run(["check", *options], text)), wanted)

    checked("a home router", ROUTER, counts(5, 14, 2))
    checked("counts are those of the whole table", ROUTER, counts(5, 14, 2), "--chain", "OUTPUT")
    checked("a chain out of reach counts", table(":FORWARD DROP [0:0]", ":C - [0:0]", "-A C -m socket -j ACCEPT"), counts(2, 1, 1))
    checked("a user chain can't be asked about", ROUTER, refused(8, "no chain LAN"), "--chain", "LAN")

    loop = [":FORWARD DROP [0:0]", ":B - [0:0]", ":A - [0:0]", "-A FORWARD -j A", "-A B -j A", "-A A -j B"]
    checked("the first declared chain of a loop", table(*loop), refused(10, "call loop through B"))
    leading = [*loop[:3], ":L - [0:0]", "-A FORWARD -j L", "-A L -j A", "-A L -j B", "-A A -j B", "-A A -j B", "-A B -j A"]
    checked("a chain that leads to a loop isn't on it", table(leading[0], leading[3], *leading[1:3], *leading[4:]), refused(10, "call loop through B"))
    checked("a loop out of reach", table(*loop[:3], *loop[4:]), counts(3, 2, 0))
    gone = [line.replace("-j", "-g") for line in loop]
    checked("the first declared chain of a loop by gotos", table(*gone), refused(10, "call loop through B"))
    checked("a loop by a call and a goto", table(*loop[:4], gone[4], loop[5]), refused(10, "call loop through B"))
    checked("a loop by gotos out of reach", table(*gone[:3], *gone[4:]), counts(3, 2, 0))
    checked("a chain line after a rule line", table(":FORWARD DROP [0:0]", "-A FORWARD -j X", ":X - [0:0]"), refused(5, "line 4: malformed"))
    checked("a chain that calls itself", table(":FORWARD DROP [0:0]", ":X - [0:0]", "-A FORWARD -j X", "-A X -j X"), refused(10, "call loop through X"))

    queue = [":FORWARD DROP [0:0]", ":Q - [0:0]", "-A FORWARD -j Q", "-A Q -j NFQUEUE --queue-num 1"]
    checked("an unsupported target", table(*queue), refused(9, "line 5: unsupported target NFQUEUE"))
    checked("an unsupported target out of reach", table(*queue[:2], *queue[3:]), counts(2, 1, 0))
    checked("an unsupported target in reach of a goto", table(*queue[:2], "-A FORWARD -g Q", *queue[3:]), refused(9, "line 5: unsupported target NFQUEUE"))
    checked("an unsupported target behind a goto", table(*queue[:2], "-A FORWARD -g Q", "-A FORWARD -j TEE"), refused(9, "line 5: unsupported target TEE"))
    checked("an unsupported target comes before a loop", table(*queue[:3], "-A Q -j Q", *queue[3:]), refused(9, "line 6: unsupported target NFQUEUE"))
    checked("of two unsupported targets the first line is told", table(*queue[:2], ":T - [0:0]", queue[2], "-A T -j TARPIT", "-A Q -j T", queue[3]),
            refused(9, "line 6: unsupported target TARPIT"))
    checked("a target's name with a space", table(":FORWARD DROP [0:0]", '-A FORWARD -j "a b"'), refused(9, "line 3: unsupported target hex:612062"))

    checked("no bytes", b"", refused(6, "no filter table"))
    checked("a rule of no declared chain", table(":FORWARD DROP [0:0]", "-A LOST -j ACCEPT"), refused(7, "line 3: undefined chain"))
    checked("a name that looks spelled", ROUTER, refused(8, "no chain hex:6865783a41"), "--chain", "hex:A")
    checked("a name with a space", ROUTER, refused(8, "no chain hex:612062"), "--chain", "a b")
    checked("the empty name", ROUTER, refused(8, "no chain "), "--chain=")
    for name, wanted in [("a.b_c+d:e@f/g-h9", "a.b_c+d:e@f/g-h9"), ("hex", "hex"), ("hex:6a", "hex:6865783a3661"), ("a\n", "hex:610a"), ("a=b", "hex:613d62")]:
        checked(f"the shown name {name!r}", ROUTER, refused(8, f"no chain {wanted}"), "--chain", name)
    checked("a target's name of other bytes", b"*filter\n:FORWARD DROP\n-A FORWARD -j \xff\x01\nCOMMIT\n", refused(9, "line 3: unsupported target hex:ff01"))

    # a rule's line is counted over the whole text, whatever chain it stands in
    for line, actions in [(9, (b" -j TEE", b"RETURN")), (11, (b"", b"TEE"))]:
        text = b"# of today\n*raw\n:X - [0:0]\nCOMMIT\n\n*filter\n:FORWARD DROP\n:in - [0:0]\n-A in -s ::/0%b\n \n-A in -j %b\n-A FORWARD -j in\nCOMMIT" % actions
        checked(f"a rule on line {line}", text, refused(9, f"line {line}: unsupported target TEE"), "--family", "6")

    for rule in ['-m comment --comment "half -j ACCEPT', "-s ! 10.0.0.0/8 -j DROP", "! -p all -j DROP", "-s 1.2.3.4/32 -s 1.2.3.5/32 -j DROP"]:
        checked(f"the rule {rule}", wrapped("-A FORWARD " + rule), refused(5, "line 3: malformed"))
    checked("a text that is cut off", b"*filter\n:FORWARD DROP [0:0]\n-A FORWARD -s 10.0.", refused(5, "line 3: malformed"))
    checked("a table that stays open", b"*filter\n:FORWARD DROP [0:0]\n", refused(5, "line 3: malformed"))
    checked("an address of the other family", wrapped("-A FORWARD -s ::1 -j DROP"), refused(5, "line 3: malformed"))
    checked("an IPv6 address", wrapped("-A FORWARD -s ::1 -j DROP"), counts(1, 1, 0), "--family", "6")

    for length in (255, 256):
        names = ["FORWARD"] + [f"P{at}" for at in range(1, length + 1)]
        lines = [":FORWARD DROP [0:0]"] + [f":{name} - [0:0]" for name in names[1:]]
        lines += [f"-A {caller} -j {callee}" for caller, callee in zip(names, names[1:])]
        wanted = counts(256, 255, 0) if length == 255 else refused(11, "limit depth")
        checked(f"a call path of {length + 1} chains", table(*lines), wanted)
        lines[-1] = lines[-1].replace("-j", "-g")
        checked(f"a call path of {length + 1} chains with a goto", table(*lines), wanted)

    checked("16,777,216 line feeds", b"\n" * MOST, refused(6, "no filter table"))
    checked("16,777,217 line feeds", b"\n" * (MOST + 1), refused(4, "input is longer than 16777216 bytes"))
    check("a folder, checked", told(run(["check"], stdin=os.open("/", os.O_RDONLY), stdout=-1, stderr=-1)), refused(2, "read failed"))


LOST = -1
# Rules of FORWARD, in a dump that also declares the chain C, and how many unknown matches each has; None where the line
# is malformed, a name where the target isn't supported, LOST where `-g` names no declared user chain.
LINES = [
    ('"-s" 10.0.0.1 -j ACCEPT', None), ('-s 10.0.0.1 "-j" ACCEPT', None), ('"!" -s 10.0.0.1 -j ACCEPT', None), ('"-m" tcp', None),
    ('-m comment --comment "-j DROP" -j ACCEPT', 0), ('-m limit --limit "--x" --burst 1 -j ACCEPT', 2), ("-m limit --limit 1/s ! --x -j ACCEPT", 2),
    ('-i a"b -j ACCEPT', 0), ('-i "a"-j ACCEPT', 0), ('-i "a\\"b\\\\" -j ACCEPT', 0), ('-i "a\\', None), ('-m comment --comment "half -j ACCEPT', None),
    ("-i \x00 -j ACCEPT", 0), ("-i \xe9t\xe9 -j ACCEPT", 0), ("-i\teth0\t-j\tACCEPT\r", 0), ("-i eth0 -j ACCEPT \r", 0),
    ("-m tcp --dport 22 -p tcp -j ACCEPT", 0), ("-j ACCEPT -m", None), ("-m", None), ("-m state -m tcp -j ACCEPT", 0), ("-m limit -m socket -j ACCEPT", 2),
    ("-m comment -j ACCEPT", 0), ("--dport 22 -j ACCEPT", 1), ("! -m tcp --dport 22", None), ("-m comment ! --comment x -j ACCEPT", 1),
    ("-m addrtype -s 10.0.0.0/8 --dst-type LOCAL -j ACCEPT", 1), ("-m socket -s 10.0.0.0/8 -j ACCEPT", 1),
    ("-p tcp -m tcp --dport ssh -j ACCEPT", 1), ("-p tcp -m tcp --dport 65536 -j ACCEPT", 1), ("-p tcp -m tcp --sport 2:1 -j ACCEPT", 1),
    ("-p tcp -m tcp --sport 0:65535 -j ACCEPT", 0), ("-p tcp -m tcp --sport 080 -j ACCEPT", 1), ("-m tcp --dport", None), ("-m tcp ! --dport 22 -j ACCEPT", 0),
    ("-p tcp -m multiport --dports 1,2,3,4,5,6,7,8,9,10,11,12,13,14,15 -j ACCEPT", 0),
    ("-p tcp -m multiport --dports 1,2,3,4,5,6,7,8,9,10,11,12,13,14,15,16 -j ACCEPT", 1),
    ("-p tcp -m multiport --dports 1:2,3:4,5:6,7:8,9:10,11:12,13:14,15 -j ACCEPT", 0),
    ("-p tcp -m multiport --dports 1:1,2:2,3:3,4:4,5:5,6:6,7:7,8:8 -j ACCEPT", 1), ("-p tcp -m multiport --dports 1,,2 -j ACCEPT", 1),
    ("-p 6 -m multiport --ports 1 -j ACCEPT", 0), ("-p sctp -m multiport --sports 1 -j ACCEPT", 0), ("! -p tcp -m multiport --dports 1 -j ACCEPT", 1),
    ("-m multiport --dports 1 -j ACCEPT", 1), ("-p icmp -m multiport --dports 1 -j ACCEPT", 1), ("-m multiport --dports 1 -p udp -j ACCEPT", 0),
    ("-p 0 -j ACCEPT", 0), ("-p all -j ACCEPT", 0), ("-p 007 -j ACCEPT", 1), ("-p 256 -j ACCEPT", 1), ("-p foo -j ACCEPT", 1), ("! -p 0 -j ACCEPT", None),
    ("! -p all -j ACCEPT", None), ("-p icmpv6 -j ACCEPT", 0), ("-p ! -j DROP", 1), ("-f -j ACCEPT", 1), ("! -f -j ACCEPT", 1), ("-f -f -j ACCEPT", None),
    ("-s 0.0.0.0/0 -j ACCEPT", 0), ("-s 10.0.0.1/255.0.255.0 -j ACCEPT", 1), ("-s 10.0.0.1/255.255.0.0 -j ACCEPT", 0), ("-s 10.0.0.1/33 -j ACCEPT", None),
    ("-s host -j ACCEPT", None), ("-s 010.0.0.1 -j ACCEPT", None), ("-s ! 10.0.0.0/8 -j DROP", None), ("! -s 10.0.0.0/8 -j DROP", 0),
    ("-s 1.2.3.4/32 -s 1.2.3.5/32 -j DROP", None), ("-i + -j ACCEPT", 0), ('-i "" -j ACCEPT', None), ("-i ! -j ACCEPT", 0), ("-i ! eth0 -j ACCEPT", None), ("-i -s -j ACCEPT", 0),
    ("-i " + "a" * 255 + " -j ACCEPT", 0), ("-i " + "a" * 256 + " -j ACCEPT", None), ("-i " + "a" * 254 + "+ -j ACCEPT", 0), ("-i " + "a" * 255 + "+ -j ACCEPT", None),
    ("-p tcp -m tcp --tcp-flags ALL NONE -j ACCEPT", 0), ("-p tcp -m tcp --tcp-flags SYN,ALL SYN -j ACCEPT", 1), ("-p tcp -m tcp --tcp-flags SYN", None),
    ("-p tcp -m tcp --syn -j ACCEPT", 0), ("-p tcp -m tcp ! --syn -j ACCEPT", 0), ("-m conntrack --ctstate NEW,SNAT -j ACCEPT", 1), ("-m state --state NEW,NEW -j ACCEPT", 0),
    ("-m iprange --src-range 10.0.0.1-10.0.0.9 -j ACCEPT", 0), ("-m iprange --src-range 10.0.0.9-10.0.0.1 -j ACCEPT", 1),
    ("-m base --sport 1 -j ACCEPT", 1), ("-m base -s 10.0.0.1 -j ACCEPT", 1), ('-m "" -j ACCEPT', 1), ("--x -j ACCEPT", 1), ("-- -j ACCEPT", None), ("-x -j ACCEPT", None),
    ("", 0), ("-j", None), ("-g", None), ("-g C", 0), ("-g C x", None), ("-j INPUT", "INPUT"), ("-j NFQUEUE --queue-num 1", "NFQUEUE"), ("-j C", 0), ("-j C x", None),
    ("-j ACCEPT x", None), ("-j RETURN", 0), ("-j RETURN x", None), ("-j REJECT", 0), ("-j REJECT --reject-with tcp-reset", 0), ("-j REJECT --reject-with", None),
    ('-j REJECT "--reject-with" x', None), ("-j LOG --log-prefix x -m anything", 0), ('-j "ACCEPT"', 0), ("-j ACCEPT -s 10.0.0.1", None),
    ('-g "C"', 0), ("-p tcp -m tcp --dport 22 -g C", 0), ("-m limit --limit 1/sec -g C", 1), ('"-g" C', None), ("! -g C", None), ("-gC", None),
    ("-g C -j ACCEPT", None), ("-g C -g C", None), ("-g C -m comment --comment x", None), ("-j ACCEPT -g C", None), ("-j LOG -g C", 0), ("-j NFQUEUE -g C", "NFQUEUE"),
    ("-g D", LOST), ("-g D x", None), ('-g ""', LOST), ("-g -j", LOST), ("-g -j C", None), ("-g ACCEPT", LOST), ("-g ACCEPT x", None), ("-g RETURN", LOST), ("-g LOG", LOST),
    ("-g LOG --log-prefix x", None), ("-g FORWARD", LOST), ("-g INPUT", LOST), ("-g FORWARD x", None), ("--goto C", 1), ("--goto C -g C", 1),
    ("-j -g", "-g"), ('"-p" tcp', None), ("-s 10.0.0.0/8 ! -p tcp -j DROP", 0), ("-s 1.2.3.4 x", None), ('-i "eth0"-j DROP', 0), ("-i", None),
    ("! ! -s 1.2.3.4", None), ("! -j DROP", None), ("! -m tcp", None), ("-p 0 -j RETURN", 0), ("-f -s 1.2.3.4 -f", None), ("! -s 10.0.0.1/255.0.255.0 -j ACCEPT", 1),
    ("-m tcp -m udp", 0), ("-m comment", 0), ("-m comment --comment -j ACCEPT", None), ('-m comment --comment "-j" -j ACCEPT', 0), ("-m a --", None),
    ('-m limit -s 10.0.0.0/8 ! --limit 1/s "a b"', 1), ('-m a --b "-j" c -s 1.2.3.4', 1), ("-m base --sport 1 2", 1), ("--dport 22 80", 1),
    ("-p tcp -m tcp --sport 22", 0), ("-p tcp -m tcp --sport 5:5", 0), ("-p tcp -m tcp --sport 1:", 1), ("-p tcp -m tcp --sport 1:2:3", 1), ("-p tcp -m tcp --sport 022", 1),
    ("-m tcp ! --dport 22:80 --dport ssh", 1), ("-m udp --sport 53 --syn", 1), ("-m tcp --syn x", None), ("-m tcp --tcp-flags ALL", None), ("-m tcp --tcp-flags ALL NONE --syn", 0),
    ("-p sctp -m multiport --ports 1", 0), ("-p tcp -m multiport --dports 1:1,2:2,3:3,4:4,5:5,6:6,7:7,8", 0),
    ("-m conntrack --ctstate NEW,RELATED --ctstate NEW,SNAT", 1), ("-m state --state NEW,", 1), ('-m state --state ""', 1), ("-m state --state RELATED,ESTABLISHED", 0),
    ("-m iprange --src-range 1.0.0.1-1.0.0.9 --dst-range 2.0.0.9-2.0.0.1", 1),
    ("-p icmp -m icmp --icmp-type 8", 0), ("-p icmp -m icmp ! --icmp-type 8 -j ACCEPT", 0), ("-m icmp --icmp-type 8", 0), ("-m icmp -p icmp --icmp-type 8", 0),
    ("-m icmp6 --icmpv6-type 128", 0), ("-p ipv6-icmp -m icmp6 ! --icmpv6-type 128 -j DROP", 0), ("! -p icmp -m icmp --icmp-type 8", 0), ("-m icmp --icmp-type 8 --icmp-type 0", 0),
    ("-m icmp", 0), ("-m icmp6 -j ACCEPT", 0), ("-m icmpv6 -j ACCEPT", 1), ("-p icmp --icmp-type 8", 1), ("-m icmpv6 --icmpv6-type 128", 1), ("-m icmp --icmpv6-type 128", 1),
    ("-m icmp6 --icmp-type 8", 1), ("-m tcp --icmp-type 8", 1), ("-m icmp --icmp-types 8", 1), ("-m icmp --icmp-type any", 1), ("-m icmp ! --icmp-type echo-request", 1),
    ("-m icmp --icmp-type any --icmp-type 3", 1), ('-m icmp --icmp-type "-j" -j ACCEPT', 1), ("-m icmp --icmp-type -j", 1), ("-m icmp6 --icmpv6-type ! -j ACCEPT", 1), ("-m icmp --icmp-type 8 9 -j ACCEPT", None), ("-m icmp --icmp-type 8 any", None),
    ("-m icmp --icmp-type", None), ("-m icmp ! --icmp-type", None), ("-m icmp --icmp-type -j ACCEPT", None), ("-m icmp6 --icmpv6-type", None), ("-m icmp6 --icmpv6-type ! 8", None),
    ('-m icmp "--icmp-type" 8', None), ("! -m icmp --icmp-type 8", None), ("-m icmp ! ! --icmp-type 8", None),
]

# Lines behind `:FORWARD DROP`, and whether they declare a chain.
CHAIN_LINES = [
    (b":INPUT ACCEPT [0:0]", True), (b":OUTPUT DROP", True), (b":user - [12:345]", True), (b":user -", True), (b":user - [00:7]", True),
    (b":\xff\"a - [0:0]", True), (b":user DROP [0:0]", False), (b":INPUT - [0:0]", False), (b": - [0:0]", False), (b":LOG - [0:0]", False),
    (b":ACCEPT - [0:0]", False), (b":RETURN - [0:0]", False), (b":user \"-\" [0:0]", False), (b"\":user\" - [0:0]", False),
    (b":user - \"[0:0]\"", False), (b":user - [:0]", False), (b":user - [0:]", False), (b":user - [0:0:0]", False), (b":user - [0:0] x", False),
    (b":user", False),
]

# Whole texts, and the line of the answer: counts, or what standard error says.
TEXTS = [
    (b"", "no filter table"), (b"\n", "no filter table"), (b"# a\n \t\r\n", "no filter table"), (b"*nat\nx\nCOMMIT\n", "no filter table"),
    (b"*nat\n*filter\n\"\n \tCOMMIT\r\n", "no filter table"), (b"*nat\n\"COMMIT\"\n", "line 3: malformed"), (b"*filter", "line 2: malformed"),
    (b"x\n*filter\nCOMMIT\n", "line 1: malformed"), (b"COMMIT\n", "line 1: malformed"), (b"*\n", "line 1: malformed"), (b"* filter\n", "line 1: malformed"),
    (b"\"*filter\"\n", "line 1: malformed"), (b"*filter x\n", "line 1: malformed"),
    (b"*filter\n:FORWARD DROP\nCOMMIT\n*filter\nCOMMIT\n", "line 4: malformed"), (b"*filter\n:FORWARD DROP\n*filter\nCOMMIT\n", "line 3: malformed"),
    (b"*filter\n:FORWARD DROP\nCOMMIT x\n", "line 3: malformed"), (b"*filter\n:FORWARD DROP\n\"COMMIT\"\n", "line 3: malformed"),
    (b"*filter\n:FORWARD DROP\n", "line 3: malformed"), (b"*filter\n:FORWARD DROP\nCOMMIT", "ok chains 1 rules 0 unknown 0"),
    (b" *filter\r\n :FORWARD DROP [1:2]\t\nCOMMIT \n", "ok chains 1 rules 0 unknown 0"), (b"*filter\n:FORWARD - [0:0]\nCOMMIT\n", "line 2: malformed"),
    (b"*filter\n:FORWARD DROP\n:FORWARD DROP\nCOMMIT\n", "line 3: malformed"), (b"*filter\n:FORWARD DROP\n:LOG -\nCOMMIT\n", "line 3: malformed"),
    (b"*filter\n:FORWARD DROP\n:X ACCEPT\nCOMMIT\n", "line 3: malformed"), (b"*filter\n:FORWARD DROP\n: -\nCOMMIT\n", "line 3: malformed"),
    (b"*filter\n:FORWARD DROP [0:]\nCOMMIT\n", "line 2: malformed"), (b"*filter\n:FORWARD DROP [0:0] x\nCOMMIT\n", "line 2: malformed"),
    (b"*filter\n:FORWARD DROP\n-A FORWARD -j ACCEPT\n:X -\nCOMMIT\n", "line 4: malformed"), (b"*filter\n-A FORWARD\n:FORWARD DROP\nCOMMIT\n", "line 3: malformed"),
    (b"*filter\n:FORWARD DROP\n[1:2] -A FORWARD -j ACCEPT\nCOMMIT\n", "ok chains 1 rules 1 unknown 0"), (b"*filter\n:FORWARD DROP\n\"[1:2]\" -A FORWARD\nCOMMIT\n", "line 3: malformed"),
    (b"*filter\n:FORWARD DROP\n[1:] -A FORWARD\nCOMMIT\n", "line 3: malformed"), (b"*filter\n:FORWARD DROP\n-A LOST\n-A ALSO\nCOMMIT\n", "line 3: undefined chain"),
    (b"*filter\n:FORWARD DROP\n-A LOST\nx\nCOMMIT\n", "line 4: malformed"), (b"*filter\n:FORWARD DROP\n-A LOST\n", "line 4: malformed"),
    (b"*filter\n:FORWARD DROP\n-A LOST\nCOMMIT\n*nat\n", "line 6: malformed"), (b"*filter\n:FORWARD DROP\n-A \"FORWARD\"\n-A\nCOMMIT\n", "line 4: malformed"),
    (b"*filter\n:FORWARD DROP\n-A FORWARD -g LOST\n-A LOST\nCOMMIT\n", "line 3: undefined chain"),
    (b"*filter\n:FORWARD DROP\n-A LOST\n-A FORWARD -g LOST\nCOMMIT\n", "line 3: undefined chain"),
    (b"*filter\n:FORWARD DROP\n-A LOST -g LOST\nCOMMIT\n", "line 3: undefined chain"), (b"*filter\n:FORWARD DROP\n-A FORWARD -g LOST\nx\nCOMMIT\n", "line 4: malformed"),
    (b"*filter\n:FORWARD DROP\n-A FORWARD -g LOST\n", "line 4: malformed"), (b"*filter\n:FORWARD DROP\n-A FORWARD -g LOST\n:LOST -\nCOMMIT\n", "line 4: malformed"),
    (b"*filter\n:FORWARD DROP\n:X -\n-A FORWARD -j NFQUEUE\n-A X -g LOST\nCOMMIT\n", "line 5: undefined chain"),
    (b"*filter\n:FORWARD DROP\n:-g -\n-A FORWARD -g -g\nCOMMIT\n", "ok chains 2 rules 1 unknown 0"),
    (b"*filter\n:FORWARD DROP\n:QUEUE -\n-A FORWARD -g QUEUE\nCOMMIT\n", "ok chains 2 rules 1 unknown 0"),
    (b"*raw\n:x y z\nCOMMIT\n\n*filter\n:FORWARD DROP\n\n# a\n-A FORWARD -m limit\nCOMMIT\n*mangle\nCOMMIT\n", "ok chains 1 rules 1 unknown 1"),
    (b"*raw\nno filter's \"line\nCOMMIT\n", "no filter table"), (b"*filter\n:FORWARD DROP\nCOMM", "line 3: malformed"),
    (b"*filter\n:F -\n:F -\nCOMMIT", "line 3: malformed"), (b"*filter\nCOMMIT\n*filter\nCOMMIT\n", "line 3: malformed"),
    (b"*filter\n-A F -j ACCEPT\nCOMMIT\n", "line 2: undefined chain"), (b"*filter\n-A F -j ACCEPT\n:F -\nCOMMIT\n", "line 3: malformed"),
    (b"*filter\n:F -\n-A F -s ::\nCOMMIT\n", "line 3: malformed"), (b"*filter\n:FORWARD DROP\n[0:0] [0:0] -A FORWARD\nCOMMIT\n", "line 3: malformed"),
    (b"*filter\n:FORWARD DROP\n-A \"FORWARD\" -j \"ACCEPT\"\nCOMMIT\n", "ok chains 1 rules 1 unknown 0"),
]


def grammar():
    for line, answer in LINES:
        text = table(":FORWARD DROP [0:0]", ":C - [0:0]", "-A FORWARD " + line)
        if answer is None:
            wanted = refused(5, "line 4: malformed")
        elif answer == LOST:
            wanted = refused(7, "line 4: undefined chain")
        elif isinstance(answer, str):
            wanted = refused(9, "line 4: unsupported target " + answer)
        else:
            wanted = counts(2, 1, answer)
        check(f"the rule {line[:60]}", told(run(["check"], text)), wanted)
    for line, declares in CHAIN_LINES:
        wanted = counts(2, 0, 0) if declares else refused(5, "line 3: malformed")
        check(f"the chain line {line}", told(run(["check"], b"*filter\n:FORWARD DROP\n" + line + b"\nCOMMIT\n")), wanted)
    for text, line in TEXTS:
        done = run(["check"], text)
        got = (done.stdout or done.stderr[len("fffuu: "):]).decode()
        check(f"the text {text}", got, line + "\n")


def spelled_parts():
    for family, matches, written in parts.rows():
        rule = f"{matches} -j ACCEPT"
        words = ["--family", str(family)]
        text = cases.forward(rule).encode("latin-1")
        if written is None:
            check(f"the rule {rule}", told(run(["check", *words], text)), refused(5, "line 3: malformed"))
        elif written is parts.UNKNOWN:
            check(f"the rule {rule}", told(run(["check", *words], text)), counts(1, 1, 1))
        else:
            wanted = cases.forward(f"{written} -j ACCEPT".lstrip()).encode("latin-1")
            check(f"the rule {rule}", told(run(["upper", *words], text)), (0, wanted, b""))
            check(f"the rule {rule}, counted", told(run(["check", *words], text)), counts(1, 1, 0))
    for matches, packet, holds in parts.HELD:
        wanted = b"accept under 0\ndrop never\n" if holds else b"accept never\ndrop under 0\n"
        text = cases.forward(f"{matches} -j ACCEPT".lstrip()).encode()
        check(f"the rule {matches} of {packet}", told(run(["explain", *packet.split()], text)), (0, wanted, b""))


def worked():
    for mode, wanted in [("upper", cases.ROUTER_UPPER.encode()), ("lower", cases.ROUTER_LOWER.encode())]:
        check(f"a home router by {mode}", told(run([mode], ROUTER)), (0, wanted, b""))
        check(f"a home router by {mode}, again", told(run([mode], wanted)), (0, wanted, b""))
    for words, wanted in [("in=br0 src=10.0.0.1", b"accept never\ndrop under 0\n"),
                          ("in=ppp0 proto=icmp", b"accept under 1\nFORWARD 4 > WAN 1 literal 2\ndrop under 0\n")]:
        check(f"a home router explained: {words}", told(run(["explain", *words.split()], ROUTER)), (0, wanted, b""))
    for name, (words, text, (status, out, err)) in cases.CASES.items():
        check(name, told(run(words.split(), text.encode())), (status, out.encode(), err.encode()))
        if out.startswith("*filter"):
            check(f"{name}, again", told(run(words.split(), out.encode())), (0, out.encode(), b""))
    check("sixteen ports take two lines", told(run(["upper"], cases.SIXTEEN.encode())), (0, cases.SIXTEEN_LINES.encode(), b""))
    text = cases.EXPLAIN_TEXT.encode()
    for fields in cases.BAD_FIELDS:
        check(f"no packet: {fields}", told(run(["explain", *fields.split()], text)), (1, b"", cases.USAGE.encode()))
    for fields in cases.GOOD_FIELDS:
        check(f"a packet: {fields}", told(run(["explain", *fields.split()], text)), (0, b"accept under 0\ndrop never\n", b""))
    for words in [*(line.split() for line in cases.BAD_WORDS), ["explain", ""], ["spoof", ""], ["matrix", ""], [""]]:
        check(f"no request: {words}", told(run(words, text)), (1, b"", cases.USAGE.encode()))
    spelled_name = b"*filter\n:FORWARD DROP\n-A FORWARD -i \x00\xff\xab -j ACCEPT\nCOMMIT\n"
    check("a name spelled by its bytes", told(run(["explain", "in=hex:00fFAb"], spelled_name)), (0, b"accept under 0\ndrop never\n", b""))
    check("another name spelled by its bytes", told(run(["explain", "in=hex:00fFAc"], spelled_name)), (0, b"accept never\ndrop under 0\n", b""))
    check("a packet with a name that is spelled", told(run(["spoof", "a b=10.0.0.0/8"], cases.SYN_ACK_BY_NAME.encode())), (
        0, b"hex:612062 violated in=hex:612062 out= src=0.0.0.0 dst=0.0.0.0 proto=6 sport=0 dport=0 flags=SYN,ACK state=NEW icmp=0\n", b""))
    for name, (words, text, wanted) in cases.LIMITS.items():
        status, out, err = told(run(words.split(), text.encode()))
        if isinstance(wanted, int):
            check(name, (status, out.count(b"\n-A "), err), (0, wanted, b""))
        else:
            check(name, (status, out.decode(), err.decode()), wanted)


def covered(family, first, second):
    """Whether the second dump covers the first; the bytes where it isn't said."""
    done = run(["cover", *family], first + b"%%\n" + second)
    shown = done.stdout.startswith(b"not covered in=")
    return not shown if (done.returncode, done.stderr) == (0, b"") and (shown or done.stdout == b"covered\n") else told(done)


def covers(path, family, text, upper, lower):
    """A dump between its filters: what it covers, and what covers it. It covers itself exactly where lower covers upper."""
    itself = covered(family, text, text)
    for name, first, second, wanted in [("the dump by upper", text, upper, True), ("lower by the dump", lower, text, True), ("lower by upper", lower, upper, True),
                                        ("upper by lower", upper, lower, itself), ("the dump by lower", text, lower, itself), ("upper by the dump", upper, text, itself)]:
        check(f"covered: {name}, of {path}", covered(family, first, second), wanted)


def samples():
    for path in sorted(glob.glob(f"{TOP}/samples/*.rules")):
        with open(path, "rb") as given:
            text = given.read()
        family = ["--family", "6" if path.endswith("6.rules") else "4"]
        table = text[text.index(b"*filter\n"):].split(b"\nCOMMIT")[0].splitlines()
        chains, rules = (sum(line.startswith(front) for line in table) for front in (b":", b"-A "))
        printed = {}
        check(f"counts of {path}", run(["check", *family], text).stdout.split()[:5], f"ok chains {chains} rules {rules}".encode().split())
        for mode in ("upper", "lower"):
            with open(f"{path[:-len('rules')]}{mode}", "rb") as kept:
                wanted = kept.read()
            check(f"{mode} of {path}", told(run([mode, *family], text)), (0, wanted, b""))
            check(f"{mode} of its own answer for {path}", told(run([mode, *family], wanted)), (0, wanted, b""))
            printed[mode] = wanted
        covers(path, family, text, printed["upper"], printed["lower"])
        for side, accepts in (("upper", lambda found: "accept" in found), ("lower", lambda found: found == {"accept"})):
            wanted = questions.matrix_text(text.decode(), int(family[1]), "tcp:1024:80", accepts)
            check(f"matrix of side {side} of {path}", told(run(["matrix", "tcp:1024:80", "--side", side, *family], text)), (0, wanted.encode(), b""))


def spelled(family, rng):
    """A text that is an address or nearly one."""
    if family == 4:
        parts = [str(rng.choice([0, 1, 9, 10, 99, 100, 199, 249, 255, rng.randrange(256)])) for _ in range(4)]
        joined = "."
    else:
        parts = [format(rng.choice([0, 0, 0, 1, 15, 256, 65535, rng.randrange(65536)]), rng.choice(["x", "X", "04x"])) for _ in range(8)]
        joined = ":"
    text = joined.join(parts)
    if family == 6:
        if rng.random() < 0.6:
            first, last = sorted(rng.sample(range(9), 2))
            text = ":".join(parts[:first]) + "::" + ":".join(parts[last:])
        if rng.random() < 0.2:
            text = ":".join(text.split(":")[:-2] + [".".join(str(rng.randrange(256)) for _ in range(4))])
    if rng.random() < 0.4:
        at = rng.randrange(len(text) + 1)
        text = rng.choice([
            text[:at] + rng.choice("0123456789abcfgF.:") + text[at:],
            text[:at] + text[at + 1:],
            text + joined + "1",
            "0" + text,
            text.replace(joined, joined + joined, 1),
        ])
    return text


def is_read(family, text):
    try:
        socket.inet_pton(socket.AF_INET if family == 4 else socket.AF_INET6, text)
        return True
    except OSError:
        return False


def written(family, text):
    if family == 4:
        return str(ipaddress.IPv4Address(text)) + "/32"
    value = int(ipaddress.IPv6Address(text))
    groups = [format(value >> (112 - 16 * at) & 0xFFFF, "x") for at in range(8)]
    runs = [(last - first, -first) for first in range(8) for last in range(first + 2, 9) if set(groups[first:last]) == {"0"}]
    if not runs:
        return ":".join(groups) + "/128"
    length, first = max(runs)
    return ":".join(groups[:-first]) + "::" + ":".join(groups[-first + length:]) + "/128"


def addresses():
    rng = random.Random(11)
    for family in (4, 6):
        texts = [text for text in (spelled(family, rng) for _ in range(5_000)) if text]
        right = [text for text in texts if is_read(family, text)]
        wrong = [text for text in texts if not is_read(family, text)]
        words = ["upper", "--family", str(family)]
        done = run(words, wrapped(*(f"-A FORWARD -s {text} -j ACCEPT" for text in right)))
        lines = done.stdout.decode().splitlines()[2:-1]
        check(f"family {family}: the number of right texts", (done.returncode, len(lines)), (0, len(right)))
        for text, line in zip(right, lines):
            check(f"family {family}: {text}", line, f"-A FORWARD -s {written(family, text)} -j ACCEPT")
        for text in wrong:
            done = run(words, wrapped(f"-A FORWARD -s {text} -j ACCEPT"))
            check(f"family {family}: {text} is refused", (done.returncode, done.stdout), (5, b""))


if len(sys.argv) != 2:
    sys.exit(__doc__)
PROGRAM = os.path.abspath(sys.argv[1])
edges()
checks()
grammar()
spelled_parts()
worked()
samples()
addresses()
print(f"{passed} passed, {failed} failed")
sys.exit(1 if failed else 0)
