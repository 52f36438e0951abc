"""Worked cases of the modes, each with the bytes that are wanted, and inputs at the limits."""


def wrapped(*lines):
    return "*filter\n" + "".join(line + "\n" for line in lines) + "COMMIT\n"


def forward(*rules, policy="DROP"):
    """A chain FORWARD with these rules, its first line."""
    return wrapped(f":FORWARD {policy} [0:0]", *(f"-A FORWARD {rule}" for rule in rules))


def calling(*rules, returns="C"):
    """A chain FORWARD that calls C, and the rules of C."""
    return wrapped(":FORWARD DROP [0:0]", f":{returns} - [0:0]", f"-A FORWARD -j {returns}", *(f"-A {returns} {rule}" for rule in rules))


USAGE = "fffuu: usage: fffuu MODE [--chain NAME] [--family 4|6] [--side upper|lower] [ARGS]\n"
LAST6 = "ffff:ffff:ffff:ffff:ffff:ffff:ffff:ffff/128"
LIMITED_TCP = forward("-p tcp -m limit --limit 1/sec -j ACCEPT")
RECENT_DROP = forward("-m recent --rcheck --name DEFAULT -j DROP", "-j ACCEPT")
DOUBTFUL_RETURN = wrapped(":FORWARD DROP [0:0]", ":C - [0:0]", "-A FORWARD -j C", "-A FORWARD -j DROP",
                          "-A C -m addrtype --dst-type LOCAL -j RETURN", "-A C -s 10.0.0.0/8 -j DROP", "-A C -s 10.0.0.0/8 -j ACCEPT")
DOUBTFUL_CALL = wrapped(":FORWARD DROP [0:0]", ":BLOCK - [0:0]", "-A FORWARD -m set --match-set bad src -j BLOCK", "-A FORWARD -j ACCEPT",
                        "-A BLOCK -j DROP")
LIMITED_ACCEPT = wrapped(":FORWARD DROP [0:0]", ":L - [0:0]", "-A FORWARD -j L", "-A FORWARD -j L", "-A L -m limit --limit 5/min -j ACCEPT")
MANY_CALLS = wrapped(":FORWARD DROP [0:0]", ":C - [0:0]", *["-A FORWARD -m limit --limit 1/sec -j C"] * 64,
                     "-A C -m limit --limit 1/sec -j RETURN")
TWO_DROPS = wrapped(":FORWARD ACCEPT [0:0]", ":C - [0:0]", "-A FORWARD -j C", "-A C -m addrtype --dst-type LOCAL -j RETURN", "-A C -j DROP",
                    "-A C -j DROP")
TWO_UNKNOWN = forward("-m limit --limit 5/sec -p tcp -m addrtype --dst-type LOCAL -j ACCEPT")
TWO_NAMES = wrapped(":FORWARD DROP [0:0]", ":C1 - [0:0]", "-A FORWARD -j C1", "-A C1 -i eth0 -j RETURN", "-A C1 -i eth1 -j RETURN",
                    "-A C1 -j ACCEPT")
TWO_CALLS_DOWN = wrapped(":FORWARD DROP [0:0]", ":C - [0:0]", ":D - [0:0]", "-A FORWARD -j C", "-A C -j D",
                         "-A D -m limit --limit 5/min -m recent --rcheck -j ACCEPT")


def doubling(count, by="-j"):
    """Chains of which each calls the next one, or goes to it, twice."""
    chains = [f":N{i} - [0:0]" for i in range(1, count + 1)]
    calls = [f"-A N{i} {by} N{i + 1}" for i in range(1, count) for _ in range(2)]
    return wrapped(":FORWARD DROP [0:0]", *chains, "-A FORWARD -j N1", *calls, f"-A N{count} -j ACCEPT")


def returning(count):
    """A chain that returns for `count` protocols and accepts the others."""
    return calling(*(f"-p {i} -j RETURN" for i in range(1, count + 1)), "-j ACCEPT")


def malformed(line):
    return 5, "", f"fffuu: line {line}: malformed\n"


def limit(kind):
    return 11, "", f"fffuu: limit {kind}\n"


def prints(text):
    return 0, text, ""


PROTOCOL_NAMES = {1: "icmp", 2: "igmp", 6: "tcp", 17: "udp", 33: "dccp", 47: "gre", 50: "esp", 51: "ah", 58: "ipv6-icmp", 132: "sctp", 136: "udplite"}
RETURN_LINES = [f"-A C1 -p {PROTOCOL_NAMES.get(i, i)} -j RETURN" for i in range(1, 256)]

# name: words, text, and the status with what is written
CASES = {
    "a prefix rule comes back": ("upper", forward("-s 10.0.0.0/8 -j ACCEPT"), prints(forward("-s 10.0.0.0/8 -j ACCEPT"))),
    "a chain without rules": ("upper", forward(), prints(forward())),
    "counters are written as zero": ("upper", wrapped(":FORWARD ACCEPT [12:3456]"), prints(forward(policy="ACCEPT"))),
    "the last address": ("upper", forward("-s 255.255.255.255/32 -j DROP", policy="ACCEPT"),
                         prints(forward("-s 255.255.255.255/32 -j DROP", policy="ACCEPT"))),
    "the last address of IPv6": ("upper --family 6", forward(f"-s {LAST6} -j DROP", policy="ACCEPT"),
                                 prints(forward(f"-s {LAST6} -j DROP", policy="ACCEPT"))),
    "bits past the length go out": ("upper", forward("-s 10.1.2.3/8 -d 0.0.0.0/0 -j ACCEPT"), prints(forward("-s 10.0.0.0/8 -j ACCEPT"))),
    "a dotted tail is not written": ("upper --family 6", forward("-s 2001:DB8::/32 -d ::1.2.3.4 -j ACCEPT"),
                                     prints(forward("-s 2001:db8::/32 -d ::102:304/128 -j ACCEPT"))),
    "IPv6 addresses are written in one way": (
        "upper --family 6",
        forward("-s ::1.2.3.4/128 -j ACCEPT", "-d 2001:db8:0:0:1:0:0:1/128 -p icmpv6 -j ACCEPT",
                "-m iprange --src-range 2001:db8::-2001:db8::ff -j ACCEPT"),
        prints(forward("-s ::102:304/128 -j ACCEPT", "-d 2001:db8::1:0:0:1/128 -p ipv6-icmp -j ACCEPT", "-s 2001:db8::/120 -j ACCEPT"))),
    "an unknown match of an accept may hold": ("upper", LIMITED_TCP, prints(forward("-p tcp -j ACCEPT"))),
    "an unknown match of an accept need not hold": ("lower", LIMITED_TCP, prints(forward())),
    "a doubtful drop is left out of upper": ("upper", RECENT_DROP, prints(forward("-j ACCEPT"))),
    "a doubtful drop stands in lower": ("lower", RECENT_DROP, prints(forward("-j DROP", "-j ACCEPT"))),
    "a doubtful return saves from no drop that stands alone": ("upper", DOUBTFUL_RETURN, prints(forward("-j DROP"))),
    "in lower the drop behind a doubtful return stands": ("lower", DOUBTFUL_RETURN, prints(forward("-s 10.0.0.0/8 -j DROP", "-j DROP"))),
    "a doubtful call of a drop is left out of upper": ("upper", DOUBTFUL_CALL, prints(forward("-j ACCEPT"))),
    "a doubtful call of a drop stands in lower": ("lower", DOUBTFUL_CALL, prints(forward("-j DROP", "-j ACCEPT"))),
    "a return in the asked chain is the policy": ("upper", forward("-j RETURN", "-j DROP", policy="ACCEPT"), prints(forward(policy="ACCEPT"))),
    "a negated port is also another protocol": (
        "upper", calling("-p tcp -m tcp ! --dport 22 -j RETURN", "-j ACCEPT"),
        prints(forward("! -p tcp -j ACCEPT", "-p tcp -m tcp --dport 22 -j ACCEPT"))),
    "two excluded names need a helper chain": (
        "upper", calling("-i eth0 -j RETURN", "-i eth1 -j RETURN", "-j ACCEPT"), prints(TWO_NAMES)),
    "a printed filter comes back": ("upper", TWO_NAMES, prints(TWO_NAMES)),
    "a long list of ports takes two lines": (
        "upper", forward("-p tcp -m multiport ! --dports 10,20,30,40,50,60,70,80 -j ACCEPT"),
        prints(forward("-p tcp -m multiport --dports 0:9,11:19,21:29,31:39,41:49,51:59,61:69 -j ACCEPT",
                       "-p tcp -m multiport --dports 71:79,81:65535 -j ACCEPT"))),
    "one of the two ports": (
        "upper", forward("-p udp -m multiport --ports 53 -j ACCEPT"),
        prints(forward("-p udp -m udp --sport 53 -j ACCEPT", "-p udp -m udp --dport 53 -m multiport --sports 0:52,54:65535 -j ACCEPT"))),
    "flags as cubes": (
        "upper", forward("-p tcp -m tcp ! --syn -j DROP", policy="ACCEPT"),
        prints(forward(*(f"-p tcp -m tcp --tcp-flags {flags} -j DROP" for flags in
                         ("FIN,SYN NONE", "FIN,SYN,RST,ACK SYN,ACK", "FIN,SYN,RST SYN,RST", "FIN FIN")), policy="ACCEPT"))),
    "a name with a blank stands in quotes": (
        "upper", forward('-i "a b" -j ACCEPT', "-i + -m socket -j ACCEPT"), prints(forward('-i "a b" -j ACCEPT', "-j ACCEPT"))),
    "an exclusion from a pattern needs a helper chain": (
        "upper", calling("-o eth0 -j RETURN", "-o eth+ -j DROP"),
        prints(wrapped(":FORWARD DROP [0:0]", ":C1 - [0:0]", "-A FORWARD -o eth+ -j C1", "-A C1 -o eth0 -j RETURN", "-A C1 -j DROP"))),
    "each rule has a helper chain of its own": (
        "lower", calling("-i eth0 -j RETURN", "-i lo -j RETURN", "-p tcp -j ACCEPT", "-j DROP"),
        prints(wrapped(":FORWARD DROP [0:0]", ":C1 - [0:0]", ":C2 - [0:0]", "-A FORWARD -p tcp -j C1", "-A FORWARD -j C2",
                       "-A C1 -i eth0 -j RETURN", "-A C1 -i lo -j RETURN", "-A C1 -j ACCEPT",
                       "-A C2 -i eth0 -j RETURN", "-A C2 -i lo -j RETURN", "-A C2 -j DROP"))),
    "one excluded name stands in the line": ("upper", calling("-o eth0 -j RETURN", "-j ACCEPT"), prints(forward("! -o eth0 -j ACCEPT"))),
    "a name with a quote and a backslash": ("upper", forward('-i "a\\"b\\\\" -j ACCEPT'), prints(forward('-i "a\\"b\\\\" -j ACCEPT'))),
    "a name that begins with a dash": ("upper", forward("-i -x -j ACCEPT"), prints(forward('-i "-x" -j ACCEPT'))),
    "ports of sctp": ("upper", forward("-p sctp -m multiport --sports 80 -j ACCEPT"), prints(forward("-p sctp -m multiport --sports 80 -j ACCEPT"))),
    "protocols have their names": ("upper", forward("-p 6 -j ACCEPT", "-p 99 -j DROP", "! -p 58 -j ACCEPT"),
                                   prints(forward("-p tcp -j ACCEPT", "-p 99 -j DROP", "! -p ipv6-icmp -j ACCEPT"))),
    "states in their order": ("upper", forward("-m state --state ESTABLISHED,RELATED -j ACCEPT"),
                              prints(forward("-m conntrack --ctstate RELATED,ESTABLISHED -j ACCEPT"))),
    "all protocols but many": ("upper", returning(255), prints(wrapped(
        ":FORWARD DROP [0:0]", ":C1 - [0:0]", "-A FORWARD -j C1", *RETURN_LINES, "-A C1 -j ACCEPT"))),
    "an unsupported target in reach": (
        "upper", calling("-j NFQUEUE --queue-num 1", returns="Q"), (9, "", "fffuu: line 5: unsupported target NFQUEUE\n")),
    "an unsupported target out of reach": (
        "upper", wrapped(":FORWARD DROP [0:0]", ":Q - [0:0]", "-A Q -j NFQUEUE --queue-num 1"), prints(forward())),
    "a call loop": ("lower", calling("-j C"), (10, "", "fffuu: call loop through C\n")),
    "a quote that is never closed": ("upper", forward('-m comment --comment "half -j ACCEPT'), malformed(3)),
    "a mark behind its option": ("upper", forward("-s ! 10.0.0.0/8 -j DROP"), malformed(3)),
    "every protocol negated": ("lower", forward("! -p all -j DROP"), malformed(3)),
    "an option twice": ("upper", forward("-s 1.2.3.4/32 -s 1.2.3.5/32 -j DROP"), malformed(3)),
    "a text that is cut in a line": ("upper", "*filter\n:FORWARD DROP [0:0]\n-A FORWARD -s 10.0.", malformed(3)),
    "a text without COMMIT": ("upper", "*filter\n:FORWARD DROP [0:0]\n", malformed(3)),
    "no filter table": ("lower", "*nat\nCOMMIT\n", (6, "", "fffuu: no filter table\n")),
    "a rule of no declared chain": ("upper", wrapped(":FORWARD DROP [0:0]", "-A LOST -j ACCEPT"), (7, "", "fffuu: line 3: undefined chain\n")),
    "a chain that is not there": ("upper --chain OUTPUT", forward(), (8, "", "fffuu: no chain OUTPUT\n")),
    "the asked chain is another one": (
        "lower --chain INPUT", wrapped(":INPUT ACCEPT [5:6]", ":FORWARD DROP [0:0]", "-A INPUT -p tcp -j DROP", "-A FORWARD -j ACCEPT"),
        prints(wrapped(":INPUT ACCEPT [0:0]", "-A INPUT -p tcp -j DROP"))),
    "upper takes no side": ("upper --side lower", forward(), (1, "", USAGE)),
    "lower takes no arguments": ("lower x", forward(), (1, "", USAGE)),
    "many doubtful calls": ("upper", MANY_CALLS, prints(forward())),
    "many doubtful calls explained": ("explain", MANY_CALLS, prints("accept never\ndrop under 0\n")),
    "one visit of a limited accept is enough": (
        "explain src=10.0.0.1", LIMITED_ACCEPT, prints("accept under 1\nFORWARD 2 > L 1 literal 1\ndrop under 0\n")),
    "a drop behind a doubtful return explained": ("explain src=10.0.0.1", DOUBTFUL_RETURN, prints("accept never\ndrop under 0\n")),
    "calls of a chain without rules, and a target that goes on": (
        "lower", wrapped(":FORWARD DROP [0:0]", ":C - [0:0]", "-A FORWARD -j C", "-A FORWARD -j C", "-A FORWARD -j LOG", "-A FORWARD -j ACCEPT"),
        prints(forward("-j ACCEPT"))),
    "two unknown matches two calls down": ("upper", TWO_CALLS_DOWN, prints(forward("-j ACCEPT"))),
    "two unknown matches two calls down need not hold": ("lower", TWO_CALLS_DOWN, prints(forward())),
    "two unknown matches two calls down explained": (
        "explain", TWO_CALLS_DOWN, prints("accept under 2\nFORWARD 1 > C 1 > D 1 literal 1\nFORWARD 1 > C 1 > D 1 literal 2\ndrop under 0\n")),
    "a doubtful return saves from two drops": ("explain", TWO_DROPS, prints("accept under 1\nFORWARD 1 > C 1 literal 1\ndrop under 0\n")),
    "all unknown matches of a rule hold": (
        "explain proto=tcp", TWO_UNKNOWN, prints("accept under 2\nFORWARD 1 literal 1\nFORWARD 1 literal 3\ndrop under 0\n")),
    "a known match that fails leaves no choice": ("explain proto=udp", TWO_UNKNOWN, prints("accept never\ndrop under 0\n")),
    "doubling calls are too many visits": ("explain", doubling(24), limit("visits")),
    "doubling calls are too many nodes": ("upper", doubling(18), limit("nodes")),
    "doubling gotos are too many visits": ("explain", doubling(24, "-g"), limit("visits")),
    "doubling gotos are too many nodes": ("upper", doubling(17, "-g"), limit("nodes")),
    "a negated port leaves other protocols and then other ports": (
        "upper", forward("-m tcp ! --dport 22 -j ACCEPT"),
        prints(forward("! -p tcp -j ACCEPT", "-p tcp -m multiport --dports 0:21,23:65535 -j ACCEPT"))),
    "negated flags leave other protocols and then other flags": (
        "upper", forward("-m tcp ! --tcp-flags ALL SYN -j ACCEPT"),
        prints(forward("! -p tcp -j ACCEPT", *(f"-p tcp -m tcp --tcp-flags {flags} -j ACCEPT" for flags in
                                               ("FIN,SYN NONE", "FIN,SYN,RST,PSH,ACK,URG SYN,URG", "FIN,SYN,RST,PSH,ACK SYN,ACK",
                                                "FIN,SYN,RST,PSH SYN,PSH", "FIN,SYN,RST SYN,RST", "FIN FIN"))))),
    "doubling calls are too many nodes of the lower side": ("lower", doubling(18), limit("nodes")),
}


def chains(*lines, policy="DROP"):
    """The chains FORWARD, A, B and C with these rules."""
    return wrapped(f":FORWARD {policy} [0:0]", *(f":{name} - [0:0]" for name in "ABC"), *(f"-A {line}" for line in lines))


ALL_BUT_TEN = [f"-m iprange --src-range {ends} -j ACCEPT" for ends in ("0.0.0.0-9.255.255.255", "11.0.0.0-255.255.255.255")]
LEFT_BY_GOTO = wrapped(":FORWARD ACCEPT [0:0]", ":A - [0:0]", ":B - [0:0]", "-A FORWARD -j A", "-A FORWARD -j DROP",
                       "-A A -s 10.0.0.0/8 -g B", "-A A -j ACCEPT", "-A B -p tcp -j ACCEPT")
LEFT_FILTER = forward("-s 10.0.0.0/8 -p tcp -j ACCEPT", *ALL_BUT_TEN, "-j DROP", policy="ACCEPT")
DOUBTFUL_GOTO = wrapped(":FORWARD ACCEPT [0:0]", ":B - [0:0]", "-A FORWARD -m limit --limit 1/sec -g B", "-A FORWARD -j DROP", "-A B -p tcp -j DROP")
GOTO_BEFORE_ACCEPT = chains("FORWARD -m limit --limit 1/sec -g B", "FORWARD -j ACCEPT", "B -p tcp -j DROP")
GOTO_AT_THE_END = chains("FORWARD -j A", "FORWARD -p udp -j ACCEPT", "A -p tcp -j ACCEPT", "A -g B", "B -s 10.0.0.0/8 -j DROP")
GOTO_BEHIND_GOTO = chains("FORWARD -j A", "FORWARD -j DROP", "A -p tcp -g B", "A -j ACCEPT", "B -s 10.0.0.0/8 -g C", "B -j RETURN",
                          "C -d 192.168.0.0/16 -j ACCEPT", policy="ACCEPT")
GOTO_IN_A_CALL = chains("FORWARD -j A", "FORWARD -j DROP", "A -m limit --limit 1/sec -g B", "A -s 10.0.0.0/8 -j DROP", "A -j ACCEPT",
                        "B -p tcp -j ACCEPT", policy="ACCEPT")
CALL_IN_A_GOTO = chains("FORWARD -g A", "FORWARD -j ACCEPT", "A -p tcp -j B", "A -p udp -j ACCEPT", "B -s 10.0.0.0/8 -j ACCEPT", "B -j RETURN")
GOTO_LIMITED = chains("FORWARD -j A", "A -p tcp -g B", "B -m limit --limit 5/min -j ACCEPT", "B -m recent --rcheck -g C", "C -j ACCEPT")
RETURN_BEHIND_GOTO = chains("FORWARD -j A", "FORWARD -j ACCEPT", "A -g B", "B -m limit --limit 1/sec -j RETURN", "B -j DROP")
GOTO_BY_NAME = chains("FORWARD -i eth0 -g A", "FORWARD -j ACCEPT", "A -s 10.0.0.0/8 -j ACCEPT")

CASES |= {
    "a goto leaves what stands behind it": ("upper", LEFT_BY_GOTO, prints(LEFT_FILTER)),
    "a goto leaves what stands behind it, in lower": ("lower", LEFT_BY_GOTO, prints(LEFT_FILTER)),
    "a goto comes back to the rule behind the call": ("explain src=10.0.0.1 proto=17", LEFT_BY_GOTO, prints("accept never\ndrop under 0\n")),
    "a call in its place goes on": (
        "upper", LEFT_BY_GOTO.replace("-g", "-j"), prints(forward("-s 10.0.0.0/8 -p tcp -j ACCEPT", "-j ACCEPT", "-j DROP", policy="ACCEPT"))),
    "a doubtful goto before a drop": ("upper", DOUBTFUL_GOTO, prints(forward("-p tcp -j DROP", policy="ACCEPT"))),
    "a doubtful goto before a drop, in lower": ("lower", DOUBTFUL_GOTO, prints(forward("-j DROP", "-p tcp -j DROP", policy="ACCEPT"))),
    "a doubtful goto explained": ("explain proto=17", DOUBTFUL_GOTO, prints("accept under 1\nFORWARD 1 literal 1\ndrop under 0\n")),
    "a doubtful goto of what is dropped anyway": ("explain proto=6", DOUBTFUL_GOTO, prints("accept never\ndrop under 0\n")),
    "a doubtful goto before an accept": ("upper", GOTO_BEFORE_ACCEPT, prints(forward("-j ACCEPT", "-p tcp -j ACCEPT"))),
    "a doubtful goto before an accept, in lower": ("lower", GOTO_BEFORE_ACCEPT, prints(forward("-p tcp -j DROP"))),
    "a goto at the end of a called chain": (
        "upper", GOTO_AT_THE_END, prints(forward("-p tcp -j ACCEPT", "-s 10.0.0.0/8 -j DROP", "-p udp -j ACCEPT"))),
    "behind it comes the calling chain": ("explain src=11.0.0.1 proto=17", GOTO_AT_THE_END, prints("accept under 0\ndrop never\n")),
    "a goto in a chain that a goto leads to": (
        "upper", GOTO_BEHIND_GOTO,
        prints(forward("-s 10.0.0.0/8 -d 192.168.0.0/16 -p tcp -j ACCEPT", "! -p tcp -j ACCEPT", "-j DROP", policy="ACCEPT"))),
    "a return behind two gotos": ("explain src=10.0.0.1 proto=6", GOTO_BEHIND_GOTO, prints("accept never\ndrop under 0\n")),
    "a doubtful goto in a called chain": (
        "upper", GOTO_IN_A_CALL, prints(forward(*ALL_BUT_TEN, "-p tcp -j ACCEPT", "-j DROP", policy="ACCEPT"))),
    "a doubtful goto in a called chain explained": (
        "explain src=10.0.0.1 proto=6", GOTO_IN_A_CALL, prints("accept under 1\nFORWARD 1 > A 1 literal 1\ndrop under 0\n")),
    "a call in a chain that a goto leads to": (
        "upper", CALL_IN_A_GOTO, prints(forward("-s 10.0.0.0/8 -p tcp -j ACCEPT", "-p udp -j ACCEPT"))),
    "the end behind a goto of the asked chain is the policy": ("explain proto=1", CALL_IN_A_GOTO, prints("accept never\ndrop under 0\n")),
    "a place behind a call and a goto": (
        "explain proto=6", GOTO_LIMITED, prints("accept under 1\nFORWARD 1 > A 1 > B 2 literal 1\ndrop under 0\n")),
    "a doubtful return in a chain that a goto leads to": (
        "explain", RETURN_BEHIND_GOTO, prints("accept under 1\nFORWARD 1 > A 1 > B 1 literal 1\ndrop under 0\n")),
    "a goto is an edge where names are hidden": ("matrix tcp:1:22", GOTO_BY_NAME, prints("classes 1\n0 0.0.0.0-255.255.255.255\nedges 1\n0 0\n")),
    "in a lower matrix a goto leaves": (
        "matrix tcp:1:22 --side lower", GOTO_BY_NAME,
        prints("classes 2\n0 0.0.0.0-9.255.255.255,11.0.0.0-255.255.255.255\n1 10.0.0.0-10.255.255.255\nedges 2\n1 0\n1 1\n")),
    "forged sources that a goto keeps back": (
        "spoof eth0=10.0.0.0/8 eth1=10.0.0.0/8", GOTO_BY_NAME,
        prints("eth0 holds\neth1 violated in=eth1 out= src=0.0.0.0 dst=0.0.0.0 proto=0 sport=0 dport=0 flags=NONE state=NEW icmp=0\n")),
    "a goto is checked": ("check", LEFT_BY_GOTO, prints("ok chains 3 rules 5 unknown 0\n")),
    "a goto of no declared chain": ("check", wrapped(":FORWARD DROP [0:0]", "-A FORWARD -g LOST"), (7, "", "fffuu: line 3: undefined chain\n")),
    "a goto of its own chain": (
        "upper", wrapped(":FORWARD DROP [0:0]", ":A - [0:0]", "-A FORWARD -j A", "-A A -g A"), (10, "", "fffuu: call loop through A\n")),
    "an unsupported target behind a goto": (
        "lower", chains("FORWARD -g A", "A -j NFQUEUE --queue-num 1"), (9, "", "fffuu: line 7: unsupported target NFQUEUE\n")),
}


ECHO = forward("-p icmp -m icmp --icmp-type 8 -j ACCEPT")
NO_ECHO = forward("-p icmp -m icmp ! --icmp-type 8 -j ACCEPT")
ECHO_FROM_TEN = forward("-s 10.0.0.0/8 -p icmp -m icmp --icmp-type 8 -j ACCEPT")
ECHO6 = forward("-p ipv6-icmp -m icmp6 --icmpv6-type 128 -j ACCEPT")
NAMED_TYPE = forward("-p icmp -m icmp --icmp-type echo-request -j ACCEPT")
TWO_TYPES = wrapped(":FORWARD DROP [0:0]", ":C1 - [0:0]", "-A FORWARD -p icmp -j C1", "-A C1 -p icmp -m icmp --icmp-type 5 -j RETURN",
                    "-A C1 -p icmp -m icmp --icmp-type 13 -j RETURN", "-A C1 -j ACCEPT")
TWO_TYPES6 = wrapped(":FORWARD DROP [0:0]", ":C1 - [0:0]", "-A FORWARD -i eth0 -p ipv6-icmp -j C1", "-A C1 -p ipv6-icmp -m icmp6 --icmpv6-type 133 -j RETURN",
                     "-A C1 -p ipv6-icmp -m icmp6 --icmpv6-type 134 -j RETURN", "-A C1 -j ACCEPT")
NAMES_AND_TYPES = wrapped(":FORWARD DROP [0:0]", ":C1 - [0:0]", "-A FORWARD -p icmp -j C1", "-A C1 -i eth0 -j RETURN", "-A C1 -i lo -j RETURN",
                          "-A C1 -p icmp -m icmp --icmp-type 5 -j RETURN", "-A C1 -p icmp -m icmp --icmp-type 13 -j RETURN", "-A C1 -j DROP")
ALL_TYPES = wrapped(":FORWARD DROP [0:0]", ":C1 - [0:0]", "-A FORWARD -p icmp -j C1",
                    *(f"-A C1 -p icmp -m icmp --icmp-type {kind} -j RETURN" for kind in range(255)), "-A C1 -j ACCEPT")
LIMITED_ECHO = forward("-p icmp -m icmp --icmp-type 8 -m limit --limit 1/sec -j ACCEPT", "-p icmp -m icmp --icmp-type 8 -j DROP", "-p icmp -j ACCEPT")

CASES |= {
    "a type comes back": ("upper", ECHO, prints(ECHO)),
    "a type comes back from lower": ("lower", ECHO, prints(ECHO)),
    "all types but one come back": ("upper", NO_ECHO, prints(NO_ECHO)),
    "a type of IPv6 comes back": ("upper --family 6", ECHO6, prints(ECHO6)),
    "a type of ipv6-icmp in a dump of IPv4": ("upper", ECHO6, prints(ECHO6)),
    "a type of icmp in a dump of IPv6": ("lower --family 6", NO_ECHO, prints(NO_ECHO)),
    "a type by its name may hold": ("upper", NAMED_TYPE, prints(forward("-p icmp -j ACCEPT"))),
    "a type by its name need not hold": ("lower", NAMED_TYPE, prints(forward())),
    "a type with a code may hold": ("upper", forward("-p icmp -m icmp --icmp-type 3/4 -j ACCEPT"), prints(forward("-p icmp -j ACCEPT"))),
    "type 255 is not understood": ("lower", forward("-p icmp -m icmp --icmp-type 255 -j ACCEPT"), prints(forward())),
    "the module of types is its protocol": ("upper", forward("-m icmp --icmp-type 8 -j ACCEPT"), prints(ECHO)),
    "a negated type is also another protocol": (
        "upper", forward("-m icmp ! --icmp-type 8 -j ACCEPT"), prints(forward("! -p icmp -j ACCEPT", "-p icmp -m icmp ! --icmp-type 8 -j ACCEPT"))),
    "a type of another protocol than the line's": ("upper", forward("-p tcp -m icmp --icmp-type 8 -j ACCEPT"), prints(forward())),
    "two types of one line never hold together": ("upper", forward("-p icmp -m icmp --icmp-type 8 -m icmp --icmp-type 0 -j ACCEPT"), prints(forward())),
    "a type and its negation in another module": (
        "upper", forward("-m icmp --icmp-type 8 -m icmp6 ! --icmpv6-type 8 -j ACCEPT"), prints(ECHO)),
    "a type stands behind ranges of addresses and before states": (
        "upper", forward("-m conntrack --ctstate NEW -p icmp -m icmp --icmp-type 8 -m iprange --src-range 10.0.0.1-10.0.0.2 -o ppp0 -d 10.0.0.0/8 -j ACCEPT"),
        prints(forward("-d 10.0.0.0/8 -o ppp0 -p icmp -m iprange --src-range 10.0.0.1-10.0.0.2 -m icmp --icmp-type 8 -m conntrack --ctstate NEW -j ACCEPT"))),
    "two excluded types need a helper chain": (
        "upper", calling("-p icmp -m icmp --icmp-type 5 -j RETURN", "-p icmp -m icmp --icmp-type 13 -j RETURN", "-p icmp -j ACCEPT"), prints(TWO_TYPES)),
    "two excluded types in descending order": (
        "lower", calling("-p icmp -m icmp --icmp-type 13 -j RETURN", "-p icmp -m icmp --icmp-type 5 -j RETURN", "-p icmp -j ACCEPT"), prints(TWO_TYPES)),
    "two excluded types of IPv6": (
        "upper --family 6", calling("-p ipv6-icmp -m icmp6 --icmpv6-type 134 -j RETURN", "-p 58 -m icmp6 --icmpv6-type 133 -j RETURN", "-i eth0 -p 58 -j ACCEPT"),
        prints(TWO_TYPES6)),
    "excluded names stand before excluded types": (
        "upper", calling("-p icmp -m icmp --icmp-type 5 -j RETURN", "-i eth0 -j RETURN", "-p icmp -m icmp --icmp-type 13 -j RETURN", "-i lo -j RETURN",
                         "-p icmp -j DROP"), prints(NAMES_AND_TYPES)),
    "all types but 255 are excluded": (
        "upper", calling(*(f"-p icmp -m icmp --icmp-type {kind} -j RETURN" for kind in range(255)), "-p icmp -j ACCEPT"), prints(ALL_TYPES)),
    "type 255 alone explained": ("explain proto=icmp icmp=255", ALL_TYPES, prints("accept under 0\ndrop never\n")),
    "type 254 among them explained": ("explain proto=icmp icmp=254", ALL_TYPES, prints("accept never\ndrop under 0\n")),
    "a type explained": ("explain proto=icmp icmp=8", ECHO, prints("accept under 0\ndrop never\n")),
    "another type explained": ("explain proto=icmp icmp=0", ECHO, prints("accept never\ndrop under 0\n")),
    "a missing type is 0": ("explain proto=icmp", ECHO, prints("accept never\ndrop under 0\n")),
    "a missing type is that of an echo reply": (
        "explain proto=icmp", forward("-p icmp -m icmp --icmp-type 0 -j ACCEPT"), prints("accept under 0\ndrop never\n")),
    "a type of another protocol explained": ("explain proto=ipv6-icmp icmp=8", ECHO, prints("accept never\ndrop under 0\n")),
    "a limited type explained": ("explain proto=icmp icmp=8", LIMITED_ECHO, prints("accept under 1\nFORWARD 1 literal 3\ndrop under 0\n")),
    "a type beside a limited one explained": ("explain proto=icmp icmp=3", LIMITED_ECHO, prints("accept under 0\ndrop never\n")),
    "a type by its name explained": ("explain proto=icmp icmp=8", NAMED_TYPE, prints("accept under 1\nFORWARD 1 literal 2\ndrop under 0\n")),
    "a matrix of icmp asks for an echo": (
        "matrix icmp:0:0", ECHO_FROM_TEN,
        prints("classes 2\n0 0.0.0.0-9.255.255.255,11.0.0.0-255.255.255.255\n1 10.0.0.0-10.255.255.255\nedges 2\n1 0\n1 1\n")),
    "a matrix of icmp asks for no reply": (
        "matrix icmp:0:0", ECHO_FROM_TEN.replace("type 8", "type 0"), prints("classes 1\n0 0.0.0.0-255.255.255.255\nedges 0\n")),
    "a matrix of ipv6-icmp asks for an echo": ("matrix ipv6-icmp:0:0", ECHO6, prints("classes 1\n0 0.0.0.0-255.255.255.255\nedges 1\n0 0\n")),
    "a matrix of ipv6-icmp has no type of icmp": (
        "matrix 58:0:0", ECHO6.replace("type 128", "type 8"), prints("classes 1\n0 0.0.0.0-255.255.255.255\nedges 0\n")),
    "forged messages of one type": (
        "spoof eth0=10.0.0.0/8", ECHO, prints("eth0 violated in=eth0 out= src=0.0.0.0 dst=0.0.0.0 proto=1 sport=0 dport=0 flags=NONE state=NEW icmp=8\n")),
    "forged messages of the first type that is left": (
        "spoof eth0=10.0.0.0/8", forward("-p icmp -m icmp --icmp-type 0 -j DROP", "-p icmp -m icmp --icmp-type 1 -j DROP", "-p icmp -j ACCEPT"),
        prints("eth0 violated in=eth0 out= src=0.0.0.0 dst=0.0.0.0 proto=1 sport=0 dport=0 flags=NONE state=NEW icmp=2\n")),
    "forged messages of the last type": (
        "spoof eth0=2001:db8::/32 --family 6", ALL_TYPES.replace("--icmp-type", "--icmpv6-type").replace("-m icmp ", "-m icmp6 ").replace("-p icmp ", "-p ipv6-icmp "),
        prints("eth0 violated in=eth0 out= src=:: dst=:: proto=58 sport=0 dport=0 flags=NONE state=NEW icmp=255\n")),
    "types are counted as understood": ("check", TWO_TYPES, prints("ok chains 2 rules 4 unknown 0\n")),
    "two arguments of a type": ("upper", forward("-p icmp -m icmp --icmp-type 8 9 -j ACCEPT"), malformed(3)),
    "a type without its argument": ("check", forward("-p icmp -m icmp --icmp-type"), malformed(3)),
    "a mark behind the option of a type": ("lower", forward("-p icmp -m icmp --icmp-type ! 8 -j ACCEPT"), malformed(3)),
}


def generated(count):
    """The dump that `load` measures."""
    def line(i):
        net, chain = f"10.{i // 256}.{i % 256}.0/24", f"S{i // 5 % 8}"
        return [f"-A FORWARD -s {net} -m limit --limit 5/sec -j {chain}", f"-A {chain} -s {net} -j RETURN",
                f"-A {chain} -d {net} -p tcp -m tcp --dport {i + 1} -j ACCEPT", f"-A {chain} -p udp -m recent --rcheck -j DROP",
                f"-A FORWARD -d {net} -j ACCEPT"][i % 5]
    return wrapped(":FORWARD DROP [0:0]", *(f":S{i} - [0:0]" for i in range(8)), *(line(i) for i in range(count)))


def thousand_classes():
    """The classes of `tcp:1:3` in the dump of a thousand rules: all else, the sources that call S0, the one destination with that port, and
    the destinations that FORWARD accepts."""
    callers, accepted, port = set(range(0, 1000, 40)), set(range(4, 1000, 5)), {2}

    def ranges(numbers):
        return ",".join(f"10.{i >> 8}.{i & 255}.0-10.{i >> 8}.{i & 255}.255" for i in sorted(numbers))

    inner = [i for i in range(1000) if i not in callers | accepted | port]
    runs = []
    for i in inner:
        if runs and runs[-1][1] == i - 1:
            runs[-1][1] = i
        else:
            runs.append([i, i])
    between = [f"10.{a >> 8}.{a & 255}.0-10.{b >> 8}.{b & 255}.255" for a, b in runs]
    rest = ["0.0.0.0-9.255.255.255", *between, "10.3.232.0-255.255.255.255"]
    return f"classes 4\n0 {','.join(rest)}\n1 {ranges(callers)}\n2 {ranges(port)}\n3 {ranges(accepted)}\n"


def barred(count, accepted):
    """Rules that drop from each of the first `count` addresses to itself, and then accept to the first `accepted`."""
    drops = [f"-s 0.0.0.{i}/32 -d 0.0.0.{i}/32 -j DROP" for i in range(count)]
    return forward(*drops, f"-m iprange --dst-range 0.0.0.0-0.0.0.{accepted - 1} -j ACCEPT")


def barred_matrix(accepted):
    """Its matrix: each accepted address is a class, and all others are one; every class reaches the accepted addresses, but none itself."""
    classes = [f"{i} 0.0.0.{i}" for i in range(accepted)] + [f"{accepted} 0.0.0.{accepted}-255.255.255.255"]
    edges = [f"{i} {j}" for i in range(accepted + 1) for j in range(accepted) if i != j]
    return "".join(f"{line}\n" for line in [f"classes {len(classes)}", *classes, f"edges {len(edges)}", *edges])


FROM_ETH0 = forward("-d 192.168.0.0/16 -i eth0 -j ACCEPT")
THREE_NAMES = forward("-i ppp0 -j DROP", "-i eth+ -j ACCEPT", "! -i ppp0 -j DROP")
TO_BR0 = forward("-s 192.168.0.1/32 -o br0 -j ACCEPT")

ONE_PAIR = forward("-s 10.0.0.0/8 -d 192.168.0.1/32 -j ACCEPT")
LAST_DROPPED = forward("-s 255.255.255.255/32 -j DROP", policy="ACCEPT")
BY_NAME = forward("-i eth0 -j ACCEPT")
GUARDED = ("-m conntrack --ctstate ESTABLISHED -j ACCEPT", "! -s 10.0.0.0/8 -i eth0 -j DROP", "-j ACCEPT")
HALF_GUARDED = ("-m conntrack --ctstate ESTABLISHED -j ACCEPT", "! -s 10.0.0.0/8 -i eth0 -p tcp -j DROP", "-j ACCEPT")
FORGED = "eth0 violated in=eth0 out= src=0.0.0.0 dst=0.0.0.0 proto=0 sport=0 dport=0 flags=NONE state=NEW icmp=0\n"
ALL = "0 0.0.0.0-255.255.255.255\n"
NO_EDGE = "classes 1\n" + ALL + "edges 0\n"
ONE_EDGE = "classes 1\n" + ALL + "edges 1\n0 0\n"
SSH_ALONE = forward("-p tcp -m tcp --dport 22 -j ACCEPT", "-p tcp -j DROP", policy="ACCEPT")
NOT_BY_NAME = forward("! -o eth0 -j ACCEPT")
OVERLAPPING = forward("-m iprange --src-range 10.0.0.10-10.0.0.19 --dst-range 10.0.0.15-10.0.0.24 -j ACCEPT")
INNER = forward("-m iprange --src-range 10.0.0.20-10.0.0.29 --dst-range 10.0.0.20-10.0.0.29 -j DROP",
                "-m iprange --src-range 10.0.0.10-10.0.0.39 -j ACCEPT")
FIRST_PROTOCOLS = wrapped(":FORWARD ACCEPT [0:0]", ":C - [0:0]", "-A FORWARD -j C", *(f"-A C -p {i} -j RETURN" for i in range(6, 256)),
                          "-A C -j DROP")
PAIR_CLASSES = ("classes 3\n0 0.0.0.0-9.255.255.255,11.0.0.0-192.168.0.0,192.168.0.2-255.255.255.255\n1 10.0.0.0-10.255.255.255\n"
                "2 192.168.0.1\n")
FIVE_CLASSES = ("classes 4\n0 0.0.0.0-9.255.255.255,10.0.1.0-10.0.1.255,10.0.3.0-10.0.3.255,10.0.5.0-255.255.255.255\n"
                "1 10.0.0.0-10.0.0.255\n2 10.0.2.0-10.0.2.255\n3 10.0.4.0-10.0.4.255\n")
FIVE_EDGES = "edges 5\n0 3\n1 2\n1 3\n2 3\n3 3\n"

CASES |= {
    "a matrix of one class without an edge": ("matrix tcp:10000:22", forward(), prints(NO_EDGE)),
    "a matrix of one class with an edge": ("matrix tcp:10000:22", forward(policy="ACCEPT"), prints(ONE_EDGE)),
    "a matrix with an edge one way": ("matrix tcp:10000:22", ONE_PAIR, prints(PAIR_CLASSES + "edges 1\n1 2\n")),
    "a matrix with the last address alone": (
        "matrix tcp:1:1", LAST_DROPPED, prints("classes 2\n0 0.0.0.0-255.255.255.254\n1 255.255.255.255\nedges 2\n0 0\n0 1\n")),
    "names count as unknown in a matrix": ("matrix udp:1:53", BY_NAME, prints(ONE_EDGE)),
    "names count as unknown in a lower matrix": ("matrix udp:1:53 --side lower", BY_NAME, prints(NO_EDGE)),
    "a matrix of five generated rules": ("matrix tcp:1:3", generated(5), prints(FIVE_CLASSES + FIVE_EDGES)),
    "a matrix of a thousand generated rules": ("matrix tcp:1:3", generated(1000), prints(thousand_classes() + FIVE_EDGES)),
    "a lower matrix of five generated rules": (
        "matrix tcp:1:3 --side lower", generated(5),
        prints("classes 2\n0 0.0.0.0-10.0.3.255,10.0.5.0-255.255.255.255\n1 10.0.4.0-10.0.4.255\nedges 2\n0 1\n1 1\n")),
    "a matrix over IPv6": (
        "matrix tcp:1:1 --family 6", forward("-s 2001:db8::/32 -d ::1/128 -j ACCEPT"),
        prints("classes 3\n0 ::,::2-2001:db7:ffff:ffff:ffff:ffff:ffff:ffff,2001:db9::-ffff:ffff:ffff:ffff:ffff:ffff:ffff:ffff\n1 ::1\n"
               "2 2001:db8::-2001:db8:ffff:ffff:ffff:ffff:ffff:ffff\nedges 1\n2 1\n")),
    "the first rule that holds answers": ("matrix tcp:1:22", SSH_ALONE, prints(ONE_EDGE)),
    "the next rule answers where the first one fails": ("matrix tcp:1:23", SSH_ALONE, prints(NO_EDGE)),
    "the policy answers where every rule fails": ("matrix udp:1:22", SSH_ALONE, prints(ONE_EDGE)),
    "a negated name counts as unknown in a matrix": ("matrix udp:1:53", NOT_BY_NAME, prints(ONE_EDGE)),
    "a negated name counts as unknown in a lower matrix": ("matrix udp:1:53 --side lower", NOT_BY_NAME, prints(NO_EDGE)),
    "a state stays known in a matrix": (
        "matrix udp:1:53 --side lower", forward("-m conntrack --ctstate ESTABLISHED -j DROP", "-j ACCEPT"), prints(ONE_EDGE)),
    "ranges that overlap make four classes": ("matrix tcp:1:1", OVERLAPPING, prints(
        "classes 4\n0 0.0.0.0-10.0.0.9,10.0.0.25-255.255.255.255\n1 10.0.0.10-10.0.0.14\n2 10.0.0.15-10.0.0.19\n3 10.0.0.20-10.0.0.24\n"
        "edges 4\n1 2\n1 3\n2 2\n2 3\n")),
    "a class of two ranges": ("matrix tcp:1:1", INNER, prints(
        "classes 3\n0 0.0.0.0-10.0.0.9,10.0.0.40-255.255.255.255\n1 10.0.0.10-10.0.0.19,10.0.0.30-10.0.0.39\n2 10.0.0.20-10.0.0.29\n"
        "edges 5\n1 0\n1 1\n1 2\n2 0\n2 1\n")),
    "a lower matrix with an edge one way": ("matrix tcp:10000:22 --side lower", ONE_PAIR, prints(PAIR_CLASSES + "edges 1\n1 2\n")),
    "a hundred drops come before an accept": ("matrix tcp:10000:22", barred(100, 50), prints(barred_matrix(50))),
    "a matrix wants two ports": ("matrix tcp:1", forward(), (1, "", USAGE)),
    "forged sources are dropped": ("spoof eth0=10.0.0.0/8", forward(*GUARDED), prints("eth0 holds\n")),
    "forged sources of tcp alone are dropped": ("spoof eth0=10.0.0.0/8", forward(*HALF_GUARDED), prints(FORGED)),
    "no source is forged": ("spoof eth0=0.0.0.0/0", forward(*HALF_GUARDED), prints("eth0 holds\n")),
    "a rule of no interface passes forged sources": (
        "spoof eth0=10.0.0.0/8 eth1=10.0.0.0/8", forward("! -i eth1 -j ACCEPT"), prints(FORGED + "eth1 holds\n")),
    "the first piece gives the packet": (
        "spoof eth0=255.255.255.255", forward("-s 0.0.0.0/1 -p tcp -j DROP", "-j ACCEPT"), prints(FORGED.replace("src=0.0.0.0", "src=128.0.0.0"))),
    "a claimed name is taken as it stands": ("spoof hex:61=1.1.1.1 eth+=1.1.1.1", forward(), prints("hex:6865783a3631 holds\neth+ holds\n")),
    "output names count as unknown": ("spoof eth0=10.0.0.0/8", forward("-o ppp0 -j ACCEPT"), prints(FORGED)),
    "output names that exclude one another count as unknown": (
        "spoof eth0=10.0.0.0/8", forward("-o eth1 -j DROP", "! -o eth1 -j DROP", "-j ACCEPT"), prints(FORGED)),
    "a negated output name counts as unknown": ("spoof eth0=10.0.0.0/8", forward("! -o eth1 -j DROP", "-j ACCEPT"), prints(FORGED)),
    "an accept of another interface passes no forged sources": ("spoof eth0=10.0.0.0/8", forward("-i eth1 -j ACCEPT"), prints("eth0 holds\n")),
    "drops of tcp and of the rest leave no packet": (
        "spoof eth0=10.0.0.0/8", forward("-p tcp -j DROP", "! -p tcp -j DROP", "-j ACCEPT", policy="ACCEPT"), prints("eth0 holds\n")),
    "a drop of the first protocols leaves the next": ("spoof eth0=10.0.0.0/8", FIRST_PROTOCOLS, prints(FORGED.replace("proto=0", "proto=6"))),
    "the policy accepts forged sources": (
        "spoof eth0=0.0.0.0-192.0.2.0,192.0.3.0-255.255.255.255", forward(policy="ACCEPT"), prints(FORGED.replace("src=0.0.0.0", "src=192.0.2.1"))),
    "the policy drops forged sources": ("spoof eth0=0.0.0.0-192.0.2.0,192.0.3.0-255.255.255.255", forward(), prints("eth0 holds\n")),
    "arguments may stand apart": (
        "spoof eth0=10.0.0.0/8 --family 4 lo=127.0.0.0/8,10.0.0.1,1.1.1.1-1.1.1.2", forward(), prints("eth0 holds\nlo holds\n")),
    "an interface without a name": ("spoof =10.0.0.0/8", forward(), (1, "", USAGE)),
    "the loads of five rules": ("load 5", "", prints("load 5\nupper rules 2 lines 2\nlower rules 3 lines 4\n")),
    "the loads of a thousand rules": ("load 1000", "", prints("load 1000\nupper rules 5200 lines 5200\nlower rules 70200 lines 135200\n")),
    "a load of more rules": ("load 1001", "", (1, "", USAGE)),
    "a load of an asked chain": ("load 5 --chain A", "", (1, "", USAGE)),
}

CASES |= {
    "a matrix with two zones": (
        "matrix tcp:1:22 eth0=10.0.0.0/8 eth1=192.168.0.0/16", FROM_ETH0,
        prints("classes 3\n0 0.0.0.0-9.255.255.255,11.0.0.0-192.167.255.255,192.169.0.0-255.255.255.255\n1 10.0.0.0-10.255.255.255\n"
               "2 192.168.0.0-192.168.255.255\nedges 1\n1 2\n")),
    "a matrix with two routes": (
        "matrix tcp:1:22 via:0.0.0.0/0=ppp0 via:10.0.0.0/8=br0", TO_BR0, prints(PAIR_CLASSES + "edges 1\n2 1\n")),
    "zones that cover all, and a name that none has": (
        "zones eth0=0.0.0.0/1 eth1=128.0.0.0/1", THREE_NAMES, prints("covered all\nunnamed 1\nppp0\n")),
    "routes by the longest prefix": (
        "routes via:0.0.0.0/0=ppp0 via:10.0.0.0/8=br0 via:10.1.0.0/16=ppp0", forward("-s 10.0.0.0/8 -j ACCEPT"),
        prints("names 2\nppp0 0.0.0.0-9.255.255.255,10.1.0.0-10.1.255.255,11.0.0.0-255.255.255.255\n"
               "br0 10.0.0.0-10.0.255.255,10.2.0.0-10.255.255.255\nunrouted none\nunnamed 0\n")),
    "two zones with a common address": ("zones eth0=10.0.0.0/8 eth1=10.1.0.0/16", THREE_NAMES, (1, "", USAGE)),
    "two zones with one name": ("zones eth0=10.0.0.0/8 eth0=11.0.0.0/8", THREE_NAMES, (1, "", USAGE)),
    "two zones of a matrix with a common address": ("matrix tcp:1:22 eth0=10.0.0.0/8 eth1=10.1.0.0/16", FROM_ETH0, (1, "", USAGE)),
    "no zone": ("zones", THREE_NAMES, (1, "", USAGE)),
    "zones with a side": ("zones eth0=10.0.0.0/8 --side upper", THREE_NAMES, (1, "", USAGE)),
    "no route": ("routes", TO_BR0, (1, "", USAGE)),
    "routes with a side": ("routes via:10.0.0.0/8=br0 --side upper", TO_BR0, (1, "", USAGE)),
    "two routes with one prefix": ("routes via:10.0.0.0/8=br0 via:10.1.2.3/8=ppp0", TO_BR0, (1, "", USAGE)),
    "two routes of a matrix with one prefix": ("matrix tcp:1:22 via:10.0.0.0/8=br0 via:10.1.2.3/8=ppp0", TO_BR0, (1, "", USAGE)),
    "a route without a name": ("routes via:10.0.0.0/8=", TO_BR0, (1, "", USAGE)),
    "a route by a mask": ("routes via:10.0.0.0/255.0.0.0=br0", TO_BR0, (1, "", USAGE)),
}

# how words are read
ACCEPTED = prints("accept under 0\ndrop never\n")
DROPPED = prints("accept never\ndrop under 0\n")
NO_FIELDS = forward("-s 0.0.0.0/32 -d 0.0.0.0/32 -p tcp -m tcp --sport 0 --dport 0 --tcp-flags ALL NONE -m conntrack --ctstate NEW -j ACCEPT")
NO_NAMES = forward(*(f"{option} {letter}+ -j DROP" for option in ("-i", "-o") for letter in "abcdefghijklmnopqrstuvwxyz0123456789"), "-j ACCEPT")
SYN_ACK = forward("-p tcp -m tcp --tcp-flags ALL SYN,ACK -j ACCEPT")
SYN_ACK_BY_NAME = forward('-i "a b" -p tcp -m tcp --tcp-flags SYN,ACK SYN,ACK -j ACCEPT')
ALL_FIELDS = forward("-i eth0 -o a=b -s 10.0.0.1/32 -d 255.255.255.255/32 -p udplite -m multiport --sports 22 -m multiport --dports 65535"
                     " -m conntrack --ctstate INVALID -j ACCEPT")
FIELDS = "state=INVALID flags=SYN,ACK dport=65535 sport=22 proto=udplite dst=255.255.255.255 src=10.0.0.1 out=a=b in=eth0"
DNS = forward("-p udp -m udp --sport 1 --dport 53 -j ACCEPT")
THREE_PARTS = ("-i eth0 -s 10.0.0.0/8 -j ACCEPT", "-i eth0 -m iprange --src-range 1.1.1.1-1.1.1.2 -j ACCEPT", "-i eth0 -s 9.9.9.9/32 -j ACCEPT")
ALL6 = "classes 1\n0 ::-ffff:ffff:ffff:ffff:ffff:ffff:ffff:ffff\n"
FORGED6 = "x violated in=x out= src=2001:db9:: dst=:: proto=0 sport=0 dport=0 flags=NONE state=NEW icmp=0\n"
CASES |= {
    "a missing field is 0, NONE or NEW": ("explain proto=tcp", NO_FIELDS, ACCEPTED),
    "a missing protocol is 0": ("explain", returning(255), ACCEPTED),
    "a given protocol is not": ("explain proto=255", returning(255), DROPPED),
    "a missing name is empty": ("explain", NO_NAMES, ACCEPTED),
    "an empty name is empty": ("explain in= out=hex:", NO_NAMES, ACCEPTED),
    "fields in any order": ("explain " + FIELDS, ALL_FIELDS, ACCEPTED),
    "flags have their names": ("explain proto=tcp flags=SYN,ACK", SYN_ACK, ACCEPTED),
    "flags in any order": ("explain flags=ACK,SYN proto=tcp", SYN_ACK, ACCEPTED),
    "one flag is not two": ("explain proto=tcp flags=SYN", SYN_ACK, DROPPED),
    "an address of the family": ("explain --family 6 src=::1", forward("-s ::1/128 -j ACCEPT"), ACCEPTED),
    "options behind the mode": ("check --chain A --family=6", wrapped(":FORWARD DROP [0:0]"), (8, "", "fffuu: no chain A\n")),
    "options around the mode": ("--chain INPUT check --family=6", wrapped(":INPUT DROP [0:0]", "-A INPUT -s ::1 -j ACCEPT"), prints("ok chains 1 rules 1 unknown 0\n")),
    "a matrix of a protocol's number, with its side first": ("--side lower matrix 17:1:53", DNS, prints(ONE_EDGE)),
    "the ports of a matrix in their order": ("matrix 17:53:1", DNS, prints(NO_EDGE)),
    "a matrix of the last protocol over IPv6": ("matrix 255:65535:0 --family 6", forward("-p 255 -j ACCEPT"), prints(ALL6 + "edges 1\n0 0\n")),
    "a matrix of protocol 0": ("matrix 0:0:0", returning(255), prints(ONE_EDGE)),
    "a matrix of another protocol": ("matrix 255:0:0", returning(255), prints(NO_EDGE)),
    "a matrix without a side is that of upper": ("matrix tcp:1:2", LIMITED_TCP, prints(ONE_EDGE)),
    "a matrix of the side upper": ("matrix tcp:1:2 --side upper", LIMITED_TCP, prints(ONE_EDGE)),
    "a matrix of the side lower": ("matrix tcp:1:2 --side lower", LIMITED_TCP, prints(NO_EDGE)),
    "a claim of three parts": ("spoof eth0=10.1.2.3/8,1.1.1.1-1.1.1.2,9.9.9.9", forward(*THREE_PARTS), prints("eth0 holds\n")),
    "a claim of three parts has no other address": (
        "spoof eth0=10.1.2.3/8,1.1.1.1-1.1.1.2,9.9.9.9", forward(*THREE_PARTS, "-i eth0 -s 1.1.1.3/32 -j ACCEPT"),
        prints(FORGED.replace("src=0.0.0.0", "src=1.1.1.3"))),
    "a claim lacks a part": ("spoof eth0=10.0.0.0/8,9.9.9.9", forward(*THREE_PARTS), prints(FORGED.replace("src=0.0.0.0", "src=1.1.1.1"))),
    "a part twice": ("spoof a=9.9.9.9,1.1.1.1,9.9.9.9", forward("-s 1.1.1.1/32 -j ACCEPT", "-s 9.9.9.9/32 -j ACCEPT"), prints("a holds\n")),
    "the last equals sign parts a claim": ("spoof a=b=1.1.1.1/32", forward("-i a=b -j ACCEPT"), prints(FORGED.replace("eth0", "hex:613d62"))),
    "a claimed name that is an equals sign": ("spoof ==1.1.1.1-1.1.1.1", forward("-i = -j ACCEPT"), prints(FORGED.replace("eth0", "hex:3d"))),
    "a claim of every address": ("spoof x=1.2.3.4/0", forward(policy="ACCEPT"), prints("x holds\n")),
    "a claim over IPv6": ("spoof x=2001:db8::/32 --family 6", forward("-s 2001:db8::/32 -j ACCEPT"), prints("x holds\n")),
    "a forged source over IPv6": ("spoof x=2001:db8::/32 --family 6", forward("-s 2001:db8::/31 -j ACCEPT"), prints(FORGED6)),
    "claims are answered in their order": ("spoof a=1.1.1.1 --family 4 b=9.9.9.9 a=1.1.1.1", forward(), prints("a holds\nb holds\na holds\n")),
    "the loads of one rule": ("load 1", "", prints("load 1\nupper rules 0 lines 0\nlower rules 0 lines 0\n")),
}
CASES |= {f"fields in any order, but {field}": (f"explain {' '.join(field if one.split('=')[0] == field.split('=')[0] else one for one in FIELDS.split())}",
                                                  ALL_FIELDS, DROPPED)
          for field in ("in=eth1", "out=a", "src=10.0.0.2", "dst=255.255.255.254", "proto=udp", "sport=23", "dport=65534", "state=NEW")}
CASES |= {f"the name {name} by {field}": (f"explain {field}", forward(f"-i {name} -j ACCEPT"), ACCEPTED)
          for field, name in (("in=hex", "hex"), ("in=Hex:0", "Hex:0"), ("in=hex:6A6b", "jk"), ("in=a=b", "a=b"))}
CASES |= {f"the pattern {pattern} and the name {name}": (f"explain in={name}", forward(f"-i {pattern} -j ACCEPT"), answer)
          for pattern, name, answer in (("+", "eth0", ACCEPTED), ("eth+", "eth", ACCEPTED), ("eth+", "eth0", ACCEPTED), ("eth+", "ppp0", DROPPED),
                                        ("e+h", "e+h", ACCEPTED), ("e+h", "eh", DROPPED), ("e+h", "e+hx", DROPPED))}

# how rules are read, and how they are printed
ODD = ",".join(str(port) for port in range(1, 30, 2))
EVEN = ",".join(str(port) for port in range(0, 30, 2))
# sixteen ports; the second of their two lines comes back by itself as a line of one port, so it is no row of the table
SIXTEEN = forward(f"-p udp -m multiport ! --sports {ODD} -m multiport ! --sports 31:65535 -j DROP", policy="ACCEPT")
SIXTEEN_LINES = forward(f"-p udp -m multiport --sports {EVEN} -j DROP", "-p udp -m multiport --sports 30 -j DROP", policy="ACCEPT")
SPELLED_CHAIN = wrapped(":FORWARD DROP [0:0]", ":hex:6a - [0:0]", "-A FORWARD -p esp -j DROP", "-A FORWARD -j hex:6a",
                        *["-A hex:6a -p esp -j DROP"] * 9, "-A hex:6a -m limit --limit 1/sec -j ACCEPT")
CASES |= {
    "excluded names with a blank and of a pattern": (
        "upper", calling('-i "my if" -j RETURN', "-i ppp+ -j RETURN", "-j ACCEPT"),
        prints(wrapped(":FORWARD DROP [0:0]", ":C1 - [0:0]", "-A FORWARD -j C1", '-A C1 -i "my if" -j RETURN', "-A C1 -i ppp+ -j RETURN", "-A C1 -j ACCEPT"))),
    "a place in a chain whose name is spelled": (
        "explain", SPELLED_CHAIN, prints("accept under 1\nFORWARD 2 > hex:6865783a3661 10 literal 1\ndrop under 0\n")),
    "a quote inside a word": ("upper", forward('-i e"th0 -j ACCEPT'), prints(forward('-i "e\\"th0" -j ACCEPT'))),
    "a word ends behind its quotes": ("upper", forward('-i "eth0"-j ACCEPT'), prints(forward("-i eth0 -j ACCEPT"))),
    "an exclamation mark as a name": ("upper", forward("-i ! -j ACCEPT"), prints(forward('-i "!" -j ACCEPT'))),
    "every name and all but a pattern": ("upper", forward("-i + ! -o eth+ -j ACCEPT"), prints(forward("! -o eth+ -j ACCEPT"))),
    "all destinations but a net": (
        "upper", forward("-s 0.0.0.0/0 ! -d 10.1.2.3/16 -j ACCEPT"),
        prints(forward("-m iprange --dst-range 0.0.0.0-10.0.255.255 -j ACCEPT", "-m iprange --dst-range 10.2.0.0-255.255.255.255 -j ACCEPT"))),
    "a module of ports is its protocol": ("upper", forward("-m udp --sport 53 --syn -j ACCEPT"), prints(forward("-p udp -m udp --sport 53 -j ACCEPT"))),
    "two literals of a module, one understood": (
        "upper", forward("-m conntrack --ctstate NEW,RELATED --ctstate NEW,SNAT -j ACCEPT"), prints(forward("-m conntrack --ctstate NEW,RELATED -j ACCEPT"))),
    "a range of sources beside one that descends": (
        "upper", forward("-m iprange --src-range 1.0.0.1-1.0.0.9 --dst-range 2.0.0.9-2.0.0.1 -j ACCEPT"),
        prints(forward("-m iprange --src-range 1.0.0.1-1.0.0.9 -j ACCEPT"))),
    "flags of two options": ("upper", forward("-m tcp --tcp-flags ALL NONE --syn -j ACCEPT"), prints(forward())),
    "ports that overlap": (
        "upper", forward("-p 6 -m multiport --dports 22,20:22,80 -j ACCEPT"), prints(forward("-p tcp -m multiport --dports 20:22,80 -j ACCEPT"))),
    "all ports but one": ("upper", forward("-m multiport ! --sports 1 -p udp -j ACCEPT"), prints(forward("-p udp -m multiport --sports 0,2:65535 -j ACCEPT"))),
    "states twice and out of order": (
        "upper", forward("-m state --state NEW,NEW,INVALID,UNTRACKED -j ACCEPT"), prints(forward("-m conntrack --ctstate INVALID,NEW,UNTRACKED -j ACCEPT"))),
}

# a home router, and its upper filter
# a home router, and its two filters
ROUTER = """# Generated by iptables-save
*nat
:PREROUTING ACCEPT [120:9000]
:POSTROUTING ACCEPT [15:900]
-A POSTROUTING -s 192.168.1.0/24 -o ppp0 -j MASQUERADE
COMMIT
# Completed
*filter
:INPUT DROP [3:180]
:FORWARD DROP [0:0]
:OUTPUT ACCEPT [500:60000]
:LAN - [0:0]
:WAN - [0:0]
-A INPUT -i lo -j ACCEPT
-A INPUT -m conntrack --ctstate RELATED,ESTABLISHED -j ACCEPT
-A FORWARD -m conntrack --ctstate RELATED,ESTABLISHED -j ACCEPT
-A FORWARD -m conntrack --ctstate INVALID -j DROP
-A FORWARD -i br0 -j LAN
-A FORWARD -i ppp0 -j WAN
-A FORWARD -j REJECT --reject-with icmp-port-unreachable
-A LAN ! -s 192.168.1.0/24 -j DROP
-A LAN -p tcp -m tcp --dport 25 -m comment --comment "no direct mail" -j REJECT --reject-with tcp-reset
-A LAN -o ppp0 -j ACCEPT
-A WAN -p icmp -m limit --limit 10/sec -j ACCEPT
-A WAN -d 192.168.1.10/32 -p tcp -m multiport --dports 80,443 -j ACCEPT
-A WAN -m limit --limit 3/min -j LOG --log-prefix "wan drop: "
-A WAN -j DROP
COMMIT
"""
ROUTER_UPPER = """*filter
:FORWARD DROP [0:0]
-A FORWARD -m conntrack --ctstate RELATED,ESTABLISHED -j ACCEPT
-A FORWARD -m conntrack --ctstate INVALID -j DROP
-A FORWARD -i br0 -m iprange --src-range 0.0.0.0-192.168.0.255 -j DROP
-A FORWARD -i br0 -m iprange --src-range 192.168.2.0-255.255.255.255 -j DROP
-A FORWARD -i br0 -p tcp -m tcp --dport 25 -j DROP
-A FORWARD -i br0 -o ppp0 -j ACCEPT
-A FORWARD -i ppp0 -p icmp -j ACCEPT
-A FORWARD -d 192.168.1.10/32 -i ppp0 -p tcp -m multiport --dports 80,443 -j ACCEPT
-A FORWARD -i ppp0 -j DROP
-A FORWARD -j DROP
COMMIT
"""
# no limited ping need be accepted
ROUTER_LOWER = ROUTER_UPPER.replace("-A FORWARD -i ppp0 -p icmp -j ACCEPT\n", "")
# one dump in another: two dumps with the dividing line between them, and the least packet of all
LEAST = "in= out= src=0.0.0.0 dst=0.0.0.0 proto=0 sport=0 dport=0 flags=NONE state=INVALID icmp=0"
COVERED = prints("covered\n")
NO_DIVIDER = (14, "", "fffuu: no dividing line\n")
NO_TABLE = (6, "", "fffuu: no filter table\n")


def pair(first, second):
    return f"{first}%%\n{second}"


def shows(*fields):
    """The answer that shows a packet: the least one but for these fields."""
    given = dict(field.split("=") for field in fields)
    parts = (field.split("=") for field in LEAST.split(" "))
    return prints("not covered " + " ".join(f"{name}={given.get(name, value)}" for name, value in parts) + "\n")


TEN = forward("-s 10.0.0.0/8 -j ACCEPT")
HALF_OF_TEN = forward("-s 10.0.0.0/9 -j ACCEPT")
LIMITED_TEN = forward("-s 10.0.0.0/8 -m limit --limit 1/sec -j ACCEPT")
TEN_AND_ELEVEN = forward("-s 10.0.0.0/8 -j ACCEPT", "-s 11.0.0.0/8 -j ACCEPT")
TEN_IN_PARTS = forward("-s 10.0.0.0/16 -j ACCEPT", "-s 10.0.0.0/8 -p tcp -j DROP", "-s 10.0.0.0/8 -j ACCEPT")
NO_TCP_TO_TEN = forward("-d 10.0.0.0/8 -p tcp -j DROP", "-j ACCEPT")
EVERYTHING = forward(policy="ACCEPT")
SSH = forward("-p tcp -m tcp --dport 22 -j ACCEPT")
NET6 = forward("-s 2001:db8::/32 -j ACCEPT")
INPUT_TCP = wrapped(":INPUT DROP [0:0]", ":FORWARD ACCEPT [0:0]", "-A INPUT -p tcp -j ACCEPT")
INPUT_ALL = wrapped(":INPUT ACCEPT [0:0]", ":FORWARD DROP [0:0]")
OPEN_TABLE = "*filter\n:FORWARD DROP [0:0]\n"
BAD_LINE = "x\n"
QUEUED = calling("-j NFQUEUE --queue-num 1", returns="Q")
LOST_RULE = wrapped(":FORWARD DROP [0:0]", "-A LOST -j ACCEPT")
AFTER_OTHERS = "# of tomorrow\n*nat\nx\nCOMMIT\n" + wrapped(":FORWARD DROP [0:0]", "-A FORWARD -j TEE")

CASES |= {
    "a dump is covered by itself": ("cover", pair(TEN, TEN), COVERED),
    "a half of a net is left over": ("cover", pair(TEN, HALF_OF_TEN), shows("src=10.128.0.0")),
    "a half of a net is covered by the net": ("cover", pair(HALF_OF_TEN, TEN), COVERED),
    "a limited accept of the second dump need not accept": ("cover", pair(TEN, LIMITED_TEN), shows("src=10.0.0.0")),
    "a limited accept of the first dump may accept": ("cover", pair(LIMITED_TEN, HALF_OF_TEN), shows("src=10.128.0.0")),
    "a limited accept is covered by the accept": ("cover", pair(LIMITED_TEN, TEN), COVERED),
    "a limited accept is not covered by itself": ("cover", pair(LIMITED_TEN, LIMITED_TEN), shows("src=10.0.0.0")),
    "a doubtful drop of the first dump need not drop": ("cover", pair(RECENT_DROP, forward()), shows()),
    "a doubtful drop of the second dump may drop": ("cover", pair(EVERYTHING, RECENT_DROP), shows()),
    "a doubtful drop is not covered by itself": ("cover", pair(RECENT_DROP, RECENT_DROP), shows()),
    "a doubtful goto is not covered by itself": ("cover", pair(DOUBTFUL_GOTO, DOUBTFUL_GOTO), shows()),
    "two doubtful matches behind a goto are not covered by themselves": ("cover", pair(GOTO_LIMITED, GOTO_LIMITED), shows("proto=6")),
    "doubt that decides nothing": ("cover", pair(*[forward("-p tcp -m limit --limit 1/sec -j ACCEPT", "-p tcp -j ACCEPT")] * 2), COVERED),
    "a policy of ACCEPT is not covered by one of DROP": ("cover", pair(EVERYTHING, forward()), shows()),
    "a policy of DROP is covered by one of ACCEPT": ("cover", pair(forward(), EVERYTHING), COVERED),
    "two policies of ACCEPT": ("cover", pair(EVERYTHING, EVERYTHING), COVERED),
    "two policies of DROP": ("cover", pair(forward(), forward()), COVERED),
    "the policy of the second dump accepts": ("cover", pair(forward("-p tcp -j ACCEPT"), forward("-p udp -j DROP", policy="ACCEPT")), COVERED),
    "the policy of the first dump accepts": (
        "cover", pair(forward("-p udp -j DROP", policy="ACCEPT"), forward("! -p tcp -j ACCEPT")), shows("proto=6")),
    "the policies of both accept": ("cover", pair(forward("-p tcp -j DROP", policy="ACCEPT"), forward("! -p tcp -j ACCEPT")), COVERED),
    "a port that the second dump drops": (
        "cover", pair(forward("-p tcp -j ACCEPT"), forward("-p tcp -m tcp --dport 25 -j DROP", policy="ACCEPT")), shows("proto=6", "dport=25")),
    "a port between two ranges": (
        "cover", pair(forward("-p udp -m udp --sport 1:1000 -j ACCEPT"), forward("-p udp -m multiport --sports 1:10,12:1000 -j ACCEPT")),
        shows("proto=17", "sport=11")),
    "the first rule that is left over is shown": (
        "cover", pair(forward("-s 11.0.0.0/8 -j ACCEPT", "-s 10.0.0.0/8 -j ACCEPT"), forward()), shows("src=11.0.0.0")),
    "a rule behind one that is covered": ("cover", pair(TEN_AND_ELEVEN, TEN), shows("src=11.0.0.0")),
    "a rule that no packet meets": ("cover", pair(forward("-s 10.0.0.0/8 -j ACCEPT", "-s 10.1.0.0/16 -p tcp -j ACCEPT"), TEN), COVERED),
    "a region behind one that is covered": ("cover", pair(NO_TCP_TO_TEN, forward("! -d 10.0.0.0/8 -j ACCEPT")), shows("dst=10.0.0.0")),
    "what the second dump accepts before it drops": ("cover", pair(TEN, TEN_IN_PARTS), shows("src=10.1.0.0", "proto=6")),
    "what the first dump drops before it accepts": ("cover", pair(TEN_IN_PARTS, TEN), COVERED),
    "an accept behind a drop": ("cover", pair(forward("-s 10.0.0.0/8 -j DROP", "-s 10.0.0.0/7 -j ACCEPT"), TEN), shows("src=11.0.0.0")),
    "an interface is covered by its pattern": ("cover", pair(BY_NAME, forward("-i eth+ -j ACCEPT")), COVERED),
    "a pattern is not covered by one of its names": ("cover", pair(forward("-i eth+ -j ACCEPT"), BY_NAME), shows("in=eth")),
    "a pattern without its shortest name": ("cover", pair(forward("-i eth+ -j ACCEPT"), forward("-i eth -j ACCEPT")), shows("in=hex:65746800")),
    "two output interfaces": ("cover", pair(forward("-o eth0 -j ACCEPT"), forward("-o eth1 -j ACCEPT")), shows("out=eth0")),
    "all interfaces but one": ("cover", pair(EVERYTHING, forward("! -i eth0 -j ACCEPT")), shows("in=eth0")),
    "a state that is left out": (
        "cover", pair(SSH, forward("-p tcp -m tcp --dport 22 -m conntrack --ctstate INVALID,NEW,ESTABLISHED -j ACCEPT")),
        shows("proto=6", "dport=22", "state=RELATED")),
    "flags that are left out": ("cover", pair(forward("-p tcp -j ACCEPT"), forward("-p tcp -m tcp ! --syn -j ACCEPT")), shows("proto=6", "flags=SYN")),
    "a type that is left out": ("cover", pair(forward("-p icmp -j ACCEPT"), NO_ECHO), shows("proto=1", "icmp=8")),
    "a half of a net of IPv6 is left over": (
        "cover --family 6", pair(NET6, NET6.replace("/32", "/33")), shows("src=2001:db8:8000::", "dst=::")),
    "a net of IPv6 is covered by itself": ("--family=6 cover", pair(NET6, NET6), COVERED),
    "chains and gotos are covered by their filter": ("cover", pair(LEFT_BY_GOTO, LEFT_FILTER), COVERED),
    "chains and gotos cover their filter": ("cover", pair(LEFT_FILTER, LEFT_BY_GOTO), COVERED),
    "a home router is covered by its upper filter": ("cover", pair(ROUTER, ROUTER_UPPER), COVERED),
    "a home router covers its lower filter": ("cover", pair(ROUTER_LOWER, ROUTER), COVERED),
    "a home router is not covered by itself": ("cover", pair(ROUTER, ROUTER), shows("in=ppp0", "proto=1", "state=NEW")),
    "an upper filter is not covered by the lower one": ("cover", pair(ROUTER_UPPER, ROUTER_LOWER), shows("in=ppp0", "proto=1", "state=NEW")),
    "the asked chain of both": ("cover --chain INPUT", pair(INPUT_TCP, INPUT_ALL), COVERED),
    "the chain FORWARD of both": ("cover", pair(INPUT_TCP, INPUT_ALL), shows()),
    "the asked chain is not in the first dump": ("cover --chain INPUT", pair(TEN, INPUT_ALL), (8, "", "fffuu: no chain INPUT\n")),
    "the asked chain is not in the second dump": ("--chain=INPUT cover", pair(INPUT_ALL, TEN), (8, "", "fffuu: no chain INPUT\n")),
    "one family for both": ("cover", pair(TEN, NET6), malformed(8)),
    "one family for both, the other": ("cover --family 6", pair(NET6, TEN), malformed(8)),

    # where the text is divided
    "no dividing line": ("cover", TEN, NO_DIVIDER),
    "no dividing line in an empty text": ("cover", "", NO_DIVIDER),
    "no dividing line in a malformed text": ("cover", BAD_LINE + TEN, NO_DIVIDER),
    "a text that ends within its dividing line": ("cover", TEN + "%", NO_DIVIDER),
    "a first dividing line": ("cover", pair("", TEN), NO_TABLE),
    "a dividing line alone": ("cover", "%%\n", NO_TABLE),
    "a dividing line alone, without its line feed": ("cover", "%%", NO_TABLE),
    "a last dividing line": ("cover", pair(TEN, ""), NO_TABLE),
    "a last dividing line, without its line feed": ("cover", TEN + "%%", NO_TABLE),
    "a last dividing line behind a malformed one": ("cover", BAD_LINE + "%%", malformed(1)),
    "the second dump ends without a line feed": ("cover", pair(TEN, TEN)[:-1], COVERED),
    "the first dump ends in an open table": ("cover", pair(OPEN_TABLE, TEN), malformed(3)),
    "the first dump ends in a table that is passed over": ("cover", pair("*nat\n", "COMMIT\n" + TEN), malformed(2)),
    "the second dump ends in an open table": ("cover", pair(TEN, OPEN_TABLE), malformed(8)),
    "the second dump ends within a line": ("cover", pair(TEN, OPEN_TABLE + "-A FORWARD -s 10.0."), malformed(8)),
    "a second dividing line": ("cover", pair(TEN, pair(TEN, TEN)), malformed(10)),
    "a second dividing line among rules": ("cover", pair(TEN, OPEN_TABLE + "%%\nCOMMIT\n"), malformed(8)),
    "a second dividing line in a table that is passed over": ("cover", pair(TEN, "*nat\n%%\nCOMMIT\n" + TEN), COVERED),

    # lines are counted over the whole text
    "a chain twice in the second dump": ("cover", pair(TEN, "*filter\n:FORWARD DROP\n:FORWARD DROP\nCOMMIT\n"), malformed(8)),
    "a rule of no declared chain in the second dump": ("cover", pair(TEN, LOST_RULE), (7, "", "fffuu: line 8: undefined chain\n")),
    "a goto of no declared chain in the second dump": (
        "cover", pair(TEN, LOST_RULE.replace("-A LOST -j ACCEPT", "-A FORWARD -g LOST")), (7, "", "fffuu: line 8: undefined chain\n")),
    "an unsupported target in the second dump": ("cover", pair(TEN, QUEUED), (9, "", "fffuu: line 10: unsupported target NFQUEUE\n")),
    "comments and other tables count": (
        "cover", pair("# of today\n\n" + TEN, AFTER_OTHERS), (9, "", "fffuu: line 14: unsupported target TEE\n")),
    "a call loop in the second dump": ("cover", pair(TEN, calling("-j C")), (10, "", "fffuu: call loop through C\n")),
    "a path that is too long in the second dump": ("cover", pair(TEN, doubling(256)), limit("depth")),
    "too many nodes in the second dump": ("cover", pair(TEN, doubling(18)), limit("nodes")),
    "a bad line behind a first dump that can be asked about": ("cover", pair(TEN, BAD_LINE), malformed(6)),
}
# what is wrong with the first dump is told before a bad line of the second
CASES |= {f"{name} in the first dump, and a bad line in the second": ("cover", pair(first, BAD_LINE), wanted) for name, first, wanted in [
    ("a bad line", forward("-s ! 10.0.0.0/8 -j DROP"), malformed(3)), ("no filter table", "*nat\nCOMMIT\n", NO_TABLE),
    ("a rule of no declared chain", LOST_RULE, (7, "", "fffuu: line 3: undefined chain\n")),
    ("no asked chain", wrapped(":INPUT DROP [0:0]"), (8, "", "fffuu: no chain FORWARD\n")),
    ("an unsupported target", QUEUED, (9, "", "fffuu: line 5: unsupported target NFQUEUE\n")),
    ("a call loop", calling("-j C"), (10, "", "fffuu: call loop through C\n")),
    ("a path that is too long", doubling(256), limit("depth")), ("too many nodes", doubling(18), limit("nodes"))]}
CASES |= {f"{line!r} divides nothing": ("cover", f"{TEN}{line}\n{TEN}", NO_DIVIDER) for line in ("%% ", " %%", "\t%%", "%%\r", "%", "%%%", "# %%", '"%%"', "%%\0")}

EXPLAIN_TEXT = forward("-j ACCEPT")
# what no packet of `explain` is
BAD_FIELDS = ["src", "src=", "src=1.2.3", "src=10.0.0.0/8", "src=::1", "dst=1.2.3.256", "proto=", "proto=256", "proto=all", "proto=TCP",
              "proto=01", "proto=00", "proto=+6", "flags=NONE,SYN", "flags=SYN,,ACK", "flags=,SYN", "state=SNAT",
              "sport=65536", "dport=http", "dport=-1", "dport=01", "flags=", "flags=SYN,", "flags=syn", "state=", "state=new", "state=NEW,RELATED",
              "in=hex:6", "in=hex:6g", "out=hex:0", "mark=1", "=1", "SRC=1.1.1.1", "src=1.1.1.1 src=1.1.1.1", "in=a in=b", "flags=ACK flags=ACK",
              "ttl=1", "=1.2.3.4", "src=1.2.3.4/32", "dst=01.2.3.4", "proto=06", "sport=080", "dport=+5", "flags=SYN,ALL", "state=NEW,ESTABLISHED",
              "out=hex:0g", "src=1.2.3.4 src=1.2.3.5", "icmp=", "icmp=256", "icmp=08", "icmp=+8", "icmp=-1", "icmp=8/0", "icmp=any", "icmp=echo-request",
              "icmp=8 icmp=8", "ICMP=8", "icmpv6=8", "proto=icmp type=8"]
GOOD_FIELDS = ["", "in=", "in=hex:", "in=hex:6A6b", "in=eth0=x", "out=a", "src=1.2.3.4 dst=255.255.255.255", "proto=tcp", "proto=0", "proto=255",
               "sport=0 dport=65535", "flags=NONE", "flags=ALL", "flags=FIN", "flags=RST,PSH,URG", "flags=ACK,SYN,ACK", "flags=SYN,ACK",
               "flags=SYN,SYN", "state=INVALID", "state=RELATED", "state=ESTABLISHED", "state=UNTRACKED",
               "icmp=0", "icmp=255", "proto=icmp icmp=8", "proto=tcp icmp=8", "icmp=254 proto=58",
               "in=a out=b src=1.1.1.1 dst=2.2.2.2 proto=6 sport=1 dport=2 flags=FIN state=NEW icmp=3"]

# what no request is
BAD_WORDS = [
    "upper -x", "explain --side upper", "explain --family 6 src=1.2.3.4", "explain --family 4 src=::1",
    "matrix", "matrix tcp::1", "matrix :1:1", "matrix tcp:1:", "matrix tcp:1:1:1", "matrix 06:1:1", "matrix 256:1:1", "matrix all:1:1",
    "matrix tcp:1:65536", "matrix tcp:1:01", "matrix tcp:1:1 tcp:1:1", "matrix tcp:1:1 --side up", "matrix tcp:1:1 --side=",
    "spoof", "spoof eth0", "spoof eth0=", "spoof eth0=,", "spoof eth0=1.1.1.1,", "spoof eth0=,1.1.1.1", "spoof eth0=1.1.1.1,,1.1.1.2",
    "spoof eth0=10.0.0.0/33", "spoof eth0=10.0.0.0/08", "spoof eth0=10.0.0.0/255.0.0.0", "spoof eth0=2.2.2.2-1.1.1.1",
    "spoof eth0=1.1.1.1-1.1.1.2/32", "spoof eth0=::1", "spoof eth0=1.1.1.1 --family 6", "spoof eth0=1.1.1.1 --side upper", "spoof eth0=1.1.1.1 eth1",
    "load", "load 0", "load 05", "load five", "load 5 5", "load 5 --family 4", "load 5 --side upper",
    "cover x", "cover cover", "cover --side upper", "cover --side lower", "--side=upper cover", "cover --family 5", "cover --chain",
]

# at the limits: words, text, and a status with the last line on standard error, or the number of rule lines that are written
ROUND = "-A FORWARD ! -s 10.0.0.0/8 -j ACCEPT"


def many(count, line, *more):
    return wrapped(":FORWARD DROP [0:0]", *[line] * count, *more)


def chained(count, by="-j"):
    """Chains that call one another in a row, or go to one another, FORWARD the first of `count`."""
    names = [f"N{i}" for i in range(1, count)]
    calls = [f"-A {name} {by} {after}" for name, after in zip(["FORWARD", *names], names)]
    return wrapped(":FORWARD DROP [0:0]", *(f":{name} - [0:0]" for name in names), *calls)


def sure_returns(count):
    return wrapped(":FORWARD DROP [0:0]", ":C - [0:0]", "-A FORWARD -j C", *["-A C -p esp -j RETURN"] * count, *["-A C -j ACCEPT"] * 2048)


def visited(*more, by="-j"):
    return wrapped(":FORWARD DROP [0:0]", ":C - [0:0]", *[f"-A FORWARD {by} C"] * 4096, *["-A C -s 1.1.1.1/32 -j DROP"] * 4095, *more)


def doubtful_goto(count):
    """A doubtful goto before `count` accepts, which stand in the tree twice; its own items are six."""
    return wrapped(":FORWARD DROP [0:0]", ":C - [0:0]", "-A FORWARD -m limit --limit 1/sec -g C", *["-A FORWARD -j ACCEPT"] * count,
                   *["-A C -p tcp -j ACCEPT"] * 2)


def address_returns(count):
    return [f"-s 10.0.0.{i}/32 -d 192.168.0.0/16 -j RETURN" for i in range(1, count + 1)]


def boxes(returns, *before):
    """Returns that multiply the cubes; what is left is accepted."""
    rules = address_returns(returns) + [f"-p tcp -m tcp --sport {i} --dport 1 -j RETURN" for i in range(1, 128)]
    lines = ["-A FORWARD -p tcp -j C", *(f"-A C {rule}" for rule in [*rules, "-j ACCEPT"])]
    return wrapped(":FORWARD DROP [0:0]", ":C - [0:0]", *before, *lines)


# the pieces of the last return pass the limit, though half of them are left out again
UNUSED = calling(*address_returns(127), *(f"-i e{i} -o x -j RETURN" for i in range(1, 65)), "-m tcp ! --dport 22 -j RETURN", "-j ACCEPT")


def even_nets(count, *more):
    """Rules that accept from every second net of 256 addresses."""
    return forward(*(f"-s 10.{i >> 7}.{i % 128 * 2}.0/24 -j ACCEPT" for i in range(count)), *more)


def even_classes(count):
    """The matrix of these rules: all accepted sources are one class, and all other addresses the other."""
    accepted = [f"10.{i >> 7}.{i % 128 * 2}.0-10.{i >> 7}.{i % 128 * 2}.255" for i in range(count)]
    between = [f"10.{i >> 7}.{i % 128 * 2 + 1}.0-10.{i >> 7}.{i % 128 * 2 + 1}.255" for i in range(count - 1)]
    last = f"10.{count - 1 >> 7}.{(count - 1) % 128 * 2 + 1}.0-255.255.255.255"
    return f"classes 2\n0 {','.join(['0.0.0.0-9.255.255.255', *between, last])}\n1 {','.join(accepted)}\nedges 2\n1 0\n1 1\n"


def region_drops(*more):
    """Drops after which 65,536 pieces of the forged packets are left: 16 of pairs of addresses, times one of the other protocols and 315 times
    13 of tcp."""
    lines = [f"-A FORWARD -s 1.0.0.{i}/32 -d 2.0.0.{i}/32 -j DROP" for i in range(15)]
    lines += [f"-A FORWARD -p tcp -m tcp --sport {i + 1} -m tcp --dport 1000 -j DROP" for i in range(314)]
    lines += [f"-A FORWARD -p tcp -m tcp --dport {2000 + i} -m tcp --tcp-flags SYN SYN -j DROP" for i in range(12)]
    return wrapped(":FORWARD ACCEPT [0:0]", *lines, *more)


def paired_drops(count):
    """Drops for every pair of a net of one address and a port, after which 256 times as many regions are left as `count` plus one."""
    lines = ["-A FORWARD ! -p tcp -j DROP"]
    lines += [f"-A FORWARD -s 10.0.{i >> 8}.{i & 255}/32 -d 192.168.0.0/16 -j DROP" for i in range(1, count + 1)]
    lines += [f"-A FORWARD -p tcp -m tcp --sport {i} --dport 1 -j DROP" for i in range(1, 256)]
    return wrapped(":FORWARD ACCEPT [0:0]", *lines)


ONE_MORE = "-A FORWARD -s 3.0.0.1/32 -d 2.0.0.0/32 -p udp -j DROP"
# parts the one piece of other protocols that has the source in two
ONE_REGION_MORE = "-A FORWARD -s 3.0.0.1/32 -p udp -j DROP"


def turned(text):
    """The dump with ACCEPT for DROP and DROP for ACCEPT."""
    words = {"ACCEPT": "DROP", "DROP": "ACCEPT"}
    return "\n".join(" ".join(words.get(word, word) for word in line.split(" ")) for line in text.split("\n"))


def doubtful(action):
    """128 visits of 2,048 doubtful rules with this action: too many items for one side, and none for the other."""
    return doubling(8).replace("-A N8 -j ACCEPT\n", f"-A N8 -m socket -j {action}\n" * 2048)



LIMITS = {
    "131,072 simple rules": ("upper", many(131_072, "-A FORWARD -j ACCEPT"), 131_072),
    "131,073 simple rules": ("upper", many(131_073, "-A FORWARD -j ACCEPT"), limit("rules")),
    "262,144 nodes": ("upper", many(262_144, "-A FORWARD -j ACCEPT"), limit("rules")),
    "262,145 nodes": ("upper", many(262_145, "-A FORWARD -j ACCEPT"), limit("nodes")),
    "262,144 rule lines": ("upper", many(131_072, ROUND), 262_144),
    "262,146 rule lines": ("upper", many(131_071, ROUND, "-A FORWARD ! -s 10.0.0.0/8 ! -d 10.0.0.0/8 -j ACCEPT"), limit("lines")),
    "4,194,304 literals": ("upper", sure_returns(2048), prints(forward(*["! -p esp -j ACCEPT"] * 2048))),
    "more literals": ("upper", sure_returns(2049), limit("literals")),
    "16,384 cubes": ("upper", boxes(127), 32_768),
    "16,512 cubes": ("upper", boxes(128), limit("boxes")),
    "cubes that are left out again count": ("upper", UNUSED, limit("boxes")),
    "cubes before rules": ("upper", boxes(128, *["-A FORWARD -j ACCEPT"] * 131_073), limit("boxes")),
    "nodes of the lower side": ("lower", many(262_145, "-A FORWARD -j DROP"), limit("nodes")),
    "256 chains in a row": ("lower", chained(256), 0),
    "257 chains in a row": ("upper", chained(257), limit("depth")),
    "calls that double 17 times": ("upper", doubling(17), 65_536),
    "gotos that double 16 times": ("upper", doubling(16, "-g"), 1),
    "256 chains in a row of gotos": ("lower", chained(256, "-g"), 0),
    "257 chains in a row of gotos": ("upper", chained(257, "-g"), limit("depth")),
    "262,144 nodes of a doubtful goto": ("upper", doubtful_goto(131_069), 131_071),
    "262,146 nodes of a doubtful goto": ("upper", doubtful_goto(131_070), limit("nodes")),
    "4,096 boundaries": ("matrix tcp:1:1", even_nets(2048), prints(even_classes(2048))),
    "4,097 boundaries": ("matrix tcp:1:1", even_nets(2048, "-s 128.0.0.0/1 -j ACCEPT"), limit("atoms")),
    "4,098 boundaries": ("matrix tcp:1:1", even_nets(2049), limit("atoms")),
    "65,536 regions": ("spoof eth0=9.9.9.9", region_drops(), prints(FORGED)),
    "65,536 regions of tcp": ("spoof eth0=127.0.0.0/8", paired_drops(255), prints(
        "eth0 violated in=eth0 out= src=0.0.0.0 dst=0.0.0.0 proto=6 sport=0 dport=0 flags=NONE state=NEW icmp=0\n")),
    "65,792 regions of tcp": ("spoof eth0=127.0.0.0/8", paired_drops(256), limit("regions")),
    "more regions": ("spoof eth0=9.9.9.9", region_drops(ONE_MORE), limit("regions")),
    "more regions behind the answer": ("spoof eth0=9.9.9.9", region_drops("-A FORWARD -s 200.0.0.0/8 -p udp -j ACCEPT", ONE_MORE),
                                       prints(FORGED.replace("src=0.0.0.0", "src=200.0.0.0").replace("proto=0", "proto=17"))),
    "more regions for one of two claims": ("spoof eth0=0.0.0.0/0 eth1=9.9.9.9", region_drops(ONE_MORE), limit("regions")),
    "16,777,216 visits": ("explain src=2.2.2.2", visited(), prints("accept never\ndrop under 0\n")),
    "16,777,217 visits": ("explain src=2.2.2.2", visited("-A FORWARD -j ACCEPT"), limit("visits")),
    "16,777,216 visits by gotos": ("explain src=2.2.2.2", visited(by="-g"), prints("accept never\ndrop under 0\n")),
    "16,777,217 visits by gotos": ("explain src=2.2.2.2", visited("-A FORWARD -j ACCEPT", by="-g"), limit("visits")),
    "nodes of the first dump are those of upper": ("cover", pair(doubtful("ACCEPT"), EVERYTHING), limit("nodes")),
    "nodes of the first dump are not those of lower": ("cover", pair(doubtful("DROP"), forward()), COVERED),
    "nodes of the second dump are those of lower": ("cover", pair(forward(), doubtful("DROP")), limit("nodes")),
    "nodes of the second dump are not those of upper": ("cover", pair(forward(), doubtful("ACCEPT")), COVERED),
    "131,073 simple rules of the first dump": ("cover", pair(many(131_073, "-A FORWARD -j ACCEPT"), EVERYTHING), limit("rules")),
    "131,073 simple rules of the second dump": ("cover", pair(EVERYTHING, many(131_073, "-A FORWARD -j DROP")), limit("rules")),
    "131,072 simple rules of both": ("cover", pair(many(131_072, "-A FORWARD -j ACCEPT"), many(131_072, "-A FORWARD -j ACCEPT")), COVERED),
    "256 chains in a row of both": ("cover", pair(chained(256), chained(256, "-g")), COVERED),
    "257 chains in a row of the first dump, and a bad line": ("cover", pair(chained(257), BAD_LINE), limit("depth")),
    "257 chains in a row of the second dump": ("cover", pair(chained(256), chained(257)), limit("depth")),
    "printed lines are not counted": (
        "cover", pair(many(131_071, ROUND, "-A FORWARD ! -s 10.0.0.0/8 ! -d 10.0.0.0/8 -j ACCEPT"), EVERYTHING), COVERED),
    "65,536 regions that drops of the first dump leave": ("cover", pair(region_drops(), EVERYTHING), COVERED),
    "more regions that drops of the first dump leave": ("cover", pair(region_drops(ONE_REGION_MORE), EVERYTHING), limit("regions")),
    "65,536 regions that accepts of the first dump leave": ("cover", pair(region_drops().replace("-j DROP", "-j ACCEPT"), EVERYTHING), COVERED),
    "more regions that accepts of the first dump leave": ("cover", pair(region_drops(ONE_REGION_MORE).replace("-j DROP", "-j ACCEPT"), EVERYTHING), limit("regions")),
    "65,536 regions that accepts of the second dump leave": ("cover", pair(EVERYTHING, turned(region_drops())), shows()),
    "more regions that accepts of the second dump leave": ("cover", pair(EVERYTHING, turned(region_drops(ONE_REGION_MORE))), limit("regions")),
    "more regions of the first dump behind the answer": (
        "cover", pair(region_drops("-A FORWARD -s 200.0.0.0/8 -p udp -j ACCEPT", ONE_REGION_MORE), forward()), shows("src=200.0.0.0", "proto=17")),
    "more regions of the first dump, and a limit of the second": ("cover", pair(region_drops(ONE_REGION_MORE), chained(257)), limit("depth")),
}
