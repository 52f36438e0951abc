"""How parts of a rule are spelled and what they hold of, each with the answer that is wanted."""

UNKNOWN = "unknown"

# the texts of addresses and nets behind -s of IPv4, and the net that `upper` writes: nothing of all addresses, None where the line is
# malformed, UNKNOWN where the match isn't understood
NETS_4 = [
    ("0.0.0.0", "0.0.0.0/32"), ("192.168.10.1", "192.168.10.1/32"), ("255.255.255.255", "255.255.255.255/32"), ("01.2.3.4", None), ("1.2.3.256", None),
    ("1.2.3", None), ("1.2.3.4.5", None), ('" 1.2.3.4"', None), ('""', None), ("10.1.2.3", "10.1.2.3/32"), ("10.1.2.3/8", "10.0.0.0/8"), ("10.1.2.3/0", ""),
    ("10.1.2.3/32", "10.1.2.3/32"), ("10.1.2.3/255.255.0.0", "10.1.0.0/16"), ("10.1.2.3/0.0.0.0", ""), ("10.1.2.3/255.255.255.255", "10.1.2.3/32"),
    ("10.1.2.3/255.0.255.0", UNKNOWN), ("10.1.2.3/0.0.0.255", UNKNOWN), ("10.1.2.3/33", None), ("10.1.2.3/08", None), ("10.1.2.3/", None),
    ("10.1.2.3/8/8", None), ("/8", None),
]
NETS_6 = [
    ("0:0:0:0:0:0:0:0", "::/128"), ("::", "::/128"), ("::1.2.3.4", "::102:304/128"), ("::ffff:1.2.3.4", "::ffff:102:304/128"),
    ("2001:DB8:0:0:1:0:0:1", "2001:db8::1:0:0:1/128"), ("2001:db8::1:1:1:1:1", "2001:db8:0:1:1:1:1:1/128"), ("1:0:0:2:0:0:0:3", "1:0:0:2::3/128"),
    ("00ab:0:0:0:0:0:0:0", "ab::/128"), ("0:0:0:0:0:0:0:1", "::1/128"), ("1:2:3:4:5:6:7::", "1:2:3:4:5:6:7:0/128"),
    ("1:2:3:4:5:6:1.2.3.4", "1:2:3:4:5:6:102:304/128"), ("1::2::3", None), ("1:2:3", None), ("01.2.3.4", None), ('""', None), (":", None), (":::", None),
    ("1:2:3:4:5:6:7:8:9", None), ("1:2:3:4::5:6:7:8", None), ("12345::", None), ("g::", None), ("::1%1", None), ("1.2.3.4::", None),
    ("2001:db8::1/32", "2001:db8::/32"), ("2001:DB8::1/ffff:ffff::", "2001:db8::/32"), ("2001:db8::1/0", ""), ("2001:db8::1/::", ""),
    ("::1/ffff::ffff", UNKNOWN), ("::1/129", None), ("::1/1:2:3", None),
]

# the same for ranges behind --src-range, with the match that is written
RANGES_4 = [
    ("10.0.0.1-10.0.0.9", "-m iprange --src-range 10.0.0.1-10.0.0.9"), ("10.0.0.1-10.0.0.1", "-s 10.0.0.1/32"), ("10.0.0.9-10.0.0.1", UNKNOWN),
    ("10.0.0.1", UNKNOWN), ("10.0.0.1-", UNKNOWN), ("10.0.0.1-10.0.0.2-10.0.0.3", UNKNOWN),
]
RANGES_6 = [("::1-::1:0", "-m iprange --src-range ::1-::1:0")]

# the same for numbers behind --dport
PORTS = [
    ("0", "0"), ("32", "32"), ("65535", "65535"), ("65536", UNKNOWN), ("00", UNKNOWN), ("05", UNKNOWN), ("+5", UNKNOWN), ("-5", UNKNOWN), ('"5 "', UNKNOWN),
    ('""', UNKNOWN), ("4294967296", UNKNOWN),
]

# the same for types of messages behind --icmp-type and --icmpv6-type
TYPES = [
    ("0", "0"), ("8", "8"), ("128", "128"), ("254", "254"), ('"8"', "8"), ("255", UNKNOWN), ("256", UNKNOWN), ("08", UNKNOWN), ("00", UNKNOWN), ("+8", UNKNOWN),
    ("-8", UNKNOWN), ('"8 "', UNKNOWN), ('""', UNKNOWN), ("0x8", UNKNOWN), ("4294967304", UNKNOWN), ("8/0", UNKNOWN), ("3/1", UNKNOWN), ("3:5", UNKNOWN),
    ("3,5", UNKNOWN), ("any", UNKNOWN), ("echo-request", UNKNOWN), ("8 9", None), ("", None), ("! 8", None), ("8 -m", None),
]
MESSAGES = [("-p icmp -m icmp", "--icmp-type"), ("-p ipv6-icmp -m icmp6", "--icmpv6-type")]

# the same for what stands behind -i
NAMES = [
    ('a"b', '"a\\"b"'), ('a\\"b', '"a\\\\\\"b"'), ("c\\", '"c\\\\"'), ("'it'", "\"'it'\""), ("'it is'", None), ('"\\a\\ b"', '"a b"'), ('"say \\"no\\""', '"say \\"no\\""'),
    ('"back\\\\"', '"back\\\\"'), ('"it\\\'s; a `b` -- c"', '"it\'s; a `b` -- c"'), ("\0\xff", '"\0\xff"'), ("a\x0bb", '"a\x0bb"'), ('"a""b"', None), ('ab"cd e"', None),
    ('"', None), ('"a\\"', None), ('"a""b', None), ('"\\', None),
]


def rows():
    """The family, the matches of a rule that accepts, and the matches that are written, UNKNOWN or None."""
    for family, nets in ((4, NETS_4), (6, NETS_6)):
        for text, net in nets:
            yield family, f"-s {text}", f"-s {net}" if net and net is not UNKNOWN else net
    for family, ranges in ((4, RANGES_4), (6, RANGES_6)):
        for text, match in ranges:
            yield family, f"-m iprange --src-range {text}", match
    for text, number in PORTS:
        yield 4, f"-p tcp -m tcp --dport {text}", UNKNOWN if number is UNKNOWN else f"-p tcp -m tcp --dport {number}"
    for text, kind in TYPES:
        for match, option in MESSAGES:
            for family, negation in ((4, ""), (6, "! ")):
                yield family, f"{match} {negation}{option} {text}", f"{match} {negation}{option} {kind}" if kind and kind is not UNKNOWN else kind
    for text, name in NAMES:
        yield 4, f"-i {text}", name and f"-i {name}"


# a SYN of a new connection
SYN = "in=eth0 out=ppp0 src=10.0.0.1 dst=10.0.0.2 proto=6 sport=40000 dport=22 flags=SYN state=NEW"
NUMBERS = {"icmp": 1, "igmp": 2, "tcp": 6, "udp": 17, "dccp": 33, "gre": 47, "esp": 50, "ah": 51, "ipv6-icmp": 58, "icmpv6": 58, "sctp": 132, "udplite": 136}

# the matches of a rule, a packet, and whether they hold of it
HELD = [
    ("", SYN, True), ("-s 10.0.0.1", SYN, True), ("! -s 10.0.0.1", SYN, False), ("-d 10.0.0.1", SYN, False), ("! -d 10.0.0.1", SYN, True),
    ("-m iprange --dst-range 10.0.0.2-10.0.0.255", SYN, True), ("-m iprange --src-range 10.0.0.2-10.0.0.255", SYN, False),
    ("-i eth+", SYN, True), ("-o eth+", SYN, False), ("-o ppp0", SYN, True), ("-i ppp0", SYN, False), ("-i eth0", SYN, True),
    ("-i eth+", "in=eth", True), ("-i eth+", "in=et", False), ("-i eth+", "in=", False), ("-i eth+", "in=xeth0", False), ("-i eth0", "in=eth", False), ("-i +", "in=", True),
    ("-p tcp -m tcp --sport 22:40000", SYN, True), ("-p tcp -m tcp --dport 22:40000", SYN, True), ("-p tcp -m tcp --sport 23:39999", SYN, False),
    ("-p tcp -m tcp --dport 23:39999", SYN, False), ("-m udp --sport 22:40000", SYN, False), ("-m udp --dport 22:40000", SYN, False),
    ("-p tcp", SYN, True), ("-p 17", SYN, False),
    ("-p tcp -m tcp --tcp-flags FIN,SYN,RST,ACK SYN", SYN, True), ("-p tcp -m tcp --tcp-flags FIN,SYN,RST,ACK SYN,ACK", SYN, False),
    ("-m conntrack --ctstate NEW", SYN, True), ("-m conntrack --ctstate INVALID,RELATED,ESTABLISHED,UNTRACKED", SYN, False),
    *((f"-p {number}", f"proto={name}", True) for name, number in NUMBERS.items()),
    ("-m icmp --icmp-type 8", "proto=icmp icmp=8", True), ("-m icmp --icmp-type 8", "proto=icmp icmp=0", False), ("-m icmp --icmp-type 8", "proto=58 icmp=8", False),
    ("-m icmp --icmp-type 8", "proto=tcp icmp=8", False), ("-m icmp ! --icmp-type 8", "proto=tcp icmp=8", True), ("-m icmp ! --icmp-type 8", "proto=icmp icmp=8", False),
    ("-m icmp ! --icmp-type 8", "proto=icmp icmp=255", True), ("-m icmp --icmp-type 0", "proto=icmp", True), ("-m icmp --icmp-type 8", "proto=icmp", False),
    ("-m icmp6 --icmpv6-type 128", "proto=ipv6-icmp icmp=128", True), ("-m icmp6 --icmpv6-type 128", "proto=icmp icmp=128", False),
    ("-m icmp6 ! --icmpv6-type 128", "proto=58 icmp=129", True), ("-m icmp6 --icmpv6-type 0", "proto=58", True),
    ("-m icmp --icmp-type 8 --icmp-type 0", "proto=icmp icmp=8", False), ("-m icmp --icmp-type 8 -m icmp --icmp-type 8", "proto=icmp icmp=8", True),
]
