#!/usr/bin/env python3
"""Runs the companion on the samples and on texts that it has to refuse, and looks for facts that were worked out by hand.

    python3 tests/view.py PROGRAM

Prints each case that disagrees and a last line 'N passed, M failed'; the exit status is 1 where one failed. What needs Graphviz or
a browser is left out, with a line that says so, where these are missing."""
import csv
import gzip
import html.parser
import io
import json
import os
import re
import shutil
import subprocess
import sys
import tempfile
import threading
from concurrent.futures import ThreadPoolExecutor

TOP = os.path.dirname(os.path.dirname(os.path.abspath(__file__)))
VIEW = os.path.join(TOP, "tools", "fffuu-view")
SCHEMAS = os.path.join(TOP, "tools", "fffuu_view", "schema")
PROGRAM = ""
passed = failed = 0
counting = threading.Lock()


def check(name, got, wanted):
    global passed, failed
    with counting:
        if got == wanted:
            passed += 1
        else:
            failed += 1
            print(f"{name}: got {str(got)[:600]}, wanted {str(wanted)[:300]}")


def says(name, text, *parts):
    """Each part stands in the text."""
    lacks = [part for part in parts if part not in text]
    check(name, f"{text[-600:]} without {lacks}" if lacks else "", "")


def view(*words, given=b"", **environment):
    done = subprocess.run([sys.executable, VIEW, *words], input=given, capture_output=True, cwd=TOP,
                          env={**os.environ, "FFFUU": PROGRAM, **environment})
    return done.returncode, done.stdout.decode(), done.stderr.decode()


def sample(name):
    return os.path.join("samples", name)


def table(*lines, policy="DROP"):
    return "\n".join(["*filter", f":FORWARD {policy} [0:0]", *lines, "COMMIT", ""]).encode()


def helps():
    status, out, _ = view("--help")
    says("--help says what it is", out, "asks the program", "why", "json", "graph", "report", "fleet")
    check("--help ends well", status, 0)
    for name in ("why", "json", "graph", "report", "fleet"):
        status, out, _ = view(name, "--help")
        check(f"{name} --help ends well", status, 0)
        says(f"{name} --help", out, "example: fffuu-view " + name, "asks the program")
    said = subprocess.run(["git", "describe", "--tags", "--always", "--dirty"], cwd=TOP, capture_output=True, text=True).stdout.strip()
    if said:
        check("--version", view("--version")[1], f"fffuu-view {said}\n")
    check("no subcommand", view()[0], 1)
    check("a word too many", view("graph", sample("router.rules"), "ssh", "more")[0], 1)
    status, _, err = view("why", sample("router.rules"), FFFUU="/nowhere/fffuu")
    check("no such program", (status, err), (1, "fffuu-view: /nowhere/fffuu is no program that can be run\n"))


def whys():
    status, out, _ = view("why", sample("router.rules"), "in=ppp0", "proto=icmp")
    check("why ends well", status, 0)
    says("why of an icmp packet", out, "accept: yes, where this match holds", "line 24: -A WAN -p icmp -m limit --limit 10/sec -j ACCEPT",
         "where this holds: -m limit --limit 10/sec", "called by line 19: -A FORWARD -i ppp0 -j WAN",
         "drop: yes, where no match holds", "depends on matches")
    says("why of a web packet", view("why", sample("router.rules"), "in=ppp0", "dst=192.168.1.10", "proto=tcp", "dport=80")[1],
         "flags=SYN was added", "accept: yes, where no match holds", "drop: never", "accepted in any case")
    says("why of a forged packet", view("why", sample("router.rules"), "in=br0", "src=10.0.0.1")[1], "accept: never", "dropped in any case",
         "without proto= the packet is one of protocol 0")
    status, out, _ = view("why", sample("limits.rules"), "--chain", "FORWARD", "src=10.0.0.1", "proto=udp")
    says("why with an option in between", out, "line 9: -A L -m limit --limit 5/min -j ACCEPT", "called by line 8: -A FORWARD -j L")
    out = view("why", sample("firewalld-host.rules"), "in=eth0", "out=eth1", "dst=10.20.0.80", "proto=tcp", "dport=443")[1]
    says("why over a goto", out, "where this holds: -m mark --mark 0x64", "called by line 84: -A FWDI_public -j FWDI_public_allow",
         "by the goto of line 66: -A FORWARD_IN_ZONES -i eth0 -g FWDI_public", "called by line 59: -A FORWARD -j FORWARD_IN_ZONES")
    types()
    status, _, err = view("why", sample("router.rules"), "dport=22")
    check("a port without a protocol", status, 1)
    says("a port without a protocol", err, "dport=22 without a protocol", "proto=tcp")
    says("a word that is no field", view("why", sample("router.rules"), "port=22")[2], "port=22", "sport, dport")
    says("a field twice", view("why", sample("router.rules"), "in=a", "in=b")[2], "in is given twice")


def types():
    out = view("why", sample("router6.rules"), "proto=ipv6-icmp")[1]
    says("why of an echo request of IPv6", out, "IPv6: proto=ipv6-icmp icmp=128\n", "note: icmp=128 was added", "line 22: -A icmpv6-forward",
         "where this holds: -m limit --limit 900/min", "called by line 17")
    says("why of another type", view("why", sample("router6.rules"), "proto=58", "icmp=1")[1], "accept: yes, where no match holds",
         "where this holds: -m rt --rt-type 0")
    says("why of an echo request of IPv4", view("why", sample("router.rules"), "proto=1")[1], "proto=1 icmp=8\n", "note: icmp=8 was added")
    out = view("why", sample("router.rules"), "proto=icmp", "state=ESTABLISHED")[1]
    says("why of a message that opens nothing", out, "without icmp= the message is one of type 0", "IPv4: proto=icmp state=ESTABLISHED\n")
    status, _, err = view("why", sample("router.rules"), "icmp=8")
    check("a type without a protocol", status, 1)
    says("a type without a protocol", err, "icmp=8 without a protocol", "proto=icmp")
    with_code = table("-A FORWARD -p icmp -m icmp --icmp-type 3/4 -j ACCEPT", "-A FORWARD -p icmp -m icmp --icmp-type 3 -j DROP")
    says("a type with a code", view("why", "-", "proto=icmp", "icmp=3", given=with_code)[1], "line 3: ", "where this holds: -m icmp --icmp-type 3/4")
    both = table("-A FORWARD -i eth0 -p icmp -m icmp --icmp-type 0 -j ACCEPT", "-A FORWARD -i eth1 -p icmp -m icmp ! --icmp-type 3 -j ACCEPT")
    text = view("report", "-", "--services", "ping=icmp:0,ipv6-icmp:0", "--claim", "eth0=10.0.0.0/8", "--claim", "eth1=10.0.0.0/8", given=both)[1]
    found = rows_of(Page(text), f"{THROUGH} / by the interface")
    check("types by interface", [(found[name]["ping"], found[name]["ipv6-icmp"]) for name in ("eth0", "eth1")], [("no", "no"), ("some may", "no")])
    check("types by addresses", rows_of(Page(text), f"{THROUGH} / by addresses")["any address \u2192 any address"]["ping"], "some may")
    says("types in a report", text, "icmp type 8, which asks for an echo", "ipv6-icmp echo", "proto=1 sport=0 dport=0 icmp=0", "fffuu understands every match")
    says("a packet of tcp has no type in a report", view("report", sample("router.rules"), "--services", "http")[1], "dport=80)")


def as_json(*words, **more):
    status, out, err = view("json", *words, **more)
    found = json.loads(out)
    with open(os.path.join(SCHEMAS, "answer.schema.json"), encoding="utf-8") as source:
        schema = json.load(source)
    check(f"json {' '.join(words)} fits the schema", fits(found, schema, schema), True)
    return status, found


def fits(value, schema, top):
    """Whether a value is one of a schema, as far as these schemas use the language of schemas."""
    if "$ref" in schema:
        at = top
        for part in schema["$ref"].split("/")[1:]:
            at = at[part]
        return fits(value, at, top)
    if "oneOf" in schema:
        return sum(fits(value, part, top) for part in schema["oneOf"]) == 1
    kinds = schema.get("type")
    if kinds and not any(of_kind(value, kind) for kind in ([kinds] if isinstance(kinds, str) else kinds)):
        return False
    if "enum" in schema and value not in schema["enum"]:
        return False
    if isinstance(value, list):
        return all(fits(part, schema.get("items", {}), top) for part in value)
    if isinstance(value, dict):
        named = schema.get("properties", {})
        if any(name not in value for name in schema.get("required", [])):
            return False
        if schema.get("additionalProperties") is False and any(name not in named for name in value):
            return False
        return all(fits(part, named.get(name, {}), top) for name, part in value.items())
    return True


def of_kind(value, kind):
    if kind == "integer":
        return isinstance(value, int) and not isinstance(value, bool)
    return isinstance(value, {"string": str, "array": list, "object": dict, "boolean": bool, "null": type(None)}[kind])


def jsons():
    _, found = as_json("check", sample("router.rules"))
    check("check", [found[name] for name in ("family", "chain", "chains", "rules", "unknown")], [4, "FORWARD", 5, 14, 2])
    _, found = as_json("matrix", sample("router.rules"), "tcp:1024:80")
    check("classes", [part["networks"] for part in found["classes"]][2], ["192.168.1.10"])
    check("ranges", found["classes"][1]["ranges"], ["192.168.1.0-192.168.1.9", "192.168.1.11-192.168.1.255"])
    check("edges", found["edges"], [[0, 2], [1, 0], [1, 1], [1, 2], [2, 0], [2, 1], [2, 2]])
    _, found = as_json("matrix", sample("router.rules"), "tcp:1024:80", "--side", "lower")
    check("the other side", (found["side"], found["edges"]), ("lower", []))
    _, found = as_json("lower", sample("antispoof.rules"))
    check("a filter's policy", (found["policy"], found["helpers"]), ("DROP", []))
    check("a filter's last rule", found["rules"][-1], {"chain": "FORWARD", "text": "-A FORWARD -j ACCEPT"})
    _, found = as_json("spoof", sample("antispoof.rules"), "eth0=10.0.0.0/8", "eth1=10.0.0.0/8")
    check("claims", [(claim["interface"], claim["holds"]) for claim in found["claims"]], [("eth0", True), ("eth1", False)])
    check("a packet", (found["claims"][1]["packet"]["in"], found["claims"][1]["packet"]["state"]), ("eth1", "NEW"))
    _, found = as_json("spoof", "-", "eth0=10.0.0.0/8", given=table("-A FORWARD -p icmp -m icmp --icmp-type 8 -j ACCEPT"))
    check("a message", [found["claims"][0]["packet"][name] for name in ("proto", "icmp")], ["1", "8"])
    _, found = as_json("explain", sample("router6.rules"), "proto=ipv6-icmp", "icmp=2")
    check("a type", (found["packet"], found["accept"]), ({"proto": "ipv6-icmp", "icmp": "2"}, []))
    _, found = as_json("explain", sample("limits.rules"), "src=10.0.0.1")
    check("places", [(step["chain"], step["rule"], step["line"]) for step in found["accept"][0]["steps"]], [("FORWARD", 2, 8), ("L", 1, 9)])
    check("their match", (found["accept"][0]["match"], found["drop"]), ("-m limit --limit 5/min", []))
    _, found = as_json("explain", sample("router.rules"), "in=br0", "src=10.0.0.1")
    check("never", found["accept"], None)
    status, found = as_json("upper", "-", given=b"*filter\n:FORWARD DROP [0:0]\n-A FORWARD -s ! 10.0.0.0/8 -j DROP\nCOMMIT\n")
    check("a refusal", (status, found["refused"]["status"], found["refused"]["line"]), (5, 5, 3))
    odd = table("-A FORWARD -i \xff -m limit --limit 1/s -j ACCEPT")
    _, found = as_json("explain", "-", "in=hex:c3bf", given=odd)
    check("a name that isn't ASCII", found["accept"][0]["steps"][0]["text"], "-A FORWARD -i \xff -m limit --limit 1/s -j ACCEPT")
    _, found = as_json("explain", "-", "in=hex:ff", given=table("-A FORWARD -i @ -m limit --limit 1/s -j ACCEPT").replace(b"@", b"\xff"))
    check("a name that isn't UTF-8", found["accept"][0]["steps"][0]["text"], "-A FORWARD -i \ufffd -m limit --limit 1/s -j ACCEPT")
    status, found = as_json("matrix", sample("router.rules"))
    check("a matrix without a service", (status, found["refused"]["status"]), (1, 1))


REFUSALS = [
    ("nft list ruleset", b"table inet filter {\n\tchain input {\n\t\ttype filter hook input priority filter; policy accept;\n\t}\n}\n", 5,
     ["looks like `nft list ruleset`", "iptables-save"]),
    ("nft in JSON", b'{"nftables": [{"metainfo": {}}]}\n', 5, ["looks like `nft -j list ruleset`"]),
    ("iptables -L", b"Chain INPUT (policy ACCEPT)\ntarget     prot opt source               destination\n", 5, ["looks like `iptables -L`"]),
    ("iptables -S", b"-P INPUT ACCEPT\n-P FORWARD DROP\n-A FORWARD -i eth0 -j ACCEPT\n", 5, ["looks like `iptables -S`"]),
    ("nothing", b"", 6, ["the input is empty"]),
    ("xz", b"\xfd7zXZ\x00\x00\x04", 5, ["packed by xz"]),
    ("UTF-16", "*filter\n".encode("utf-16"), 5, ["UTF-16", "iconv"]),
    ("a byte order mark", b"\xef\xbb\xbf" + table(), 5, ["byte order mark"]),
    ("--jump", table("-A FORWARD -p tcp --jump ACCEPT"), 5, ["line 3", "not what iptables-save writes", "`-j` for `--jump`", "-p tcp --jump ACCEPT"]),
    ("--goto cut short", table("-A FORWARD --got LOG"), 5, ["`-g` for `--got`"]),
    ("--in-interface", table("-A FORWARD -s 10.0.0.1", "-A FORWARD --in-interface eth0 -j ACCEPT"), 5, ["line 4", "`-i` for `--in-interface`"]),
    ("--dport without a module", table("-A FORWARD -p tcp --dport 22 -j ACCEPT"), 5, ["line 3", "`-m MODULE` before `--dport`"]),
    ("no filter table", b"*nat\n:PREROUTING ACCEPT [0:0]\nCOMMIT\n", 6, ["no filter table", "it has nat alone"]),
    ("cut off", table()[:-7], 5, ["ends before COMMIT"]),
    ("! behind its option", table("-A FORWARD -s ! 10.0.0.0/8 -j DROP"), 5, ["line 3", "`!` stands behind", "-s ! 10.0.0.0/8"]),
    ("words behind the target", table("-A FORWARD -j ACCEPT -m comment --comment x"), 5, ["line 3", "words stand behind the target"]),
    ("a command", table("-I FORWARD -j ACCEPT"), 5, ["line 3", "inserts a rule"]),
    ("a host's name", table("-A FORWARD -s www.example.org -j ACCEPT"), 5, ["line 3", "host's name"]),
    ("an undeclared chain", table("-A LOST -j ACCEPT"), 7, ["line 3", "isn't declared", "-A LOST -j ACCEPT"]),
    ("no such chain", b"*filter\n:INPUT DROP [0:0]\n:X - [0:0]\nCOMMIT\n", 8, ["no chain FORWARD", "there are INPUT"]),
    ("a call loop", table(":A - [0:0]", ":B - [0:0]", "-A FORWARD -j A", "-A A -j B", "-A B -j A"), 10,
     ["A leads to itself", "line 6: -A A -j B", "line 7: -A B -j A"]),
    ("a goto to no declared chain", table("-A FORWARD -g LOST"), 7, ["line 3", "the chain LOST behind `-g` isn't declared", "-A FORWARD -g LOST"]),
    ("a goto to a target", table("-A FORWARD -g DROP"), 7, ["line 3", "DROP is none", "-A FORWARD -g DROP"]),
    ("words behind a goto", table(":A - [0:0]", "-A FORWARD -g A -m comment --comment x"), 5, ["line 4", "words stand behind the target"]),
    ("a loop through a goto", table(":A - [0:0]", "-A FORWARD -j A", "-A A -p tcp -g A"), 10, ["A leads to itself", "line 5: -A A -p tcp -g A"]),
    ("a target behind a goto", table(":A - [0:0]", "-A FORWARD -p tcp -g A", "-A A -j NFQUEUE --queue-num 1"), 9,
     ["line 5", "the target NFQUEUE isn't supported", "line 4: -A FORWARD -p tcp -g A"]),
    ("a target", table(":A - [0:0]", ":B - [0:0]", "-A FORWARD -j A", "-A A -s 10.0.0.1/32 -j B", "-A B -j NFQUEUE --queue-num 1"), 9,
     ["line 7", "the target NFQUEUE isn't supported", "line 5: -A FORWARD -j A", "line 6: -A A -s 10.0.0.1/32 -j B"]),
]


def refusals():
    for name, text, wanted, parts in REFUSALS:
        status, out, err = view("why", "-", "proto=udp", given=text)
        check(f"{name}: status, and nothing printed", (status, out), (wanted, ""))
        says(name, err, *parts)
    status, _, err = view("why", "-", "--family", "4", given=table("-A FORWARD -s 2001:db8::/32 -j ACCEPT"))
    says("an IPv6 address under family 4", err, "an IPv6 address under family 4", "--family 6", "line 3")
    status, _, err = view("why", "-", "--family", "6", given=table("-A FORWARD -s 10.0.0.0/8 -j ACCEPT"))
    says("an IPv4 address under family 6", err, "an IPv4 address under family 6", "--family 4")
    says("a chain of the dump's own", view("why", sample("router.rules"), "--chain", "LAN")[2], "LAN is a chain to which others lead", "INPUT, FORWARD, OUTPUT")
    says("a chain in small letters", view("why", sample("router.rules"), "--chain", "input")[2], "did you mean INPUT?")
    status, _, err = view("why", "nowhere.v4")
    check("no such file", (status, err), (2, "fffuu-view: nowhere.v4: can't be read: No such file or directory\n"))
    calls = [f"-A N{at} -j N{at + 1}" for at in range(1, 24) for _ in range(2)]
    deep = table(*(f":N{at} - [0:0]" for at in range(1, 25)), "-A FORWARD -j N1", *calls, "-A N24 -j ACCEPT")
    status, _, err = view("why", "-", given=deep)
    check("a limit", status, 11)
    says("a limit", err, "limit visits", "16,777,216", "from 2 rules, to 2")
    says("a word of policy is a save's", view("why", "-", given=table("-A FORWARD -m policy --dir in --pol ipsec --proto esp -j ACCEPT"))[1], "-m policy --proto esp")


def inputs():
    with open(os.path.join(TOP, sample("router.rules")), "rb") as source:
        text = source.read()
    plain = view("why", sample("router.rules"), "proto=udp")[1]
    check("standard input", view("why", "-", "proto=udp", given=text)[1], plain.replace("samples/router.rules", "standard input"))
    with tempfile.TemporaryDirectory() as folder:
        packed = os.path.join(folder, "router.gz")
        with gzip.open(packed, "wb") as out:
            out.write(text)
        check("a file of gzip", view("why", packed, "proto=udp")[1], plain.replace("samples/router.rules", packed))
        check("gzip on standard input", view("why", "-", "proto=udp", given=gzip.compress(text))[1],
              plain.replace("samples/router.rules", "standard input"))
        with open(packed, "wb") as out:
            out.write(gzip.compress(text)[:-20])
        check("gzip that is cut off", view("why", packed)[0], 2)
    status, out, _ = view("why", sample("router.rules"), "--program", PROGRAM, "proto=udp", FFFUU="/nowhere")
    check("--program goes first", out, plain)
    with tempfile.TemporaryDirectory() as folder:
        os.symlink(os.path.abspath(PROGRAM), os.path.join(folder, "fffuu"))
        if not os.path.exists(os.path.join(TOP, "crates", "fffuu", "out", "fffuu")):
            check("on PATH", view("why", sample("router.rules"), "proto=udp", FFFUU="", PATH=folder + ":" + os.environ["PATH"])[1], plain)


def counted():
    """The matches that the companion finds not understood are as many as the program counts."""
    sys.path.insert(0, os.path.join(TOP, "tools"))
    from fffuu_view import asking, program
    for name in ("host-ufw", "kubernetes-node", "gateway-shorewall", "router6"):
        asked = asking.open_dump(os.path.join(TOP, "samples", name + ".rules"), program.find(PROGRAM, "/nowhere"), None)
        check(f"unknown matches of {name}", len(asking.unknown_matches(asked)), asked.check("FORWARD").unknown)


def graphs():
    status, out, _ = view("graph", sample("router.rules"), "tcp:1024:80", "--format", "dot")
    says("a graph of a matrix", out, "digraph", 'label="all but\\n192.168.1.0/24"', 'label="192.168.1.10"', "0 -> 2;", "2 -> 2;")
    check("its edges", (status, len(re.findall(r"\d -> \d;", out))), (0, 7))
    says("no edge", view("graph", sample("router.rules"), "http", "--format", "dot", "--side", "lower")[1], "nobody to anybody")
    with tempfile.TemporaryDirectory() as folder:
        names = os.path.join(folder, "names")
        with open(names, "w", encoding="ascii") as out:
            out.write("# names\nhome = 192.168.1.0/24\nweb = 192.168.1.10\nsix = 2001:db8::/32\n")
        says("names", view("graph", sample("router.rules"), "http", "--format", "dot", "--names", names)[1],
             'label="all but\\nhome"', 'label="web"')
        with open(names, "w", encoding="ascii") as out:
            out.write("home 192.168.1.0/24\n")
        says("a line that gives no name", view("graph", sample("router.rules"), "http", "--names", names)[2], "line 1", "NAME = SET")
        if not shutil.which("dot"):
            print("left out: pictures, since Graphviz (dot) isn't there")
            says("no Graphviz", view("graph", sample("router.rules"), "http")[2], "Graphviz isn't there")
            return
        path = os.path.join(folder, "picture.png")
        check("a picture", view("graph", sample("router.rules"), "http", "-o", path)[0], 0)
        with open(path, "rb") as source:
            check("it is a PNG", source.read(8), b"\x89PNG\r\n\x1a\n")
        says("SVG", view("graph", sample("router.rules"), "http")[1], "<svg", "192.168.1.10")
    says("a service that is none", view("graph", sample("router.rules"), "ssl")[2], "ssl: a service is one of ssh")


class Page(html.parser.HTMLParser):
    """The tables of a page by the headings before them, as lists of rows, and what doesn't close or leads outside."""

    def __init__(self, text):
        super().__init__()
        self.tables, self.open, self.faults, self.heading, self.words = {}, [], [], {}, []
        self.feed(text)
        self.faults += self.open

    def handle_starttag(self, tag, attributes):
        for name, value in attributes:
            if name in ("src", "action") or (name == "href" and ":" in value) or tag in ("link", "script"):
                self.faults.append((tag, name, value))
        if tag in ("meta", "br"):
            return
        self.open.append(tag)
        self.words = [] if tag in ("h1", "h2", "h3", "th", "td") else self.words
        if tag == "table":
            key = " / ".join(part for part in (self.heading.get("h2"), self.heading.get("h3")) if part)
            self.rows = self.tables.setdefault(key, [])
        if tag == "tr":
            self.rows.append([])

    def handle_endtag(self, tag):
        if not self.open or self.open.pop() != tag:
            self.faults.append(("close", tag))
        if tag in ("h2", "h3"):
            self.heading = {"h2": " ".join(self.words)} if tag == "h2" else {**self.heading, "h3": " ".join(self.words)}
        if tag in ("th", "td"):
            self.rows[-1].append(" ".join(self.words))

    def handle_data(self, text):
        if text.strip():
            self.words.append(text.strip())


def rows_of(page, heading):
    found = next((rows for key, rows in page.tables.items() if key.startswith(heading)), [[]])
    heads = [head.split(" ")[0] for head in found[0]]
    return {row[0]: dict(zip(heads[1:], row[1:])) for row in found[1:]}


TO_HOST = "Who can open a connection to this host (INPUT)"
THROUGH = "What may pass through this host (FORWARD)"


def reports():
    status, out, err = view("report", sample("router.rules"), "--names", "/dev/null", "--services", "ssh,smtp,http")
    page = Page(out)
    check("a report stands alone", (status, err, page.faults), (0, "", []))
    by_name = rows_of(page, f"{THROUGH} / by the interface")
    check("mail from the inside", by_name["br0"]["smtp"], "no")
    check("the web from outside", (by_name["ppp0"]["http"], by_name["ppp0"]["ssh"], by_name["any other"]["http"]), ("some may", "no", "no"))
    pairs = rows_of(page, f"{THROUGH} / by addresses")
    check("pairs", (pairs["elsewhere \u2192 192.168.1.0/24"]["http"], pairs["elsewhere \u2192 192.168.1.0/24"]["ssh"],
                    pairs["elsewhere \u2192 elsewhere"]["http"], pairs["192.168.1.0/24 \u2192 elsewhere"]["ssh"]), ("some may", "no", "no", "some may"))
    host = rows_of(page, f"{TO_HOST} / by the interface")
    check("the host itself", (host["lo"]["ssh"], host["any other"]["ssh"]), ("some may", "no"))
    says("it names the source port", out, "40000\u219280", "source port 40000")
    says("what isn't understood", out, "limit --limit", "24: -A WAN -p icmp -m limit --limit 10/sec -j ACCEPT", "24, 26")
    says("addresses", out, "may: elsewhere \u2192 192.168.1.10")
    says("it says that it proves nothing", out, "asks the program", "nat")
    gateways()
    claims()
    names()


def gateways():
    page = Page(view("report", sample("gateway-shorewall.rules"), "--services", "ssh,http,rdp")[1])
    host = rows_of(page, f"{TO_HOST} / by the interface")
    check("ssh to a gateway", (host["eth1"]["ssh"], host["any other"]["ssh"], host["eth1"]["http"]), ("some may", "no", "no"))
    through = rows_of(page, f"{THROUGH} / by the interface")
    check("through a gateway", (through["eth0"]["http"], through["eth0"]["ssh"], through["eth2"]["ssh"], through["eth1"]["rdp"]),
          ("some may", "no", "no", "some may"))
    text = view("report", sample("router6.rules"), "--services", "web=tcp:80,tcp:1000:22")[1]
    page = Page(text)
    through = rows_of(page, f"{THROUGH} / by the interface")
    check("IPv6", (through["wan0"]["web"], through["tun+"]["web"], through["any other"]["web"]), ("some may", "some may", "no"))
    says("a source port of its own", text, "1000\u219222")


def claims():
    out = view("report", sample("antispoof.rules"), "--services", "ssh", "--claim", "eth0=10.0.0.0/8", "--claim", "eth9=10.0.0.0/8")[1]
    found = rows_of(Page(out), "Forged sources")
    says("a claim that holds", found["eth0"]["verdict"], "holds")
    says("a claim that doesn't", found["eth9"]["verdict"], "violated", "no rule in reach names this interface")
    pairs = rows_of(Page(out), f"{THROUGH} / by addresses")
    check("yes and some may", (pairs["10.0.0.0/8 \u2192 elsewhere"]["ssh"], pairs["elsewhere \u2192 10.0.0.0/8"]["ssh"]), ("yes", "some may"))
    check("a claim that is none", view("report", sample("antispoof.rules"), "--claim", "eth0=foo")[0], 1)


def names():
    with tempfile.TemporaryDirectory() as folder:
        path = os.path.join(folder, "names")
        with open(path, "w", encoding="ascii") as out:
            out.write("home = 192.168.1.0/24\n")
        pairs = rows_of(Page(view("report", sample("router.rules"), "--services", "http,smtp", "--names", path)[1]), f"{THROUGH} / by addresses")
        check("rows by names", (pairs["elsewhere \u2192 home"]["http"], pairs["home \u2192 elsewhere"]["smtp"]), ("some may", "no"))
    text = table("-A FORWARD -i \"<b>&\" -j ACCEPT", "-A FORWARD -m weird --x \"<script>\" -j ACCEPT")
    page = Page(view("report", "-", "--services", "ssh", given=text)[1])
    check("signs of HTML in a dump", page.faults, [])
    half = b"*filter\n:INPUT DROP [0:0]\n:FORWARD DROP [0:0]\n-A INPUT -j AUDIT --type drop\nCOMMIT\n"
    status, out, _ = view("report", "-", "--services", "ssh", given=half)
    check("one chain is refused", status, 0)
    says("one chain is refused", out, "the target AUDIT isn&#x27;t supported", "through this host (FORWARD)")
    check("all chains are refused", view("report", "-", "--services", "ssh", given=half.replace(b":FORWARD DROP [0:0]\n", b""))[0], 9)


def fleets():
    with tempfile.TemporaryDirectory() as folder:
        bad = os.path.join(folder, "bad.v4")
        with open(bad, "wb") as out:
            out.write(table("-A FORWARD -j ACCEPT now"))
        empty = os.path.join(folder, "empty.v4")
        with open(empty, "wb") as out:
            out.write(b"*nat\n:OUTPUT ACCEPT [0:0]\nCOMMIT\n*filter \r\n:INPUT DROP [0:0]\r\n:FORWARD ACCEPT [0:0]\r\nCOMMIT\r\n")
        check("a table without rules", view("fleet", empty, "--services", "ssh", "--format", "csv")[1].splitlines()[1:], [f"{empty},4,2,0,0,none,ssh,,0,"])
        check("a fleet on standard input", view("fleet", "-")[0], 1)
        again = os.path.join(folder, "router.rules")
        shutil.copy(os.path.join(TOP, sample("router.rules")), again)
        files = [sample("router.rules"), bad, sample("router6.rules"), again]
        pages = os.path.join(folder, "pages")
        status, out, err = view("fleet", *files, "--pages", pages, "--format", "csv", "--services", "ssh,http")
        rows = {row["file"]: row for row in csv.DictReader(io.StringIO(out))}
        check("a refused dump doesn't stop the others", (status, len(rows)), (1, 4))
        check("counts", [rows[files[0]][name] for name in ("family", "chains", "rules", "unknown")], ["4", "5", "14", "2"])
        says("a refused one", rows[bad]["refused"], "line 3")
        says("progress", err, "4 of 4 dumps, 1 refused")
        check("pages", sorted(os.listdir(pages)), ["index.html", "router.rules-2.html", "router.rules.html", "router6.rules.html"])
        with open(os.path.join(pages, "index.html"), encoding="utf-8") as source:
            index = source.read()
        says("an index", index, 'href="router.rules.html"', 'href="router6.rules.html"', "bad.v4")
        check("the index stands alone", Page(index).faults, [])
        status, out, _ = view("fleet", files[0], files[2], "--format", "json", "--jobs", "1", "--services", "ssh,http")
        found = json.loads(out)
        with open(os.path.join(SCHEMAS, "fleet.schema.json"), encoding="utf-8") as source:
            schema = json.load(source)
        check("the table as JSON", (status, [dump["family"] for dump in found["dumps"]], fits(found, schema, schema)), (0, [4, 6], True))
        check("services by interface", [dump["forward"] for dump in found["dumps"]], ["ssh(br0) http(br0,ppp0)", "ssh(br-lan,wan0,tun+) http(br-lan,wan0,tun+)"])
        says("the table as text", view("fleet", *files[:2], "--services", "ssh")[1], "may pass through", "samples/router.rules", "line 3")


def installed():
    """What the script puts under a prefix runs from there, and goes away again."""
    if not os.path.exists(os.path.join(TOP, "crates", "fffuu", "out", "fffuu")):
        print("left out: installing, since crates/fffuu/out/fffuu isn't built")
        return
    with tempfile.TemporaryDirectory() as prefix:
        script = os.path.join(TOP, "tools", "install.sh")
        check("it installs", subprocess.run([script, "--prefix", prefix], capture_output=True).returncode, 0)
        done = subprocess.run([os.path.join(prefix, "bin", "fffuu-view"), "why", os.path.join(TOP, sample("limits.rules"))], capture_output=True,
                              cwd="/", env={name: value for name, value in os.environ.items() if name != "FFFUU"})
        says("it runs from there", done.stdout.decode() + done.stderr.decode(), "line 9: -A L")
        check("it is taken out", subprocess.run([script, "--prefix", prefix, "--remove"], capture_output=True).returncode, 0)
        check("nothing is left", [name for _, _, names in os.walk(prefix) for name in names], [])


def main():
    global PROGRAM
    PROGRAM = os.path.abspath(sys.argv[1])
    with ThreadPoolExecutor(os.cpu_count()) as pool:
        for done in [pool.submit(part) for part in (refusals, reports, fleets, jsons, whys, inputs, graphs, counted, helps, installed)]:
            done.result()
    print(f"{passed} passed, {failed} failed")
    sys.exit(failed != 0)


if __name__ == "__main__":
    main()
