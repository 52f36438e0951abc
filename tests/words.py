#!/usr/bin/env python3
"""Runs tools/words on what `ip -j route`, `ip -j addr` and `ip -j rule` print of made-up machines, and looks for words that were worked
out by hand; then hands them to the program.

    python3 tests/words.py PROGRAM

Prints each case that disagrees and a last line 'N passed, M failed'; the exit status is 1 where one failed."""
import json
import os
import subprocess
import sys
import tempfile

TOP = os.path.dirname(os.path.dirname(os.path.abspath(__file__)))
WORDS = os.path.join(TOP, "tools", "words")
DUMP = b"*filter\n:INPUT DROP [0:0]\n:FORWARD DROP [0:0]\n:OUTPUT DROP [0:0]\n-A INPUT -i lo -j ACCEPT\n-A FORWARD -i br0 -o ppp0 -j ACCEPT\n-A OUTPUT -o lo -j ACCEPT\nCOMMIT\n"
passed = failed = 0


def check(name, got, wanted):
    global passed, failed
    if got == wanted:
        passed += 1
    else:
        failed += 1
        print(f"{name}: got {got!r}, wanted {wanted!r}")


def words(*options, texts):
    """Status, words and lines on standard error, of these texts as files."""
    with tempfile.TemporaryDirectory() as folder:
        names = []
        for number, text in enumerate(texts):
            names.append(os.path.join(folder, f"{number}.json"))
            with open(names[-1], "w", encoding="utf-8") as target:
                target.write(text if isinstance(text, str) else json.dumps(text))
        done = subprocess.run([sys.executable, WORDS, *options, *names], capture_output=True, text=True)
    return done.returncode, done.stdout.splitlines(), done.stderr.splitlines()


def interface(name, *addresses, **more):
    """One of `ip -j addr`; each address is the text ADDRESS/LENGTH."""
    infos = []
    for address in addresses:
        local, length = address.split("/")
        scope = "link" if local.startswith("fe80") else "host" if name == "lo" else "global"
        infos.append({"family": "inet6" if ":" in local else "inet", "local": local, "prefixlen": int(length), "scope": scope})
    return {"ifname": name, "flags": ["UP"], "operstate": "UP", "addr_info": infos, **more}


def route(dst, dev=None, **more):
    return {"dst": dst, **({"dev": dev} if dev else {}), "flags": [], **more}


HOME_ROUTES = [route("default", "ppp0", scope="link"), route("192.168.1.0/24", "br0", protocol="kernel", scope="link", prefsrc="192.168.1.1")]
HOME = [interface("lo", "127.0.0.1/8", "::1/128"), interface("eth0", master="br0"), interface("br0", "192.168.1.1/24", "fe80::1/64"),
        {"ifname": "ppp0", "flags": ["UP"], "operstate": "UNKNOWN", "addr_info": [
            {"family": "inet", "local": "203.0.113.7", "address": "203.0.113.1", "prefixlen": 32, "scope": "global"}]}]
USUAL = [{"priority": 0, "src": "all", "table": "local"}, {"priority": 32766, "src": "all", "table": "main"},
         {"priority": 32767, "src": "all", "table": "default"}]


def home():
    check("a home router", words(texts=[HOME_ROUTES, HOME, USUAL]), (0, [
        "ppp0=0.0.0.0-192.168.0.255,192.168.2.0-255.255.255.255", "br0=192.168.1.0/24", "via:0.0.0.0/0=ppp0", "via:192.168.1.0/24=br0"], []))
    check("two files", words(texts=[HOME_ROUTES, HOME])[0], 0)
    check("what comes in to a home router", words("--chain", "INPUT", texts=[HOME_ROUTES, HOME, USUAL]), (0, [
        "lo=127.0.0.0/8,192.168.1.1,203.0.113.7",
        "ppp0=0.0.0.1-126.255.255.255,128.0.0.0-192.168.0.255,192.168.2.0-203.0.113.6,203.0.113.8-255.255.255.255",
        "br0=192.168.1.0,192.168.1.2-192.168.1.255", "via:0.0.0.0/0=none"],
        ["note: a source in 0.0.0.0/32 may come in by every interface, and is in no zone"]))
    check("what a home router sends", words("--chain", "OUTPUT", "--none=nowhere", texts=[HOME_ROUTES, HOME, USUAL]), (0, [
        "nowhere=0.0.0.0/0", "via:0.0.0.0/0=ppp0", "via:192.168.1.0/24=br0", "via:127.0.0.0/8=lo", "via:192.168.1.1/32=lo",
        "via:203.0.113.7/32=lo"], []))


def equal_nets():
    routes = [route("default", "wlan0", metric=600), route("default", "eth0", metric=100), route("10.0.0.0/8", "tun0")]
    status, out, err = words(texts=[routes, [interface("eth0"), interface("wlan0"), interface("tun0")]])
    check("the least metric", (status, out), (0, ["eth0=0.0.0.0-9.255.255.255,11.0.0.0-255.255.255.255", "tun0=10.0.0.0/8",
                                                  "via:0.0.0.0/0=eth0", "via:10.0.0.0/8=tun0"]))
    check("the other is told", err, ["note: default dev wlan0 metric 600: another route to this net has a smaller metric"])
    routes = [route("default", "eth0"), route("10.0.0.0/8", "eth1", metric=10), route("10.0.0.0/8", "eth2", metric=10)]
    status, out, err = words(texts=[routes, [interface("eth0"), interface("eth1"), interface("eth2")]])
    check("two of one metric", (status, out), (2, ["eth0=0.0.0.0-9.255.255.255,11.0.0.0-255.255.255.255", "via:0.0.0.0/0=eth0"]))
    check("both are told", [line.split(":")[0] for line in err], ["left out"] * 2)
    check("two of one metric by one interface", words(texts=[[routes[1], routes[1]], [interface("eth1")]]),
          (0, ["eth1=10.0.0.0/8", "via:10.0.0.0/8=eth1"], []))


def nowhere():
    routes = [route("default", "eth0"), route("10.0.0.0/8", type="unreachable"), route("11.0.0.0/8", type="blackhole"),
              route("12.0.0.0/8", type="prohibit", metric=5), route("12.1.0.0/16", "eth0")]
    status, out, err = words(texts=[routes, [interface("eth0")]])
    check("ways to nowhere", (status, out), (0, ["eth0=0.0.0.0-9.255.255.255,12.1.0.0/16,13.0.0.0-255.255.255.255",
                                                "via:0.0.0.0/0=eth0", "via:10.0.0.0/8=none", "via:11.0.0.0/8=none", "via:12.0.0.0/8=none",
                                                "via:12.1.0.0/16=eth0"]))
    check("ways to nowhere are told", err[0], "note: 10.0.0.0/8 goes nowhere: via:10.0.0.0/8=none, and its sources are in no zone")
    check("ways to another name", "via:10.0.0.0/8=xx" in words("--none", "xx", texts=[routes, [interface("eth0")]])[1], True)
    check("an interface of that name", words("--none", "eth0", texts=[routes, [interface("eth0")]]),
          (1, [], ["words: an interface is named eth0: give another name with --none"]))
    check("a way that a later table decides", words(texts=[[route("10.0.0.0/8", type="throw")], []]),
          (2, [], ["left out: throw 10.0.0.0/8: a later table decides"]))


def not_said():
    plain = route("default", "eth0")
    hops = [{"gateway": "10.0.0.1", "dev": "eth1", "weight": 1, "flags": []}, {"gateway": "10.0.1.1", "dev": "eth2", "weight": 1, "flags": []}]
    addresses = [interface("eth0"), interface("eth1"), interface("eth2")]
    status, out, err = words(texts=[[plain, route("20.0.0.0/8", nexthops=hops)], addresses])
    check("several hops", (status, out, len(err)), (2, ["eth0=0.0.0.0-19.255.255.255,21.0.0.0-255.255.255.255", "via:0.0.0.0/0=eth0"], 1))
    check("several hops by one interface", words(texts=[[route("20.0.0.0/8", nexthops=hops[:1] * 2)], addresses])[:2],
          (0, ["eth1=20.0.0.0/8", "via:20.0.0.0/8=eth1"]))
    for name, row in (("by TOS", route("20.0.0.0/8", "eth1", tos="0x10")), ("of another table", route("20.0.0.0/8", "eth1", table="vpn"))):
        status, out, err = words(texts=[[plain, row], addresses])
        check(f"a way {name}", (status, out, err[0][:9]), (2, ["eth0=0.0.0.0/0", "via:0.0.0.0/0=eth0"], "left out:"))
    rules = [*USUAL, {"priority": 100, "src": "10.0.0.0", "srclen": 8, "table": "vpn"}, {"priority": 200, "src": "all", "fwmark": "0x1", "table": "main"}]
    check("rules", words(texts=[[plain], addresses, rules]), (2, ["eth0=0.0.0.0/0", "via:0.0.0.0/0=eth0"], [
        "left out: rule priority 100 src 10.0.0.0 srclen 8 table vpn", "left out: rule priority 200 src all fwmark 0x1 table main"]))
    check("an interface that is down, a port, a net without a route", words(texts=[
        [plain, route("10.1.0.0/16", "eth1", flags=["linkdown"]), route("10.2.0.0/16", "eth2")],
        [interface("eth0", "10.9.0.1/16"), interface("eth1", operstate="DOWN"), interface("eth2", master="br0"), interface("eth3", "10.3.0.1/16")]])[2],
        ["note: eth1 is down", "note: eth2 is a port of br0: where that is a bridge, rules see the bridge's name",
         "note: eth3 has 10.3.0.1/16, and no route to 10.3.0.0/16 goes out by it"])


def six():
    routes = [route("::1", "lo", metric=256), route("2001:db8:1::/64", "br0", metric=256), route("fe80::/64", "br0", metric=256),
              route("fe80::/64", "ppp0", metric=256), route("default", "ppp0", metric=1024)]
    addresses = [interface("lo", "::1/128"), interface("br0", "2001:db8:1::1/64", "fe80::1/64"), interface("ppp0", "fe80::2/64")]
    rest = "::-2001:db8:0:ffff:ffff:ffff:ffff:ffff,2001:db8:1:1::-ffff:ffff:ffff:ffff:ffff:ffff:ffff:ffff"
    status, out, err = words("--family", "6", texts=[routes[1:], addresses])
    check("IPv6", (status, out, err), (0, ["br0=2001:db8:1::/64", f"ppp0={rest}", "via:2001:db8:1::/64=br0", "via:::/0=ppp0"], []))
    status, out, err = words("--family", "6", "--chain", "INPUT", texts=[routes[1:], addresses])
    check("what comes in by IPv6", (status, out[0], out[-1], "fe80::/10" in err[0]), (0, "lo=::1,2001:db8:1::1", "via:::/0=none", True))
    source = route("2001:db8:2::/64", "br0", **{"from": "2001:db8:1::/64"})
    check("a way by the source", words("--family", "6", texts=[[source], addresses])[0], 2)
    check("the wrong family", words(texts=[routes, addresses]), (1, [], ["words: ::1 is of IPv6: --family 6"]))


def refusals():
    for name, texts in (("no JSON", ["default via 10.0.0.1", []]), ("an object", ["{}", []]), ("numbers", ["[1]", []]), ("one file", [[]])):
        check(name, words(texts=texts)[0], 1)
    check("the files the other way round", words(texts=[HOME, HOME_ROUTES])[0], 1)
    check("nothing", words(texts=["", ""]), (0, [], []))
    check("no such file", subprocess.run([sys.executable, WORDS, "/nowhere", "/nowhere"], capture_output=True).returncode, 1)


def asked(program):
    """The program takes the words of each chain, and zones and routes say what they leave out."""
    def says(mode, chain, given):
        done = subprocess.run([program, *mode.split(), *given, "--chain", chain], input=DUMP, capture_output=True)
        return done.stdout.decode() if done.returncode == 0 else f"{done.returncode} {done.stderr.decode()}"
    found = {chain: words("--chain", chain, texts=[HOME_ROUTES, HOME])[1] for chain in ("INPUT", "FORWARD", "OUTPUT")}
    zones = {chain: [word for word in given if not word.startswith("via:")] for chain, given in found.items()}
    routes = {chain: [word for word in given if word.startswith("via:")] for chain, given in found.items()}
    check("zones of FORWARD", says("zones", "FORWARD", zones["FORWARD"]), "covered all\nunnamed 0\n")
    check("zones of INPUT", says("zones", "INPUT", zones["INPUT"]), "uncovered 0.0.0.0\nunnamed 0\n")
    check("zones of OUTPUT", says("zones", "OUTPUT", zones["OUTPUT"]), "covered all\nunnamed 0\n")
    told = "names 2\nppp0 0.0.0.0-192.168.0.255,192.168.2.0-255.255.255.255\nbr0 192.168.1.0-192.168.1.255\nunrouted none\nunnamed 0\n"
    check("routes of FORWARD", says("routes", "FORWARD", routes["FORWARD"]), told)
    check("the way back", [line.replace(" ", "=") for line in told.splitlines()[1:3]], [zones["FORWARD"][0], "br0=192.168.1.0-192.168.1.255"])
    check("routes of INPUT", says("routes", "INPUT", routes["INPUT"]), "names 1\nnone 0.0.0.0-255.255.255.255\nunrouted none\nunnamed 0\n")
    check("a matrix", says("matrix tcp:1024:443", "FORWARD", found["FORWARD"]), "classes 2\n"
          "0 0.0.0.0-192.168.0.255,192.168.2.0-255.255.255.255\n1 192.168.1.0-192.168.1.255\nedges 1\n1 0\n")


def main():
    home()
    equal_nets()
    nowhere()
    not_said()
    six()
    refusals()
    if len(sys.argv) > 1:
        asked(os.path.abspath(sys.argv[1]))
    print(f"{passed} passed, {failed} failed")
    sys.exit(failed != 0)


if __name__ == "__main__":
    main()
