"""A router and its neighbours in two network namespaces: loads filters by the real tools, sends packets through the router, and
tells which of them came out.

The router has an interface for each name that is given, seven at most. Nothing has an address, `lo` is down, and each far end is in the second
namespace, so that no packet leaves the two. By which interface a packet goes out is chosen by its TOS byte, so input and output
are free. A packet is recognised on its way out by its mark (the identification of IPv4, the flow label of IPv6)."""
import ctypes
import os
import select
import socket
import subprocess
import time

NAMES = ["eth0", "eth1", "eth10", "ppp0", "br0", "wan"]
TOOLS = ["iptables-legacy", "iptables-nft"]
PROGRAMS = ["ip", *(tool + end for tool in TOOLS for end in ("", "-save", "-restore"))]
BATCH = 200
# Seconds that a batch, or one run of a tool, may take, and seconds without a frame that end a batch.
LONGEST, QUIET = 60, 0.02
CLONE_NEWNET = 0x40000000

libc = ctypes.CDLL(None, use_errno=True)


def is_there(program):
    return any(os.access(os.path.join(folder, program), os.X_OK) for folder in os.environ.get("PATH", "").split(":") + ["/usr/sbin", "/sbin"])


def lacking():
    """Why the lab can't be made here, or None."""
    if os.geteuid() != 0:
        return "it needs root"
    missing = [program for program in PROGRAMS if not is_there(program)]
    if missing:
        return f"{missing[0]} isn't there (Debian: iptables, iproute2)"
    made = subprocess.run(["ip", "netns", "add", f"fffuu-try-{os.getpid()}"], capture_output=True)
    if made.returncode != 0:
        return "no network namespace can be made"
    subprocess.run(["ip", "netns", "del", f"fffuu-try-{os.getpid()}"], capture_output=True)
    return None


class Refused(Exception):
    """A tool refused a text."""


class Lab:
    def __init__(self, names=NAMES):
        self.names = names
        # the three highest bits of the byte are left for what a test measures
        self.tos = {name: 4 * (at + 1) for at, name in enumerate(names[:7])}
        self.router, self.peers = f"fffuu-router-{os.getpid()}", f"fffuu-peers-{os.getpid()}"
        self.sockets, self.macs = {}, {}

    def __enter__(self):
        try:
            self.build()
        except BaseException:
            self.__exit__()
            raise
        return self

    def __exit__(self, *_):
        for it in self.sockets.values():
            it.close()
        for name in (self.router, self.peers):
            subprocess.run(["ip", "netns", "del", name], capture_output=True)

    def run(self, *words, text=None, namespace=None):
        made = subprocess.run(["ip", "netns", "exec", namespace or self.router, *words], input=text, capture_output=True, timeout=LONGEST)
        if made.returncode != 0:
            raise Refused(made.stderr.decode(errors="replace").strip())
        return made.stdout

    def build(self):
        for name in (self.router, self.peers):
            subprocess.run(["ip", "netns", "add", name], check=True)
        for name in self.names:
            subprocess.run(["ip", "link", "add", name, "netns", self.router, "type", "veth", "peer", "name", name, "netns", self.peers], check=True)
        self.settle()
        # a router without a table of its own addresses takes no next hop: one address that no packet has
        self.run("ip", "link", "set", self.names[0], "up")
        self.run("ip", "route", "add", "local", "198.51.100.254/32", "dev", self.names[0], "table", "local")
        for at, name in enumerate(self.names):
            self.join(at, name)
        self.open_sockets()

    def settle(self):
        values = ["net.ipv4.ip_forward=1", "net.ipv6.conf.all.forwarding=1", "net.ipv6.conf.default.accept_dad=0"]
        for name in ["all", "default", *self.names]:
            values += [f"net.ipv4.conf.{name}.{key}" for key in ("rp_filter=0", "accept_local=1", "route_localnet=1", "send_redirects=0")]
        self.run("sysctl", "-qw", *values)

    def join(self, at, name):
        """Puts a pair of ends up, with a table of routes by which a packet goes out there."""
        for namespace in (self.router, self.peers):
            self.run("ip", "link", "set", name, "addrgenmode", "none", namespace=namespace)
            self.run("ip", "link", "set", name, "up", namespace=namespace)
        far = self.run("cat", f"/sys/class/net/{name}/address", namespace=self.peers).decode().strip()
        near = self.run("cat", f"/sys/class/net/{name}/address").decode().strip()
        self.macs[name] = bytes.fromhex(near.replace(":", "")) + bytes.fromhex(far.replace(":", ""))
        table = str(100 + at)
        for family, hop in (("-4", f"10.255.{at}.1"), ("-6", f"fe80::{at + 1}")):
            self.run("ip", family, "neigh", "add", hop, "lladdr", far, "dev", name, "nud", "permanent")
            self.run("ip", family, "route", "add", "default", "via", hop, "dev", name, "onlink", "table", table)
            self.run("ip", family, "rule", "add", "priority", str(10 + at), "tos", hex(self.tos[name]), "table", table)

    def open_sockets(self):
        """Raw sockets at the far ends. A socket stays in the namespace in which it was made."""
        here = os.open("/proc/self/ns/net", os.O_RDONLY)
        there = os.open(f"/var/run/netns/{self.peers}", os.O_RDONLY)
        try:
            if libc.setns(there, CLONE_NEWNET) != 0:
                raise OSError(ctypes.get_errno(), "setns")
            for name in self.names:
                made = socket.socket(socket.AF_PACKET, socket.SOCK_RAW, socket.ntohs(3))
                made.setsockopt(socket.SOL_SOCKET, socket.SO_RCVBUF, 8 << 20)
                made.bind((name, 0))
                made.setblocking(False)
                self.sockets[name] = made
        finally:
            libc.setns(here, CLONE_NEWNET)
            os.close(here)
            os.close(there)

    def restore(self, tool, family, text, test=False):
        """Loads a text, or only has it tested. `Refused` where the tool refuses it."""
        words = [name_of(tool, family, "-restore"), *(["--test"] if test else [])]
        self.run(*words, text=text.encode("latin-1"))

    def save(self, tool, family, counters=False):
        """The filter table as the tool saves it."""
        words = [name_of(tool, family, "-save"), "-t", "filter", *(["-c"] if counters else [])]
        return self.run(*words).decode("latin-1")

    def clear(self, tool, family):
        """No filter rule of this tool is left, and no other table has one."""
        self.restore(tool, family, "*filter\n:INPUT ACCEPT [0:0]\n:FORWARD ACCEPT [0:0]\n:OUTPUT ACCEPT [0:0]\nCOMMIT\n")

    def forwarded(self, packets):
        """For each packet the frame that came out by the interface that the packet names, or None."""
        found = [None] * len(packets)
        for start in range(0, len(packets), BATCH):
            self.send(packets[start:start + BATCH], found, start)
        return found

    def send(self, packets, found, start):
        self.drain()
        for at, packet in enumerate(packets):
            kind = b"\x08\x00" if packet.family == 4 else b"\x86\xdd"
            self.sockets[packet.into].send(self.macs[packet.into] + kind + packet.frame(start + at + 1, self.tos[packet.out]))
        # what is left out is what the router dropped: a quiet time ends the wait
        until, ready = time.monotonic() + LONGEST, True
        while ready and time.monotonic() < until:
            ready, _, _ = select.select(self.sockets.values(), [], [], QUIET)
            for it in ready:
                self.collect(it, packets, found, start)

    def collect(self, it, packets, found, start):
        while True:
            try:
                frame, where = it.recvfrom(4096)
            except BlockingIOError:
                return
            if where[2] == socket.PACKET_OUTGOING:
                continue
            for at in marks_of(frame[14:]):
                at -= start + 1
                if 0 <= at < len(packets) and where[0] == packets[at].out and packets[at].is_in(frame[14:]):
                    found[start + at] = frame[14:]

    def drain(self):
        for it in self.sockets.values():
            while True:
                try:
                    it.recv(4096)
                except BlockingIOError:
                    break


def name_of(tool, family, end):
    return (tool if family == 4 else tool.replace("iptables", "ip6tables")) + end


def marks_of(data):
    """The mark of a datagram, if it may be one of ours."""
    if data and data[0] >> 4 == 4 and len(data) >= 20:
        yield int.from_bytes(data[4:6], "big")
    elif data and data[0] >> 4 == 6 and len(data) >= 40:
        yield int.from_bytes(data[1:4], "big") & 0xFFFFF
