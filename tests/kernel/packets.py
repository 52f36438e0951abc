"""Packets as bytes: whole, well-formed ones, each with a mark of its own."""
import dataclasses
import ipaddress
import struct

FLAGS = ["FIN", "SYN", "RST", "PSH", "ACK", "URG"]
WITH_PORTS = (6, 17, 33, 132, 136)
WITH_TYPES = (1, 58)
# The type that asks for an echo, by the protocol's number, and the type of the answer to each type that asks for something.
ECHO = {1: 8, 58: 128}
ANSWERS = {1: {8: 0, 13: 14, 15: 16, 17: 18}, 58: {128: 129}}


def sum_of(data):
    data += b"\0" * (len(data) % 2)
    total = sum(struct.unpack(f">{len(data) // 2}H", data))
    while total >> 16:
        total = (total & 0xFFFF) + (total >> 16)
    return ~total & 0xFFFF


def crc32c(data):
    crc = 0xFFFFFFFF
    for byte in data:
        crc ^= byte
        for _ in range(8):
            crc = crc >> 1 ^ 0x82F63B78 * (crc & 1)
    return struct.pack("<I", crc ^ 0xFFFFFFFF)


@dataclasses.dataclass(frozen=True)
class Packet:
    family: int
    into: str
    out: str
    src: int
    dst: int
    proto: int
    sport: int = 0
    dport: int = 0
    flags: int = 0
    icmp: int = 0
    code: int = 0

    def fields(self):
        """The words of `explain` for this packet."""
        text = ipaddress.IPv4Address if self.family == 4 else ipaddress.IPv6Address
        names = ",".join(name for at, name in enumerate(FLAGS) if self.flags >> at & 1) or "NONE"
        return [f"in={self.into}", f"out={self.out}", f"src={text(self.src)}", f"dst={text(self.dst)}", f"proto={self.proto}",
                f"sport={self.sport}", f"dport={self.dport}", f"flags={names}", f"icmp={self.icmp}"]

    def ends(self):
        size = 4 if self.family == 4 else 16
        return self.src.to_bytes(size, "big") + self.dst.to_bytes(size, "big")

    def pseudo(self, length):
        if self.family == 4:
            return self.ends() + struct.pack(">BBH", 0, self.proto, length)
        return self.ends() + struct.pack(">IHBB", length, 0, 0, self.proto)

    def with_sum(self, body, at):
        check = sum_of(self.pseudo(len(body)) + body) or 0xFFFF
        return body[:at] + struct.pack(">H", check) + body[at + 2:]

    def body(self):
        """The header of the protocol, whole, with right sums."""
        ports = struct.pack(">HH", self.sport, self.dport)
        if self.proto == 6:
            return self.with_sum(ports + struct.pack(">IIBBHHH", 1000, 0, 5 << 4, self.flags, 8192, 0, 0), 16)
        if self.proto == 17:
            return self.with_sum(ports + struct.pack(">HH", 12, 0) + b"fffu", 6)
        if self.proto == 136:
            return self.with_sum(ports + struct.pack(">HH", 12, 0) + b"fffu", 6)
        if self.proto == 33:
            # a request of DCCP, with 48 bits of sequence numbers and a service code
            return self.with_sum(ports + struct.pack(">BBHBBHII", 5, 0, 0, 1, 0, 0, 1000, 42), 6)
        if self.proto == 132:
            chunk = struct.pack(">BBHIIHHI", 1, 0, 20, 7, 65536, 1, 1, 1000)
            return ports + struct.pack(">I", 0) + crc32c(ports + b"\0" * 8 + chunk) + chunk
        if self.proto in WITH_TYPES:
            return self.message(struct.pack(">HH", 1, 1))
        if self.proto == 47:
            return struct.pack(">HH", 0, 0x0800) + b"\0" * 8
        return b"\0" * 16

    def message(self, rest):
        """An ICMP message of the packet's type and code; the sum of icmp leaves the addresses out."""
        body = struct.pack(">BBH", self.icmp, self.code, 0) + rest
        pseudo = self.pseudo(len(body)) if self.proto == 58 else b""
        return body[:2] + struct.pack(">H", sum_of(pseudo + body)) + body[4:]

    def frame(self, mark, tos):
        body = self.body()
        if self.family == 6:
            return struct.pack(">IHBB", 6 << 28 | tos << 20 | mark, len(body), self.proto, 64) + self.ends() + body
        head = struct.pack(">BBHHHBBH", 0x45, tos, 20 + len(body), mark, 0, 64, self.proto, 0) + self.ends()
        return head[:10] + struct.pack(">H", sum_of(head)) + head[12:] + body

    def is_in(self, data):
        """Whether the datagram is this packet, one hop further."""
        if self.family == 4:
            return data[12:20] == self.ends() and data[8] == 63 and data[9] == self.proto
        return data[8:40] == self.ends() and data[7] == 63 and data[6] == self.proto


@dataclasses.dataclass(frozen=True)
class Datagram(Packet):
    """A datagram whose bytes behind the address header are given, and which of a longer one it is a part of (in units of 8 bytes)."""
    given: bytes = b""
    offset: int = 0

    def body(self):
        return self.given

    def frame(self, mark, tos):
        if self.family == 4:
            head = struct.pack(">BBHHHBBH", 0x45, tos, 20 + len(self.given), mark, self.offset, 64, self.proto, 0) + self.ends()
            return head[:10] + struct.pack(">H", sum_of(head)) + head[12:] + self.given
        if not self.offset:
            return super().frame(mark, tos)
        part = struct.pack(">BBHI", self.proto, 0, self.offset << 3, mark)
        return struct.pack(">IHBB", 6 << 28 | tos << 20 | mark, 8 + len(self.given), 44, 64) + self.ends() + part + self.given

    def is_in(self, data):
        if self.family == 6 and self.offset:
            return data[8:40] == self.ends() and data[7] == 63 and data[6] == 44
        return super().is_in(data)


def answer_to(packet):
    """The packet of the other way, as one that answers."""
    flags = 18 if packet.proto == 6 else 0
    kind = ANSWERS.get(packet.proto, {}).get(packet.icmp, packet.icmp)
    return Packet(packet.family, packet.out, packet.into, packet.dst, packet.src, packet.proto, packet.dport, packet.sport, flags, kind)


def error_of(packet, src):
    """The ICMP error by which a router at this source answers a packet: its destination can't be reached."""
    number, kind, code = (1, 3, 1) if packet.family == 4 else (58, 1, 0)
    made = Datagram(packet.family, packet.out, packet.into, src, packet.src, number, icmp=kind, code=code)
    return dataclasses.replace(made, given=made.message(bytes(4) + packet.frame(1, 0)))
