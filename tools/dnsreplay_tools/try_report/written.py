"""Captures made by hand: messages as packets of all kinds that are read, and files of both formats."""
import gzip, io, ipaddress, struct
from ..captures.packets import TCP, UDP

ETHERNET, COOKED, COOKED_2, RAW, LOOPBACK = 1, 113, 276, 101, 0
IPV4, IPV6 = b"\x08\x00", b"\x86\xdd"
HEADS = {
    ETHERNET: lambda kind: bytes(12) + kind, COOKED: lambda kind: bytes(14) + kind,
    COOKED_2: lambda kind: kind + bytes(18), RAW: lambda kind: b"", LOOPBACK: lambda kind: struct.pack("<I", 2),
}  # fmt: skip
SYN, ACK, FIN = 2, 16, 1

def end(address, port): return ipaddress.ip_address(address).packed, port

def udp(source, target, octets): return struct.pack(">4H", source[1], target[1], 8 + len(octets), 0) + octets

def tcp(source, target, number, flags, octets=b""):
    return struct.pack(">HHIIBBHHH", source[1], target[1], number & 0xFFFFFFFF, 0, 0x50, flags, 0xFFFF, 0, 0) + octets

def ip(source, target, protocol, octets, ident=0, most=None):
    """The IP packets that carry octets, in fragments of so many octets at most."""
    is_4 = len(source[0]) == 4
    pieces = [octets[at : at + most] for at in range(0, len(octets), most)] if most else [octets]
    at, packets = 0, []
    for number, piece in enumerate(pieces):
        more = number < len(pieces) - 1
        if is_4:
            place = at // 8 | 0x2000 * more
            head = struct.pack(">BBHHHBBH", 0x45, 0, 20 + len(piece), ident & 0xFFFF, place, 64, protocol, 0)
        else:
            fragment = struct.pack(">BBHI", protocol, 0, at | more, ident) if most else b""
            head = struct.pack(">IHBB", 0x60000000, len(fragment + piece), 44 if most else protocol, 64)
        packets.append(head + source[0] + target[0] + (b"" if is_4 else fragment) + piece)
        at += len(piece)
    return packets

def framed(link, packet, tags=0):
    """A packet as it came over a link, behind VLAN tags."""
    kind = IPV4 if packet[0] >> 4 == 4 else IPV6
    if link in (RAW, LOOPBACK): return HEADS[link](kind) + packet
    kinds = [b"\x81\x00"] * tags + [kind]
    return HEADS[link](kinds[0]) + b"".join(b"\0\7" + each for each in kinds[1:]) + packet

class File:
    """A capture while it is written."""
    def __init__(self, link=ETHERNET, snap=None): self.link, self.snap, self.packets = link, snap, []

    def add(self, now, octets): self.packets.append((now, octets[: self.snap], len(octets)))

    def datagram(self, now, source, target, octets, most=None, tags=0):
        for packet in ip(source, target, UDP, udp(source, target, octets), len(self.packets), most):
            self.add(now, framed(self.link, packet, tags))

    def stream(self, now, source, target, octets, sizes, swap=False):
        """A side of a connection, from its SYN to its FIN, in segments of these sizes in turn, two of them swapped."""
        at, segments = 0, []
        while at < len(octets):
            size = sizes[len(segments) % len(sizes)]
            segments.append(tcp(source, target, 1_000 + at, ACK, octets[at : at + size]))
            at += size
        if swap and len(segments) > 1: segments[:2] = segments[1::-1]
        all_of_it = [tcp(source, target, 999, SYN), *segments, tcp(source, target, 1_000 + len(octets), FIN)]
        for segment in all_of_it:
            for packet in ip(source, target, TCP, segment): self.add(now, framed(self.link, packet))

    def pcap(self, order="<", nano=False):
        ticks = 10**9 if nano else 10**6
        out = [struct.pack(order + "IHHiIII", 0xA1B23C4D if nano else 0xA1B2C3D4, 2, 4, 0, 0, 262_144, self.link)]
        for now, octets, size in self.packets:
            out.append(struct.pack(order + "4I", int(now), int(now % 1 * ticks), len(octets), size) + octets)
        return b"".join(out)

    def pcapng(self, order="<"):
        """With an interface of another clock in front, which has no packets, and a block that nobody knows."""
        out = io.BytesIO()
        out.write(block(order, 0x0A0D0D0A, struct.pack(order + "IHHq", 0x1A2B3C4D, 1, 0, -1)))
        for ticks in (3, 9):
            out.write(block(order, 1, struct.pack(order + "HHIHHB3xHH", self.link, 0, 0, 9, 1, ticks, 0, 0)))
        out.write(block(order, 0x0BAD, b"none"))
        for now, octets, size in self.packets:
            when = round(now * 10**9)
            head = struct.pack(order + "5I", 1, when >> 32, when & 0xFFFFFFFF, len(octets), size)
            out.write(block(order, 6, head + octets + bytes(-len(octets) % 4)))
        return out.getvalue()

    def zipped(self): return gzip.compress(self.pcap())

def block(order, kind, body):
    size = struct.pack(order + "I", 12 + len(body))
    return struct.pack(order + "I", kind) + size + body + size
