"""Capture files, pcap and pcapng, gzipped too: packets one after the other, up to where a file breaks off.

Debian's python3-dpkt reads one interface of a pcapng file and tells neither what a packet's own length was nor that a
file is cut; python3-scapy makes objects of every layer of every packet.
"""
import gzip, struct, zlib
from collections import namedtuple
from ..wire import Fault, Unreadable, check

# a moment in seconds, the link type, the length that the packet had, and what was captured of it
Packet = namedtuple("Packet", "time link length octets")
Interface = namedtuple("Interface", "link ticks offset")  # ticks of its clock in a second; seconds to be added

GZIP, PCAPNG = b"\x1f\x8b", b"\x0a\x0d\x0d\x0a"
CLOCKS = {0xA1B2C3D4: 1_000_000, 0xA1B23C4D: 1_000_000_000}  # ticks a second, by the magic number of pcap
PCAP = {struct.pack(order + "I", magic): (order, ticks) for magic, ticks in CLOCKS.items() for order in "<>"}
ORDERS = {struct.pack(order + "I", 0x1A2B3C4D): order for order in "<>"}
SECTION, INTERFACE, OLD_PACKET, SIMPLE_PACKET, PACKET = 0x0A0D0D0A, 1, 2, 3, 6  # blocks of pcapng
RESOLUTION, OFFSET = 9, 14  # options of an interface
MOST_OCTETS = 16 << 20  # of a packet or a block
AHEAD = 1 << 18  # octets that are read at once
LINKS = (0, 1, 12, 14, 101, 108, 113, 228, 229, 276)  # that `packets` reads

class Ends(Exception): """The file ends, or goes on with what is none of its format."""

class Capture:
    """A capture file; after all packets were read, `broken` tells where it breaks off, if it does."""
    def __init__(self, path):
        self.path, self.broken, self.count, self.without_time = path, None, 0, 0
        self.raw = open(path, "rb", buffering=AHEAD)
        self.size = self.raw.seek(0, 2) if self.raw.seekable() else 0
        if self.raw.seekable(): self.raw.seek(0)
        front = self.raw.peek(4)[:4]
        if not front: raise Unreadable(f"{path} is empty")
        self.file = gzip.GzipFile(fileobj=self.raw) if front[:2] == GZIP else self.raw
        self.at = 0  # octets of what is read, behind gzip
        self.magic = self.front()

    def front(self):
        try:
            magic = self.take(4)
        except Ends:
            magic = b""
        if magic != PCAPNG and magic not in PCAP: raise Unreadable(f"{self.path} isn't a pcap or pcapng file")
        return magic

    def close(self): self.raw.close()
    def done(self): return self.raw.tell() if self.size else 0

    def take(self, size):
        try:
            octets = self.file.read(size)
        except (EOFError, zlib.error, gzip.BadGzipFile) as why:
            raise Ends(f"gzip: {why}") from why
        self.at += len(octets)
        if len(octets) < size: raise Ends("end" if octets else "")
        return octets

    def size_of(self, size):
        if size > MOST_OCTETS: raise Ends(f"a length of {size:,}")
        return size

    def packets(self):
        """Each packet; where the file ends between two, nothing is broken."""
        start = 0
        try:
            for start, packet in self.pcapng() if self.magic == PCAPNG else self.pcap(*PCAP[self.magic]):
                if packet is None: continue
                check_link(self.path, packet.link)
                self.count += 1
                yield packet
        except Ends as why:
            if str(why) or self.at > self.border: self.broken = f"{self.path} breaks off at octet {self.at:,}"

    def pcap(self, order, ticks):
        """Each packet with its offset (the format of libpcap, pcap-savefile(5))."""
        self.border = self.at
        *_, link = struct.unpack(order + "HHiIII", self.take(20))
        link &= 0xFFFF
        check_link(self.path, link)
        head = struct.Struct(order + "4I")
        while True:
            self.border = self.at
            second, part, size, length = head.unpack(self.take(16))
            yield self.border, Packet(second + part / ticks, link, length, self.take(self.size_of(size)))

    def pcapng(self):
        """Each packet with its offset, of all sections and interfaces (draft-ietf-opsawg-pcapng)."""
        kind, order, interfaces = SECTION, None, []
        self.border = 0
        while True:
            if kind == SECTION:
                size_octets, magic = self.take(4), self.take(4)
                order, interfaces = ORDERS.get(magic), []
                if order is None: raise Ends("a section without its magic number")
                self.take(self.size_of(struct.unpack(order + "I", size_octets)[0]) - 12)
            else:
                size = self.size_of(struct.unpack(order + "I", self.take(4))[0])
                if size < 12: raise Ends("a short block")
                body = self.take(size - 8)[:-4]
                try:
                    yield self.border, self.block(kind, order, body, interfaces)
                except (struct.error, IndexError) as why:
                    raise Ends("a block that can't be read") from why
            self.border = self.at
            kind = struct.unpack(order + "I", self.next_kind(order))[0]

    def next_kind(self, order):
        """The next block's type; a section's is the same in both orders."""
        octets = self.take(4)
        return struct.pack(order + "I", SECTION) if octets == PCAPNG else octets

    def block(self, kind, order, body, interfaces):
        """The packet of a block, or None."""
        if kind == INTERFACE: interfaces.append(interface(order, body))
        elif kind == SIMPLE_PACKET: self.without_time += 1
        elif kind in (PACKET, OLD_PACKET):
            form = "5I" if kind == PACKET else "H2x4I"
            number, high, low, size, length = struct.unpack_from(order + form, body)
            link, ticks, offset = interfaces[number]
            if 20 + size > len(body): raise Ends("a packet that is longer than its block")
            return Packet((high << 32 | low) / ticks + offset, link, length, body[20 : 20 + size])
        return None

def interface(order, body):
    """The link type and the clock of an interface."""
    link, at, ticks, offset = struct.unpack_from(order + "H", body)[0], 8, 1_000_000, 0
    while at + 4 <= len(body):
        code, size = struct.unpack_from(order + "HH", body, at)
        value, at = body[at + 4 : at + 4 + size], at + 4 + (size + 3) // 4 * 4
        if code == RESOLUTION: ticks = (2 if value[0] & 0x80 else 10) ** (value[0] & 0x7F)
        if code == OFFSET: offset = struct.unpack(order + "q", value)[0]
        if code == 0: break
    return Interface(link, ticks, offset)

def check_link(path, link):
    read = "Ethernet, Linux' cooked, loopback and raw IP"
    if link not in LINKS: raise Unreadable(f"{path} has link type {link}, which isn't read; {read} are")

def opened(paths):
    """The captures; a fault where one can't be read."""
    captures = []
    try:
        for path in paths: captures.append(Capture(path))
    except (Fault, OSError):
        for each in captures: each.close()
        raise
    check(captures, "no capture")
    return captures
