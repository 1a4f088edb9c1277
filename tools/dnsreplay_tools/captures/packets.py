"""What an IP packet carries, whatever link it came over: IPv4 and IPv6, VLAN tags, fragments put together."""
import struct
from collections import namedtuple

Carried = namedtuple("Carried", "source target protocol octets")  # addresses as octets
UDP, TCP = 17, 6
START_AND_TYPE = {1: (14, 12), 113: (16, 14), 276: (20, 0)}  # where the packet begins and its type stands
STARTS = {0: 4, 12: 0, 14: 0, 101: 0, 108: 4, 228: 0, 229: 0}  # loopback and raw IP
VLAN_TAGS, IP_TYPES = (b"\x81\x00", b"\x88\xa8", b"\x91\x00"), (b"\x08\x00", b"\x86\xdd")
HOP_BY_HOP, ROUTING, FRAGMENT, AUTHENTICATION, OPTIONS = 0, 43, 44, 51, 60  # headers of IPv6
MOST_FRAGMENTED, MOST_SECONDS = 4_096, 30  # datagrams that wait for fragments, and how long they do
CUT, UNFINISHED = "cut by the snap length", "fragments of which others are missing"

class Passed(Exception): """Why a packet is passed over, in words."""

def ip_packet(link, octets):
    """The IP packet in what came over a link, behind any VLAN tags."""
    if link in STARTS: return octets[STARTS[link]:]
    at, where = START_AND_TYPE[link]
    kind = octets[where : where + 2]
    while kind in VLAN_TAGS: kind, at = octets[at + 2 : at + 4], at + 4
    if kind not in IP_TYPES: raise Passed("not IP")
    return octets[at:]

class Fragments:
    """Datagrams of which some fragments have come (RFC 791, section 3.2; RFC 8200, section 4.5)."""
    def __init__(self, passed): self.waiting, self.passed = {}, passed

    def add(self, now, key, offset, is_last, octets):
        """The whole, once all of it is there."""
        _, parts = self.waiting.setdefault(key, (now, {}))
        parts[offset] = octets, is_last
        at = 0
        while at in parts:
            octets, is_last = parts[at]
            at += len(octets)
            if is_last:
                del self.waiting[key]
                return b"".join(octets for _, (octets, _) in sorted(parts.items()))
            if not octets: break
        first, (since, _) = next(iter(self.waiting.items()))
        if len(self.waiting) > MOST_FRAGMENTED or now - since > MOST_SECONDS: self.drop(first)
        return None

    def drop(self, key): self.passed[UNFINISHED] += len(self.waiting.pop(key)[1])

    def end(self):
        for key in list(self.waiting): self.drop(key)

    def carried(self, now, packet):
        """What a packet carries; None while fragments are missing."""
        version = packet[0] >> 4 if packet else 0
        if version == 4 and len(packet) >= 20: return self.by_4(now, packet)
        if version == 6 and len(packet) >= 40: return self.by_6(now, packet)
        raise Passed("not IP")

    def by_4(self, now, packet):
        size, ident, fragment = struct.unpack_from(">HHH", packet, 2)
        start, size = (packet[0] & 15) * 4, size or len(packet)  # 0 where the network card cuts it up later
        source, target, protocol = packet[12:16], packet[16:20], packet[9]
        octets = packet[start:size]
        if fragment & 0x3FFF:  # more fragments, or an offset
            if size > len(packet): raise Passed(CUT)
            key = source, target, ident, protocol
            octets = self.add(now, key, (fragment & 0x1FFF) * 8, not fragment & 0x2000, octets)
        return None if octets is None else Carried(source, target, protocol, octets)

    def by_6(self, now, packet):
        source, target, protocol, at = packet[8:24], packet[24:40], packet[6], 40
        size = 40 + struct.unpack_from(">H", packet, 4)[0]
        size, fragment = len(packet) if size == 40 else size, None
        while protocol in (HOP_BY_HOP, ROUTING, FRAGMENT, AUTHENTICATION, OPTIONS):
            if at + 8 > len(packet): raise Passed(CUT)
            if protocol == FRAGMENT: fragment = struct.unpack_from(">HI", packet, at + 2)
            length = 8 if protocol == FRAGMENT else 8 * (1 + packet[at + 1])
            if protocol == AUTHENTICATION: length = 4 * (2 + packet[at + 1])
            protocol, at = packet[at], at + length
        octets = packet[at:size]
        if fragment and fragment[0] & 0xFFF9:  # more fragments, or an offset
            if size > len(packet): raise Passed(CUT)
            place, ident = fragment
            octets = self.add(now, (source, target, ident, protocol), place & 0xFFF8, not place & 1, octets)
        return None if octets is None else Carried(source, target, protocol, octets)
