"""DNS messages in packets, over UDP and TCP."""
import struct
from collections import namedtuple
from .packets import CUT, TCP, UDP, Fragments, Passed, ip_packet
from .streams import Streams

# the moment in seconds; two ends, each an address as octets and a port; UDP or TCP; the message's octets
Message = namedtuple("Message", "time source target carrier octets")
HEADER = 12

def messages(packets, passed, ports):
    """Those of or to the ports, in turn; `passed` counts the packets of which nothing is used, by the reason."""
    reader = Reader(passed, ports)
    for packet in packets:
        try:
            yield from reader.messages(packet)
        except Passed as why:
            passed[str(why)] += 1
    reader.end()

class Reader:
    def __init__(self, passed, ports):
        self.passed, self.ports = passed, frozenset(ports)
        self.fragments, self.streams = Fragments(passed), Streams(passed)
        self.other = f"another port than {' and '.join(map(str, sorted(ports)))}"

    def messages(self, packet):
        carried = self.fragments.carried(packet.time, ip_packet(packet.link, packet.octets))
        if carried is None: return ()
        if carried.protocol not in (UDP, TCP): raise Passed("another protocol than UDP and TCP")
        if len(carried.octets) < 8: raise Passed(CUT)
        source, target = struct.unpack_from(">HH", carried.octets)
        if source not in self.ports and target not in self.ports: raise Passed(self.other)
        ends = (carried.source, source), (carried.target, target)
        if carried.protocol == UDP: return self.by_udp(packet, ends, carried.octets)
        if packet.length > len(packet.octets): raise Passed(CUT)
        return self.by_tcp(packet.time, ends, carried.octets)

    def by_udp(self, packet, ends, datagram):
        size = struct.unpack_from(">H", datagram, 4)[0]
        if size > len(datagram): raise Passed(CUT)
        if size < 8 + HEADER: raise Passed("shorter than a DNS header")
        return (Message(packet.time, *ends, UDP, datagram[8:size]),)

    def by_tcp(self, now, ends, segment):
        for octets in self.streams.add(now, ends, segment):
            if len(octets) < HEADER: self.passed["shorter than a DNS header"] += 1
            else: yield Message(now, *ends, TCP, octets)

    def end(self):
        self.fragments.end()
        self.streams.end()
