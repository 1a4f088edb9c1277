"""Messages in TCP streams, each behind its length (RFC 7766, section 8), from segments in any order."""
import struct

MOST_STREAMS, MOST_SECONDS = 65_536, 300  # that are kept, and how long one may be silent
MOST_BEHIND = 128  # segments that lie behind a gap
FIN, SYN, RST = 1, 2, 4
AROUND = 1 << 32
MISSING = "TCP of which a part isn't in the capture"

class Stream:
    """One side of a connection: the next sequence number, what isn't a whole message yet, what lies behind a gap."""
    def __init__(self, following, now): self.following, self.octets, self.behind, self.since = following, b"", {}, now

    def add(self, number, octets):
        self.behind[number] = max(octets, self.behind.get(number, b""), key=len)
        while (number := next(filter(self.is_met, self.behind), None)) is not None:
            fresh = self.behind.pop(number)[(self.following - number) % AROUND :]
            self.following = (self.following + len(fresh)) % AROUND
            self.octets += fresh

    def is_met(self, number): return (self.following - number) % AROUND < AROUND // 2

    def whole(self):
        """The messages that stand whole at the front, which are taken off."""
        octets, at = self.octets, 0
        while at + 2 <= len(octets) and at + 2 + (octets[at] << 8 | octets[at + 1]) <= len(octets):
            size = octets[at] << 8 | octets[at + 1]
            yield octets[at + 2 : at + 2 + size]
            at += 2 + size
        self.octets = octets[at:]

class Streams:
    def __init__(self, passed): self.streams, self.passed = {}, passed

    def add(self, now, ends, segment):
        """The messages that a segment completes."""
        if len(segment) < 20: return
        number, start, flags = struct.unpack_from(">4xI4xBB", segment)
        octets = segment[(start >> 4) * 4 :]
        if flags & SYN:
            self.drop(ends)
            self.streams[ends] = Stream((number + 1) % AROUND, now)
            self.limit(now)
            number = (number + 1) % AROUND
        stream = self.streams.get(ends)
        if stream is None:
            self.passed[MISSING] += bool(octets) and not flags & RST
            return
        stream.since = now
        if octets:
            stream.add(number, octets)
            yield from stream.whole()
        if flags & (FIN | RST) and not stream.behind or len(stream.behind) > MOST_BEHIND: self.drop(ends)

    def limit(self, now):
        """The stream that began first goes where there are too many, or it was silent for long."""
        first = next(iter(self.streams))
        if len(self.streams) > MOST_STREAMS or now - self.streams[first].since > MOST_SECONDS: self.drop(first)

    def drop(self, ends):
        stream = self.streams.pop(ends, None)
        if stream and stream.behind: self.passed[MISSING] += len(stream.behind)

    def end(self):
        for ends in list(self.streams): self.drop(ends)
