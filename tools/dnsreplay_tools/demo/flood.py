"""A flood of questions at a steady rate, and what comes to them by the second."""
import contextlib, selectors, socket, struct, time
from collections import Counter, namedtuple
from .. import wire

SOCKETS = 16
TICK = 0.01  # seconds from one sending to the next
LAST = 0.5  # seconds, in which the last replies may come
EDNS = struct.pack(">BHHIH", 0, wire.OPT, 1_232, 0, 0)
SYNTHESIZED = b"\x00\x0f\x00\x02\x00\x1d"  # the option of an extended error, and its code 29 (RFC 8914)
NAME_ERROR, NO_DATA, WILDCARD, RESOLVER = "name error", "no data", "wildcard", "resolver"

# how many were asked, replies by what made them, and the seconds that they took
Second = namedtuple("Second", "asked kinds latencies")

def kind(octets):
    """By what a reply was made: the extended error tells those of the cache."""
    if SYNTHESIZED not in octets: return RESOLVER
    if octets[3] & 15 == 3: return NAME_ERROR
    return WILDCARD if octets[6:8] != b"\0\0" else NO_DATA

class Flood:
    """So many questions a second to a port, for so many seconds: what came of each second."""
    def __init__(self, port, names, rate, seconds):
        self.port, self.names, self.rate, self.seconds = port, names, rate, seconds

    def __iter__(self):
        with contextlib.ExitStack() as stack:
            self.selector = stack.enter_context(selectors.DefaultSelector())
            self.sockets = [stack.enter_context(self.bound()) for _ in range(SOCKETS)]
            self.sent, self.waiting, self.start = 0, {}, time.monotonic()
            for number in range(1, self.seconds + 1): yield self.second(number)

    def bound(self):
        one = socket.socket(socket.AF_INET, socket.SOCK_DGRAM)
        one.connect(("127.0.0.1", self.port))
        one.setblocking(False)
        self.selector.register(one, selectors.EVENT_READ)
        return one

    def second(self, number):
        """Asks and receives until the second is over; the last one waits for late replies."""
        before, kinds, latencies = self.sent, Counter(), []
        while (now := time.monotonic() - self.start) < number:
            while self.sent < int(now * self.rate): self.ask()
            self.receive(kinds, latencies, TICK)
        while self.sent < number * self.rate: self.ask()
        end = time.monotonic() + LAST * (number == self.seconds)
        while self.waiting and time.monotonic() < end: self.receive(kinds, latencies, TICK)
        return Second(self.sent - before, kinds, latencies)

    def ask(self):
        place, identity = self.sent % SOCKETS, self.sent // SOCKETS & 0xFFFF
        asked = wire.question(*next(self.names))
        with contextlib.suppress(BlockingIOError, ConnectionError):
            self.sockets[place].send(wire.message(0x0100, asked, additional=[EDNS], identity=identity))
            self.waiting[self.sockets[place], identity] = time.monotonic()
        self.sent += 1

    def receive(self, kinds, latencies, seconds):
        for key, _ in self.selector.select(seconds):
            with contextlib.suppress(BlockingIOError, ConnectionError):
                while octets := key.fileobj.recv(4_096):
                    asked = self.waiting.pop((key.fileobj, int.from_bytes(octets[:2], "big")), None)
                    if asked is None: continue
                    kinds[kind(octets)] += 1
                    latencies.append(time.monotonic() - asked)
