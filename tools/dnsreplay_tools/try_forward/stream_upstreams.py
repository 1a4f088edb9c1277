"""An upstream whose answers by UDP are cut, and whose streams answer as the first label of a question's name says."""
import contextlib, socket, struct, threading
from collections import namedtuple
from enum import Enum
from .. import wire
from ..try_tcp import RESET
from .lab import V4
from .spoofed import RESPONSE, VALIDATED, other, true
from .stream_clients import framed
from .upstreams import Upstream, question_in

CUT, TXT, TEXTS = 0x0200, 16, 200

def identity_of(octets): return struct.unpack_from(">H", octets)[0]
def label_of(octets): return wire.read_name(octets, 12)[0][0].partition(b"-")[0].decode()
def otherwise(octets): return bytes([~octets[0] & 255]) + octets[1:]

def cut(octets):
    """An answer without records that says that there are more."""
    return wire.message(RESPONSE | CUT, question_in(octets), identity=identity_of(octets))

def of_else(octets):
    """An answer to another name."""
    return wire.message(RESPONSE, other(octets, [b"else", b"spoofed"]), identity=identity_of(octets))

def longest(octets):
    """A validated answer of more than 50,000 octets."""
    records = [wire.record(wire.TO_QUESTION, TXT, b"\xfa%03d" % at + b"t" * 247) for at in range(TEXTS)]
    return wire.message(RESPONSE | VALIDATED, question_in(octets), records, identity=identity_of(octets))

def whole(octets): return framed(true(octets))
def nothing(octets): return b""

class End(Enum):
    """What comes of a stream behind its octets."""
    CLOSED, RESET, WAITS = range(3)

# What a stream answers, whether that is right, and whether it goes octet by octet
Kind = namedtuple("Kind", "what octets end is_right is_slow", defaults=(End.WAITS, False, False))
KINDS = {
    "silent": Kind("nothing", nothing),
    "closed": Kind("the end at once", nothing, End.CLOSED),
    "reset": Kind("a reset", nothing, End.RESET),
    "length": Kind("the end within the length", lambda octets: whole(octets)[:1], End.CLOSED),
    "part": Kind("the end within the answer", lambda octets: whole(octets)[:-1], End.CLOSED),
    "stopped": Kind("a part of the answer", lambda octets: whole(octets)[:-1]),
    "small": Kind("a length of 11 octets", lambda octets: b"\0\x0b" + bytes(11)),
    "identity": Kind("an answer with another ID", lambda octets: whole(otherwise(octets))),
    "name": Kind("an answer to another name", lambda octets: framed(of_else(octets))),
    "twice": Kind("an answer that is cut too", lambda octets: framed(cut(octets))),
    "whole": Kind("the answer", whole, is_right=True),
    "last": Kind("the answer, and the end at once", whole, End.CLOSED, True),
    "slowly": Kind("the answer octet by octet", whole, is_right=True, is_slow=True),
    "long": Kind("an answer of more than 50,000 octets", lambda octets: framed(longest(octets))),
}  # fmt: skip
FINE = "fine"  # of names whose answers aren't cut

def say(octets): return [(False, true(octets) if label_of(octets) == FINE else cut(octets))]

class StreamUpstream(Upstream):
    """It answers by UDP as `say` does, and listens for streams, which it counts."""
    def __init__(self):
        super().__init__(say)
        self.listener, self.streams, self.waiting = socket.create_server((V4, self.port)), 0, []

    def __enter__(self):
        threading.Thread(target=self.accept, daemon=True).start()
        return super().__enter__()

    def __exit__(self, *how):
        self.listener.shutdown(socket.SHUT_RDWR)
        super().__exit__(*how)
        for each in (self.listener, *self.waiting): each.close()

    def accept(self):
        with contextlib.suppress(OSError):  # once it is shut down
            while True:
                one = self.listener.accept()[0]
                self.streams += 1
                self.waiting.append(one)
                threading.Thread(target=self.answer, args=[one], daemon=True).start()

    @staticmethod
    def answer(one):
        with contextlib.suppress(OSError), one.makefile("rb") as file:
            one.setsockopt(socket.IPPROTO_TCP, socket.TCP_NODELAY, 1)
            asked = file.read(int.from_bytes(file.read(2)))
            kind = KINDS[label_of(asked)]
            octets = kind.octets(asked)
            for each in octets if kind.is_slow else [octets]: one.sendall(bytes([each]) if kind.is_slow else each)
            if kind.end == End.RESET: one.setsockopt(socket.SOL_SOCKET, socket.SO_LINGER, RESET)
            if kind.end != End.WAITS: file.close(), one.close()
