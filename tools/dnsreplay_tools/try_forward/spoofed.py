"""Answers that somebody else makes: none changes anything, and those over the question's own socket are counted."""
import socket, struct
from collections import namedtuple
from .. import wire
from ..wire import A, NS, NSEC, RRSIG, SOA, check, name, type_bit_maps
from . import status
from .clients import Question, ask, ask_all, none_of, octets_of, rcode_text
from .upstreams import Upstream, key_of, question_in

APEX = name(b"spoofed")
RESPONSE, VALIDATED, NAME_ERROR = 0x8180, 0x0020, 3
NOTIFY, CHAOS, AAAA = 4 << 11, 3, 28
TRUE = "192.0.2.1"
BARE = struct.pack(">5H", RESPONSE | 1, 0, 0, 0, 0)  # FORMERR without a question, behind the ID
BURST = 20  # wrong ones in a row, before the right one
ASKED, TIMES = 10, 2  # questions of each kind, and how often each is asked
IGNORED = "dnsreplay_ignored_answers_total"

def denial():
    """Records that deny every name of the zone, if they are taken."""
    soa = bytes(2) + struct.pack(">5I", 1, 3_600, 600, 86_400, 300)
    nsec = APEX + type_bit_maps(NS, SOA, RRSIG, NSEC)
    return wire.signed(APEX, SOA, soa, 1, APEX) + wire.signed(APEX, NSEC, nsec, 1, APEX)

def forged(octets, flags=RESPONSE | VALIDATED | NAME_ERROR, change=0, asked=None):
    """An answer to an asking that denies everything."""
    asked = asked or question_in(octets)
    identity = struct.unpack_from(">H", octets)[0] ^ change
    return wire.message(flags, asked, authority=denial(), identity=identity)

def true(octets):
    """The right answer, which isn't validated, so nothing of it is stored."""
    asked, identity = question_in(octets), struct.unpack_from(">H", octets)[0]
    return wire.message(RESPONSE, asked, [wire.record(wire.TO_QUESTION, A, socket.inet_aton(TRUE))], identity=identity)

def other(octets, labels=None, rtype=A, rclass=1):
    """An asking's question with something else in it."""
    return wire.name(*(labels or wire.read_name(octets, 12)[0])) + struct.pack(">HH", rtype, rclass)

# the first label of a name tells how the answers are wrong that come before its right one
Kind = namedtuple("Kind", "what make is_elsewhere", defaults=(False,))
KINDS = {
    "port": Kind("from another port", forged, True),
    "both": Kind("from another port, with another ID", lambda octets: forged(octets, change=1), True),
    "identity": Kind("with another ID", lambda octets: forged(octets, change=0x0101)),
    "bare": Kind("with another ID and no question", lambda octets: bytes([~octets[0] & 255]) + octets[1:2] + BARE),
    "name": Kind("of another name", lambda octets: forged(octets, asked=other(octets, [b"else", b"spoofed"]))),
    "type": Kind("of another type", lambda octets: forged(octets, asked=other(octets, rtype=AAAA))),
    "class": Kind("of another class", lambda octets: forged(octets, asked=other(octets, rclass=CHAOS))),
    "query": Kind("that are queries", lambda octets: forged(octets, NAME_ERROR)),
    "opcode": Kind("of another opcode", lambda octets: forged(octets, RESPONSE | VALIDATED | NOTIFY | NAME_ERROR)),
    "short": Kind("of 11 octets", lambda octets: octets[:11]),
    "empty": Kind("of no octets", lambda octets: b""),
}  # fmt: skip
TAKEN = "taken"

def say(octets):
    """Wrong answers, and behind them the right one; to a name of the last kind what the others were about."""
    kind = wire.read_name(octets, 12)[0][0].partition(b"-")[0].decode()
    if kind == TAKEN: return [(False, forged(octets))]
    return [(KINDS[kind].is_elsewhere, KINDS[kind].make(octets))] * BURST + [(False, true(octets))]

def run(lab, tally):
    with lab.servers("spoofed") as servers:
        upstream = servers.enter_context(Upstream(say))
        forward = servers.forward(upstream.port)
        for kind in KINDS:
            what = f"{BURST} answers {KINDS[kind].what} before each right one"
            with tally.check(what): try_kind(upstream, forward, kind)
        with tally.check("the status counts as ignored those alone that came over the question's socket") as tell:
            wanted = TIMES * ASKED * BURST * sum(not each.is_elsewhere for each in KINDS.values())
            count = status.total(forward.later_counts(), IGNORED)
            check(count == wanted, f"{count:,} in place of {wanted:,}")
            tell(f"{count:,}")
        with tally.check("such an answer without a fault is taken and stored, so the others had a chance"):
            taken, beside = (Question(f"{label}.spoofed.", "A") for label in (TAKEN, "name-99"))
            for each in (taken, beside):
                reply = ask(each, forward.port)
                check(reply and rcode_text(reply) == "NXDOMAIN", f"{each.name}: {reply}")
            check(seen_of(upstream, beside) == 0, "it wasn't stored")

def seen_of(upstream, question): return upstream.seen[key_of(octets_of(question))]

def try_kind(upstream, forward, kind):
    """Every reply is of the right answer, and as nothing is stored each question is asked each time."""
    asked = [Question(f"{kind}-{at}.spoofed.", "A") for at in range(ASKED)]
    for _ in range(TIMES):
        came = ask_all(asked, forward.port)
        none_of([f"{one.name}: {each.reply}" for one, each in zip(asked, came) if not is_true(each.reply)], ASKED)
    seen = [seen_of(upstream, each) for each in asked]
    check(seen == [TIMES] * ASKED, f"the upstream was asked {seen} times")

def is_true(reply): return reply and [(part, data) for part, _, _, data in reply.records] == [("answer", TRUE)]
