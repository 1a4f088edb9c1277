"""Random captures: clients that ask a resolver about random signed zones, over all that carries DNS."""
import struct
from collections import namedtuple
from ..captures.packets import TCP, UDP
from ..random_zones import Traffic
from ..reference_messages import read_message
from ..reference_model import groups_of, take_in
from ..wire import A, IN, OPT
from . import written

RESOLVER = written.end("192.0.2.53", 53), written.end("2001:db8::53", 53)
CLIENTS = [[written.end(f"{net}{at}", 1_024 + at) for net in ("192.0.2.", "2001:db8::")] for at in range(1, 40)]
SEGMENTS = [1, 900], [65_000], [2, 7, 700]
ASKED = 28, 16, 15, 2, 5, 43, 257, 99  # types beside A
ELSEWHERE = written.end("198.51.100.1", 53)

# a query and its answer in the capture, each None where there is none, with their seconds
Exchange = namedtuple("Exchange", "asked_at query answered_at answer carrier family")

def exchanges(rng, count, faults=0.0, chains=4):
    """Queries, most of them with an answer that speaks of one of the zones; some answers come later than a second."""
    traffic = Traffic(rng, faults)
    while not faults and any(b"*" in zone.apex for zone in traffic.zones): traffic = Traffic(rng)
    for apex, some in traffic.chains.items(): traffic.chains[apex] = some[:chains]
    traffic.now = min(max(traffic.now, 10_000), 0xFFFF0000)
    for _ in range(count):
        traffic.pass_time([0] * 10 + [1, 1, 5, 60, 250, 3000 if rng.random() < 0.2 else 1])
        answer, now = traffic.upstream(), traffic.now
        query = traffic.query()
        if rng.random() < 0.8: query, answer = fitting(rng, answer)
        if len(query) < 12 or len(answer) < 12: continue
        query = query[:2] + bytes([query[2] & 0x7F]) + query[3:]
        answer = query[:2] + bytes([answer[2] | 0x80]) + answer[3:]
        if not faults and not is_plain(answer, now): continue
        often = rng.random()
        later = now + rng.choice([0] * 9 + [1, 2])
        carrier = UDP if rng.random() < 0.8 else TCP
        if often < 0.04: yield Exchange(now, query, None, None, carrier, rng.randrange(2))
        elif often < 0.06: yield Exchange(None, None, now, answer, carrier, rng.randrange(2))
        else: yield Exchange(now, query, later, answer, carrier, rng.randrange(2))

def is_plain(answer, now):
    """Whether all signed groups of an answer are stored."""
    code, batch, _ = take_in(answer, now)
    groups, signatures = groups_of(read_message(answer)[2], now)
    return code or len(batch) == sum((owner, rtype) in signatures for owner, _, rtype in groups)

def fitting(rng, answer):
    """A query for the name that an answer is about, and the answer with its type."""
    at = 12
    while at < len(answer) and answer[at] and answer[at] < 64: at += 1 + answer[at]
    rtype = struct.pack(">HH", rng.choice((A, A, A, *ASKED)), IN)
    size, wants = rng.choice([512, 1232, 1232, 4096]), 0x8000 * (rng.random() < 0.7)
    options = b"" if rng.random() < 0.2 else b"\0" + struct.pack(">HHIH", OPT, size, wants, 0)
    head = answer[:2] + struct.pack(">5H", 0x100, 1, 0, 0, 1 if options else 0)
    return head + answer[12 : at + 1] + rtype + options, answer[: at + 1] + rtype + answer[at + 5 :]

def lengthened(each):
    """An exchange whose query has labels before its name, up to 255 octets, and no answer."""
    if each.query is None: return each
    query, at = each.query, 12
    while at < len(query) and query[at]: at += 1 + query[at]
    room = 255 - (at + 1 - 12)
    more = b""
    while room > 2:
        size = min(63, room - 1)
        more, room = more + bytes([size]) + b"w" * size, room - 1 - size
    return each._replace(query=query[:12] + more + query[12:], answer=None, answered_at=None)

def moments(some):
    """The messages of exchanges in order of time: the moment, whether it is a query, the octets, the exchange."""
    events = []
    for number, each in enumerate(some):
        if each.query is not None: events.append((each.asked_at + number / 1e6, True, each.query, number))
        if each.answer is not None: events.append((each.answered_at + (number + 0.5) / 1e6, False, each.answer, number))
    return sorted(events, key=lambda event: event[0])

def write(rng, file, some):
    """Writes exchanges into a file, in packets of all kinds, with some that aren't the resolver's among them."""
    for now, is_query, octets, number in moments(some):
        each = some[number]
        client, resolver = CLIENTS[number % len(CLIENTS)][each.family], RESOLVER[each.family]
        client = client[0], client[1] + 64 * (number // len(CLIENTS) % 900)
        source, target = (client, resolver) if is_query else (resolver, client)
        if each.carrier == UDP:
            file.datagram(now, source, target, octets, rng.choice([None, None, 512]), rng.choice([0, 0, 1, 2]))
        else:
            framed = struct.pack(">H", len(octets)) + octets
            file.stream(now, source, target, framed, rng.choice(SEGMENTS), rng.random() < 0.5)
        if rng.random() < 0.05: file.datagram(now, ELSEWHERE, client, octets)
