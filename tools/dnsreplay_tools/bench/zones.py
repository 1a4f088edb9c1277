"""Zones that fill a cache with so many records, and calls over them with the outcomes that they must have."""
import itertools, math, struct
from collections import namedtuple
from .. import run as runs, wire
from ..wire import A, DNSKEY, FORWARD, HEAD, NS, NSEC, NSEC3, NSEC3PARAM, REPLY, RRSIG, SOA, STORED, check

MOMENT, LATER = 1_000_000_000, 1_000_000_010  # of the filling, and of the calls that are measured
HELD_LIMIT = 131_072  # of the cache
A_MESSAGE = 200  # how many records a message of the filling has, beside their signatures
ABSENT = (16, 28, 15, 33, 257, 52, 65, 29)  # types that no name has
DENIAL_TTL, SET_TTL = 10_800, 86_400  # sets expire last, so that a full cache drops denials
APEX, ELSEWHERE, FULL = wire.name(b"example"), wire.name(b"test"), wire.name(b"full")
SOA_DATA = bytes(2) + struct.pack(">5I", 1, 3_600, 600, 86_400, 300)
TO_APEX = wire.TO_QUESTION
POWERS = [26**at for at in range(7, -1, -1)]  # of the letters in a label of eight
LABELS = 26**8
AT_MOST_A_SECOND = DENIAL_TTL - 100  # calls, before what was filled in expires

Chain = namedtuple("Chain", "title hashed iterations salt", defaults=(False, 0, b""))  # the denial records of a zone

CHAINS = {"nsec": Chain("NSEC")}
for count, octets in itertools.product((0, 5, 50), (0, 8)):
    title = f"NSEC3, {count} iterations, salt of {octets}"
    CHAINS[f"nsec3-{count}-{octets}"] = Chain(title, True, count, b"saltsalt"[:octets])

class Call(namedtuple("Call", "frame wanted")):
    """A frame, and the outputs of which one must come for it."""
    @property
    def message(self): return self.frame[HEAD.size :]

def label(number):
    """The label of a number: eight letters in the order of numbers, after their length."""
    return b"\x08" + bytes(97 + number // power % 26 for power in POWERS)

def signed(owner, labels, rtype, ttl, data, zone=APEX):
    """With a signature of the size of ECDSA's with P-256 (RFC 6605, section 4)."""
    return wire.signed(owner, rtype, data, labels, zone, ttl, b"Z" * 64)

def answer(sets, moment, zone=APEX):
    """The frame of a validated answer (AD), with signed records in its authority section."""
    authority = list(itertools.chain(*sets))
    return wire.frame(wire.UPSTREAM, moment, wire.message(0x81A0, wire.question(zone, SOA), authority=authority))

def query(name, qtype): return wire.frame(wire.QUERY, LATER, wire.query(name, qtype))

SIGNED_SOA = signed(TO_APEX, 1, SOA, SET_TTL, SOA_DATA)

class Zone:
    """A zone of which a cache holds so many records.

    Its names lie evenly, each of one label below the apex. A sixteenth of the records are address sets of such names,
    and another those of wildcards, `*` below a label that has nothing else and so is an empty non-terminal. The others
    are the SOA and the denial records, of the whole zone.
    """
    def __init__(self, chain, size):
        self.chain, self.size = chain, size
        sets = wildcards = size // 16
        count = size - 2 - sets - wildcards - (wildcards if chain.hashed else 0)
        self.gap = LABELS // (count + 1)
        step = count // wildcards
        self.places = range(1, count + 1)
        self.wildcards = self.places[1 : 1 + step * wildcards : step]
        self.with_sets = self.places[3 : 3 + step * sets : step]
        wild = set(self.wildcards)
        self.plain = [place for place in self.places if place not in wild]
        names = [b"\1*" * (place in wild) + self.label(place) for place in self.places]
        self.denials = self.hashed_chain(names) if chain.hashed else self.named_chain(names)

    def label(self, place, beside=0): return label(self.gap * place + beside)

    def named_chain(self, names):
        fronts = sorted([b"", *names], key=lambda front: wire.canonical(front + APEX))
        made, maps = [], (wire.type_bit_maps(NS, SOA, RRSIG, NSEC, DNSKEY), wire.type_bit_maps(A, RRSIG, NSEC))
        for front, following in zip(fronts, fronts[1:] + fronts[:1]):
            data = following + APEX + maps[bool(front)]
            made.append(signed(front + TO_APEX, 1 + bool(front), NSEC, DENIAL_TTL, data))
        return made

    def hashed_chain(self, names):
        salt, iterations = self.chain.salt, self.chain.iterations
        types = {b"": (NS, SOA, RRSIG, DNSKEY, NSEC3PARAM)} | dict.fromkeys(names, (A, RRSIG))
        types |= {self.label(place): () for place in self.wildcards}
        hashes = sorted((wire.hash_of(name + APEX, salt, iterations), each) for name, each in types.items())
        links = ((start, end, each) for (start, each), (end, _) in zip(hashes, hashes[1:] + hashes[:1]))
        chain = ((wire.hashed_label(start), wire.nsec3_data(end, each, salt, iterations)) for start, end, each in links)
        return [signed(front + TO_APEX, 2, NSEC3, DENIAL_TTL, data) for front, data in chain]

    def sets(self):
        """The zone's records, each with its signature."""
        owners = [self.label(place) for place in self.with_sets]
        owners += [b"\1*" + self.label(place) for place in self.wildcards]
        sets = [signed(owner + TO_APEX, 2, A, SET_TTL, bytes([192, 0, 2, 1])) for owner in owners]
        sets = [SIGNED_SOA] + sets + self.denials
        check(len(sets) == self.size, f"{len(sets)} records were made for a cache of {self.size}")
        return sets

    def filling(self, a_message=A_MESSAGE):
        """Frames after which the cache holds the zone's records."""
        sets = self.sets()
        for at in range(0, self.size, a_message):
            some = sets[at : at + a_message]
            yield Call(answer(some, MOMENT), frozenset([(STORED, len(some), 0)]))

    def turn(self, number, places):
        """One of the places: each once before any comes again, any front of them evenly, and neighbours far apart."""
        stride = round(len(places) * 0.618)  # the golden section
        while math.gcd(stride, len(places)) != 1: stride += 1
        return places[number * stride % len(places)]

    def turned_label(self, number, places, beside=0): return self.label(self.turn(number, places), beside)

def replied(rcode, answers, *authority): return frozenset((REPLY, rcode, answers, count) for count in authority)

def name_error(zone, number):
    inside = zone.turned_label(number, zone.places, zone.gap // 3 + number)
    return Call(query(inside + APEX, A), replied(3, 0, *((8, 6, 4) if zone.chain.hashed else (6,))))

def no_data(zone, number, places=None):
    name = zone.turned_label(number, places or zone.plain)
    return Call(query(name + APEX, ABSENT[number % 8]), replied(0, 0, 4))

def non_terminal(zone, number): return no_data(zone, number, zone.wildcards)

def wildcard(zone, number):
    return Call(query(label(number) + zone.turned_label(number, zone.wildcards) + APEX, A), replied(0, 2, 2))

def held_set(zone, number):
    return Call(query(zone.turned_label(number, zone.with_sets) + APEX, A), replied(0, 2, 0))

def forward(zone, number):
    return Call(query(zone.turned_label(number, zone.places, number) + ELSEWHERE, A), frozenset([(FORWARD, 0)]))

def insert(zone, number, moment=LATER):
    """Records that are held come again, with a later expiry."""
    count = 8 if zone.chain.hashed else 1
    some = [zone.turn(number * count + each, zone.denials) for each in range(count)]
    return Call(answer([SIGNED_SOA] + some, moment), frozenset([(STORED, 1 + count, 0)]))

def insert_later(zone, number):
    """The same a second after the call before, so that the SOA too has a later expiry than the one held."""
    return insert(zone, number, LATER + number)

def insert_expired(zone, number):
    """A record comes that expires before the next call, and the one of the call before, expired, comes again."""
    (short, signature), again = (zone.turn(each, zone.denials) for each in (number, number - 1))
    at = short.index(TO_APEX) + len(TO_APEX) + 4
    short = short[:at] + struct.pack(">I", 1) + short[at + 4 :]
    return Call(answer([SIGNED_SOA, [short, signature], again], LATER + number), frozenset([(STORED, 3, 0)]))

def insert_full(zone, number):
    """A new record of another zone comes, and a full cache drops one."""
    soa = signed(TO_APEX, 1, SOA, SET_TTL, SOA_DATA, zone=FULL)
    data = label(2 * number + 1) + FULL + wire.type_bit_maps(A, RRSIG, NSEC)
    new = signed(label(2 * number) + TO_APEX, 2, NSEC, DENIAL_TTL, data, zone=FULL)
    return Call(answer([soa, new], LATER, FULL), frozenset([(STORED, 2, 0)]))

class Kind(namedtuple("Kind", "call title hashed_title inserts full most", defaults=("", False, False, 1 << 32))):
    """A kind of call, with its title for NSEC, and for NSEC3 where that differs; `inserts` changes what is held, so its
    calls come before no other kinds; `full` is measured in a full cache only; `most` calls may be in an input."""
    def title_for(self, chain): return chain.hashed and self.hashed_title or self.title

def inserts(call, title, hashed_title="", **more):
    return Kind(call, f"insert of SOA and {title}", f"insert of SOA and {hashed_title or title}", inserts=True, **more)

KINDS = {
    "forward": Kind(forward, "forward"),
    "no-data": Kind(no_data, "no data by a match"),
    "non-terminal": Kind(non_terminal, "empty non-terminal"),
    "name-error": Kind(name_error, "name error, two NSEC", "name error, three NSEC3"),
    "wildcard": Kind(wildcard, "wildcard answer"),
    "set": Kind(held_set, "held set"),
    "insert": inserts(insert, "NSEC", "8 NSEC3"),
    "insert-later": inserts(insert_later, "NSEC, a second later", "8 NSEC3, a second later", most=AT_MOST_A_SECOND),
    "insert-expired": inserts(insert_expired, "2 NSEC, one expired", "2 NSEC3, one expired", most=AT_MOST_A_SECOND),
    "insert-full": inserts(insert_full, "NSEC, one dropped", full=True),
}

def seen(kind, body):
    """What a call's output is told by."""
    if kind == REPLY and len(body) >= 12:
        flags, _, answers, authority = struct.unpack_from(">4H", body, 2)
        return kind, flags & 0x020F, answers, authority  # TC and the RCODE
    return kind, *(struct.unpack(">2H", body) if kind == STORED and len(body) == 4 else (len(body),))

def told(output):
    names = {REPLY: "TC and RCODE {:#x}, {} answers, {} in authority", STORED: "{} records, {} skipped"}
    kind, *rest = output
    return f"{wire.OUTPUT_KINDS.get(kind, kind)}, " + names.get(kind, "a body of {} octets").format(*rest)

def look_at(number, call, kind, body):
    """The call must have had an outcome that its kind is for."""
    came = seen(kind, body)
    wanted = "; or ".join(told(each) for each in sorted(call.wanted))
    check(came in call.wanted, f"frame {number}, {call.frame[:80].hex()}: {told(came)}; wanted: {wanted}")

def check_calls(output, calls):
    outputs = list(wire.frames(output, "output "))
    for number, (call, (kind, _, _, body)) in enumerate(zip(calls, outputs), 1): look_at(number, call, kind, body)
    check(len(outputs) == len(calls), f"the output has {len(outputs)} frames for {len(calls)} calls")

def takes_several(parser, sizes, **choices):
    """Options that take sizes, and words of which there is a choice, each with what it is by default."""
    held = {"type": runs.number(64, HELD_LIMIT), "metavar": "N", "help": f"held records, 64 to {HELD_LIMIT}"}
    parser.add_argument("--sizes", nargs="+", default=sizes, **held)
    for name, (words, default) in choices.items():
        how = {"choices": words, "default": default, "metavar": name[:-1].upper(), "help": ", ".join(words)}
        parser.add_argument("--" + name, nargs="+", **how)

def joined(calls): return b"".join(call.frame for call in calls)
