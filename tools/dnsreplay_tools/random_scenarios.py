"""The kinds of scenarios of `differential`: the frames (kind, moment, message) of one run each, by a `Random`."""
import contextlib, struct
from .random_zones import (
    AAAA, LABELS, MOMENT, MX, RESPONSE, TXT, A, Traffic, message, nsec3_data, random_octets, type_bit_maps,
)  # fmt: skip
from .random_walks import Paths
from .reference_messages import Malformed, hash_of, label_count, lowered, read_name, text_of_hash, wire_form
from .reference_model import CNAME, IN, MOST_HELD, NSEC, NSEC3, OPT, QUERY, RRSIG, SOA, UPSTREAM

MOST_OCTETS = 65_535
EXPIRATION = MOMENT + 2_000_000

def zones(rng):
    """True zones, mostly loaded, and many queries: without any faults, so each reply is what the zone answers."""
    traffic = Traffic(rng)
    return traffic.loaded(100), traffic.zones

def answers(rng):
    """Answers and queries by turns, some with faults; of five scenarios one has answers of very many groups."""
    traffic = Traffic(rng, rng.choice([0, 0.1, 0.3]))
    return (many_groups(traffic) if rng.random() < 0.2 else traffic.mixed(120)), []

def many_groups(traffic):
    rng, frames = traffic.rng, []
    for _ in range(3):
        records = []
        for zone in traffic.zones:
            for owner, rtype in sorted(zone.records):
                for _ in range(rng.choice([1, 1, 2])):
                    records += traffic.signed(zone.apex, owner, rtype, zone.records[owner, rtype])
            for link in traffic.denials(zone, rng.choice(traffic.chains[zone.apex])): records += link
            for _ in range(rng.choice([0, 10, 60])):
                owner = lowered((rng.choice(LABELS), rng.choice(LABELS))) + zone.apex
                rtype = rng.choice([A, TXT, AAAA, 99, 257])
                records += traffic.signed(zone.apex, owner, rtype, [random_octets(rng, 1)])
        if rng.random() < 0.6: rng.shuffle(records)
        cut = rng.randint(0, len(records))
        octets = message(rng, (b"a",), A, RESPONSE, (records[:cut], records[cut:], []), rng.random() < 0.7)
        frames.append((UPSTREAM, traffic.now, octets))
        traffic.pass_time([0, 0, 5, 60])
        frames += [(QUERY, traffic.now, traffic.query()) for _ in range(60)]
    return frames

def walks(rng):
    """Names that lead to one another, and many queries for them; of two scenarios one has true zones."""
    paths = Paths(rng, rng.random() < 0.5)
    return paths.frames(), paths.zones if paths.are_true else []

def hostile(rng):
    """Octets that no server or client sends: changed at random, pointers to pointers, names about their limits."""
    ways = (lambda rng: Traffic(rng, 0.7).mixed(120), pointers, odd_names, odd_data, odd_headers, long_chains, sizes)
    return rng.choice(ways)(rng), []

def header(questions, records, flags, rng):
    """One of three sections has all the records."""
    counts = rng.choice([(records, 0, 0), (0, records, 0), (0, 0, records)])
    return struct.pack(">6H", rng.randrange(65536), flags, questions, *counts)

def fields(rtype, data, rclass=IN, ttl=3600):
    return struct.pack(">HHIH", rtype, rclass, ttl, len(data) & 0xFFFF) + data

def signature(rtype, labels, signer):
    return struct.pack(">HBBIIIH", rtype, 13, labels & 255, 86400, EXPIRATION, 0, 1) + signer + b"ZZ"

def query_frame(name, rtype, moment, identity=7, options=b"\0\0\x29\x04\xd0\0\0\x80\0\0\0"):
    octets = struct.pack(">6H", identity, 0x100, 1, 0, 0, 1 if options else 0)
    return QUERY, moment, octets + wire_form(name) + struct.pack(">HH", rtype, IN) + options

def pointer(offset): return struct.pack(">H", 0xC000 | offset & 0x3FFF)

def pointers(rng):
    """An answer with many records whose names and data lead through one another, and queries for some of them."""
    octets, starts, count, names = bytearray(12) + b"\1q\7example\0\0\1\0\1", [12, 14], 0, []
    is_broken = rng.random() < 0.5
    for _ in range(rng.choice([5, 40, 300, 2000])):
        at = len(octets)
        if at > 64_000: break
        labels = [bytes([rng.choice(b"abcABC*")]) for _ in range(rng.choice([0, 0, 1, 1, 2, 6]))]
        near = starts[-rng.choice([1, 3, len(starts)]) :]
        to = rng.randrange(at + 20) if is_broken and rng.random() < 0.005 else rng.choice(near)
        owner = b"".join(b"\1" + label for label in labels) + (pointer(to) if rng.random() < 0.9 else b"\7example\0")
        octets += owner
        starts += [at] if at < 0x3FFF else []
        names.append(name_at(octets, at))
        rtype = rng.choice([A, A, RRSIG, RRSIG, NSEC, CNAME, SOA, MX])
        octets += fields(rtype, data_with_pointers(rng, rtype, starts, label_count(names[-1])))
        count += 1
        if rtype == A and rng.random() < 0.7:
            again = pointer(at) if at < 0x3FFF else owner
            octets += again + fields(RRSIG, signature(A, label_count(names[-1]), b"\7example\0"))
            count += 1
    first = rng.randint(0, count)
    octets[:12] = struct.pack(">6H", 1, RESPONSE, 1, first, count - first, 0)
    query = bytes(octets[:2]) + b"\1\0" + bytes(octets[4:])
    some = [query_frame(rng.choice(names), rng.choice([A, A, CNAME, MX, AAAA]), MOMENT + 1) for _ in range(30)]
    return [(UPSTREAM, MOMENT, bytes(octets)), (QUERY, MOMENT, query), *some]

def name_at(octets, at):
    with contextlib.suppress(Malformed): return lowered(tuple(bytes(label) for label in read_name(octets, at)[0]))
    return ()

def data_with_pointers(rng, rtype, starts, labels):
    """Data whose names are pointers, or the apex written out."""
    names = [pointer(rng.choice(starts)) for _ in range(2)]
    signed, signer = rng.choice([A, A, A, CNAME, NSEC, MX]), rng.choice([b"\7example\0", pointer(14), names[0]])
    datas = {A: bytes([1, 2, 3, rng.randrange(2)]), CNAME: names[0], SOA: b"".join(names) + bytes(20)}
    datas |= {MX: b"\0\1" + names[0], NSEC: names[0] + b"\0\1\x40", RRSIG: signature(signed, labels, signer)}
    return datas[rtype]

def odd_names(rng):
    """Names about 255 octets and labels about 63, plain and behind pointers, and each first octet of a name."""
    frames, rest = [], b"\0\1\0\1"
    for _ in range(60):
        left, name = rng.choice([rng.randint(1, 12), rng.randint(238, 260), 300]), b""
        most = rng.choice([1, 2, 63])
        while left > 1:
            size = min(most, left - 2) if left > 2 else 1
            name += bytes([size]) + b"a" * size
            left -= 1 + size
        name += b"\0"
        own = 12 + len(name) + len(rest)
        to = rng.choice([12] * 6 + [own - 1, own, own + 2, own + 9])
        owner = rng.choice([b"", b"\1b", b"\2bb", b"\5bbbbb"]) + pointer(to)
        first = rng.choice([rng.randrange(256), 0, 1, 63, 64, 128, 191, 192])
        tail = rng.choice([b"", b"\0", b"\0" + rest, b"\x0c" + rest, b"a" * 63 + b"\0" + rest, b"\x0b" + rest])
        odd = bytes([first]) + tail
        bodies = name + rest, name + rest + owner + fields(A, b"abcd"), odd, b"\1a\0" + rest + odd + bytes(10)
        for kind, flags in ((QUERY, 0x100), (UPSTREAM, RESPONSE)):
            frames += [(kind, MOMENT, header(1, at % 2, flags, rng) + body) for at, body in enumerate(bodies)]
    return frames

def odd_data(rng):
    """Data of each type that has a layout, which fits it or not, and a signature for it."""
    ends = (b"\xc0\x0c", b"\1b\xc0\x0c", b"\0", b"\xc0", b"", b"\0\0", b"\xc0\x0c\xc0\x0c")
    texts = b"\0\0\0", b"\2ab\2bc\3cde", b"\3abc\1a\xff\0"
    question, frames = b"\1a\0\0\1\0\1", []
    for _ in range(150):
        rtype = rng.choice([*range(60), *range(48), 99, 128, 249, 255, 256, 257, 65535])
        front = rng.choice([b"", bytes(2), bytes(4) + rng.choice(texts), bytes(6), bytes(18)])
        data = front + rng.choice(ends) + rng.choice([b"", b"", b"\0\1\x40", bytes(19), bytes(20), b"xyz"])
        data = random_octets(rng, rng.randrange(40)) if rng.random() < 0.1 else data
        length = max(0, len(data) + rng.choice([0] * 8 + [1, -1, 5]))
        record = pointer(12) + struct.pack(">HHIH", rtype, rng.choice([IN, IN, IN, 3]), 60, length) + data
        signed = pointer(12) + fields(RRSIG, signature(rtype, 1, b"\1a\0"))
        both = record + signed if rng.random() < 0.7 else signed + record
        frames.append((UPSTREAM, MOMENT, header(1, 2, RESPONSE, rng) + question + both))
        frames.append((QUERY, MOMENT, header(1, 1, 0x100, rng) + question + record))
    return frames

def odd_headers(rng):
    """Flags, counts and OPT records of all kinds."""
    frames, question = [], b"\1a\0\0\1\0\1"
    for _ in range(200):
        flags = rng.choice([rng.randrange(65536), RESPONSE ^ 1 << rng.randrange(16), 0x100 ^ 1 << rng.randrange(16)])
        counts = rng.choice([1, 1, 1, 0, 2]), rng.choice([0, 0, 0, 1]), 0, rng.choice([0, 1, 1, 2])
        extended, version, high = rng.choice([0, 0, 1, 255]), rng.choice([0, 0, 0, 1]), rng.choice([0, 128])
        option = b"\0\0\x29\x04\xd0" + bytes([extended, version, high, 0]) + b"\0\0"
        octets = struct.pack(">6H", 1, flags, *counts) + question + option * rng.choice([0, 1, 1, 2])
        kind = rng.choice([QUERY, UPSTREAM])
        frames.append((kind, MOMENT, octets[: rng.choice([len(octets)] * 9 + [rng.randrange(13)])]))
    return frames

def long_chains(rng):
    """Names that all lead through one chain of pointers, in a query and in an answer."""
    question, frames = b"\1a\0\0\1\0\1", []
    start = 12 + len(question) + 11  # of the first record's data
    for depth in (1, rng.randrange(2, 20), rng.randrange(20, 2000), 8000):
        last = min(depth, (0x3FFF - start - 3) // 2)
        chain = b"\1z\0" + pointer(start) + b"".join(pointer(start + 3 + 2 * step) for step in range(last - 1))
        owner = pointer(start + 1 + 2 * last)
        octets = question + b"\0" + fields(999, chain) + (owner + fields(A, b"abcd")) * 40
        for kind, flags in ((UPSTREAM, RESPONSE), (QUERY, 0x100)):
            frames.append((kind, MOMENT, header(1, 41, flags, rng) + octets))
    return frames

def sizes(rng):
    """Sets whose replies are about as long as a limit, and the longest messages that a frame may have."""
    frames = []
    for _ in range(40):
        size = rng.choice([rng.randrange(380, 500), rng.randrange(1090, 1220)])
        owner = b"s%d" % rng.randrange(10**6), b"example"
        records = [(owner, TXT, IN, 3600, bytes(size)), signed_by((b"example",), owner, TXT)]
        octets = message(rng, (b"a",), A, RESPONSE, (records, [], []), False)
        frames.append((UPSTREAM, MOMENT, octets))
        for _ in range(8):
            payload = rng.choice([None, 0, 512, 513, 520, 700, 1200, 1231, 1232, 1233, 65535])
            option = b"" if payload is None else b"\0" + fields(OPT, b"", payload, 0x8000 * rng.randrange(2))
            frames.append(query_frame(owner, TXT, MOMENT, options=option))
    longest = frames[0][2] + bytes(70_000)
    for cut in (MOST_OCTETS, MOST_OCTETS - 1):
        frames.append((UPSTREAM, MOMENT, longest[:cut]))
        frames.append((QUERY, MOMENT, (longest[:2] + b"\1\0" + longest[4:])[:cut]))
        frames.append((UPSTREAM, MOMENT, (longest[:6] + b"\xff" * 6 + longest[12:])[:cut]))
    return frames

def signed_by(apex, owner, rtype):
    return owner, RRSIG, IN, 86400, signature(rtype, label_count(owner), wire_form(apex))

class FullCache:
    """Some more records than are kept, of three zones with sets and two kinds of chains, then further batches: long
    arcs, third chains, records that expire, and always a few too many."""
    APEXES = (b"example",), (b"a", b"example"), (b"zz",)
    CHAINS = (b"", 0), (b"\xaa", 0), (b"", 1)
    OWNERS = MOST_HELD // 3 + 1_800

    def __init__(self, rng):
        self.rng, self.now, self.frames = rng, MOMENT, []
        self.brought, self.soon = 0, []  # how many records; the expiry, name and type of those that expire soon

    def set(self, apex, front, rtype, ttl, data):
        return [(front + apex, rtype, IN, ttl, data), signed_by(apex, front + apex, rtype)]

    def nsec(self, apex, label, following, ttl):
        data = wire_form((following,) + apex) + type_bit_maps({A, RRSIG, NSEC})
        return self.set(apex, (label,), NSEC, ttl, data)

    def nsec3(self, apex, label, chain, reach, ttl):
        start = hash_of((label,) + apex, *chain)
        end = (int.from_bytes(start, "big") + reach) % (1 << 160)
        data = nsec3_data(*chain, 0, end.to_bytes(20, "big"), {A, RRSIG})
        return self.set(apex, (text_of_hash(start),), NSEC3, ttl, data)

    def any_set(self, apex, label):
        """A set or a denial record of that name, of which most expire at a few moments."""
        rng = self.rng
        lives = (3600, 3601, 7200, 10800, 86400, rng.randint(100, 200), rng.randint(3600, 3700))
        ttl, often, rtype = rng.choice(lives), rng.random(), rng.choice([A, TXT])
        self.brought += 1
        if ttl <= 200: self.soon.append((self.now + ttl, (label,) + apex, rtype if often < 0.45 else AAAA))
        if often < 0.45: return self.set(apex, (label,), rtype, ttl, bytes([rng.randrange(4)]))
        if often < 0.75: return self.nsec(apex, label, label + b"!", ttl)
        return self.nsec3(apex, label, self.CHAINS[0], 1 << 90, ttl)

    def label(self): return b"%06d" % self.rng.randrange(self.OWNERS)

    def feed(self, sets):
        """The answers that bring these, each as long as may be."""
        while sets:
            records, size = [], 0
            while sets and size < 57_000:
                one = sets.pop()
                records += one
                size += sum(len(wire_form(record[0])) + 10 + len(record[4]) for record in one)
            self.frames.append((UPSTREAM, self.now, message(self.rng, (), A, RESPONSE, ([], records, []), False)))

    def ask(self, count):
        """Asks for any names, and for those of records that have just gone from the full cache, or would go next."""
        gone = max(0, self.brought - MOST_HELD)
        self.soon.sort()
        for _ in range(count):
            name = (self.label() + self.rng.choice([b"", b"!", b"~"]),) + self.rng.choice(self.APEXES)
            name, rtype = (b"x",) + name if self.rng.random() < 0.2 else name, self.rng.choice([A, TXT, AAAA])
            if self.rng.random() < 0.5: _, name, rtype = self.rng.choice(self.soon[max(0, gone - 300) : gone + 300])
            self.frames.append(query_frame(name, rtype, self.now + 1))

    def fill(self):
        data = bytes(2) + struct.pack(">5I", 1, 2, 3, 4, 86400)
        sets = [self.set(apex, (), SOA, 86400, data) for apex in self.APEXES]
        sets += [self.any_set(apex, b"%06d" % number) for number in range(self.OWNERS) for apex in self.APEXES]
        self.rng.shuffle(sets)
        self.feed(sets)
        self.ask(400)

    def go_on(self, seconds):
        rng, apex, often = self.rng, self.rng.choice(self.APEXES), self.rng.random()
        self.now += rng.choice([0, seconds])
        if often < 0.35:
            first, last = sorted([self.label(), self.label()])
            both = [self.nsec(apex, first, last, 3600), self.nsec(apex, last, first, 3600)]
            self.feed(both[: 1 + (rng.random() < 0.3)])
        elif often < 0.6:
            reach = 1 << rng.choice([140, 150, 158, 159])
            self.feed([self.nsec3(apex, self.label(), rng.choice(self.CHAINS), reach, 5000)])
        else: self.feed([self.any_set(apex, self.label()) for _ in range(rng.choice([1, 5, 200]))])
        self.ask(25)

def full(rng):
    """A cache that is filled, and goes on full."""
    cache = FullCache(rng)
    cache.fill()
    for seconds in [1] * 25 + [60] * 5: cache.go_on(seconds)
    return cache.frames, []

def workers(rng):
    """For several workers: true zones, or answers and queries with some faults."""
    traffic = Traffic(rng, rng.choice([0, 0, 0.1, 0.2]))
    return (traffic.mixed(120) if rng.random() < 0.6 else traffic.loaded(100)), []

KINDS = {make.__name__: make for make in (zones, answers, walks, hostile, full, workers)}
OF_REPLAY = "full", "workers"  # of no other command
