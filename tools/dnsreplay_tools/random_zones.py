"""Random signed zones, their NSEC and NSEC3 chains, and the answers and queries that speak of them, for `differential`.

All is drawn from one `random.Random`, so the same seed makes the same octets. A zone's chains are true of it. A share
of the answers has faults on purpose (`faults`, from 0 to 1); without any, each reply has to be what the zone itself
answers. The signatures are made up: that they verify is the word of the upstream resolver.
"""
import struct
from .reference_messages import (
    LAYOUTS, ONE_NAME, REST, TEXT, Malformed, hash_of, is_below, label_count, lowered, read_name, text_of_hash,
    wire_form,
)  # fmt: skip
from .reference_model import (
    AROUND, CNAME, DNAME, DS, IN, NS, NSEC, NSEC3, OPT, QUERY, RRSIG, SOA, UPSTREAM,
)  # fmt: skip
from .reference_zones import Zone

MOMENT = 1_000_000_000
LABELS = (b"a", b"b", b"c", b"w", b"*", b"x", b"(x", b"\0", b"\xff", b"zz", b"Z", b"ab", b"a-", b"+")
A, MX, TXT, AAAA, SRV, NSEC3PARAM = 1, 15, 16, 28, 33, 51
PLAIN_TYPES = (A, TXT, MX, AAAA, SRV, 257, 65280, 12, 99)
ODD_TYPES = (0, OPT, RRSIG, NSEC, NSEC3, 127, 128, 129, 255, 256, NSEC3PARAM, 48, 65535)
SALTS = (b"", b"\xaa", b"\xaa\xbb\xcc\xdd", bytes(20))
RESPONSE = 0x81A0  # QR, RD, RA, AD

def random_octets(rng, count): return bytes(rng.randrange(256) for _ in range(count))

def in_any_case(rng, name):
    return tuple(bytes(o - 32 if 97 <= o <= 122 and rng.random() < 0.5 else o for o in label) for label in name)

def fits(name): return len(wire_form(name)) <= 255

def type_bit_maps(types):
    """RFC 4034, section 4.1.2."""
    octets = b""
    for window in sorted({rtype >> 8 for rtype in types}):
        number = sum(1 << 255 - rtype % 256 for rtype in set(types) if rtype >> 8 == window)
        bits = number.to_bytes(32, "big").rstrip(b"\0")
        octets += bytes([window, len(bits)]) + bits
    return octets

def nsec3_data(salt, iterations, flags, following, types, algorithm=1):
    """RFC 5155, section 3.2."""
    head = struct.pack(">BBHB", algorithm, flags, iterations, len(salt))
    return head + salt + bytes([len(following)]) + following + type_bit_maps(types)

class SignedZone(Zone):
    """A random zone, and its chains of denial records."""
    def __init__(self, rng, apex, cuts=()):
        super().__init__(apex)
        self.rng = rng
        self.minimum = rng.choice([300, 300, 60, 3600, 0, 7, 86400, 0xFFFFFFFF])
        self.server = rng.choice([(), (b"ns",) + apex, (b"NS", b"Other")])
        self.add(apex, SOA)
        self.add(apex, NS)
        for cut in cuts:
            if is_below(cut, apex): self.add_each(cut, [NS, DS] if rng.random() < 0.5 else [NS])
        for _ in range(rng.randint(0, 9)): self.add_some(rng.choice([1, 1, 1, 2, 2, 3, 4]), LABELS)

    def add_each(self, owner, types):
        for rtype in types: self.add(owner, rtype)

    def add_some(self, depth, labels):
        """An owner name with sets, an alias, a cut or a DNAME."""
        rng = self.rng
        owner = lowered(tuple(rng.choice(labels) for _ in range(depth))) + self.apex
        often = rng.random()
        if often < 0.55: self.add_each(owner, rng.sample(PLAIN_TYPES, rng.randint(1, 3)))
        elif often < 0.65: self.add(owner, CNAME)
        elif often < 0.77: self.add_each(owner, [NS] + [DS] * (rng.random() < 0.5) + [A] * (rng.random() < 0.2))
        elif often < 0.87: self.add_each(owner, [DNAME] + [A] * (rng.random() < 0.4))
        else: self.add_each(owner, [DS, A])

    def add(self, owner, rtype):
        data = self.records.setdefault((owner, rtype), [])
        count = 1 if rtype in (SOA, CNAME, DNAME) else self.rng.choice([1, 1, 1, 2, 3])
        for _ in range(count - len(data)):
            one = self.data(rtype)
            if one not in data: data.append(one)

    def data(self, rtype):
        rng = self.rng
        targets = ((), (b"ns",) + self.apex, (rng.choice(LABELS), b"other"), (rng.choice(LABELS),) + self.apex)
        target = wire_form(in_any_case(rng, rng.choice(targets)))
        if rtype == SOA: return wire_form(self.server) + b"\0" + struct.pack(">5I", 1, 3600, 600, 86400, self.minimum)
        if rtype in (NS, CNAME, DNAME, 12): return target
        if rtype in (MX, SRV): return random_octets(rng, 2 if rtype == MX else 6) + target
        if rtype == A: return bytes([192, 0, 2, rng.randrange(256)])
        if rtype == DS: return bytes([0, 1, 13, 2]) + random_octets(rng, 32)
        return random_octets(rng, rng.choice([0, 1, 4, 20, 20, 100, 500]))

    def own_sets(self):
        """The owner names and types of which the zone has authority, and so signs."""
        for owner, rtype in sorted(self.records):
            if self.is_live(owner) and (rtype == DS if self.is_cut(owner) else True): yield owner, rtype

    def shown_types(self, owner):
        """At a cut the parent's side shows few types (RFC 6840, section 4.1)."""
        return self.types(owner) & {NS, DS, CNAME} if self.is_cut(owner) else self.types(owner)

    def nsec_chain(self):
        """Each live owner, the next one and the types (RFC 4034, section 4)."""
        owners = self.live_owners()
        following = owners[1:] + owners[:1]
        return [(owner, other, self.shown_types(owner) | {RRSIG, NSEC}) for owner, other in zip(owners, following)]

    def nsec3_chain(self, salt, iterations, opt_out):
        """Each existing name's hash, the next hash and the types (RFC 5155, section 7.1).

        With Opt-Out unsigned delegations are left out, and empty non-terminals that are there for them alone.
        """
        owners = self.live_owners()
        if opt_out: owners = [owner for owner in owners if not self.is_cut(owner) or (owner, DS) in self.records]
        hashes = sorted((hash_of(name, salt, iterations), name) for name in self.with_ancestors(owners))
        chain = []
        for (digest, name), (following, _) in zip(hashes, hashes[1:] + hashes[:1]):
            types = self.shown_types(name)
            types |= {RRSIG} if types and (not self.is_cut(name) or DS in types) else set()
            chain.append((digest, following, types | ({NSEC3PARAM} if name == self.apex else set())))
        return chain

class Message:
    """A message while it is written, with pointers where `compressed` (RFC 1035, section 4.1.4)."""
    def __init__(self, rng, compressed):
        self.rng, self.compressed, self.octets, self.offsets = rng, compressed, bytearray(), {}

    def name(self, labels):
        for count in range(len(labels)):
            rest = lowered(labels[count:])
            if self.compressed and rest in self.offsets and self.rng.random() < 0.9:
                self.octets += struct.pack(">H", 0xC000 | self.offsets[rest])
                return
            if len(self.octets) < 0x4000: self.offsets.setdefault(rest, len(self.octets))
            self.octets += bytes([len(labels[count])]) + labels[count]
        self.octets += b"\0"

    def data(self, rtype, data):
        """As it is, or, where it fits the layout of its type, with its names compressed."""
        at, start = 0, len(self.octets)
        try:
            for part in LAYOUTS.get(rtype, (REST,)) if self.compressed else (REST,):
                if part is ONE_NAME:
                    labels, at = read_name(data, at, pointers=False)
                    self.name(labels)
                    continue
                end = len(data) if part is REST else at + (1 + data[at] if part is TEXT else part)
                self.octets += data[at:end]
                at = end
        except (Malformed, IndexError):
            self.octets[start:] = data  # as it is; no name leads to within it
            self.offsets = {rest: offset for rest, offset in self.offsets.items() if offset < start}

    def record(self, owner, rtype, rclass, ttl, data):
        self.name(owner)
        self.octets += struct.pack(">HHIH", rtype, rclass, ttl % AROUND, 0)
        start = len(self.octets)
        self.data(rtype, data)
        self.octets[start - 2 : start] = struct.pack(">H", len(self.octets) - start & 0xFFFF)

def message(rng, name, rtype, flags, sections, compressed):
    made = Message(rng, compressed)
    made.octets += struct.pack(">6H", rng.randrange(65536), flags, 1, *(len(section) for section in sections))
    made.name(name)
    made.octets += struct.pack(">HH", rtype, IN)
    for section in sections:
        for record in section: made.record(*record)
    return bytes(made.octets[:65535])

def mutated(rng, octets):
    """With one to five octets or ends changed: at random, in the counts, or into a pointer."""
    octets = bytearray(octets)
    for _ in range(rng.choice([1, 1, 1, 2, 5])):
        way, at = rng.randrange(7), rng.randrange(len(octets)) if octets else 0
        if way == 0 and octets: octets[at] = rng.randrange(256)
        elif way == 1: del octets[at:]
        elif way == 2: octets += random_octets(rng, rng.randint(1, 5))
        elif way == 3 and octets: octets[at] ^= 1 << rng.randrange(8)
        elif way == 4 and len(octets) > 13:
            at = rng.randrange(12, len(octets) - 1)
            to = rng.choice([12, rng.randrange(256), rng.randrange(min(255, len(octets)))])
            octets[at : at + 2] = bytes([0xC0 | rng.choice([0, 0, 0, 1]), to])
        elif way == 5 and len(octets) > 5:
            octets[rng.randint(4, min(11, len(octets) - 1))] = rng.choice([0, 1, 2, rng.randrange(256)])
        elif way == 6: del octets[at : at + rng.randint(1, 3)]
    return bytes(octets)

class Traffic:
    """Some zones below one another, each with one to four chains, and answers and queries that speak of them."""
    TTLS, ORIGINALS = [3600] * 6 + [300, 60, 5, 100000], [3600] * 6 + [7200, 30]
    AHEAD = [100000] * 6 + [50, 3600, 0x7FFFFFFF]  # the seconds that signatures have left
    SHARE = 0.25  # of sets that are loaded
    ASKED_TYPES = (A, A, A, TXT, TXT, MX, AAAA, DS, DS, CNAME, DNAME, NS, SOA, 257, 65280, 99, 12)

    def __init__(self, rng, faults=0.0):
        self.rng, self.faults = rng, faults
        self.now = MOMENT + rng.choice([0, 0, 0, rng.randrange(1000)])
        if rng.random() < 0.08:  # about the ends of what a moment can tell
            self.now = rng.choice([0xFFFFFFFF - rng.randrange(3000), rng.randrange(2000)])
        apexes = self.some_apexes()
        self.zones = [SignedZone(rng, apex, apexes[number + 1 :]) for number, apex in enumerate(apexes)]
        self.chains = {zone.apex: self.some_chains() for zone in self.zones}
        self.find_names()

    def some_apexes(self):
        """What may be cuts of another stands behind it."""
        rng = self.rng
        apexes = [rng.choice([(b"example",), (b"example",), (b"b", b"example"), (), (b"*", b"ex")])]
        if rng.random() < 0.5: apexes.append((rng.choice([b"a", b"b", b"c", b"w"]),) + apexes[0])
        if rng.random() < 0.15: apexes.append((b"c",) + apexes[-1])
        return apexes

    def some_chains(self):
        """None stands for NSEC, and salt, iterations and Opt-Out for NSEC3."""
        rng = self.rng
        chains = [None] if rng.random() < 0.6 else []
        while len(chains) < 4 and (not chains or rng.random() < 0.25):
            chains.append((rng.choice(SALTS), rng.choice([0, 0, 1, 2]), rng.random() < 0.25))
        return chains

    def find_names(self):
        """The names that are asked for: those that exist, some below and beside them, and others."""
        rng, names = self.rng, []
        for zone in self.zones:
            for name in sorted({owner for owner, _ in zone.records} | set(zone.existing())):
                names += [name] + [(rng.choice(LABELS),) * rng.choice([1, 1, 1, 2]) + name for _ in range(3)]
                names += [(rng.choice(LABELS),) + name[1:]] if len(name) > len(zone.apex) else []
            names += [(rng.choice(LABELS), rng.choice(LABELS)) + zone.apex for _ in range(4)]
        self.names = sorted({lowered(name) for name in names if fits(name)})

    def faulty(self, share=1.0): return self.rng.random() < self.faults * share
    def pass_time(self, steps): self.now = (self.now + self.rng.choice(steps)) % AROUND

    def signed(self, zone, owner, rtype, items, labels=None):
        """The records of a set and its signatures."""
        rng, is_faulty = self.rng, self.faulty()
        ttl, original, ahead = rng.choice(self.TTLS), rng.choice(self.ORIGINALS), rng.choice(self.AHEAD)
        labels = label_count(owner) if labels is None else labels
        rclass, signer, count, items = IN, zone, rng.choice([1] * 8 + [2]), list(items)
        if is_faulty:
            ttl = rng.choice([0, 1, 0x80000000, 0xFFFFFFFF, 0x7FFFFFFF, 20000, 3600])
            original = rng.choice([0, 1, 0xFFFFFFFF, 0x80000000, 3600, ttl])
            ahead = rng.choice([0, 1, -1, 0x7FFFFFFF, 0x80000000, 0x80000001, 10])
            labels = max(0, labels + rng.choice([0, 0, 0, 0, -2, -1, 1]))
            rclass = rng.choice([IN] * 9 + [3, 255, 0])
            signer = rng.choice([zone] * 9 + [(), zone[1:], (b"a",) + zone, owner])
            count = rng.choice([0, 1, 1, 2, 3])
            items += [rng.choice(items)] * (rng.random() < 0.3)
            items += [random_octets(rng, 4)] * (rng.random() < 0.15 and rtype not in LAYOUTS)
        records = []
        for data in items:
            own_ttl = rng.choice([0, 5, 1 << 31, 100]) if is_faulty and rng.random() < 0.3 else ttl
            records.append((in_any_case(rng, owner) if rng.random() < 0.3 else owner, rtype, rclass, own_ttl, data))
        for number in range(count):
            parts = [labels, original, ahead, signer]
            if number and is_faulty and rng.random() < 0.5:  # one that differs from the first
                at = rng.randrange(4)
                parts[at] = (max(0, labels - 1), original ^ 1, rng.choice([0, -5]), zone[1:])[at]
            elif number and rng.random() < 0.5: parts[2] = rng.choice([5, 200, 0, -5])
            records.append(self.signature(owner, rtype, number, is_faulty, *parts))
        if is_faulty and rng.random() < 0.3: rng.shuffle(records)
        return records

    def signature(self, owner, rtype, number, is_faulty, labels, original, ahead, signer):
        rng = self.rng
        expiration, key_tag = (self.now + ahead) % AROUND, 1 + (number if rng.random() < 0.8 else 0)
        fixed = struct.pack(">HBBIIIH", rtype, 13, labels & 255, original, expiration, 900000000, key_tag)
        signer = wire_form(in_any_case(rng, signer) if rng.random() < 0.2 else signer)
        rclass = 3 if is_faulty and rng.random() < 0.1 else IN
        return owner, RRSIG, rclass, 3600, fixed + signer + rng.choice([b"ZZZZ", b"ZZZZ", b""])

    def nsec(self, zone, owner, following, types):
        rng = self.rng
        following = rng.choice(self.names) if self.faulty(0.6) else following
        types = types ^ {rng.choice([A, NS, CNAME, DNAME, TXT, DS, SOA])} if self.faulty(0.6) else types
        data = wire_form(in_any_case(rng, following) if rng.random() < 0.2 else following) + type_bit_maps(types)
        if self.faulty(0.3):
            data += rng.choice([b"\0", b"\0\1\0", b"\1\1\1", b"\0\x21" + b"\1" * 33, b"\xff\x20" + b"\xff" * 32])
        return self.signed(zone.apex, owner, NSEC, [data])

    def nsec3(self, zone, parameters, digest, following, types):
        rng, (salt, iterations, opt_out) = self.rng, parameters
        text, flags, algorithm, size = text_of_hash(digest), int(opt_out), 1, None
        text = text.upper() if rng.random() < 0.2 else text
        types = types ^ {rng.choice([A, NS, CNAME, DNAME, TXT, DS, 65535])} if self.faulty(0.6) else types
        if self.faulty(0.6):
            others = random_octets(rng, 20), following + b"\0", hash_of(rng.choice(self.names), salt, 0)
            following = rng.choice(others)
        text = rng.choice([text[:-1], text + b"0", text[:-1] + b"w", b"a"]) if self.faulty(0.2) else text
        if self.faulty(0.3):
            algorithm, flags, iterations, size = rng.choice(
                [(2, 0, 0, None), (1, 2, 0, None), (1, 255, 0, None), (1, flags ^ 1, iterations, None)]
                + [(1, flags, extra, None) for extra in (50, 51, 65535)]
                + [(1, flags, iterations, rng.randrange(30))]
            )
        data = nsec3_data(salt, iterations, flags, following, types, algorithm)[:size]
        return self.signed(zone.apex, (text,) + zone.apex, NSEC3, [data])

    def denials(self, zone, parameters):
        """The denial records of one of the zone's chains, in turn."""
        if parameters is None: return [self.nsec(zone, *link) for link in zone.nsec_chain()]
        if not fits((bytes(32),) + zone.apex): return []
        return [self.nsec3(zone, parameters, *link) for link in zone.nsec3_chain(*parameters)]

    def expanded(self, zone):
        """A wildcard's set, under a name that it gives (RFC 4035, section 3.1.3.3)."""
        rng = self.rng
        own = ((owner, rtype) for owner, rtype in zone.own_sets() if owner[:1] == (b"*",))
        wildcards = [(owner, rtype) for owner, rtype in own if rtype not in (DS, NS, SOA, DNAME)]
        if not wildcards: return []
        owner, rtype = rng.choice(wildcards)
        name = lowered(tuple(rng.choice(LABELS) for _ in range(rng.choice([1, 1, 2])))) + owner[1:]
        if not fits(name): return []
        return self.signed(zone.apex, name, rtype, zone.records[owner, rtype], label_count(owner))

    def odd_set(self):
        """A set of a type that isn't stored, or that has names of its own."""
        rng, name = self.rng, wire_form((b"M", b"ex"))
        data = {3: name, 9: name, 14: name * 2, 17: name * 2, 24: bytes(18) + name + b"x", 26: b"12" + name * 2}
        data |= {30: name + b"\2", 35: b"1234\1a\0\2bc" + name, RRSIG: bytes(18) + name}
        data |= dict.fromkeys((18, 21, 36), b"12" + name)
        rtype = rng.choice([0, OPT, 128, 255, 254, 256, *data])
        return self.signed(rng.choice(self.zones).apex, rng.choice(self.names), rtype, [data.get(rtype, b"abc")])

    def upstream(self):
        """An answer with some of a zone's sets, and some links of one of its chains."""
        rng = self.rng
        zone = rng.choice(self.zones)
        answers, authority = [], []
        if rng.random() < 0.6: authority += self.signed(zone.apex, zone.apex, SOA, zone.records[zone.apex, SOA])
        own = list(zone.own_sets())
        for _ in range(rng.choice([0, 0, 1, 1, 2])):
            key = rng.choice(own)
            answers += self.signed(zone.apex, *key, zone.records[key])
        if rng.random() < 0.4: answers += self.expanded(zone)
        if rng.random() < 0.75:
            links = self.denials(zone, rng.choice(self.chains[zone.apex]))
            for link in rng.sample(links, min(len(links), rng.randint(1, 5))): authority += link
        if self.faulty(0.5): rng.choice([answers, authority]).extend(self.odd_set())
        if self.faulty(): rng.shuffle(authority)
        flags, additional = RESPONSE | rng.choice([0, 0, 0, 3]), []
        if rng.random() < 0.5: additional.append(((), OPT, 1232, 0x8000, b""))
        flags = self.odd_ends(flags, answers, additional) if self.faulty(0.5) else flags
        octets = message(rng, rng.choice(self.names), A, flags, (answers, authority, additional), rng.random() < 0.5)
        return mutated(rng, octets) if self.faulty(0.4) else octets

    def odd_ends(self, flags, answers, additional):
        """Flags of another kind, OPT records in odd places, records without signatures."""
        rng = self.rng
        glue = (rng.choice(self.names), A, IN, 60, b"\1\2\3\4")
        way = rng.randrange(6)
        if way == 0:
            rcode = rng.choice([0, 1, 2, 3, 4, 5, rng.randrange(16)])
            kinds = flags & ~0x20, flags | 0x200, flags & ~0x8000, flags & ~15 | rcode, flags | 0x800, flags | 0x450
            return rng.choice(kinds)
        if way == 1: additional.append(((), OPT, 1232, rng.choice([0x01000000, 0xFF000000, 0, 0x00FF0000]), b""))
        elif way == 2: additional.insert(0, ((b"x",), OPT, 1232, 0x01000000, b""))
        elif way == 3: answers.append(((), OPT, 1232, 0x01000000, b""))
        else: (additional if way == 4 else answers).append(glue)
        return flags

    def query(self):
        rng = self.rng
        name = rng.choice(self.names)
        name = (rng.choice(LABELS),) * rng.randint(1, 60) + name if rng.random() < 0.05 else name
        while not fits(name): name = name[1:]
        rtype = rng.choice(self.ASKED_TYPES if rng.random() < 0.93 else ODD_TYPES)
        rclass = IN if rng.random() < 0.97 else rng.choice([0, 3, 255])
        flags = 0x100 * (rng.random() < 0.8) | 0x20 * (rng.random() < 0.4) | 0x10 * (rng.random() < 0.3)
        if rng.random() < 0.05: flags |= rng.choice([0x400, 0x200, 0x80, 0x40, 0x800, 0x2800, 0x8000, 0x7])
        count = rng.choice([0] * 30 + [1] * 69 + [2])
        options = b"".join([self.option() for _ in range(count)])
        counts = (0, 0, count) if rng.random() < 0.98 else rng.choice([(count, 0, 0), (0, 0, 2), (1, 0, 0)])
        octets = struct.pack(">6H", rng.randrange(65536), flags, 1, *counts)
        octets += wire_form(in_any_case(rng, name) if rng.random() < 0.5 else name)
        octets += struct.pack(">HH", rtype, rclass) + options
        return mutated(rng, octets) if rng.random() < 0.04 + self.faults * 0.1 else octets

    def option(self):
        """An OPT record, now and then with another version, another owner or options (RFC 6891, section 6.1)."""
        rng = self.rng
        owner = b"\0" if rng.random() < 0.98 else rng.choice([b"\1a\0", b"\xc0\x0c", b"\xc0\x00"])
        size = rng.choice([1232, 1232, 4096, 512, 0, 511, 600, 65535, 300, 280])
        version = 0 if rng.random() < 0.96 else rng.randint(1, 255)
        flags = (0x8000 if rng.random() < 0.7 else 0) | (0 if rng.random() < 0.9 else rng.randrange(0x8000))
        data = b"" if rng.random() < 0.8 else struct.pack(">HH", 10, 8) + bytes(8)
        rtype = OPT if rng.random() < 0.97 else rng.choice([A, 250])
        return owner + struct.pack(">HHBBHH", rtype, size, rng.choice([0, 0, 0, 255]), version, flags, len(data)) + data

    def mixed(self, count):
        """Answers and queries by turns, while the clock goes on, and now and then back."""
        rng, frames = self.rng, []
        for number in range(count):
            self.pass_time([0] * 20 + [1, 1, 5, 10, 60, 250, 3000 if rng.random() < 0.3 else 1])
            if rng.random() < 0.01: self.now = max(0, self.now - rng.choice([1, 100, 4000]))
            often = rng.random()
            if often < 0.35 or number < 2: frames.append((UPSTREAM, self.now, self.upstream()))
            elif often < 0.99: frames.append((QUERY, self.now, self.query()))
            else:
                octets = random_octets(rng, rng.choice([0, 5, 11, 12, 13, 30, 80]))
                frames.append((rng.choice([QUERY, UPSTREAM]), self.now, octets))
        return frames

    def loaded(self, count):
        """Most of each zone in a few answers, and then queries."""
        rng = self.rng
        for zone in self.zones:
            for _ in range(rng.randint(1, 5)):
                zone.add_some(rng.choice([1, 1, 2, 3]), (b"a", b"b", b"w", b"*", b"*", b"x", b"(x"))
        self.find_names()
        frames = [frame for zone in self.zones for frame in self.load(zone, zone.own_sets(), self.SHARE)]
        for _ in range(count):
            self.pass_time([0] * 10 + [1, 7, 40, 300 if rng.random() < 0.1 else 0])
            frames.append((QUERY, self.now, self.query()))
        return frames

    def load(self, zone, keys, share):
        """The answers that bring most of a zone's denial records and wildcards, and a share of its other sets."""
        rng, frames = self.rng, []
        sets = [self.signed(zone.apex, zone.apex, SOA, zone.records[zone.apex, SOA])]
        for parameters in self.chains[zone.apex][: rng.choice([1, 1, 2, 4])]:
            sets += [link for link in self.denials(zone, parameters) if rng.random() < 0.85]
        for owner, rtype in keys:
            if rtype != SOA and rng.random() < (0.8 if owner[:1] == (b"*",) else share):
                sets.append(self.signed(zone.apex, owner, rtype, zone.records[owner, rtype]))
        rng.shuffle(sets)
        while sets:
            some = rng.randint(1, 8)
            records, sets = [record for one in sets[:some] for record in one], sets[some:]
            flags = RESPONSE | rng.choice([0, 3])
            octets = message(rng, rng.choice(self.names), A, flags, ([], records, []), rng.random() < 0.5)
            frames.append((UPSTREAM, self.now, octets))
            self.pass_time([0, 0, 0, 1])
        return frames
