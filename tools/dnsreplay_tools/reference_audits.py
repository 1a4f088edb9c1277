"""What `dnsreplay audit` finds, said once more: a part of the reference model.

An output fits its input where it is what workers may answer, and the zone is as each reply's records say.
"""
import bisect, collections, functools, itertools
from .reference_messages import Malformed, canonical, check, hash_of, is_under, lowered, read_name
from .reference_model import (
    CNAME, DS, ERROR, FORWARD, HEAD, NS, NSEC, NSEC3, QUERY, REPLY, RRSIG, STORED, UPSTREAM,
)  # fmt: skip
from .reference_replies import Model
from .reference_zones import Zone

MOST_RECORDS = 65_536
MOST_WORKERS = 32
NSEC_CHAIN = (0,)

class Ring:
    """Names by their keys, names themselves or hashes, which go round."""
    def __init__(self, pairs):
        self.names = collections.defaultdict(list)
        for key, name in pairs: self.names[key].append(name)
        self.keys = sorted(self.names)

    def inside(self, start, end):
        """A name strictly inside the arc from the start to the end, or None: the next one after the start, if any."""
        if not self.keys: return None
        key = self.keys[bisect.bisect_right(self.keys, start) % len(self.keys)]
        is_inside = start < key < end if start < end else key != start and (key > start or key < end)
        return self.names[key][0] if is_inside else None

class GivenZone(Zone):
    """A zone whose live owner names, names and hashes are found once, when all is added."""
    def __init__(self, apex):
        super().__init__(apex)
        self.types_of, self.hashed = collections.defaultdict(set), {}

    def add(self, owner, rtype, data):
        check(is_under(owner, self.apex) and rtype not in (RRSIG, NSEC, NSEC3))
        self.records.setdefault((owner, rtype), set()).add(data)
        self.types_of[owner].add(rtype)

    def types(self, owner): return self.types_of.get(owner, set())

    @functools.cached_property
    def live(self): return Ring((canonical(owner), owner) for owner in self.live_owners())

    def hashes(self, salt, iterations):
        """The names that exist, by their hashes."""
        key = salt, iterations
        if key not in self.hashed: self.hashed[key] = Ring((hash_of(name, *key), name) for name in self.existing())
        return self.hashed[key]

    def names_by_hash(self, held):
        """Those with the hash of an NSEC3 record's owner name."""
        _, iterations, salt = held.chain
        return self.hashes(salt, iterations).names.get(held.start, [])

    def has_types(self, owner, types):
        """Whether the types are the owner name's; at a cut, where the parent shows few, of these alone."""
        told, own = types - {RRSIG, NSEC, NSEC3}, self.types(owner)
        return not (told ^ own) & {NS, DS, CNAME} if self.is_cut(owner) else told == own

def why_untrue(zone, held):
    """What of a zone isn't as a held record says, in words, or None."""
    if held.zone != zone.apex: return "it is of another zone"
    return (untrue_set if held.chain is None else untrue_nsec if held.chain == NSEC_CHAIN else untrue_nsec3)(zone, held)

def untrue_set(zone, held):
    data = zone.records.get((held.owner, held.rtype), set())
    if data != set(held.items): return "the zone has other data there" if data else "the zone has no such set"
    if not zone.is_live(held.owner): return "its owner name is below a cut or a DNAME"
    if zone.is_cut(held.owner) and held.rtype != DS: return "its owner name is a cut"
    return None

def untrue_nsec(zone, held):
    if held.start not in zone.live.names: return "its owner name owns nothing in the zone"
    if held.end not in zone.live.names: return "its next name owns nothing in the zone"
    if not zone.has_types(held.owner, held.types): return "the zone has other types there"
    inside = zone.live.inside(held.start, held.end)
    return None if inside is None else f"the zone has a name between the two: {text_of(inside)}"

def untrue_nsec3(zone, held):
    _, iterations, salt = held.chain
    names = zone.names_by_hash(held)
    if not names: return "no name of the zone has the hash"
    if not any(zone.has_types(name, held.types) for name in names): return "the zone has other types there"
    inside = None if held.opt_out else zone.hashes(salt, iterations).inside(held.start, held.end)
    return None if inside is None else f"the zone has a name whose hash is between the two: {text_of(inside)}"

def text_of(name):
    """In master format (RFC 1035, section 5.1)."""
    def sign(octet): return chr(octet) if 33 <= octet <= 126 and chr(octet) not in '."$();@\\' else f"\\{octet:03}"

    return "".join("".join(map(sign, label)) + "." for label in name) or "."

def has_clash(zone, name, salt, iterations):
    """Whether a name that exists has the hash of another that a proof by hashes turns on: the question's, an ancestor
    in the zone, or the wildcard below one."""
    above = [name[count:] for count in range(1, len(name) - len(zone.apex) + 1)]
    asked = [name, *above, *((b"*",) + each for each in above)]
    names = zone.hashes(salt, iterations).names
    return any(other != each for each in asked for other in names.get(hash_of(each, salt, iterations), ()))

Entry = collections.namedtuple("Entry", "kind worker number body")  # a frame; the number is a moment or a version

def read_frames(octets, kinds):
    entries, at = [], 0
    while at < len(octets):
        check(at + HEAD.size <= len(octets))
        kind, worker, number, size = HEAD.unpack_from(octets, at)
        at += HEAD.size + size
        check(kind in kinds and at <= len(octets))
        entries.append(Entry(kind, worker, number, octets[at - size : at]))
    return entries

class Source:
    """What is left of the octets that an audit reads."""
    def __init__(self, octets): self.octets, self.at = octets, 0

    def take(self, size):
        check(self.at + size <= len(self.octets))
        self.at += size
        return self.octets[self.at - size : self.at]

    def number(self, size): return int.from_bytes(self.take(size), "big")
    def counted(self, size): return self.take(self.number(size))

    def name(self):
        octets = self.counted(2)
        labels, end = read_name(octets, 0, pointers=False)
        check(end == len(octets))
        return lowered(labels)

class Audit:
    """A zone, an input and an output."""
    def __init__(self, octets):
        source = Source(octets)
        self.zone, count = GivenZone(source.name()), source.number(4)
        check(count <= MOST_RECORDS)
        for _ in range(count): self.zone.add(source.name(), source.number(2), source.counted(2))
        self.inputs = read_frames(source.counted(4), (QUERY, UPSTREAM))
        self.outputs = read_frames(source.counted(4), range(REPLY, ERROR + 1))
        check(source.at == len(octets))
        # when outcomes have been looked at: the walks of replies, and what the last frame looked at should be
        self.walks, self.wanted = {}, None

    def unfit(self):
        """The number of the first clause that is broken, and a frame at which it is; or None."""
        clauses = self.other_worker, self.other_version, self.other_outcome, self.out_of_order
        found = ((clause, look()) for clause, look in enumerate(clauses, 1))
        return next((each for each in found if each[1] is not None), None)

    def other_worker(self):
        """One output frame for each input frame, of its worker, one of 32."""
        pairs = enumerate(itertools.zip_longest(self.inputs, self.outputs))
        unlike = (at for at, pair in pairs if None in pair or not pair[0].worker == pair[1].worker < MOST_WORKERS)
        return next(unlike, None)

    def other_version(self):
        """The versions of stored answers are 1 to their number, each once."""
        placed = sorted((each.number, at) for at, each in enumerate(self.outputs) if each.kind == STORED)
        return next((at for turn, (version, at) in enumerate(placed, 1) if version != turn), None)

    def other_outcome(self):
        """Each output frame is what its input frame gets after as many stored answers as it says."""
        model = Model()
        for at in self.in_order(range(len(self.outputs))):
            kind, _, version, body = self.outputs[at]
            self.wanted = self.given(model, at)
            if self.wanted != (kind, version, body): return at
            if kind == REPLY: self.walks[at] = model.walk
        return None

    def out_of_order(self):
        """A worker's versions don't fall, and rise where it stores."""
        newest = collections.Counter()
        for at, (kind, worker, version, _) in enumerate(self.outputs):
            if kind in (REPLY, FORWARD, STORED):
                if version < newest[worker] + (kind == STORED): return at
                newest[worker] = version
        return None

    def in_order(self, places):
        """In order of version, at one version the stored answer first."""
        return sorted(places, key=lambda at: (self.outputs[at].number, self.outputs[at].kind != STORED))

    def given(self, model, at):
        kind, _, now, message = self.inputs[at]
        return model.frame(kind, now, message)

    def walk_at(self, at):
        """That of one reply, by the answers that were stored before it alone."""
        model, version = Model(), self.outputs[at].number
        stored = [at for at, each in enumerate(self.outputs) if each.kind == STORED and each.number <= version]
        for each in [*self.in_order(stored), at]: self.given(model, each)
        return model.walk

    def has_clash(self, walk):
        chains = {held.chain for held in walk.proof.denials if held.chain != NSEC_CHAIN}
        return any(has_clash(self.zone, walk.name, salt, iterations) for _, iterations, salt in chains)

    def used(self):
        """The records that prove the replies, where the output fits."""
        return [] if self.unfit() else [held for walk in self.walks.values() for held in walk.proof.used()]

    def line(self):
        unfit = self.unfit()
        if unfit is not None: return f"no unfit {unfit[0]}"
        known = {}
        for at, walk in sorted(self.walks.items()):
            for place, held in enumerate(walk.proof.used()):
                if id(held) not in known: known[id(held)] = why_untrue(self.zone, held)
                if known[id(held)] is not None: return f"no record {at} {place}"
            if self.has_clash(walk): return f"no clash {at}"
        return f"yes {len(self.walks)}"

def audit(octets):
    """The line that is told, or None where the octets aren't of the form that is read."""
    try:
        return Audit(octets).line()
    except Malformed:
        return None
