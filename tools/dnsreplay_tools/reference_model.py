"""What one worker of dnsreplay holds and what that proves, said once more, to be compared with the program.

It is written from the same rules that docs/rules states, and from none of the program's code; it shares no structure
with it, and has no threads. The clock is the frame's moment alone, in seconds since 1970.
"""
import bisect, heapq, struct
from collections import namedtuple
from .reference_messages import (
    NAME_ERROR, NO_ERROR, OPT, Malformed, canonical, common_ancestor, hash_of, hash_of_text, is_below, is_under,
    label_count, lowered, read_message, read_name, read_types, u16, u32, wire_form,
)  # fmt: skip

HEAD = struct.Struct(">BBIH")  # of a frame: kind, worker, moment or version, length of what follows
QUERY, UPSTREAM = 1, 2
REPLY, FORWARD, STORED, REFUSED, DROPPED, ERROR = 1, 2, 3, 4, 5, 6
MALFORMED, NOT_RESPONSE, TRUNCATED, NOT_AUTHENTIC, NOTHING, OTHER_RCODE = 1, 2, 3, 4, 5, 7  # why an answer is refused

IN = 1
NS, CNAME, SOA, DNAME, DS, RRSIG, NSEC, NSEC3 = 2, 5, 6, 39, 43, 46, 47, 50
# MD, MF, MB, MG, MR, MINFO, RP, AFSDB, RT, SIG, PX, NXT, NAPTR, KX: signed in a form of their own (RFC 4034, 6.2)
NEVER_STORED = frozenset((3, 4, 7, 8, 9, 14, 17, 18, 21, 24, 26, 30, 35, 36))
MOST_HELD = 131_072
MOST_ITERATIONS = 50  # RFC 9276, section 3.2
LIFE_OF_DENIALS, LIFE_OF_SETS = 10_800, 86_400  # RFC 8198, section 5.4, for the first
AROUND = 1 << 32  # moments of signatures are told modulo this (RFC 4034, section 3.1.5)
ANSWER, NO_DATA, NO_NAME = "answer", "no data", "name error"
MATCHES, EMPTY, COVERS = "matches", "empty non-terminal", "covers"

class Held:
    """A stored set, or a denial record; what stands in the class is told of a denial record alone.

    `chain` is `(0,)` for the NSEC records of a zone, and `(1, iterations, salt)` for its NSEC3 records of these.
    """
    chain = start = end = next_name = None  # the arc is from a start to an end: names in canonical order, or hashes
    types, opt_out = frozenset(), False

    def __init__(self, zone, owner, rtype, life, expiry, items, signatures):
        self.zone, self.owner, self.rtype, self.life, self.expiry = zone, owner, rtype, life, expiry
        self.items, self.signatures = items, signatures

    def ranked(self):
        """Where it goes in a full cache: what expires first, then sets before denial records, then in order of keys."""
        zone = canonical(self.zone)
        key = (0, zone, canonical(self.owner), self.rtype) if self.chain is None else (1, zone, *self.chain, self.start)
        self.rank = (self.expiry, key)
        return self

    def has(self, key):
        """Whether the key lies from the start to before the end; an end that isn't after the start is met over the end
        of the order (RFC 4034, section 4.1.1; RFC 5155, section 3.1.7)."""
        return self.start <= key < self.end if self.start < self.end else self.start <= key or key < self.end

    def remaining(self, now):
        """The seconds that it may be used, never more than its life, also where the clock has gone back."""
        return 0 if self.expiry <= now else min(self.life, self.expiry - now)

    def hands_on(self):
        """Whether the names below its owner are another zone's, or a DNAME's (RFC 6840, section 4.1; RFC 5155, 8.3)."""
        return DNAME in self.types or NS in self.types and self.owner != self.zone

def take_in(octets, now):
    """Why nothing of an upstream answer is stored, as a number, or 0; then what is stored, and how many groups aren't.

    The first that stands, in this order, refuses it. That signatures verify is the word of the upstream resolver (AD).
    """
    try:
        flags, rcode, records = read_message(octets)
    except Malformed:
        return MALFORMED, [], 0
    refusals = (
        (NOT_RESPONSE, not flags & 0x8000 or flags >> 11 & 15),
        (TRUNCATED, flags & 0x200),
        (OTHER_RCODE, rcode not in (NO_ERROR, NAME_ERROR)),
        (NOT_AUTHENTIC, not flags & 0x20),
    )
    for code, stands in refusals:
        if stands: return code, [], 0
    groups, signatures = groups_of(records, now)
    kept = [stored(key, groups[key], list(signatures.get((key[0], key[2]), ())), now) for key in groups]
    batch = [record.ranked() for record in kept if record is not None]
    return (0 if batch else NOTHING), batch, len(kept) - len(batch)

def groups_of(records, now):
    """The records of one owner name, class and type (RFC 2181, section 5), and the usable signatures, each once.

    Usable is what has class IN and expires 1 to 2^31 - 1 seconds from now (RFC 4034, section 3.1.5; RFC 1982).
    """
    groups, signatures = {}, {}
    for record in records:
        if record.rtype != RRSIG: groups.setdefault((record.owner, record.rclass, record.rtype), []).append(record)
        elif record.rclass == IN and 0 < (u32(record.data, 8) - now) % AROUND < AROUND // 2:
            signatures.setdefault((record.owner, u16(record.data, 0)), {})[record.data] = True
    return groups, signatures

def stored(key, records, signatures, now):
    """What is stored of a group, or None: all signatures agree in signer, labels and original TTL, it has a life."""
    owner, rclass, rtype = key
    if rclass != IN or not is_of_a_zone(rtype) or rtype in NEVER_STORED or not signatures: return None
    agreed = {(lowered(read_name(data, 18)[0]), data[3], u32(data, 4)) for data in signatures}
    if len(agreed) != 1: return None
    zone, labels, original = agreed.pop()
    owner_now = owner_stored(owner, rtype, zone, labels)
    items = list(dict.fromkeys(record.data for record in records))
    if owner_now is None or rtype in (SOA, CNAME, DNAME, NSEC, NSEC3) and len(items) != 1: return None
    # a TTL with its top bit set counts as 0 (RFC 2181, section 8); no life is longer than the original TTL or the time
    # of a signature (RFC 4035, section 5.3.3)
    lives = [0 if record.ttl >= 1 << 31 else record.ttl for record in records]
    lives += [original, LIFE_OF_DENIALS if rtype in (NSEC, NSEC3) else LIFE_OF_SETS]
    lives += [(u32(data, 8) - now) % AROUND for data in signatures]
    if min(lives) == 0: return None
    held = Held(zone, owner_now, rtype, min(lives), now + min(lives), items, signatures)
    try:
        return {NSEC: as_nsec, NSEC3: as_nsec3}.get(rtype, lambda held: held)(held)
    except Malformed:
        return None

def is_of_a_zone(rtype):
    """Neither a signature nor a type that asks of a server and not of a zone (RFC 6895, section 3.1)."""
    return rtype not in (0, OPT, RRSIG) and not 128 <= rtype <= 255

def owner_stored(owner, rtype, zone, labels):
    """The owner name that a set is stored under, or None.

    It is under the zone; a DS set's is below it (RFC 4035, section 2.4), and the apex has SOA and NS. With fewer labels
    signed than the owner name has it was expanded from a wildcard (RFC 4035, section 5.3.2), which is no matter of
    types that speak of their own owner name.
    """
    own = label_count(owner)
    if not is_under(owner, zone) or rtype == DS and owner == zone or rtype in (SOA, NS) and owner != zone: return None
    if not len(zone) <= labels <= own or labels < own and rtype in (NSEC, NSEC3, DS, SOA, NS): return None
    return owner if labels == own else (b"*",) + owner[len(owner) - labels :]

def as_nsec(held):
    """An NSEC record: the next owner name, under the zone, and type bit maps (RFC 4034, section 4.1)."""
    data = held.items[0]
    following, at = read_name(data, 0, pointers=False)
    held.types = read_types(data[at:])
    held.next_name = lowered(following)
    if not is_under(held.next_name, held.zone): raise Malformed
    held.chain, held.start, held.end = (0,), canonical(held.owner), canonical(held.next_name)
    return held

def as_nsec3(held):
    """An NSEC3 record (RFC 5155, section 3.2): SHA-1, no flag but Opt-Out (section 8.2), not too many iterations, and
    an owner name that is the text of a hash in front of the zone."""
    data = held.items[0]
    salt_end = 5 + data[4] if len(data) > 4 else 5
    end = salt_end + 1 + data[salt_end] if len(data) > salt_end else salt_end + 1
    if len(data) < end or data[salt_end] != 20: raise Malformed
    iterations = u16(data, 2)
    held.types = read_types(data[end:])
    if data[0] != 1 or data[1] > 1 or iterations > MOST_ITERATIONS or held.owner[1:] != held.zone or not held.owner:
        raise Malformed
    held.chain = (1, iterations, data[5:salt_end])
    held.start, held.end = hash_of_text(held.owner[0]), data[end - 20 : end]
    held.opt_out = data[1] == 1
    return held

class Chain:
    """The NSEC records of a zone, or its NSEC3 records of one salt and number of iterations, in order of their starts.

    No two arcs of it meet, so the arc that has a key, if one has it, is the last one that begins at or before the key,
    or, where all begin after it, the last of all.
    """
    def __init__(self, parameters): self.parameters, self.starts, self.records = parameters, [], []

    def at(self, key):
        if self.records:
            record = self.records[bisect.bisect_right(self.starts, key) - 1]
            if record.has(key): return record
        return None

    def add(self, record):
        """Takes in a record, in the place of those whose arcs meet its own: of which one has the other's start."""
        meeting = self.at(record.start)
        low, high = bisect.bisect_left(self.starts, record.start), bisect.bisect_left(self.starts, record.end)
        begun = self.records[low:high] if record.start < record.end else self.records[low:] + self.records[:high]
        gone = {id(other) for other in begun} | {id(meeting)}
        if meeting is not None or begun: self.keep(lambda other: id(other) not in gone)
        low = bisect.bisect_left(self.starts, record.start)
        self.starts.insert(low, record.start)
        self.records.insert(low, record)

    def keep(self, test):
        self.records = [record for record in self.records if test(record)]
        self.starts = [record.start for record in self.records]

class HeldZone:
    """What is held of a zone: its sets, and its chains, the newest first."""
    def __init__(self): self.sets, self.chains = {}, []

    def add(self, record):
        """A set takes the place of its owner name's and type's. A chain that isn't held is put first; a third goes."""
        if record.chain is None:
            self.sets[record.owner, record.rtype] = record
            return
        chain = next((chain for chain in self.chains if chain.parameters == record.chain), None)
        if chain is None:
            chain = Chain(record.chain)
            self.chains = [chain, *self.chains][:2]
        chain.add(record)

    def keep(self, test):
        self.sets = {key: record for key, record in self.sets.items() if test(record)}
        for chain in self.chains: chain.keep(test)
        self.chains = [chain for chain in self.chains if chain.records]

    def records(self):
        yield from self.sets.values()
        for chain in self.chains: yield from chain.records

class Cache:
    def __init__(self): self.zones, self.version, self.first_expiry = {}, 0, 0

    def insert(self, batch, now):
        """What has expired goes, each record of the batch takes its place, and of too many the first in rank go."""
        if self.first_expiry <= now:
            self.keep(lambda record: record.expiry > now)
            self.first_expiry = min((record.expiry for record in self.records()), default=AROUND * 2)
        for record in batch:
            self.zones.setdefault(record.zone, HeldZone()).add(record)
            self.first_expiry = min(self.first_expiry, record.expiry)
        held = sum(len(zone.sets) + sum(len(chain.records) for chain in zone.chains) for zone in self.zones.values())
        if held > MOST_HELD:
            first = heapq.nsmallest(held - MOST_HELD, self.records(), key=lambda record: record.rank)
            gone = {id(record) for record in first}
            self.keep(lambda record: id(record) not in gone)
        self.version += 1

    def keep(self, test):
        for zone in self.zones.values(): zone.keep(test)
        self.zones = {apex: zone for apex, zone in self.zones.items() if zone.sets or zone.chains}

    def records(self):
        for zone in self.zones.values(): yield from zone.records()

class Proof(namedtuple("Proof", "kind answer soa denials")):
    """An answer, and the records that prove it: a set, or the zone's SOA, and the denial records in turn."""
    def used(self): return [record for record in (self.answer, self.soa, *self.denials) if record is not None]

def zone_of(cache, name, rtype):
    """The longest name at or above the name, above it for DS (RFC 4035, section 3.1.4.1), of which anything is held,
    expired or not; or None."""
    within = is_below if rtype == DS else is_under
    return max((apex for apex in cache.zones if within(name, apex)), key=len, default=None)

def prove(cache, name, rtype, now):
    """The proof that what is held has of a name and a type, or None.

    A set at the name answers (RFC 1034, section 5.3.3); then the chains of its zone, the newest first.
    """
    apex = zone_of(cache, name, rtype)
    if apex is None: return None
    search = Search(cache.zones, apex, name, rtype, now)
    answer = search.set_at(name, rtype)
    if answer is not None: return Proof(ANSWER, answer, None, [])
    for chain in search.zone.chains:
        search_names = search.by_nsec if chain.parameters == (0,) else search.by_nsec3
        proof = search.own_types(chain) or search_names(chain)
        if proof is not None: return proof
    return None

class Search:
    """The search for a proof over what is held of one zone; a denial names the zone's SOA (RFC 2308, section 3)."""
    def __init__(self, zones, apex, name, rtype, now):
        self.zone, self.apex, self.name, self.rtype, self.now = zones[apex], apex, name, rtype, now
        self.soa = self.set_at(apex, SOA)

    def set_at(self, owner, rtype):
        record = self.zone.sets.get((owner, rtype))
        return record if record is not None and record.expiry > self.now else None

    def evidence(self, chain, name):
        """What a chain says of a name, and the record that says it: unexpired, whose arc has the name, or its hash.

        It matches where it begins there. An NSEC record whose next name is below the name shows an empty non-terminal
        (RFC 4592, section 2.2.2), and isn't used where its owner hands on the names below it (RFC 6840, section 4.1).
        Else it covers the name; of NSEC3 records not one with Opt-Out (RFC 5155, section 6; RFC 8198, section 5.2).
        """
        is_nsec = chain.parameters == (0,)
        key = canonical(name) if is_nsec else hash_of(name, chain.parameters[2], chain.parameters[1])
        record = chain.at(key)
        if record is None or record.expiry <= self.now: return None, None
        if is_nsec and is_below(name, record.owner) and record.hands_on(): return None, None
        if record.start == key: return MATCHES, record
        if is_nsec and is_below(record.next_name, name): return EMPTY, record
        return (None, None) if record.opt_out else (COVERS, record)

    def own_types(self, chain):
        """No data, as a record matches the name and denies the type, or shows the name empty.

        Types deny one that they don't have, where they don't have CNAME; those of a zone cut, which has NS and isn't
        the apex, deny DS alone (RFC 4035, section 5.4; RFC 5155, sections 8.5 and 8.6; RFC 6840, sections 4.1 and 4.3).
        """
        how, record = self.evidence(chain, self.name)
        if self.soa is None or how not in (MATCHES, EMPTY): return None
        is_cut = NS in record.types and self.name != self.apex and self.rtype != DS
        if how == MATCHES and (is_cut or {self.rtype, CNAME} & record.types): return None
        return Proof(NO_DATA, None, self.soa, [record])

    def by_nsec(self, chain):
        """Where a record covers the name, the closest encloser is the longest name above it that is above the record's
        owner or next name too; the asterisk label below is the source of synthesis (RFC 4592, section 3.3.1)."""
        how, record = self.evidence(chain, self.name)
        if how != COVERS: return None
        enclosers = common_ancestor(self.name, record.owner), common_ancestor(self.name, record.next_name)
        return self.by_source(chain, max(enclosers, key=len), record)

    def by_nsec3(self, chain):
        """Each name above the name is taken for the closest encloser, the longest first, down to the apex; the next
        closer name, a label longer, has to be covered (RFC 5155, sections 8.3 and 8.4)."""
        for count in range(1, len(self.name) - len(self.apex) + 1):
            how, record = self.evidence(chain, self.name[count - 1 :])
            proof = self.by_source(chain, self.name[count:], record) if how == COVERS else None
            if proof is not None: return proof
        return None

    def by_source(self, chain, encloser, covering):
        """What the source of synthesis below the closest encloser makes of a name that is covered.

        A set of the type there answers, but for DS (RFC 4592, section 4.6). Else there is no data where its own types
        have neither the type nor CNAME, NS or DNAME (RFC 4592, sections 4.2 and 4.4), or where it is empty, and no name
        where it is covered. With NSEC3 the encloser has to have a record of its own, which hands nothing on (RFC 5155,
        section 8.3).
        """
        source = (b"*",) + encloser
        if len(wire_form(source)) > 255: return None
        answer = self.set_at(source, self.rtype) if self.rtype != DS else None
        if answer is not None: return Proof(ANSWER, answer, None, [covering])
        denials = [covering]
        if chain.parameters != (0,):
            how, own = self.evidence(chain, encloser)
            if how != MATCHES or DNAME in own.types or NS in own.types and encloser != self.apex: return None
            denials = [own, covering] if own is not covering else [own]
        how, record = self.evidence(chain, source)
        if self.soa is None or how is None or how == MATCHES and {self.rtype, CNAME, NS, DNAME} & record.types:
            return None
        denials += [record] if all(record is not other for other in denials) else []
        return Proof(NO_NAME if how == COVERS else NO_DATA, None, self.soa, denials)
