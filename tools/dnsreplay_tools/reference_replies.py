"""What one worker of dnsreplay answers to each frame, by what is held: the walk that a command allows, and its octets.

A part of the reference model. A walk goes on from name to name, by the name's alias (RFC 1034, section 3.6.2) or by a
DNAME above it (RFC 6672, section 3.2), up to one of which something is proved. All replies are made anew.
"""
import struct
from collections import namedtuple
from .reference_messages import (
    BAD_VERSION, LEAST_PAYLOAD, NAME_ERROR, NO_ERROR, OPT, TARGET_TOO_LONG, Malformed, is_below, lowered, read_name,
    read_query, u32, wire_form,
)  # fmt: skip
from .reference_model import (
    ANSWER, CNAME, DNAME, DROPPED, DS, ERROR, FORWARD, IN, NO_NAME, NSEC, NSEC3, QUERY, REFUSED, REPLY, RRSIG, STORED,
    Cache, Held, is_of_a_zone, prove, take_in, zone_of,
)  # fmt: skip

PAYLOAD = 1_232
MOST_IN_NAME = 255

Rule = namedtuple("Rule", "links aliases redirections")  # the most links, and what they may be
RULES = {
    "replay": Rule(0, False, False),
    "chase": Rule(8, True, False),
    "redirect": Rule(1, False, True),
    "follow": Rule(8, True, True),
}

class Link(namedtuple("Link", "name set denials target")):
    """From a name by its CNAME set, which these denial records may prove, or by the DNAME set above it, to the target,
    which is None where it would be too long."""
    def shown(self):
        """Its sets with the names that own them; behind the DNAME set's the CNAME that it makes, without a signature
        (RFC 6672, sections 3.1 and 5.3.1)."""
        if self.set.rtype == CNAME: return [(self.name, self.set)]
        sets = [(self.set.owner, self.set)]
        if self.target is not None:
            data = [wire_form(self.target)]
            sets.append((self.name, Held(self.set.zone, self.name, CNAME, self.set.life, self.set.expiry, data, [])))
        return sets

class Walk(namedtuple("Walk", "links name proof")):
    """Links from the question's name to the last name, and what is proved of that; None where the last link ends it."""
    def rcode(self):
        """That of the last name (RFC 6604, section 3), or what tells a target that is too long (RFC 6672, 2.2)."""
        if self.proof is None: return TARGET_TOO_LONG if self.links[-1].target is None else NO_ERROR
        return NAME_ERROR if self.proof.kind == NO_NAME else NO_ERROR

    def answers(self):
        """The sets of the answer, and the name that owns each. A DNAME set of two links stands once, at the first of
        them (RFC 2181, section 5)."""
        shown = [each for link in self.links for each in link.shown()]
        sets = list({(owner, held.rtype): (owner, held) for owner, held in shown}.values())
        return sets + [(self.name, self.proof.answer)] if self.proof and self.proof.answer else sets

    def soa(self): return [self.proof.soa] if self.proof and self.proof.soa else []

    def denials(self):
        """Each record once, where it is used first."""
        records = [record for link in self.links for record in link.denials]
        records += self.proof.denials if self.proof else []
        return list({id(record): record for record in records}.values())

    def time_to_live(self, now):
        """The least of the seconds that the records have left, and in a denial of the SOA's MINIMUM, the last four
        octets of its data (RFC 2308, section 5; RFC 8198, section 5.4; RFC 6672, section 3.1)."""
        used = [held for _, held in self.answers()] + self.soa() + self.denials()
        least = min(record.remaining(now) for record in used)
        if not self.soa(): return least
        data = self.proof.soa.items[0]
        return min(least, u32(data, len(data) - 4) if len(data) >= 4 else 0)

def walk(cache, rule, name, rtype, now):
    """The walk that a rule allows from a name, or None: what is proved ends it; else its alias goes before a DNAME."""
    links = []
    while True:
        proof = prove(cache, name, rtype, now)
        if proof is not None: return Walk(links, name, proof)
        link = by_alias(cache, name, rtype, now) if rule.aliases else None
        if link is None and rule.redirections: link = by_dname(cache, name, rtype, now)
        if link is None or len(links) == rule.links: return None
        links.append(link)
        if link.target is None or link.set.rtype == DNAME and rtype == CNAME: return Walk(links, name, None)
        name = link.target

def by_alias(cache, name, rtype, now):
    """By a proof of the name's CNAME; a DS, which the parent has, isn't asked for by an alias (RFC 4035, 3.1.4.1)."""
    proof = prove(cache, name, CNAME, now) if rtype != DS else None
    target = one_name(proof.answer) if proof is not None and proof.kind == ANSWER else None
    return None if target is None else Link(name, proof.answer, proof.denials, target)

def by_dname(cache, name, rtype, now):
    """By the topmost DNAME of the zone above the name, whose suffix it replaces (RFC 6672, sections 2.2 and 2.4)."""
    apex = zone_of(cache, name, rtype)
    sets = cache.zones[apex].sets.values() if apex is not None else ()
    above = [held for held in sets if held.rtype == DNAME and is_below(name, held.owner) and held.expiry > now]
    above = [held for held in above if one_name(held) is not None]
    if not above: return None
    topmost = min(above, key=lambda held: len(held.owner))
    target = name[: len(name) - len(topmost.owner)] + one_name(topmost)
    return Link(name, topmost, [], target if len(wire_form(target)) <= MOST_IN_NAME else None)

def one_name(held):
    """The name that a set's one item is, with nothing behind it, or None."""
    try:
        (item,) = held.items
        labels, end = read_name(item, 0, pointers=False)
    except (ValueError, Malformed):
        return None
    return lowered(labels) if end == len(item) else None

def written(owner, rtype, ttl, items):
    """Records of class IN with these data."""
    return [wire_form(owner) + struct.pack(">HHIH", rtype, IN, ttl, len(data) & 0xFFFF) + data for data in items]

def write_reply(query, found, now):
    """A walk's reply: the sets that answer; the last name's SOA; with DO signatures and denial records too (RFC 4035,
    section 3.1). One that would be too long has the question and OPT alone, and TC (RFC 2181, section 9)."""
    ttl, sign = found.time_to_live(now), query.wants_signatures

    def section(sets):
        return [
            octets
            for owner, held in sets
            for octets in written(owner, held.rtype, ttl, held.items)
            + (written(owner, RRSIG, ttl, held.signatures) if sign else [])
        ]

    answers = section(found.answers())
    authority = section([(held.owner, held) for held in found.soa() + (found.denials() if sign else [])])
    flags = flags_of(query, found.rcode()) | (0x20 if query.authentic_data or sign else 0)
    options = option(query, 0)
    limit = LEAST_PAYLOAD if query.payload is None else min(PAYLOAD, query.payload)
    body = query.asked + b"".join(answers + authority) + options
    counts = len(answers), len(authority)
    if 12 + len(body) > limit: flags, body, counts = flags | 0x200, query.asked + options, (0, 0)
    return struct.pack(">6H", query.identity, flags, 1, *counts, 1 if options else 0) + body

def flags_of(query, rcode):
    """QR and RA; RD and CD as in the query (RFC 1035, section 4.1.1; RFC 4035, section 3.2.2)."""
    recursion = 0x100 if query.recursion_desired else 0
    return 0x8080 | recursion | (0x10 if query.checking_disabled else 0) | rcode & 15

def option(query, rcode):
    """An OPT record where the query had one, with the upper bits of the RCODE and DO (RFC 6891, section 6.1.3)."""
    if query.payload is None: return b""
    return b"\0" + struct.pack(">HHIH", OPT, PAYLOAD, rcode >> 4 << 24 | (0x8000 if query.wants_signatures else 0), 0)

def write_error(query, rcode):
    """The reply that tells a fault: a header alone, or for another version of EDNS the question and OPT too."""
    if rcode != BAD_VERSION:
        return struct.pack(">6H", query.identity, flags_of(query, rcode) | query.opcode << 11, 0, 0, 0, 0)
    return struct.pack(">6H", query.identity, flags_of(query, rcode), 1, 0, 0, 1) + query.asked + option(query, rcode)

class Model:
    """What one worker does by a command's rule, frame by frame."""
    def __init__(self, rule=RULES["replay"]): self.cache, self.rule, self.walk = Cache(), rule, None

    def frame(self, kind, now, message):
        """The kind, the version and the body of the output frame; a reply's walk is left in `walk`."""
        return self.query(message, now) if kind == QUERY else self.upstream(message, now)

    def query(self, message, now):
        """Forwarded are other classes than IN, types that ask of a server, denial records, and what isn't proved."""
        rcode, query = read_query(message)
        if rcode is None: return DROPPED, 0, b""
        if rcode: return ERROR, 0, write_error(query, rcode)
        asks_a_zone = query.rclass == IN and is_of_a_zone(query.rtype) and query.rtype not in (NSEC, NSEC3)
        self.walk = walk(self.cache, self.rule, query.name, query.rtype, now) if asks_a_zone else None
        if self.walk is None: return FORWARD, self.cache.version, b""
        return REPLY, self.cache.version, write_reply(query, self.walk, now)

    def upstream(self, message, now):
        code, batch, skipped = take_in(message, now)
        if code: return REFUSED, 0, bytes([code])
        self.cache.insert(batch, now)
        return STORED, self.cache.version, struct.pack(">HH", len(batch) & 0xFFFF, skipped & 0xFFFF)
