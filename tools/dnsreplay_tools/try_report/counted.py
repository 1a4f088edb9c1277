"""What the reference model of `differential` counts of a random capture, beside the figures of a report."""
import bisect
from collections import Counter
from ..captures.packets import TCP
from ..reference_messages import read_message, read_query, wire_form
from ..reference_model import (
    DNAME, FORWARD, IN, NO_DATA, NO_NAME, NSEC, NSEC3, QUERY, REPLY, RRSIG, STORED, UPSTREAM, is_of_a_zone, take_in,
)  # fmt: skip
from ..reference_replies import RULES, Model

TTL_STARTS = 0, 1, 10, 60, 300, 900, 3_600, 10_800

class Counts:
    """Counts by the model, of events: moment, whether it is a query, octets, and the place of its exchange."""
    def __init__(self, events, some, command="replay"):
        self.model, self.some = Model(RULES[command]), some
        self.kinds, self.zones, self.ttls, self.rcodes = Counter(), Counter(), Counter(), Counter()
        self.saved_rcodes, self.refused, self.carriers, self.times = Counter(), Counter(), Counter(), Counter()
        self.why, self.number, self.stored, self.most_held, self.stray, self.unanswered = Counter(), 0, 0, 0, 0, 0
        self.waiting, self.seen, self.own, self.changed, self.faulty, self.spared = {}, {}, 0, 0, 0, 0
        for now, is_query, octets, number in events:
            self.number += 1
            (self.ask if is_query else self.answer)(int(now), octets, number)
            self.most_held = max(self.most_held, sum(each.expiry > int(now) for each in self.model.cache.records()))
        for number in list(self.waiting): self.settle(number, None, None, None)

    def ask(self, now, octets, number):
        each, model = self.some[number], self.model
        _, query = read_query(octets)
        kind, _, body = model.frame(QUERY, now, octets)
        self.carriers["TCP" if each.carrier == TCP else "UDP"] += 1
        what = {REPLY: None, FORWARD: "forwarded"}.get(kind, "told")
        walk = model.walk if kind == REPLY else None
        if kind == REPLY:
            what = self.kind(now, query, walk, body)
            self.zones[text(self.zone(walk))] += 1
            if body[6:10] != bytes(4): self.ttls[bisect.bisect_right(TTL_STARTS, walk.time_to_live(now)) - 1] += 1
        others = [held for held in model.cache.records() if query and held.chain is None and held.owner == query.name]
        is_other = any(held.rtype != query.rtype and held.expiry > now for held in others)
        self.times[now] += 1
        self.waiting[number] = what, now, query, is_other, self.number, walk and walk.rcode()

    def zone(self, walk):
        last = (walk.proof.soa or walk.proof.answer) if walk.proof else walk.links[-1].set
        return last.zone if walk.proof and walk.proof.soa else walk.links[0].set.zone if walk.links else last.zone

    def kind(self, now, query, walk, body):
        """The kind of a proof, where the reply to the question with DO and room for 1,232 octets shows it."""
        if walk.links: return "redirection" if any(link.set.rtype == DNAME for link in walk.links) else "alias"
        kind, proof = walk.proof.kind, walk.proof
        if kind == NO_NAME: return "name error"
        asked = wire_form(query.name) + query.rtype.to_bytes(2, "big") + b"\0\1"
        whole = bytes.fromhex("123401000001000000000001") + asked + bytes.fromhex("00002904d0000080000000")
        _, _, long = Model.query(self.model, whole, now)
        is_short, is_shown = long[2] & 2, not body[2] & 2
        if kind == NO_DATA: return "truncated" if is_short and not is_shown else "no data"
        if is_short: return "truncated"
        return "wildcard" if proof.answer.owner[:1] == (b"*",) and proof.answer.owner != query.name else "set"

    def answer(self, now, octets, number):
        code, batch = 0, []
        if self.is_spared(number, octets):
            self.spared += 1
            return self.settle(number, octets, None, batch)
        kind, _, body = self.model.frame(UPSTREAM, now, octets)
        if kind == STORED: self.stored, batch = self.stored + 1, take_in(octets, now)[1]
        else: self.refused[code := body[0]] += 1
        if number in self.waiting and self.fits(number, octets): self.settle(number, octets, code, batch)
        else: self.stray += 1
        for held in batch:
            first = self.seen.get(self.key(held), (self.number,))[0]
            self.seen[self.key(held)] = first, held.expiry, self.number

    def is_spared(self, number, octets):
        """Whether an answer wouldn't have come, since its query was answered from the cache."""
        is_its = number in self.waiting and self.fits(number, octets)
        return is_its and self.waiting[number][0] not in ("told", "forwarded")

    def key(self, held): return held.zone, held.owner, held.rtype, held.chain

    def fits(self, number, octets):
        """Whether an answer's question is the query's."""
        question = plain_question(octets)
        return question is None or question == (plain_question(self.some[number].query) or (b"\0", 0))

    def settle(self, number, octets, code, batch):
        what, now, query, is_other, frame, rcode = self.waiting.pop(number)
        if octets is None: self.unanswered += 1
        else:
            self.rcodes[octets[3] & 15] += 1
            if what not in ("told", "forwarded"):
                self.saved_rcodes[octets[3] & 15] += 1
                count = octets[6] << 8 | octets[7]
                if not octets[3] & 15 and (what == "name error" or what == "no data" and count):
                    if octets[3] & 0x20: self.changed += 1
                    else: self.own += 1
        if what == "forwarded": self.why[self.reason(now, query, is_other, frame, octets, code, batch)] += 1
        elif what == "told": self.faulty += 1
        else: self.kinds[what] += 1

    def reason(self, now, query, is_other, frame, octets, code, batch):
        if query.rclass != IN or not is_of_a_zone(query.rtype) or query.rtype in (NSEC, NSEC3):
            return "a type or class that is always asked"
        if code is None: return "not known: no answer in the capture"
        texts = {1: "malformed", 2: "not a response", 3: "truncated", 7: "RCODE"}
        if code in texts: return f"refused: {texts[code]}"
        records = read_message(octets)[2]
        opt_out = any(each.rtype == NSEC3 and each.data[1:2] > b"\0" for each in records)
        if code:
            if opt_out: return "Opt-Out"
            if not query.wants_signatures: return "asked without DO, so no signatures came"
            signed = any(each.rtype == RRSIG for each in records)
            return {4: "refused: not authentic", 5: "refused: nothing to store"}[code] if signed else "unsigned"
        if octets[3] & 15 == 3 and opt_out: return "Opt-Out"
        count = octets[6] << 8 | octets[7]
        in_answer = {(each.owner, each.rtype) for each in records[:count]}
        needed = [held for held in batch if held.chain or not count or self.is_in(held, in_answer)]
        found = [self.seen.get(self.key(held)) for held in needed]
        if needed and all(each and each[0] < frame for each in found):
            if any(expiry <= now or last > frame for _, expiry, last in found): return "expired"
            return "only another type of the name was held" if is_other else "not known"
        return "only another type of the name was held" if is_other else "no proof held yet"

    def is_in(self, held, pairs):
        """Whether a set is one of these, under its own name or one that its wildcard makes."""
        is_wildcard, below = held.owner[:1] == (b"*",), held.owner[1:]
        def makes(owner): return is_wildcard and owner[len(owner) - len(below) :] == below
        return any(rtype == held.rtype and (owner == held.owner or makes(owner)) for owner, rtype in pairs)

def plain_question(octets):
    try:
        at = 12
        while octets[at]:
            if octets[at] >= 64: return None
            at += 1 + octets[at]
        if octets[4:6] != b"\0\1" or at + 5 > len(octets): return None
        return octets[12 : at + 1].lower(), octets[at + 1] << 8 | octets[at + 2]
    except IndexError:
        return None

def text(name):
    def sign(octet):
        if octet in b'."\\;()@$': return "\\" + chr(octet)
        return chr(octet) if 33 <= octet <= 126 else f"\\{octet:03d}"
    return "".join("".join(map(sign, label)) + "." for label in name) or "."
