"""Random zones whose names lead to one another, by aliases and by DNAMEs, for `differential`."""
from .random_zones import AAAA, LABELS, RESPONSE, TXT, A, Traffic, fits, in_any_case, message
from .reference_messages import is_below, is_under, wire_form
from .reference_model import AROUND, CNAME, DNAME, DS, NS, QUERY, SOA, UPSTREAM

APEXES = (), (b"example",), (b"a", b"example"), (b"w", b"a", b"example"), (b"b",), (b"zz", b"b")
FRONTS = (b"a",), (b"x",), (b"(x",), (b"w", b"b"), (b"zz", b"*"), (b"x" * 40,)
SHORT_TTL = 60  # of one zone
ABOUT_LONGEST = range(252, 259)  # octets of a name

class Paths(Traffic):
    """Zones with paths of names, each of which leads to the next, and with records that go beside them.

    They are true zones or hold what is under a DNAME too.
    """
    TTLS = [3600] * 30 + [3599, 3000, 1800] * 10 + [300, 60, 5, 100000]
    ORIGINALS, AHEAD = [3600] * 60 + [7200, 30], [100000] * 60 + [50, 3600]
    ASKED_TYPES = (A,) * 12 + (TXT, TXT, TXT, CNAME, CNAME, DNAME, DS, DS, AAAA, NS, SOA)

    def __init__(self, rng, are_true):
        super().__init__(rng)
        self.are_true, self.made, self.heads, self.begun = are_true, 0, [zone.apex for zone in self.zones], self.now
        self.dnames = []  # each with where it leads, which is in a zone
        self.briefly = rng.choice([None, rng.choice(self.zones).apex])
        for zone in self.zones:
            if rng.random() < (0.03 if are_true else 0.15): self.put(zone.apex, DNAME, rng.choice(self.names))
        if rng.random() < 0.4: self.long_target()
        for _ in range(rng.randint(2, 6)): self.path(rng.choice([0, 1, 1, 2, 3, 4, 7, 8, 8, 9, 9, 10]))
        self.find_names()
        self.names = rng.sample(self.names, min(len(self.names), len(self.heads)))  # most questions are for those made
        self.names += self.heads * 5 + [name for head in self.heads for name in self.beside(head) if fits(name)]

    def some_apexes(self): return sorted(self.rng.sample(APEXES, self.rng.randint(2, 4)), key=len)

    def signed(self, zone, *words):
        """The sets of one zone are kept for a short time."""
        self.TTLS = [SHORT_TTL] if zone == self.briefly else Paths.TTLS
        return super().signed(zone, *words)

    def put(self, owner, rtype, target):
        """An alias or a DNAME, in the zone that the owner name is of."""
        zone = max((each for each in self.zones if is_under(owner, each.apex)), key=lambda each: len(each.apex))
        zone.records[owner, rtype] = [wire_form(in_any_case(self.rng, target))]

    def fresh(self):
        """A new name in one of the zones, now and then below another, or where a DNAME leads."""
        self.made += 1
        if self.dnames and self.rng.random() < 0.2: return (b"n%d" % self.made,) + self.rng.choice(self.dnames)[1]
        front = (b"n%d" % self.made,) if self.rng.random() < 0.8 else (b"n%d" % self.made,) + self.rng.choice(FRONTS)
        return front + self.rng.choice(self.zones).apex

    def path(self, count):
        """So many names of which each leads to the next, all by aliases, all by DNAMEs or by both."""
        rng, often = self.rng, self.rng.random()
        last = self.fresh()
        if often < 0.4: self.put(last, rng.choice([A, A, A, TXT]), last)
        elif often < 0.5: self.put((b"*",) + last[1:], rng.choice([A, A, TXT]), last)
        elif often < 0.8: last = rng.choice(rng.choice([self.names, self.heads]))
        names, share = [last], rng.choice([0, 0, 0, 0.4, 1])
        for _ in range(count): names.append(self.before(names[-1], share))
        if often >= 0.9: self.put(last, CNAME, rng.choice(names))  # round to one of them
        self.heads += names

    def before(self, name, share=0.5):
        """A name that leads to this one: its alias, a wildcard's, or, in that share, one that a DNAME makes, which may
        make others too."""
        rng, owner = self.rng, self.fresh()
        led = [each for each in self.dnames if is_below(name, each[1]) and rng.random() < share / 2]
        if led:
            again, suffix = rng.choice(led)
            made = name[: len(name) - len(suffix)] + again
            if fits(made): return made
        cut = rng.randint(1, len(name)) if name and rng.random() < share else 0
        if cut and fits(name[:cut] + owner):
            made = name[:cut] + owner
            lower = made[rng.randrange(cut) :]
            if rng.random() < 0.3: self.put(lower, rng.choice([CNAME, DNAME, DNAME, A]), rng.choice(self.names))
            self.put(owner, DNAME, name[cut:])
            if any(is_under(name[cut:], zone.apex) for zone in self.zones): self.dnames.append((owner, name[cut:]))
            self.heads.append(owner)
            return made
        is_wildcard = rng.random() < 0.3
        self.put((b"*",) + owner if is_wildcard else owner, CNAME, name)
        return rng.choice(FRONTS) + owner if is_wildcard else owner

    def long_target(self):
        """A DNAME with which targets are about as long as names may be; perhaps a wildcard has them."""
        rng, owner, apex = self.rng, self.fresh(), self.rng.choice(self.zones).apex
        size, suffix = rng.randint(200, 252), apex
        while len(wire_form(suffix)) < size - 1:
            suffix = (rng.choice([b"l", b"*"]) * min(63, size - 1 - len(wire_form(suffix))),) + suffix
        self.put(owner, DNAME, suffix)
        if rng.random() < 0.5 and fits((b"*",) + suffix): self.put((b"*",) + suffix, rng.choice([CNAME, A, TXT]), apex)
        for total in ABOUT_LONGEST:
            left, front = total - len(wire_form(suffix)), ()
            while left > 1:
                front += (b"f" * min(63, left - 1 if left != 65 else 62),)
                left -= 1 + len(front[-1])
            if fits(front + owner): self.heads.append(front + owner)
        self.heads.append(self.before(self.heads[-1]))

    def beside(self, name):
        """Names below it and above it, and one whose wire form ends in its own within a label."""
        yield from ((self.rng.choice(LABELS),) + name, name[1:])
        label = b"".join(b"x" + bytes([len(each)]) + each for each in name[:1])
        if 0 < len(label) < 64: yield (label,) + name[1:]

    def brought(self, share):
        """The answers that bring what the zones have, of zones that aren't true what they can't have too."""
        frames = []
        for zone in self.zones:
            frames += self.load(zone, zone.own_sets() if self.are_true else sorted(zone.records), share)
        return frames

    def odd_items(self):
        """An answer with two aliases of a name, or with data that is no name alone."""
        rng, zone = self.rng, self.rng.choice(self.zones)
        keys = [key for key in sorted(zone.records) if key[1] in (CNAME, DNAME)]
        owner, rtype = rng.choice(keys or [(zone.apex, NS)])
        data = zone.records[owner, rtype][0]
        other, too_long = wire_form(rng.choice(self.names)), b"\1l" * 127 + b"\1" + data
        items = rng.choice([[data, other], [data, data], [data, data.upper()], [data + b"\0"], [too_long]])
        records = self.signed(zone.apex, owner, rtype, items)
        octets = message(rng, owner, A, RESPONSE, (records, [], []), False)
        return UPSTREAM, self.now, octets

    def asked(self, count):
        frames = []
        for _ in range(count):
            self.pass_time([0] * 30 + [1, 7, 20])
            frames.append((QUERY, self.now, self.query()))
        return frames

    def frames(self):
        frames = self.brought(0.95) + self.asked(100)
        for _ in range(2):
            self.now = self.rng.choice([self.now, self.now + 3600, self.begun + SHORT_TTL]) % AROUND
            if not self.are_true: frames.append(self.odd_items())
            frames += self.asked(40) + self.brought(0.5) + self.asked(40)
        return frames
