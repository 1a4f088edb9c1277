"""The figures of a report: counts by what became of queries, by zone and over time."""
from collections import Counter, defaultdict
from .kinds import ANSWERED, MISSED, NX, TOLD

STEPS = 1, 2, 5, 10, 20, 30, 60, 120, 300, 600, 900, 1_800, 3_600, 7_200, 14_400, 43_200, 86_400, 604_800, 2_592_000
MOST_BINS = 240
MOST_ZONES, MOST_NAMES = 20_000, 1_000
TTLS = (0, 1), (1, 10), (10, 60), (60, 300), (300, 900), (900, 3_600), (3_600, 10_800), (10_800, 86_401)
OTHERS = "(others)"

class Series:
    """Counts by what and time, in steps that grow with the capture."""
    def __init__(self, join=lambda counts, more: counts.update(more)):
        self.step, self.bins, self.join = STEPS[0], {}, join

    def at(self, moment):
        """The counter of a moment."""
        place = int(moment) // self.step
        if place not in self.bins:
            self.bins[place] = Counter()
            while max(self.bins) - min(self.bins) >= MOST_BINS: self.widen()
            place = int(moment) // self.step
        return self.bins[place]

    def widen(self):
        wider = next((each for each in STEPS if each > self.step and each % self.step == 0), self.step * 2)
        bins = {}
        for place, counts in sorted(self.bins.items()):
            self.join(bins.setdefault(place * self.step // wider, Counter()), counts)
        self.step, self.bins = wider, bins

    def rows(self):
        """The start of each step, in order and without gaps, and its counts."""
        if not self.bins: return []
        places = range(min(self.bins), max(self.bins) + 1)
        return [(place * self.step, self.bins.get(place, Counter())) for place in places]

def keep_most(counts, more):
    for what, count in more.items(): counts[what] = max(counts[what], count)

class Zone:
    """What was saved and missed of a zone, by kind and by reason."""
    __slots__ = "saved", "missed"
    def __init__(self): self.saved, self.missed = Counter(), Counter()
    def size(self): return self.saved.total() + self.missed.total()

class Names:
    """Counts by name, of so many names as there is room for, and of all."""
    def __init__(self): self.counts, self.total = Counter(), 0

    def add(self, name):
        self.total += 1
        if name in self.counts or len(self.counts) < MOST_NAMES: self.counts[name] += 1

class Figures:
    def __init__(self):
        self.queries = self.told = 0
        self.answered, self.missed = Counter(), Counter()
        self.carriers, self.wanting = Counter(), 0  # of queries: by UDP and TCP; with DO
        self.rcodes, self.saved_rcodes = Counter(), Counter()  # of the capture: of all queries, and of those answered
        self.unanswered = 0
        self.answers, self.stray, self.authentic, self.signed = 0, 0, 0, 0
        self.stored, self.spared, self.refused = 0, 0, Counter()  # of answers
        self.zones = defaultdict(Zone)
        self.over_time, self.held = Series(), Series(keep_most)
        self.ttls, self.most_held, self.most_held_at = Counter(), 0, None
        self.own, self.passed, self.changed = Names(), Names(), Names()  # that were denied
        self.first = self.last = None

    def saw(self, moment):
        if self.first is None: self.first = moment
        self.first, self.last = min(self.first, moment), max(self.last or moment, moment)

    def settle(self, asked, why):
        """A query of which all is known: its kind or why it was missed, its zone, and the RCODE of the capture."""
        is_saved = asked.kind is not None
        self.over_time.at(asked.moment)[asked.kind or why or TOLD] += 1
        if is_saved: self.answered[asked.kind] += 1
        elif why is None: self.told += 1
        else: self.missed[why] += 1
        if asked.rcode is None: self.unanswered += 1
        else:
            self.rcodes[asked.rcode] += 1
            self.saved_rcodes[asked.rcode] += is_saved
        if why is None and not is_saved: return
        zone = self.zones[asked.zone]
        (zone.saved if is_saved else zone.missed)[asked.kind or why] += 1
        if len(self.zones) > MOST_ZONES: self.fold()

    def fold(self):
        """The smaller half of the zones counts as others."""
        others = self.zones[OTHERS]
        for name in sorted(self.zones, key=lambda name: self.zones[name].size())[: MOST_ZONES // 2]:
            if name == OTHERS: continue
            zone = self.zones.pop(name)
            others.saved.update(zone.saved)
            others.missed.update(zone.missed)

    def hold(self, moment, count):
        most = self.held.at(moment)
        most["held"] = max(most["held"], count)
        if count > self.most_held: self.most_held, self.most_held_at = count, moment

    def remain(self, ttl):
        self.ttls[next(at for at, (_, end) in enumerate(TTLS) if ttl < end or end == TTLS[-1][1])] += 1

    def saved(self): return self.answered.total()
    def asked_upstream(self): return self.missed.total()

    def add_up(self):
        """Whether all sums are the queries, or the answers."""
        if self.answers != self.stored + self.spared + self.refused.total(): return False
        parts = self.saved() + self.asked_upstream() + self.told
        zones = sum(each.size() for each in self.zones.values()) + self.told
        times = sum(counts.total() for _, counts in self.over_time.rows())
        seen = self.rcodes.total() + self.unanswered
        return parts == zones == times == seen == self.queries == self.carriers.total()

    def nx(self): return self.saved_rcodes[NX], self.rcodes[NX]
