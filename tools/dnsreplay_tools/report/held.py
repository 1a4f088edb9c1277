"""What stored answers have brought, by the frames alone, and which of them bring the state over to a next run.

A set counts from its answer on until its life is over, or until the set of its name, type, zone and chain comes anew.
Records that give way to others whose arcs meet theirs, or to a full cache, count on: so it is at most as many.
"""
import heapq
from .answers import LIFE_OF_DENIALS

LIMIT = 131_072  # records that the cache holds
MOST_LIVE = 2 * LIMIT  # sets that count as held, of which the cache holds half at most
MOST_CARRIED = 48 << 20  # octets of answers that are fed anew
MOST_EXPIRED = 300_000  # sets of which it is still known that they were held

class Entry:
    """A set: the frame that first brought it and the last that did, its expiry, and until when its answer is fed anew.

    `queued` is when it is looked at again, no later than its expiry; it counts as held until then."""
    __slots__ = "first", "last", "expiry", "until", "queued"

    def __init__(self, first): self.first, self.last, self.expiry, self.until, self.queued = first, None, 0, 0, None

class Stored:
    """A stored answer: moment and octets, and how many sets it was the last to bring."""
    __slots__ = "moment", "octets", "uses", "expiry"

    def __init__(self, moment, octets): self.moment, self.octets, self.uses, self.expiry = moment, octets, 0, 0

class Held:
    def __init__(self):
        self.entries, self.types = {}, {}  # by key; the keys of an owner name
        self.answers, self.unsure = {}, []  # stored answers by frame; those that may have left sets out
        self.heap, self.count, self.last, self.left_out = [], 0, 0, 0

    def look(self, moment):
        """How many are held at a moment."""
        while self.heap and self.heap[0][0] <= moment: self.look_at_first(moment)
        return min(self.count, LIMIT)

    def look_at_first(self, moment):
        """Of the set that may expire first: whether it has expired, or came anew with a later expiry."""
        queued, _, key = heapq.heappop(self.heap)
        entry = self.entries[key]
        if entry.queued != queued: return
        entry.queued = None
        if entry.expiry > moment: self.queue(key, entry)
        else: self.count -= 1

    def queue(self, key, entry):
        entry.queued = entry.expiry
        heapq.heappush(self.heap, (entry.expiry, entry.last, key))

    def expiry(self, key):
        """When a set expires, or 0 where it never was held."""
        entry = self.entries.get(key)
        return entry.expiry if entry else 0

    def has_other_type(self, name, rtype, moment):
        """Whether a set of another type than that is held at a name."""
        keys = self.types.get(name, ())
        return any(key[1] != rtype and self.entries[key].expiry > moment for key in keys if key in self.entries)

    def was_held(self, sets, frame, moment):
        """Whether all these sets were held before a frame, and whether one had expired by then; or none."""
        entries = [self.entries.get(each.key) for each in sets]
        if not entries or any(entry is None or entry.first > frame for entry in entries): return None
        return any(entry.expiry <= moment or entry.last is None or entry.last > frame for entry in entries)

    def add(self, frame, moment, octets, sets, is_sure):
        """A stored answer; `is_sure` where all of its signed sets were stored."""
        self.look(moment)
        answer = self.answers[frame] = Stored(moment, octets)
        self.last = max(self.last, moment)
        for each in sets:
            if each.life: self.add_set(frame, answer, each, is_sure)
        if not answer.uses: del self.answers[frame]

    def add_set(self, frame, answer, each, is_sure):
        entry = self.entries.pop(each.key, None) or Entry(frame)
        self.entries[each.key] = entry  # behind all others
        expiry = answer.moment + each.life
        until = max(entry.until, answer.moment + LIFE_OF_DENIALS if each.is_denial else expiry)
        answer.expiry = max(answer.expiry, until)
        if entry.first == frame and not each.is_denial: self.types.setdefault(each.key[0], set()).add(each.key)
        if entry.last != frame:
            if is_sure or entry.last is None: self.release(entry)
            else: self.unsure.append((entry.until, entry.last))  # so the one before may be held still
            answer.uses += 1
        self.count += entry.queued is None
        entry.last, entry.expiry, entry.until = frame, expiry, until
        if entry.queued is None or expiry < entry.queued: self.queue(each.key, entry)
        while self.count > MOST_LIVE: self.drop_first()

    def drop_first(self):
        """The set that expires first goes, as it has from the full cache."""
        first = self.heap[0][0]
        entry = self.entries[self.heap[0][2]]
        if entry.queued == first == entry.expiry: entry.until = 0
        self.look_at_first(first)

    def release(self, entry):
        """The answer that last brought a set isn't needed for it any more."""
        if entry.last is None: return
        if answer := self.answers.get(entry.last):
            answer.uses -= 1
            if not answer.uses: del self.answers[entry.last]
        entry.last = None

    def carried(self):
        """The moments and octets of the answers to be fed anew, in their order.

        A set is fed for as long as what gave way to it would be held otherwise, so that it gives way again. Where they
        are too many octets, those go that expire first.
        """
        for entry in self.entries.values():
            if entry.until <= self.last: self.release(entry)
        for until, frame in self.unsure:
            if until <= self.last and frame in self.answers: self.drop_use(frame)
        self.unsure = [each for each in self.unsure if each[0] > self.last]
        self.forget()
        self.limit()
        return [(each.moment, each.octets) for _, each in sorted(self.answers.items())]

    def drop_use(self, frame):
        self.answers[frame].uses -= 1
        if not self.answers[frame].uses: del self.answers[frame]

    def limit(self):
        size = sum(len(each.octets) for each in self.answers.values())
        for frame in sorted(self.answers, key=lambda frame: self.answers[frame].expiry):
            if size <= MOST_CARRIED: break
            size -= len(self.answers.pop(frame).octets)
            self.left_out += 1

    def forget(self):
        """Of the sets that have expired the oldest go, where they are too many."""
        gone = [key for key, entry in self.entries.items() if entry.last is None and entry.queued is None]
        for key in gone[: max(0, len(gone) - MOST_EXPIRED)]:
            del self.entries[key]
            keys = self.types.get(key[0])
            if keys is not None:
                keys.discard(key)
                if not keys: del self.types[key[0]]
