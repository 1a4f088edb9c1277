"""A capture's messages as frames, and what becomes of them as figures: each query with its answer in the capture."""
import struct
from ..captures.packets import TCP
from ..wire import FORWARD, IN, QUERY, REPLY, STORED, UPSTREAM
from .. import wire
from .answers import ancestors, options_of, question_of, read, records_of, text_of, zone_of
from .figures import Figures
from .held import Held
from .kinds import (
    NAME_ERROR, NO_DATA, NOT_AUTHENTIC, NOTHING, SET, TRUNCATED, is_always_asked, kind_of, why_missed,
)  # fmt: skip
from .own import own_name
from .text import BY_NAME
from .trial import SPARED, Trial

PATIENCE = 30  # seconds, by which an answer has come
MOST_ZONES = 200_000  # that are known
PAYLOAD = 1_232  # octets that tell by what a reply answers, with its signatures

class Asked:
    """A query: what it asks, what became of it, and the RCODE of its answer in the capture."""
    __slots__ = (
        "moment", "name", "rtype", "carrier", "wants_signatures", "is_always", "frame", "kind", "is_forwarded", "reply",
        "zone", "by_name", "rcode", "has_other_type",
    )  # fmt: skip

    def __init__(self, moment, octets, carrier, options):
        question = question_of(octets)
        self.moment, self.carrier, self.frame = moment, carrier, 0
        self.name, self.rtype, rclass = question or (b"\0", 0, IN)
        self.wants_signatures = bool(options and options[1])
        self.is_always = question is not None and is_always_asked(self.rtype, rclass)
        self.kind = self.zone = self.by_name = self.rcode = self.reply = None
        self.is_forwarded = self.has_other_type = False

class Shadow:
    """A query that is asked once more with DO, since the reply to it as it was doesn't tell by what it answers."""
    __slots__ = ("asked",)
    def __init__(self, asked): self.asked = asked

class Came:
    """An answer: to which query, or none, and what it says, once it was read."""
    __slots__ = "asked", "answer"
    def __init__(self, asked): self.asked, self.answer = asked, None

    def read(self, moment, octets):
        if self.answer is None: self.answer = read(octets, moment)
        return self.answer

def needed(answer):
    """The sets by which an answer answers."""
    return [each for each in answer.sets if each.is_denial or each.is_answer or not answer.answers]

class Reading:
    def __init__(self, program, command, ends, **how):
        self.ends, self.figures, self.held = frozenset(ends), Figures(), Held()
        self.trial = Trial(program, command, self, **how)
        self.open, self.pending = {}, {}  # queries without an answer: by who asked what, and in order
        self.elsewhere, self.zones = 0, set()

    def add(self, message):
        """Whether the first run is done with it."""
        octets, before = message.octets, self.trial.runs
        if message.target in self.ends and not octets[2] & 0x80: self.ask(message)
        elif message.source in self.ends and octets[2] & 0x80: self.answer(message)
        else:
            self.elsewhere += 1
            return False
        self.figures.saw(message.time)
        if self.trial.runs > before: self.give_up(int(message.time))
        return self.trial.runs > before == 0

    def ask(self, message):
        moment, octets = int(message.time), message.octets
        options = options_of(octets)
        asked = Asked(moment, octets, message.carrier, options)
        self.open.setdefault((message.source, message.target, message.carrier, octets[:2]), []).append(asked)
        self.trial.add(QUERY, moment, octets, asked)
        if not asked.is_always and not (options and options[1] and options[0] >= PAYLOAD):
            self.trial.add(QUERY, moment, wire.query(asked.name, asked.rtype), Shadow(asked))

    def answer(self, message):
        """The answer to the first of the queries that it fits, if any."""
        key = message.target, message.source, message.carrier, message.octets[:2]
        some, question = self.open.get(key, []), question_of(message.octets)
        asked = next((each for each in some if question is None or question[:2] == (each.name, each.rtype)), None)
        if asked:
            some.remove(asked)
            if not some: del self.open[key]
        self.trial.add(UPSTREAM, int(message.time), message.octets, Came(asked))

    def end(self):
        self.trial.run()
        self.give_up(None)

    def give_up(self, now):
        """Queries that have waited for too long, or all, have no answer in the capture."""
        gone = [each for each in self.pending if now is None or each.moment + PATIENCE < now]
        for asked in gone: self.settle(asked, None, None, None)
        for key, some in list(self.open.items()):
            some[:] = [each for each in some if each in self.pending or not each.frame]
            if not some: del self.open[key]

    def take(self, frame, kind, moment, octets, about, told, body):
        """What became of a frame."""
        if kind == UPSTREAM: self.take_answer(frame, moment, octets, about, told, body)
        elif isinstance(about, Shadow): self.tell_kind(about.asked, told, body)
        else: self.take_query(frame, moment, about, told, body)

    def take_query(self, frame, moment, asked, told, body):
        asked.frame, self.pending[asked] = frame, True
        figures = self.figures
        figures.queries += 1
        figures.carriers["TCP" if asked.carrier == TCP else "UDP"] += 1
        figures.wanting += asked.wants_signatures
        figures.hold(moment, self.held.look(moment))
        if told == REPLY:
            asked.reply = body
            self.tell_kind(asked, told, body)
        elif told == FORWARD:
            asked.is_forwarded = True
            asked.has_other_type = self.held.has_other_type(asked.name, asked.rtype, moment)
            asked.by_name = self.zone_by_name(asked.name)

    def tell_kind(self, asked, told, body):
        """By what a query is answered; told again by its shadow, whose reply may be too long where its own wasn't."""
        if asked.reply is None or told != REPLY: return
        records = [each for each in records_of(body) if each.section < 2]
        kind, is_own = kind_of(body, records, asked.name, asked.rtype), body is asked.reply
        if is_own or kind != TRUNCATED or asked.kind == SET: asked.kind = kind
        if is_own and records: self.figures.remain(records[0].ttl)  # which is that of each of them
        asked.zone = zone_of(body, records) or asked.zone

    def take_answer(self, frame, moment, octets, came, told, body):
        figures, asked, code = self.figures, came.asked, None if told == SPARED else 0 if told == STORED else body[0]
        figures.answers += 1
        figures.authentic += bool(octets[3] & 0x20)
        answer = was_held = None
        if code in (0, NOT_AUTHENTIC, NOTHING):
            answer = came.read(moment, octets)
            figures.signed += answer.has_signatures
            self.know(answer.zone)
        if told == STORED: was_held = self.store(frame, moment, octets, answer, asked, body)
        elif told == SPARED: figures.spared += 1
        else: figures.refused[code] += 1
        if asked is None or asked not in self.pending: figures.stray += 1
        else:
            self.compare(asked, octets)
            self.settle(asked, code, answer, was_held)

    def foreseen(self, frames, kinds, answered):
        """Of the answers to queries that were answered, those that won't come: what they need is held without them."""
        expiries, spared = {}, set()
        for at, ((kind, moment, octets, came), told) in enumerate(zip(frames, kinds)):
            if kind != UPSTREAM: continue
            sets = came.read(moment, octets).sets if told == STORED else ()
            if at in answered:
                some = [each.key for each in (needed(came.answer) if sets else ())]
                if all((expiries.get(key) or self.held.expiry(key)) > came.asked.moment for key in some):
                    spared.add(at)
                    continue
            for each in sets: expiries[each.key] = moment + each.life
        return frozenset(spared)

    def store(self, frame, moment, octets, answer, asked, body):
        """Keeps what an answer brings; whether all that its query needed was held before."""
        was_held = asked and self.held.was_held(needed(answer), asked.frame, asked.moment)
        count = struct.unpack(">HH", body)[0]
        is_sure = sum(each.life > 0 for each in answer.sets) == count
        self.held.add(frame, moment, octets, answer.sets, is_sure)
        self.figures.stored += 1
        self.figures.hold(moment, self.held.look(moment))
        return was_held

    def compare(self, asked, octets):
        """Names that were denied from the cache while the resolver had them; with AD they have changed."""
        asked.rcode, count = octets[3] & 15, octets[6] << 8 | octets[7]
        is_denied = asked.kind == NAME_ERROR or asked.kind == NO_DATA and count
        if asked.rcode or not is_denied: return
        name, is_passed = own_name(asked.name, asked.zone or b"\0")
        if octets[3] & 0x20: self.figures.changed.add(text_of(asked.name))
        else: (self.figures.passed if is_passed else self.figures.own).add(text_of(name))

    def settle(self, asked, code, answer, was_held):
        self.pending.pop(asked)
        why = None
        if asked.is_forwarded: why = why_missed(asked, code, answer, was_held)
        zone = asked.zone or (answer and answer.zone)
        asked.zone = text_of(zone) if zone else asked.by_name
        asked.reply = None
        self.figures.settle(asked, why)

    def know(self, zone):
        """Zones that answers tell; where they become too many, those that come again are known again."""
        if len(self.zones) >= MOST_ZONES: self.zones.clear()
        if zone: self.zones.add(zone)

    def zone_by_name(self, name):
        """The longest zone above a name that answers have told, but for top-level ones; else its last two labels."""
        above = list(ancestors(name))
        zone = next((each for each in above[:-2] if each in self.zones), None)
        return text_of(zone) if zone else text_of(above[max(0, len(above) - 3)]) + BY_NAME
