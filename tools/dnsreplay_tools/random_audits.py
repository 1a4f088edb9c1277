"""Random sources of an audit, for `differential`: a zone, a run by several workers, and what is changed in them."""
from .random_zones import LABELS, TXT, A, Traffic, fits, mutated, random_octets
from .reference_audits import Audit, Entry
from .reference_messages import lowered, read_name, read_record, wire_form
from .reference_model import CNAME, DNAME, DS, FORWARD, HEAD, NS, NSEC, NSEC3, REPLY, SOA, STORED
from .reference_replies import Model

CHANGES = 8  # sources of each run with something changed
MOST_OCTETS = 65_535

class OneZone(Traffic):
    """A zone, and answers and queries that speak of it, most of them of names that own something."""
    SHARE = 0.8
    ASKED_TYPES = *Traffic.ASKED_TYPES, DS, DS, DS, DS

    def find_names(self):
        super().find_names()
        self.names += [owner for owner, _ in self.zones[0].records] * 2

    def some_apexes(self): return super().some_apexes()[:1]
    def some_chains(self): return [self.rng.choice([None, (b"", 0, False), (b"\xaa", 1, False), (b"", 0, True)])]

def sources(rng):
    """What an audit reads, of one run as it is, and then with changes; each with the number of the run's frames."""
    traffic = OneZone(rng, rng.choice([0, 0, 0.05, 0.2]))
    made = traffic.loaded(60) if rng.random() < 0.8 else traffic.mixed(60)
    most = rng.choice([1, 2, 5, 32])
    inputs = [Entry(kind, rng.randrange(most), now, octets) for kind, now, octets in made]
    outputs, zone = history(rng, inputs), traffic.zones[0]
    records = [(wire_form(owner), rtype, data) for (owner, rtype), items in zone.records.items() for data in items]
    rng.shuffle(records)
    whole = source(zone.apex, records, inputs, outputs)
    yield len(inputs), whole
    used = Audit(whole).used()
    for _ in range(CHANGES):
        way = rng.choice([change_zone] * 2 + [change_outputs] * 3 + [change_inputs, change_octets])
        if used and rng.random() < 0.6:
            answers = [held for held in used if held.chain is None and held.rtype != SOA]
            held = rng.choice(rng.choice([used, answers or used]))
            yield len(inputs), change_used(rng, zone, records, inputs, outputs, held)
        else: yield len(inputs), way(rng, zone, list(records), list(inputs), list(outputs))

def history(rng, inputs):
    """What workers may answer that are scheduled at random: each takes its own frames in turn."""
    waiting = {worker: [at for at, each in enumerate(inputs) if each.worker == worker] for worker in range(32)}
    model, outputs = Model(), [None] * len(inputs)
    while any(waiting.values()):
        worker = rng.choice([each for each, places in waiting.items() if places])
        for at in waiting[worker][: rng.choice([1, 1, 3, 10])]:
            kind, version, body = model.frame(inputs[at].kind, inputs[at].number, inputs[at].body)
            outputs[at] = Entry(kind, worker, version, body)
            waiting[worker].remove(at)
    return outputs

def counted(octets, size): return len(octets).to_bytes(size, "big") + octets
def spelled(entries): return b"".join(HEAD.pack(*each[:3], len(each.body)) + each.body for each in entries)

def source(apex, records, inputs, outputs):
    octets = counted(wire_form(apex), 2) + len(records).to_bytes(4, "big")
    for owner, rtype, data in records: octets += counted(owner, 2) + rtype.to_bytes(2, "big") + counted(data, 2)
    return octets + counted(spelled(inputs), 4) + counted(spelled(outputs), 4)

def change_zone(rng, zone, records, inputs, outputs):
    """A record more or less, other data, a cut or a DNAME, or what no zone has."""
    at, way, apex = rng.randrange(len(records)), rng.randrange(9), zone.apex
    owner, rtype, data = records[at]
    name = wire_form(lowered(tuple(rng.choice(LABELS) for _ in range(rng.choice([1, 1, 2])))) + apex)
    if way == 0: del records[at]
    elif way == 1: records.append((name, rng.choice([A, TXT, NS, DNAME, CNAME, DS]), random_octets(rng, 4)))
    elif way == 2: records[at] = owner, rtype, random_octets(rng, 4)
    elif way == 3: records[at] = owner, rtype, rng.choice([data.upper(), data + b"\0", data[:-1]])
    elif way == 4: records.append((owner, rng.choice([A, NS, DNAME, CNAME, DS]), wire_form(apex)))
    elif way == 5: records.append(records[at])
    elif way == 6: records[at] = owner.upper(), rtype, data
    elif way == 7: apex = rng.choice([apex[1:], (b"a",) + apex])
    else: records[at] = rng.choice([(owner, NSEC, data), (b"\1z\0", rtype, data), (owner + b"\0", rtype, data)])
    return source(apex, records, inputs, outputs)

def change_used(rng, zone, records, inputs, outputs, held):
    """What a record speaks of that proves a reply: its data, its types, what is above it and what is inside its arc."""
    owner, apex, data = held.owner, zone.apex, wire_form(zone.apex)
    if held.rtype == NSEC3: owner = rng.choice(zone.existing())
    if held.rtype == NSEC and rng.random() < 0.5: owner = held.next_name
    own, way = [each for each in records if each[0] == wire_form(owner)], rng.randrange(7)
    own = [each for each in own if each[1] == held.rtype] if held.chain is None else own
    above = owner[rng.randint(0, max(0, len(owner) - len(apex))) :]
    if way == 0 and own: records = [each for each in records if each is not own[0]]
    elif way == 1: records = [each for each in records if each not in own]
    elif apex and way == 2:  # the zone above has all of it
        records = [each for each in records if each[:2] != (data, NS)]
        apex = apex[1:]
    else:
        below = (rng.choice([b"\0", b"n", b"~"]),) + owner
        rtype = held.rtype if held.chain is None else TXT
        more = [(owner, rtype, random_octets(rng, 4)), (owner, rng.choice([NS, NS, DS, CNAME, DNAME, TXT]), data)]
        more += [(above, rng.choice([NS, NS, DNAME]), data), (below, rng.choice([A, NS]), data)]
        owner, rtype, data = rng.choice([each for each in more if fits(each[0])])
        records = [*records, (wire_form(owner), rtype, data)]
    return source(apex, records, inputs, outputs)

def change_outputs(rng, zone, records, inputs, outputs):
    """One or two frames with another kind, worker, version or body, gone, twice or in another's place."""
    for _ in range(rng.choice([1, 1, 2])):
        stored = [place for place, each in enumerate(outputs) if each.kind == STORED]
        at = rng.choice(stored if stored and rng.random() < 0.3 else range(len(outputs)))
        one, other, way = outputs[at], rng.randrange(len(outputs)), rng.randrange(10)
        if way == 0: outputs[at] = one._replace(kind=rng.choice([0, 1, 2, 3, 4, 5, 6, 7]))
        elif way == 1: outputs[at] = one._replace(worker=rng.choice([one.worker ^ 1, 31, 32, 255]))
        elif way in (2, 3): outputs[at] = one._replace(number=rng.choice([0, 1, len(stored), one.number + 1, 1 << 31]))
        elif way == 4: outputs[at] = one._replace(number=max(0, one.number - 1))
        elif way == 5: outputs[at] = one._replace(body=other_body(rng, one))
        elif way == 6: outputs[at], outputs[other] = outputs[other], one
        elif way == 7: del outputs[at]
        elif way == 8: outputs.insert(at, one)
        elif stored:  # two stored answers have each other's version, or a query that of its worker's next one
            first, second = rng.choice(stored), rng.choice(stored)
            one, numbers = outputs[first], (outputs[first].number, outputs[second].number)
            queries = (REPLY, one.worker), (FORWARD, one.worker)
            calls = [at for at, each in enumerate(outputs[:first]) if each[:2] in queries]
            if calls and rng.random() < 0.5: outputs[calls[-1]] = outputs[calls[-1]]._replace(number=one.number)
            else:
                outputs[second] = outputs[second]._replace(number=numbers[0])
                outputs[first] = one._replace(number=numbers[1])
    return source(zone.apex, records, inputs, outputs)

def other_body(rng, one):
    """Another body: at random, or of a reply another RCODE or TTL."""
    body, ttls = bytearray(one.body), ttl_places(one.body) if one.kind == REPLY else []
    often = rng.random()
    if ttls and often < 0.3: body[rng.choice(ttls) + 3] ^= 1 << rng.randrange(8)
    elif one.kind == REPLY and often < 0.6: body[3] ^= rng.randint(1, 15)
    else: return mutated(rng, one.body)[:MOST_OCTETS]
    return bytes(body)

def ttl_places(reply):
    """Where the TTLs of its records stand, behind owner name, type and class."""
    places, at = [], read_name(reply, 12)[1] + 4  # behind the question
    while at < len(reply):
        places.append(read_name(reply, at)[1] + 4)
        _, at = read_record(reply, at, with_data=False)
    return places

def change_inputs(rng, zone, records, inputs, outputs):
    """One frame differs, or two have each other's places on both sides."""
    at, other = rng.randrange(len(inputs)), rng.randrange(len(inputs))
    one = inputs[at]
    others = one._replace(kind=rng.choice([0, 1, 2, 3])), one._replace(number=one.number ^ 1)
    others += one._replace(worker=one.worker ^ 1), one._replace(body=mutated(rng, one.body)[:MOST_OCTETS])
    if rng.random() < 0.3:
        for entries in (inputs, outputs): entries[at], entries[other] = entries[other], entries[at]
    else: inputs[at] = rng.choice(others)
    return source(zone.apex, records, inputs, outputs)

def change_octets(rng, zone, records, inputs, outputs):
    """Octets of the whole at random, or a worker beyond the last on both sides."""
    if rng.random() < 0.7: return mutated(rng, source(zone.apex, records, inputs, outputs))
    worker = rng.choice([31, 32])
    inputs, outputs = ([each._replace(worker=worker) for each in entries] for entries in (inputs, outputs))
    return source(zone.apex, records, inputs, outputs)
