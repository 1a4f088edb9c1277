"""Makes the dearest messages that are known, as frames for a replay by one worker, and counts what they cost.

Each is made of a question, a record whose data has names that pointers go to, and as many records as fit whose owners,
and names in data, point there. Upstream answers have no QR bit: they are read whole, and then refused.
"""
import functools, itertools, math, sys
from collections import namedtuple
from .. import run as runs, wire
from ..wire import A, MINFO, MX, NS, NULL, QUERY, ROOT, RRSIG, SOA, UPSTREAM, frame, pointer

BOUND = 150  # instructions for an octet
MOMENT, KINDS = 1_000_000_000, {QUERY: "query", UPSTREAM: "answer"}
LABEL = b"\1a"
LONG_LABELS = wire.name(b"a" * 63, b"a" * 63, b"a" * 63, b"a" * 61)  # a name of 255 octets
QUESTION = wire.question(ROOT, A)
DATA_AT = 12 + len(QUESTION) + 11  # of the first record, whose owner is the root
REACH = 0x4000 - DATA_AT  # octets of its data that a pointer can go to (RFC 1035, section 4.1.4)

# octets that stand at DATA_AT, the offsets in the message to which names point in turn, and one of the dearest
Region = namedtuple("Region", "octets targets dearest")

record = functools.partial(wire.record, ttl=0)

def chain(size):
    """Pointers, each to the one before."""
    last = (min(size, REACH - 2) - 1) // 2  # behind the root
    targets = [DATA_AT, *range(DATA_AT + 1, DATA_AT + 1 + 2 * last, 2)]
    return Region(ROOT + b"".join(map(pointer, targets[:-1])), targets, targets[-1])

def ladder(hops):
    """A label and a pointer each, to the one before, through so many more pointers; a new name after 255 octets."""
    def made(size):
        octets, targets, target, room = ROOT, [], DATA_AT, 4 + 2 * hops
        while len(octets) + room <= min(size, REACH - room):
            target = DATA_AT if len(targets) % 127 == 0 else target
            for front in [b""] * hops + [LABEL]:
                at = DATA_AT + len(octets)
                octets += front + pointer(target)
                target = at
            targets.append(target)
        return Region(octets, targets, targets[min(126, len(targets) - 1)])
    return made

def names(unit, offsets, front=b"", dearest=0):
    """Some octets again and again, each with so many places in it that pointers go to."""
    def made(size):
        count = (min(size, REACH) - len(front)) // len(unit)
        starts = range(DATA_AT + len(front), DATA_AT + len(front) + count * len(unit), len(unit))
        targets = [start + offset for start in starts for offset in offsets]
        return Region(front + unit * count, targets, targets[dearest])
    return made

REGIONS = {
    "chain": chain,
    "ladders": ladder(0),
    "both": ladder(16),
    "runs": names(LABEL * 127 + ROOT, range(0, 254, 2)),  # of 127 labels, one run each
    # of one run, of 109 labels and one of up to 31 octets before them, which begins anywhere in front of them
    "leaves": names(bytes(range(31, 0, -1)) + b"a" + LABEL * 109 + ROOT, range(31), dearest=-1),
    "long_labels": names(LONG_LABELS, (0,)),
    "overlapping": names(b"\1" * 254 + b"\0\0", range(150)),  # two of 127 labels, which stand within each other's
    # a name of 117 labels, and runs of up to 10 labels, each of which ends in a pointer to it
    "trunk": names(LABEL * 10 + pointer(DATA_AT), range(0, 20, 2), front=LABEL * 117 + ROOT),
}

def spread(region):
    """All targets, neighbours far apart."""
    count = len(region.targets)
    stride = next(n for n in range(count * 5 // 8, count + 2) if n and math.gcd(n, count) == 1)
    return [region.targets[at * stride % count] for at in range(count)]

# In which order names point there
ORDERS = {
    "one": lambda region: [region.dearest],
    "falling": lambda region: region.targets[::-1],
    "rising": lambda region: region.targets,
    "spread": spread,
}

# What has the names: `following` gives one of them
HOLDERS = {
    "owners": lambda following: record(following(), A),
    "labelled_owners": lambda following: record(LABEL + following(), A),
    "name_servers": lambda following: record(following(), NS, following()),
    "mailboxes": lambda following: record(following(), MINFO, following() + following()),
    "exchanges": lambda following: record(following(), MX, b"\0\1" + following()),
    "authorities": lambda following: record(following(), SOA, following() + following() + bytes(20)),
    "signatures": lambda following: record(following(), RRSIG, bytes(18) + following() + b"Z"),
}
WITH_DATA = list(HOLDERS)[2:]  # of queries data is passed over

PLAIN = {
    "roots": record(ROOT, A),
    "root_data": record(ROOT, A, b"a"),
    "short_names": record(LABEL + ROOT, A),
    "names_of_127_labels": record(LABEL * 127 + ROOT, A),
    "names_of_4_labels": record(LONG_LABELS, A),
    "options": record(ROOT, 40, bytes(8)),
}

def message(records): return wire.message(0, QUESTION, authority=records, identity=1)
def plain(size, one): return message([one] * ((size - 12 - len(QUESTION)) // len(one)))

def pointing(size, region, order, holder):
    """A message of about so many octets; a third of it is the region, where pointers reach so far."""
    made = REGIONS[region](size // 3)
    following = map(pointer, itertools.cycle(ORDERS[order](made))).__next__
    records, left = [record(ROOT, NULL, made.octets)], size - DATA_AT - len(made.octets)
    while len(more := HOLDERS[holder](following)) <= left:
        records.append(more)
        left -= len(more)
    return message(records)

def cases(args, size):
    """The names and messages of the cases that are asked for."""
    ways = {title: (plain, one) for title, one in PLAIN.items()}
    ways |= {" ".join(way): (pointing, *way) for way in itertools.product(REGIONS, ORDERS, HOLDERS)}
    for title, (make, *way) in ways.items():
        if not args.only or any(word in title for word in args.only): yield title, make(size, *way)

def measure(args, kind, size, base):
    """The dearest cases: instructions for an octet of one frame, less a run with no frames."""
    found = []
    for title, octets in cases(args, size):
        if kind == UPSTREAM or title.split()[-1] not in WITH_DATA:
            count, _ = runs.counted(args.program, frame(kind, MOMENT, octets))
            found.append(((count - base) / len(octets), title, len(octets)))
    for dear, title, count in sorted(found, reverse=True)[: args.show]:
        mark = " over the bound" if dear > BOUND else ""
        print(f"{KINDS[kind]:8} {count:6} octets {dear:10.1f} an octet  {title}{mark}", flush=True)

def words(parser):
    kinds = list(KINDS.values())
    parser.add_argument("--kinds", nargs="+", choices=kinds, default=kinds, metavar="KIND", help=", ".join(kinds))
    sizes = runs.number(64, 65_535)
    parser.add_argument("--sizes", nargs="+", type=sizes, default=[4_096, 65_535], metavar="N")
    parser.add_argument("--only", nargs="+", metavar="WORD", help="cases whose name has one of these words")
    parser.add_argument("--show", type=int, default=12, metavar="N", help="how many of the dearest are printed")
    how = {"type": runs.program, "metavar": "PROGRAM", "help": "count instructions; frames are written without it"}
    for name, more in (("program", {"nargs": "?"}), ("--measure", {})): parser.add_argument(name, **how, **more)

def run(args):
    kinds = [kind for kind, word in KINDS.items() if word in args.kinds]
    args.program = args.program or args.measure
    base, _ = runs.counted(args.program, b"") if args.program else (0, b"")
    for kind, size in itertools.product(kinds, args.sizes):
        if args.program: measure(args, kind, size, base)
        else: sys.stdout.buffer.writelines(frame(kind, MOMENT, octets) for _, octets in cases(args, size))
