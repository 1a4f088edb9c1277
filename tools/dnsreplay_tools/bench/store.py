"""Fills a cache with records that make one query dear, and counts what that query costs.

The query's name has so many labels, and its zone is the root's, which has chains of NSEC3 records with such a salt and
so many iterations. Each chain is asked of every ancestor of the name and of every second one's wildcard, and proves
nothing, but that the last one denies the name in the end. Below every ancestor there is another zone, just before the
next name, so that the zone for the name is sought as often as there are ancestors. Further zones and sets have names
that differ from the query's in their first labels alone.
"""
from .. import run as runs, wire
from ..wire import A, NSEC3, ROOT, RRSIG, SOA, signed
from .zones import MOMENT, SOA_DATA, answer, query, seen, told

A_MESSAGE, MOST_OCTETS = 150, 60_000  # signed records of a message, and their octets

def name(labels): return b"\1a" * labels + ROOT
def moved(digest, by): return ((int.from_bytes(digest, "big") + by) % (1 << 160)).to_bytes(20, "big")

def nsec3(args, salt, start, end):
    data = wire.nsec3_data(end, (A, RRSIG), salt, args.iterations)
    return signed(wire.hashed_label(start) + ROOT, NSEC3, data, 1, ROOT)

def chain(args, salt, proves):
    """Records that cover and match names in turn, and cover the root's wildcard if the chain proves."""
    for labels in range(args.labels + 1):
        digest = wire.hash_of(name(labels), salt, args.iterations)
        is_matched = labels % 2 == 0 and labels < args.labels
        yield nsec3(args, salt, digest if is_matched else moved(digest, -1), moved(digest, 1))
    if proves:
        digest = wire.hash_of(wire.name(b"*"), salt, args.iterations)
        yield nsec3(args, salt, moved(digest, -1), moved(digest, 1))

def beside(number, labels):
    """A name that differs from the query's in its first label."""
    return b"\3%c%c%c" % (98 + number // 26**2 % 25, 97 + number // 26 % 26, 97 + number % 26) + name(labels)

def records(args):
    yield signed(ROOT, SOA, SOA_DATA, 0, ROOT)
    for number in range(args.chains): yield from chain(args, bytes([number]) * args.salt, proves=number == 0)
    for labels in range(args.labels):
        zone = b"\x010" + name(labels)
        yield signed(zone, SOA, SOA_DATA, labels + 1, zone)
    deep = args.labels - 2
    for zone in (beside(number, deep) for number in range(args.zones)):
        yield signed(zone, SOA, SOA_DATA, deep + 1, zone)
    for number in range(args.sets): yield signed(beside(number, deep), A, bytes([192, 0, 2, 1]), deep + 1, ROOT)

def filling(args):
    """Frames: each message has as many records as fit."""
    some, size = [], 0
    for each in records(args):
        octets = sum(map(len, each))
        if size + octets > MOST_OCTETS or len(some) == A_MESSAGE:
            yield answer(some, MOMENT)
            some, size = [], 0
        some.append(each)
        size += octets
    yield answer(some, MOMENT)

def words(parser):
    runs.takes_program(parser)
    runs.takes_numbers(parser, labels=127, salt=255, iterations=50, chains=2, zones=0, sets=0, queries=20)

def run(args):
    octets = b"".join(filling(args))
    without, stored = runs.counted(args.program, octets)
    whole, output = runs.counted(args.program, octets + query(name(args.labels), A) * args.queries)
    held, skipped = map(sum, zip(*(seen(each.kind, each.body)[1:] for each in wire.frames(stored))))
    first = next(wire.frames(output[len(stored) :]))
    cost = (whole - without) // args.queries
    print(f"{held} stored, {skipped} skipped; {told(seen(first.kind, first.body))}: {cost:,} instructions a query")
