"""Counts what answers cost whose records are many of one kind: groups, signatures of one group, equal records.

Each answer is one input frame of a replay by one worker; what is counted is the whole run less one without frames. That
nothing is quadratic is seen from the last column: instructions a record, through those of the first count.
"""
from .. import run as runs, wire
from ..wire import A, NSEC, OUTPUT_KINDS, UPSTREAM, record, signature, signed
from .zones import APEX, MOMENT, TO_APEX

MOST_OCTETS = 65_535
DATA = b"\1\2\3\4"
SET, SIGNATURE = record(TO_APEX, A, DATA), signature(TO_APEX, A, 1, APEX)

def below(number, apex=TO_APEX): return b"\5%05d" % number + apex
def falling(number): return (0xFFFF_FFFF - number).to_bytes(4, "big")

def denial(number): return signed(below(number), NSEC, below(number + 1, APEX) + wire.type_bit_maps(A), 2, APEX)

# the records of each number, and what stands once behind all
SHAPES = {
    "unsigned_groups": (lambda number: [record(below(number), A, DATA)], []),
    "signed_groups": (lambda number: signed(below(number), A, DATA, 2, APEX), []),
    "signed_denials": (denial, []),
    "types_of_one_name": (lambda number: [record(TO_APEX, 256 + number, DATA)], []),
    "data_of_one_group": (lambda number: [record(TO_APEX, A, number.to_bytes(4, "big"))], [SIGNATURE]),
    "falling_data_of_one_group": (lambda number: [record(TO_APEX, A, falling(number))], [SIGNATURE]),
    "equal_records": (lambda _: [SET], [SIGNATURE]),
    "signatures_of_one_group": (lambda number: [signature(TO_APEX, A, 1, APEX, tag=number)], [SET]),
    "equal_signatures": (lambda _: [SIGNATURE], [SET]),
    "signatures_of_nothing": (lambda number: [signature(below(number), A, 2, APEX)], []),
}

def answer(shape, count):
    of_each, last = SHAPES[shape]
    records = [each for number in range(count) for each in of_each(number)]
    return wire.message(0x81A0, wire.question(APEX, A), records + last, identity=1)

def longest(shape, count):
    """How many records an answer may have, and it."""
    message = answer(shape, count)
    while len(message) > MOST_OCTETS:
        count = min(count - 1, count * MOST_OCTETS // len(message))
        message = answer(shape, count)
    return count, message

def words(parser):
    runs.takes_program(parser)
    parser.add_argument("--counts", nargs="+", type=runs.number(1), default=[250, 500, 1_000, 2_000], metavar="N")
    parser.add_argument("--only", nargs="+", choices=SHAPES, default=SHAPES, metavar="SHAPE", help=", ".join(SHAPES))

def run(args):
    base, _ = runs.counted(args.program, b"")
    print("| records | number | octets | outcome | instructions | a record | an octet | growth |")
    print("|---|---:|---:|---|---:|---:|---:|---:|")
    for shape in (each for each in SHAPES if each in args.only):
        first = None
        for count in args.counts:
            count, message = longest(shape, count)
            whole, output = runs.counted(args.program, wire.frame(UPSTREAM, MOMENT, message))
            cost, outcome = whole - base, OUTPUT_KINDS.get(output[0], str(output[0]))
            first = first or cost / count
            costs = f"{cost:,} | {cost // count:,} | {cost / len(message):.1f} | {cost / count / first:.2f}"
            print(f"| {shape.replace('_', ' ')} | {count:,} | {len(message):,} | {outcome} | {costs} |", flush=True)
