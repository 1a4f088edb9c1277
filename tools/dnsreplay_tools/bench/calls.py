"""Measures what a call costs on the whole way from frame to frame, with caches of several sizes filled beforehand.

docs/PERFORMANCE.md says what is counted and how the figures are read.
"""
import itertools, sys
from .. import run as runs
from ..wire import check
from .zones import CHAINS, HELD_LIMIT, KINDS, Zone, check_calls, joined, takes_several

INPUT_LIMIT = 67_108_864  # of dnsreplay
SIZES = (1_000, 10_000, 100_000, HELD_LIMIT)
WARM = 20  # how many queries of each kind come before the calls that are measured

# What the options are by default, and with --quick
WHOLE = {"chains": list(CHAINS), "sizes": SIZES, "calls": 2_000, "runs": 5, "work": 2_000}
QUICK = {"chains": ["nsec", "nsec3-0-0"], "sizes": (SIZES[0], SIZES[-1]), "calls": 500, "runs": 3, "work": 500}

class Bench:
    """Runs the program over inputs that begin with one filling."""
    def __init__(self, args, zone):
        self.args, self.zone = args, zone
        self.kinds = [KINDS[each] for each in args.kinds if zone.size == HELD_LIMIT or not KINDS[each].full]
        warm = [self.calls(kind, 0, WARM) for kind in self.kinds if not kind.inserts]
        self.base = [*zone.filling(), *itertools.chain(*warm)]
        self.base_octets = joined(self.base)
        self.base_count = self.base_seconds = None

    def calls(self, kind, start, count):
        return [kind.call(self.zone, number) for number in range(start, start + count)]

    def fitting(self, kind, count):
        """So many calls, or as many as the input has room for."""
        room = (INPUT_LIMIT - len(self.base_octets)) // len(kind.call(self.zone, WARM).frame)
        return self.calls(kind, WARM, min(count, room, kind.most))

    def measure(self, kind):
        """Instructions and nanoseconds a call; the latter is None where no time is asked for."""
        if self.base_count is None: self.base_count = self.count(self.base)
        calls = self.fitting(kind, self.args.calls)
        instructions = (self.count(self.base + calls) - self.base_count) / len(calls)
        if not self.args.runs: return instructions, None
        calls = self.fitting(kind, max(1_000, int(self.args.work * 1_000_000 / max(instructions, 1))))
        return instructions, self.nanoseconds(calls)

    def count(self, calls):
        """Instructions of a whole run."""
        octets = joined(calls)
        check(len(octets) <= INPUT_LIMIT, f"an input of {len(octets)} octets is too long")
        count, output = runs.counted(self.args.program, octets)
        check_calls(output, calls)
        return count

    def nanoseconds(self, calls):
        """The least of several runs with the calls less the least without; these alternate, for an even load."""
        octets = self.base_octets + joined(calls)
        check_calls(runs.replay(self.args.program, octets)[0], self.base + calls)
        times = []
        for _ in range(self.args.runs):
            times.append(runs.timed(self.args.program, octets)[0])
            base, _ = runs.timed(self.args.program, self.base_octets)
            self.base_seconds = min(base, self.base_seconds or base)
        return (min(times) - self.base_seconds) * 1e9 / len(calls)

def all_figures(args):
    """The figures by chain, kind and size."""
    figures = {}
    for chain in args.chains:
        for size in args.sizes:
            tell(f"{CHAINS[chain].title}: filling with {size:,}")
            bench = Bench(args, Zone(CHAINS[chain], size))
            for kind in bench.kinds:
                figures[chain, kind, size] = instructions, nanoseconds = bench.measure(kind)
                time = "" if nanoseconds is None else f", {nanoseconds:,.0f} ns"
                tell(f"  {kind.title_for(CHAINS[chain])}: {instructions:,.0f} instructions{time}")
    return figures

def tell(text):
    print(f"bench: {text}", file=sys.stderr, flush=True)

def rows(args, figures, part):
    """The cells of a table, by chain and kind."""
    for chain in args.chains:
        yield [f"**{CHAINS[chain].title}**"] + [""] * (len(args.sizes) + (len(args.sizes) > 1))
        for kind in (KINDS[each] for each in args.kinds):
            row = [figures.get((chain, kind, size), (None, None))[part] for size in args.sizes]
            if any(figure is not None for figure in row):
                cells = ["" if figure is None else f"{figure:,.0f}" for figure in row]
                grown = f"{row[-1] / row[0]:.2f}" if row[0] and row[-1] else ""
                yield [kind.title_for(CHAINS[chain]), *cells, *[grown] * (len(row) > 1)]

def table(args, figures, part, head):
    lines = [[head, *(f"{size:,}" for size in args.sizes), *["growth"] * (len(args.sizes) > 1)]]
    lines += rows(args, figures, part)
    widths = [max(map(len, column)) for column in zip(*lines)]
    lines.insert(1, ["-" * widths[0]] + ["-" * (width - 1) + ":" for width in widths[1:]])
    for first, *rest in lines:
        cells = [first.ljust(widths[0])] + [cell.rjust(width) for cell, width in zip(rest, widths[1:])]
        print("| " + " | ".join(cells) + " |")

def words(parser):
    runs.takes_program(parser)
    takes_several(parser, kinds=(KINDS, list(KINDS)), chains=(CHAINS, None), sizes=None)
    for name, least, text in (
        ("--calls", 1, "how many calls are counted (2000; quick: 500)"),
        ("--runs", 0, "how many runs are timed; 0 for no times (5; quick: 3)"),
        ("--work", 1, "instructions of a timed run's calls, in millions (2000; quick: 500)"),
    ):
        parser.add_argument(name, type=runs.number(least), metavar="N", help=text)
    quick = "NSEC, and NSEC3 without iterations and salt; 1,000 and 131,072 records"
    parser.add_argument("--quick", help=quick, action="store_true")

def run(args):
    for name, value in (QUICK if args.quick else WHOLE).items():
        if getattr(args, name) is None: setattr(args, name, value)
    args.sizes = sorted(set(args.sizes))
    figures = all_figures(args)
    table(args, figures, 0, "instructions a call")
    if args.runs:
        print()
        table(args, figures, 1, "nanoseconds a call")
