"""Draws what a call costs by the number of records held, and what installed resolvers cost beside it."""
import os, shutil
from types import SimpleNamespace
from pathlib import Path
from .. import run as runs
from ..report import plots
from . import calls, peers
from .zones import CHAINS, KINDS

SIZES = 1_000, 10_000, 131_072
QUERIED, INSERTED = ("name-error", "no-data", "set", "forward"), ("insert",)
CHAIN, CALLS, QUERIES = "nsec", 500, 20_000
FROM_CACHE = 1.0  # microseconds of knotd a query, below which a resolver doesn't ask it

def words(parser):
    parser.add_argument("--svg", type=Path, metavar="FILE", help="draw what a call costs by the number of records held")
    text = "to draw it of (default: what `rt run` leaves)"
    parser.add_argument("--program", type=runs.program, metavar="PROGRAM", help=text)

def run(args):
    os.environ["PATH"] += ":/usr/sbin:/sbin"  # where Debian has daemons, for a user without it
    plots.figure()  # which tells at once what is missing
    args.program = args.program or runs.built()
    panels = list(counted(args))
    if all(map(shutil.which, peers.NEEDED)): panels.append(timed(args))
    lines = [
        f"{label}, {ylabel}: " + ", ".join(f"{held:,}: {cost:,.1f}" for held, cost in points)
        for _, ylabel, named in panels for label, points in named.items()
    ]  # fmt: skip
    drawn = plots.curves("bench", "Cost by the number of records held", "; ".join(lines), panels)
    args.svg.write_text(drawn, encoding="utf-8")
    print("\n".join(lines))

def counted(args):
    """Instructions of queries, and of an insert, counted over NSEC."""
    how = {"chains": [CHAIN], "sizes": SIZES, "calls": CALLS, "runs": 0, "work": 1}
    found = calls.all_figures(SimpleNamespace(program=args.program, kinds=(*QUERIED, *INSERTED), **how))
    for some, what in ((QUERIED, "a query"), (INSERTED, "an insert")):
        named = {}
        for kind in map(KINDS.get, some):
            named[kind.title_for(CHAINS[CHAIN])] = [(size, found[CHAIN, kind, size][0]) for size in SIZES]
        yield "records held", f"instructions {what}", named

def timed(args):
    """Processor time of a name error by `forward` and by resolvers, but for those that ask the server all the same."""
    words = SimpleNamespace(program=args.program, sizes=peers.SIZES, queries=QUERIES, seed=7)
    found = {key: cost for key, (cost, asked) in peers.figures(words).items() if asked < FROM_CACHE}
    names = dict.fromkeys(name for name, _ in found)
    named = {name: [(size, found[name, size]) for size in peers.SIZES if (name, size) in found] for name in names}
    return "denial records held", "µs a name error", named
