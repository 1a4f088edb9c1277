"""Measures how much faster several workers are than one, over the same records and queries.

The zone and the queries are those of `bench calls` (a name error each), dealt out to the workers. A figure is the least
wall time of several runs with the queries, less the least of as many with none; the runs of one worker and of several,
with queries and with none, take turns. With --huge-pages the C library is told to ask for pages of 2 MiB
(GLIBC_TUNABLES). The machine has to be idle, with a core for each worker.
"""
import os
from .. import run as runs
from .zones import CHAINS, Zone, name_error

def words(parser):
    runs.takes_program(parser)
    runs.takes_numbers(parser, 1, workers=4, held=100_000, queries=100_000, runs=5)
    parser.add_argument("--huge-pages", action="store_true")

def dealt(calls, workers):
    """The frames, each for the next worker."""
    frames = (call.frame for call in calls)
    return b"".join(each[:1] + bytes([number % workers]) + each[2:] for number, each in enumerate(frames))

def run(args):
    env = dict(os.environ) | ({"GLIBC_TUNABLES": "glibc.malloc.hugetlb=1"} if args.huge_pages else {})
    zone = Zone(CHAINS["nsec"], args.held)
    filling = list(zone.filling())
    queries = [name_error(zone, number) for number in range(args.workers * args.queries)]
    inputs = {}
    for workers in (1, args.workers):
        inputs[workers, True] = dealt(filling + queries, workers)
        inputs[workers, False] = dealt(filling, workers)
    least = dict.fromkeys(inputs, float("inf"))
    for _ in range(args.runs):
        for key, octets in inputs.items():
            least[key] = min(least[key], runs.timed(args.program, octets, key[0], env)[1])
    took = {workers: least[workers, True] - least[workers, False] for workers in (1, args.workers)}
    for workers, each in took.items():
        print(f"{workers} workers: {len(queries)} queries in {each:.3f} s, the whole {least[workers, True]:.3f} s")
    print(f"ratio: {took[1] / took[args.workers]:.2f}")
