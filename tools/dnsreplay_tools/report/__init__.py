"""Tells what aggressive caching would have saved of a capture, by runs of `replay` over it.

The captures, pcap or pcapng, gzipped too, are read in order of time: DNS over UDP and TCP, between clients and the
resolver that `--resolver` names, or that is guessed, and told. docs/CAPTURES.md has how to capture, and what the
figures say. A file that breaks off is used up to there. Status 1 where there is no query, 2 where a file can't be read.
"""
import collections, contextlib, itertools, sys
from pathlib import Path
from .. import run as runs
from ..captures import merged
from ..captures.files import opened
from ..wire import check
from . import data, page, sides, text
from .progress import Progress
from .reading import Reading

DNS_PORT, TOP = 53, 10

class Report:
    """The figures, and what is to be said of how they came."""
    def __init__(self, captures, command, ends, guess, reading, passed):
        self.captures, self.command, self.ends, self.guess = captures, command, ends, guess
        self.figures, self.trial, self.held = reading.figures, reading.trial, reading.held
        self.passed, self.elsewhere = passed, reading.elsewhere

def words(parser):
    parser.set_defaults(unreadable=2)
    parser.add_argument("captures", metavar="CAPTURE", nargs="+", type=Path)
    of_program = "a built dnsreplay (default: what `rt run` leaves)"
    parser.add_argument("--program", type=runs.program, metavar="PROGRAM", help=of_program)
    how = "its address, perhaps with a port; several where it has several"
    parser.add_argument("--resolver", action="append", default=[], metavar="ADDRESS", help=how)
    parser.add_argument("--port", type=runs.number(1, 0xFFFF), default=DNS_PORT, metavar="N", help="(default: 53)")
    how = "answer by way of aliases and redirections too, as `forward` does"
    parser.add_argument("--follow", action="store_true", help=how)
    parser.add_argument("--top", type=runs.number(1, 1_000), default=TOP, metavar="N", help=f"zones (default: {TOP})")
    parser.add_argument("--html", type=Path, metavar="FILE", help="a page that stands alone")
    parser.add_argument("--svg", type=Path, metavar="FILE", help="the page's first plot, alone")
    parser.add_argument("--json", type=Path, metavar="FILE", help="the figures (docs/report.schema.json)")

def run(args):
    args.program = args.program or runs.built()
    with contextlib.ExitStack() as stack:
        captures = opened(args.captures)
        for each in captures: stack.callback(each.close)
        report = made(args, captures)
    print("\n".join(text.lines(report, args.top)))
    for path, text_of in (
        (args.json, lambda: data.text(report, args.top)), (args.html, lambda: page.page(report, args.top)),
        (args.svg, lambda: page.drawn_over_time(data.of(report, args.top), alone=True)),
    ):  # fmt: skip
        if path: path.write_text(text_of(), encoding="utf-8")

def tell(lines):
    """What is to be said at once."""
    for line in lines: print(f"report: {line}", file=sys.stderr, flush=True)

def made(args, captures, **how):
    """The report of captures; `how` bounds the runs."""
    ends = [sides.end_of(each, args.port) for each in args.resolver]
    passed = collections.Counter()
    messages = merged(captures, passed, {args.port, *(port for _, port in ends)})
    guess = None
    if not ends:
        guess = sides.Guess(messages)
        ends, messages = [guess.end], itertools.chain(guess.seen, messages)
    command = ["follow"] if args.follow else runs.of_replay()
    reading = Reading(args.program, command, ends, **how)
    with Progress(captures) as progress:
        for message in messages:
            if reading.add(message): tell(text.hints(reading.figures))
            progress.look()
        reading.end()
    report = Report(captures, command, ends, guess, reading, passed)
    check(report.figures.queries, "no query to the resolver: " + "; ".join(text.unused(report)))
    return report
