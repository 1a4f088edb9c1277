"""Tries `report` with captures of all kinds: random ones that the reference model counts, odd files, real resolvers.

A line tells of each check whether it is ok or FAILED, and why; status 1 where one failed. The checks by their groups:

    model       random captures, over all links, formats and ways of DNS: each figure as the reference model counts it
    runs        the same figures by many runs of the program, whose state is carried over, as by one
    guess       the resolver's address, where it isn't told
    files       files that are cut, empty, no captures, or of links that aren't read
    large       one of 2 GB, most of it holes: figures, memory, and progress on a terminal
    schema      JSON by docs/report.schema.json, and its sums
    page        the page in chromium, at three widths, light and dark: nothing sticks out
    resolvers   captures before unbound, Knot Resolver, BIND, PowerDNS Recursor and `forward` under a mixed load: the
                counts of dnsperf, of the clients and of `forward`, and those of the model

`resolvers` takes root. It needs Debian's packages: apt-get install chromium tcpdump knot unbound bind9 bind9-utils
bind9-dnsutils knot-resolver pdns-recursor dnsperf iproute2 python3-dnspython python3-matplotlib python3-jsonschema.
"""
import os, shutil, tempfile
from pathlib import Path
from .. import run as runs
from ..tally import Tally
from . import browser, figures, files, large, resolvers, schema
from .lab import Lab

CHECKS = {
    "model": figures.by_model, "runs": figures.many_runs, "guess": figures.guessed, "files": files.odd_files,
    "large": large.run, "schema": schema.run, "page": browser.run, "resolvers": resolvers.run,
}  # fmt: skip

def words(parser):
    runs.takes_program(parser)
    parser.add_argument("--checks", nargs="+", choices=CHECKS, default=CHECKS, metavar="GROUP", help="(default: all)")
    runs.takes_numbers(parser, seed=7)
    runs.takes_numbers(parser, 1, captures=60)
    parser.add_argument("--keep", metavar="FOLDER", type=Path, help="a new folder for captures, reports and logs")

def run(args):
    os.environ["PATH"] += ":/usr/sbin:/sbin"  # where Debian has daemons, for a user without it
    if args.keep: args.keep.mkdir()
    folder = (args.keep or Path(tempfile.mkdtemp(prefix="try_report"))).resolve()
    try:
        folder.chmod(0o755)
        lab, tally = Lab(args, folder), Tally()
        for name in args.checks:
            with tally.guard(f"{name}, to start with"): CHECKS[name](lab, tally)
        return tally.end()
    finally:
        if not args.keep: shutil.rmtree(folder, ignore_errors=True)
