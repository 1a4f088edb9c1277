"""Measures what a name error from the cache costs by `forward` and by resolvers that cache aggressively too.

A signed zone of so many names is served by knotd; each resolver, and `forward` before an unbound that doesn't, is asked
for one missing name in each gap, so that it holds all NSEC records, and then for others in the same gaps. A figure is
processor time of the program, by a dnsperf that asks over UDP with DO; beside it stands that of knotd, which has little
where nothing is asked. Only what is installed is measured: apt-get install knot dnsperf bind9-utils bind9-dnsutils, and
unbound, knot-resolver, bind9 and pdns-recursor.
"""
import os, random, shutil, tempfile, time
from pathlib import Path
from .. import run as runs
from ..signed_zones import delegation, signed
from ..try_forward import lab, resolvers
from ..try_forward.load import codes, dnsperf
from ..wire import Fault, check
from .calls import tell

ZONE = "plain."  # which every resolver asks the server for
SIZES = 100, 1_000, 10_000
PROGRAMS = {"unbound": "unbound", "Knot Resolver": "kresd", "BIND": "named", "PowerDNS Recursor": "pdns_recursor"}
NEEDED = "knotd", "dnsperf", "dnssec-signzone", "dig", "unbound"
PACKAGES = "knot dnsperf bind9-utils bind9-dnsutils unbound"
FORWARD = "dnsreplay forward"
RATE = 20_000  # queries a second at most, so that none is lost

class Lab(lab.Lab):
    """A signed root and a zone of so many names."""
    def __init__(self, args, folder, size):
        self.args, self.program, self.folder, self.size = args, args.program, folder, size
        ds = signed(folder, ZONE, [f"n{at:06d} A 192.0.2.1" for at in range(size)])
        self.anchor = signed(folder, ".", [delegation(ZONE), ds])
        first = runs.free_ports(lab.PORTS)
        self.ports = iter(range(first, first + lab.PORTS))
        self.authority = self.port()

    def knot(self, servers):
        folder = servers.folder / "knot"
        folder.mkdir()
        zones = "".join(f'  - domain: "{zone}"\n    file: "{self.folder}/{zone}zone"\n' for zone in (".", ZONE))
        (folder / "knot.conf").write_text(lab.KNOT.format(folder=folder, port=self.authority) + zones)
        return servers.start("knot", "knotd", "-c", folder / "knot.conf")

def installed():
    """The resolvers that are there, each with what starts it."""
    return {name: resolvers.RESOLVERS[name] for name, program in PROGRAMS.items() if shutil.which(program)}

def questions(servers, name, labels):
    path = servers.folder / name
    path.write_text("".join(f"{each}.{ZONE} A\n" for each in labels))
    return path

def cost(servers, process, knot, port, path):
    """Microseconds of processor time a query, of a program and of the authoritative server."""
    before = [processor_time(each) for each in (process, knot)]
    _, sent, lost, text = dnsperf(servers, port, path, "-n", 1, "-Q", RATE, clients=8)
    check(lost * 100 <= sent, f"{lost:,} of {sent:,} lost")
    check("NXDOMAIN" in codes(text), codes(text))
    return [(processor_time(each) - was) / 1_000 / sent for each, was in zip((process, knot), before)]

def processor_time(process):
    """Seconds in nanoseconds of a process with all its threads (CPUCLOCK_SCHED of Linux)."""
    return time.clock_gettime_ns((~process.pid << 3) | 2)

def one(place, knot, name, start):
    """The cost of a query by one program."""
    with place.servers(name.replace(" ", "-")) as servers:
        if name == FORWARD:
            forward = servers.forward(resolvers.unbound(servers))
            process, port = forward.process, forward.port
        else:
            port = start(servers, aggressive=True)
            process = next(each for of, each in servers.running.items() if of != "network")
        rng = random.Random(place.args.seed)
        first = questions(servers, "first", [f"n{at:06d}m" for at in range(place.size)])
        others = [f"n{rng.randrange(place.size):06d}{rng.choice('abcdefgh')}{at}" for at in range(place.args.queries)]
        for _ in range(2): cost(servers, process, knot, port, first)
        return cost(servers, process, knot, port, questions(servers, "others", others))

def figures(args):
    """By size and name, the costs; a resolver that fails has none."""
    runs.need(PACKAGES, *NEEDED)
    found = {}
    for size in args.sizes:
        folder = Path(tempfile.mkdtemp(prefix="bench_peers"))
        try:
            folder.chmod(0o755)
            place = Lab(args, folder, size)
            with place.servers("base") as base:
                knot = place.knot(base)
                for name, start in {FORWARD: None, **installed()}.items():
                    try:
                        found[name, size] = one(place, knot, name, start)
                    except Fault as why:
                        tell(f"{name}, {size:,} records: {why}")
                    else: tell(f"{name}, {size:,} records: {told(found[name, size])} µs")
        finally:
            shutil.rmtree(folder, ignore_errors=True)
    return found

def told(costs): return "{:.1f} (knotd {:.1f})".format(*costs)

def words(parser):
    runs.takes_program(parser)
    sizes = {"type": runs.number(10, 100_000), "metavar": "N", "help": "denial records held"}
    parser.add_argument("--sizes", nargs="+", default=SIZES, **sizes)
    runs.takes_numbers(parser, 1, queries=20_000)
    runs.takes_numbers(parser, seed=7)

def run(args):
    os.environ["PATH"] += ":/usr/sbin:/sbin"  # where Debian has daemons, for a user without it
    found = figures(args)
    names = list(dict.fromkeys(name for name, _ in found))
    print("| µs a query | " + " | ".join(f"{size:,}" for size in args.sizes) + " |\n|---|" + "---:|" * len(args.sizes))
    for name in names:
        cells = [told(found[name, size]) if (name, size) in found else "" for size in args.sizes]
        print(f"| {name} | " + " | ".join(cells) + " |")
