"""Runs the program with each of its calls to the system refused in turn, and looks at how it ends.

A library (refuse.c) that is loaded before the C library counts the program's allocations, starts of threads, reads of
standard input and writes of standard output, and refuses one of them, or has one move a single octet: each in turn. A
run must end so:

    an allocation or a thread refused   status 6 and nothing written, or status 0 and an output that is right
    a read refused                      status 3 and nothing written
    a write refused                     status 5 and a part of the output, or none of it
    a read or a write of one octet      status 0 and the right output

The cases are the stored example; a name error over NSEC; one over NSEC3; a run of two workers, whose output is right
where `fits` says so; one of three workers with more frames than one range has; a zone of 1,200 records that is filled,
changed and asked, of whose allocations every 97th is refused; a made zone; and an audit. Of the tests, whose program
`rt test` leaves beside PROGRAM, the one that looks at what a refused insert leaves is run with each allocation refused.
"""
import functools, os, struct, subprocess, tempfile
from collections import Counter, namedtuple
from pathlib import Path
from .. import fits, run as runs, wire
from ..bench import zones
from ..wire import NS, NSEC, NSEC3, QUERY, REPLY, RRSIG, SOA, STORED, Fault, check, frames

TEST = "run::hostile_tests::a_refused_insert_shows_the_version_from_before"
EIGHT = b"names 4\nbatches 5\nqueries 8\nanswers 1\nno-data 4\nname-errors 2\nforwards 1\n"  # by its turns
ADDRESS = bytes((192, 0, 2, 1))
SECONDS = 60  # after which a run is taken to hang
SWEEPS = (("alloc", False), ("thread", False), ("read", False), ("read", True), ("write", False), ("write", True))
STATUSES = {"alloc": 6, "thread": 6, "read": 3, "write": 5}

# what looks at an output, whether runs may differ, and the step from one refused allocation to the next
Case = namedtuple("Case", "words octets look varies step", defaults=(False, 1))
Run = namedtuple("Run", "hits status output said")  # how many calls were hit, and how it ended

def equals(wanted): return lambda output: check(output == wanted, "another output than the stored one")

def replayed(workers, octets, look, **more):
    return Case(["replay", "--workers", str(workers)], octets, look, **more)

def stored(_):
    given, wanted = ((runs.CRATE / name).read_bytes() for name in ("stdin", "stdout"))
    return replayed(1, given, equals(wanted))

def is_name_error(output):
    """Two records were stored, and the reply has RCODE 3 and four records of authority."""
    wanted, seen = [(STORED, 2, 0), (REPLY, 3, 0, 4)], [zones.seen(each.kind, each.body) for each in frames(output)]
    check(seen == wanted, f"frames {seen}, wanted {wanted}")

def denied(rtype, owner, data, asked):
    """A denial record of the apex, and a query for a name that it denies."""
    denial = zones.signed(owner + zones.TO_APEX, 1 + bool(owner), rtype, 3_600, data)
    return zones.answer([zones.SIGNED_SOA, denial], zones.MOMENT) + zones.query(asked + zones.APEX, wire.A)

def by_nsec(): return denied(NSEC, b"", b"\1f" + zones.APEX + wire.type_bit_maps(NS, SOA, RRSIG, NSEC), b"\1d")

def by_nsec3():
    """One record whose arc is the whole ring, of the name `example`, with the parameters of RFC 5155, appendix A."""
    salt = bytes.fromhex("aabbccdd")
    digest = wire.hash_of(zones.APEX, salt, 12)
    return denied(NSEC3, wire.hashed_label(digest), wire.nsec3_data(digest, (NS, SOA, RRSIG), salt, 12), b"\2zz")

def two_workers(program):
    """Answers and queries for both, in turn."""
    octets = by_nsec() + by_nsec3()
    mine, others = (wire.HEAD.pack(QUERY, worker, zones.LATER, 0)[:6] for worker in (0, 1))
    octets += octets.replace(mine, others)
    inputs = list(frames(octets))
    return replayed(2, octets, lambda output: fits.look(program, inputs, list(frames(output))), varies=True)

def three_workers(_):
    """20,000 queries of another opcode, and their replies: it isn't implemented (RFC 1035), with the identifier."""
    octets, wanted = [], []
    for number in range(20_000):
        worker, rest = number % 7 % 3, bytes(8)
        octets.append(wire.frame(QUERY, 1_000, struct.pack(">HH", number, 0x0800) + rest, worker))
        wanted.append(wire.frame(wire.ERROR, 0, struct.pack(">HH", number, 0x8884) + rest, worker))
    return replayed(3, b"".join(octets), equals(b"".join(wanted)), varies=True)

def long_chain(_):
    """A chain that is long enough for a pool of its pages' memory, changes of it, and names that it denies."""
    zone = zones.Zone(zones.CHAINS["nsec"], 1_200)
    calls = [*zone.filling(), *(call(zone, at) for call in (zones.insert_later, zones.name_error) for at in range(20))]
    return replayed(1, zones.joined(calls), lambda output: zones.check_calls(output, calls), step=97)

def audited(_):
    """The stored example, with a zone of which its records are true."""
    names = (wire.SOA, b"", zones.SOA_DATA), (wire.A, b"\1a", ADDRESS), (wire.A, b"\1b", ADDRESS)
    recorded = ((runs.CRATE / name).read_bytes() for name in ("stdin", "stdout"))
    zone = [(owner + zones.APEX, rtype, data) for rtype, owner, data in names]
    return Case(["audit"], wire.audit_source(zones.APEX, zone, *recorded), equals(b"yes 1\n"))

CASES = {
    "stored": stored,
    "nsec": lambda _: replayed(1, by_nsec(), is_name_error),
    "nsec3": lambda _: replayed(1, by_nsec3(), is_name_error),
    "workers": two_workers,
    "ranges": three_workers,
    "long": long_chain,
    "made": lambda _: Case(["selfrun", "--seed", "1", "--names", "4", "--queries", "8"], b"", equals(EIGHT)),
    "audit": audited,
}

class Runner:
    """Runs programs over the counting library."""
    def __init__(self, folder):
        self.counts, self.library = Path(folder, "counts"), os.path.join(folder, "refuse.so")
        runs.need("gcc", "cc")
        source = Path(__file__).with_name("refuse.c")
        subprocess.run(["cc", "-O1", "-w", "-shared", "-fPIC", "-o", self.library, source, "-ldl"], check=True)

    def run(self, words, octets, kind="", call=0, short=False):
        env = {"LD_PRELOAD": self.library, "HOSTILE_PROGRAM": os.path.basename(words[0]), "HOSTILE_COUNTS": self.counts}
        env |= {"HOSTILE_KIND": kind, "HOSTILE_CALL": str(call)} | ({"HOSTILE_SHORT": "1"} if short else {})
        self.counts.write_bytes(bytes(4096))
        try:
            done = subprocess.run(words, input=octets, capture_output=True, env=env, timeout=SECONDS, check=False)
        except subprocess.TimeoutExpired:
            raise Fault(f"no end after {SECONDS} seconds") from None
        hits, allocations = struct.unpack_from("2q", self.counts.read_bytes())
        check(allocations, f"{words[0]}: no allocation was counted, so nothing could be refused")
        return Run(hits, done.returncode, done.stdout, done.stderr)

    def sweep(self, name, words, octets, how, step, look):
        """Runs with each call hit in turn, until one is past the last, and tells how they end, in words of `look`."""
        ends, call, kind, short = Counter(), 1, *how
        try:
            while (run := self.run(words, octets, kind, call, short)).hits:
                ends[look(run)] += 1
                call += step
        except Fault as why:
            raise Fault(f"{name}, {kind} {call}{' short' * short}: {why}") from why
        told = ", ".join(f"{count} {end}" for end, count in sorted(ends.items())) or "none"
        print(f"{name:8} {kind + ' short' * short:12} {sum(ends.values()):5} runs: {told}", flush=True)

def look_at(case, how, whole, run):
    """A run must have ended as it should."""
    kind, short = how
    if run.status == 0:
        check(short or kind in ("alloc", "thread"), "status 0 after a refused call")
        case.look(run.output)
    else:
        check(not short and run.status == STATUSES[kind], f"status {run.status}: {run.said[-200:]!r}")
        is_part = len(run.output) < len(whole) and (case.varies or whole.startswith(run.output))
        check(is_part if kind == "write" else not run.output, "other octets were written than a strict front, or any")
    return f"with status {run.status}"

def look_at_test(run):
    """The test passes, or says that it had no memory itself."""
    said = run.said + run.output
    check(not run.status or b"AllocError" in said, repr(said[-300:]))
    return "without memory itself" if run.status else "passed"

def words(parser):
    runs.takes_program(parser)
    parser.add_argument("--tests", type=runs.program, metavar="PROGRAM")
    every = "refuse every Nth allocation alone"
    parser.add_argument("--every", type=runs.number(1), default=1, metavar="N", help=every)
    parser.add_argument("--cases", nargs="*", choices=CASES, default=CASES, metavar="NAME", help=", ".join(CASES))

def run(args):
    with tempfile.TemporaryDirectory() as folder:
        runner = Runner(folder)
        for name in (each for each in CASES if each in args.cases):
            case = CASES[name](args.program)
            line = [args.program, *case.words]
            whole = runner.run(line, case.octets)
            check(not whole.status, f"{name}: status {whole.status}")
            case.look(whole.output)
            for how in SWEEPS:
                step = args.every * case.step if how[0] == "alloc" else 1
                look = functools.partial(look_at, case, how, whole.output)
                runner.sweep(name, line, case.octets, how, step, look)
        if args.tests: runner.sweep("test", [args.tests, TEST], b"", ("alloc", False), args.every, look_at_test)
