"""Tries the C library: its output against the program's, memory and threads under valgrind, refused allocations, C++.

FOLDER is what `library` made. Over the static library and the shared one: `calls.cc`, a C++ program that looks at each
call's codes and at what they leave; `replay.c`, which must write for frames of one worker what `dnsreplay replay`
writes, octet for octet: the stored example, FRAMES (inputs of one worker), and random scenarios drawn from the seed.
Under valgrind's memcheck both, and under helgrind and memcheck `examples/threads.c`, a writer with three readers: no
error, no block left. With each allocation of the stored example refused in turn: the call that meets it is made again, and the
output is the same. All of it with a stack of 64 kB. The man page reads without a warning. And the instructions of each
call: of queries and inserts beside the program's, which they may not exceed by more than 3 %.

It needs Debian's gcc, g++, pkg-config, man-db and valgrind. The first thing that isn't as expected ends it with
status 1.
"""
import random, subprocess, tempfile
from pathlib import Path
from .. import run as runs
from ..bench import zones
from ..differential import spelled
from ..hostile.runs import Runner
from ..library import done
from ..random_scenarios import KINDS, OF_REPLAY
from ..wire import Frame, check, frames

HERE = Path(__file__).parent
STRICT = ("-Wall", "-Wextra", "-Wpedantic", "-Werror", "-O1", "-g")
MEMCHECK = ("valgrind", "--quiet", "--error-exitcode=99", "--leak-check=full", "--show-leak-kinds=all")
HELGRIND = ("valgrind", "--quiet", "--error-exitcode=99", "--tool=helgrind", "--history-level=full")
STATIC, SHARED = "static", "shared"
MANY = 2_000
SIZES = 100, 1_000
MOST_COPY = 400  # with its closing
MOST_QUERY, MOST_INSERT = 1.03, 1.0  # of the program's
SMALL_STACK = ("prlimit", f"--stack={64 << 10}")

def words(parser):
    parser.add_argument("folder", metavar="FOLDER", type=Path, help="what `library` made")
    runs.takes_program(parser)
    parser.add_argument("--frames", metavar="FRAMES", nargs="*", default=[], type=Path, help="inputs of one worker")
    runs.takes_numbers(parser, seed=1, scenarios=20)

class Built:
    """The programs over the library, built in a scratch folder."""
    def __init__(self, folder, scratch):
        self.library, self.scratch = folder.absolute(), Path(scratch)

    def build(self, source, how, *more):
        path = self.scratch / f"{source.stem}-{how}"
        compiler, form = ("c++", "-std=c++11") if source.suffix == ".cc" else ("cc", "-std=c11")
        lib = self.library / "lib"
        flags = done("pkg-config", "--cflags", "--libs", lib / "pkgconfig" / "dnsreplay.pc").split()
        link = [*flags, f"-Wl,-rpath,{lib}"] if how == SHARED else [flags[0], lib / "libdnsreplay.a"]
        done(compiler, form, *STRICT, *more, source, *link, "-o", path)
        return str(path)

def stored_example(): return (runs.CRATE / "stdin").read_bytes()

def scenarios(seed, count):
    """Frames of one worker of each kind of random scenario that `replay` is compared on."""
    for kind in KINDS:
        if kind in OF_REPLAY: continue
        for number in range(count):
            made, _ = KINDS[kind](random.Random(f"{seed} {kind} {number}"))
            yield f"{kind} {number}", spelled([Frame(each, 0, now, octets) for each, now, octets in made])

def compare(program, path, name, octets):
    wanted, _ = runs.replay(program, octets)
    got, _ = runs.ran([*SMALL_STACK, path], octets)
    check(got == wanted, f"{name}: another output than the program's")
    return sum(1 for _ in frames(got))

def look_at_page(pages):
    words = ["man", "--warnings", "-P", "cat", "-M", pages, "dnsreplay_query"]
    said = subprocess.run(words, capture_output=True, text=True, check=False)
    check(said.returncode == 0 and not said.stderr, f"the man page: {said.stderr}")

def run(args):
    runs.need("gcc g++ valgrind pkg-config man-db util-linux", "cc", "c++", "valgrind", "pkg-config", "man", "prlimit")
    example = stored_example()
    with tempfile.TemporaryDirectory() as scratch:
        built = Built(args.folder, scratch)
        look_at_page(args.folder.absolute() / "share" / "man")
        for how in (STATIC, SHARED):
            calls = built.build(HERE / "calls.cc", how)
            said, _ = runs.ran([calls], example)
            check(not said, said.decode())
            runs.ran([*MEMCHECK, calls], example)
            print(f"C++, {how}: each call as its comment says, also under memcheck", flush=True)
        replay = built.build(HERE / "replay.c", SHARED)
        given = [("stored", example), *((str(path), path.read_bytes()) for path in args.frames)]
        given += scenarios(args.seed, args.scenarios)
        count = sum(compare(args.program, replay, *each) for each in given)
        print(f"replay: {len(given)} inputs, {count:,} frames, octet for octet the program's", flush=True)
        for _, octets in given[:3]: runs.ran([*MEMCHECK, replay], octets)
        print("replay under memcheck: no error, no block left", flush=True)
        threads = built.build(runs.ROOT / "examples" / "threads.c", STATIC, "-pthread")
        for checker in (MEMCHECK, HELGRIND): runs.ran([*checker, threads], given[-1][1])
        print("threads under memcheck and helgrind: no error", flush=True)
        refused(replay, example)
        measured(args.program, replay)
        copied(built.build(HERE / "copies.c", SHARED))

def refused(replay, example):
    """Each allocation in turn: the call is made again, and all is as without."""
    wanted, _ = runs.ran([replay], example)
    with tempfile.TemporaryDirectory() as scratch:
        def look(one):
            check(one.status == 0 and one.output == wanted, f"status {one.status}")
            return "with the same output"
        Runner(scratch).sweep("replay", [replay], example, ("alloc", False), 1, look)

def measured(program, replay):
    """What each query and each insert more costs, by the difference of two runs."""
    zone = zones.Zone(zones.CHAINS["nsec"], SIZES[-1])
    filling = [*zone.filling()]
    for name, call in (("forward", zones.forward), ("name error", zones.name_error)):
        more = [call(zone, at) for at in range(MANY)]
        beside(program, replay, name, filling, more, MOST_QUERY)
    # What is held stays the same, and so what closing costs.
    beside(program, replay, "insert", filling, filling * 4, MOST_INSERT)

def beside(program, replay, name, before, more, most):
    def each(path):
        whole, front = (runs.counted(path, zones.joined(part))[0] for part in (before + more, before))
        return (whole - front) / len(more)
    ours, theirs = each(replay), each(program)
    check(ours <= most * theirs, f"{name}: {ours:,.0f} instructions, the program's {theirs:,.0f}")
    print(f"{name}: {ours:,.0f} instructions, the program's {theirs:,.0f}", flush=True)

def copied(copies):
    """What a copy and its closing cost, whatever is held."""
    for size in SIZES:
        filling = zones.joined([*zones.Zone(zones.CHAINS["nsec"], size).filling()])
        many, none = (runs.counted(copies, filling, [str(each)])[0] for each in (MANY, 0))
        each = (many - none) / MANY
        check(each <= MOST_COPY, f"a copy costs {each:,.0f} instructions")
        print(f"copy and close of {size:,} names: {each:,.0f} instructions", flush=True)
