"""Measures what an audit costs, by how many frames the recorded run has: time and memory, and instructions by count.

A zone of so many records is held whole: each name has an address and an NSEC record, and answers bring a hundred names
each. Queries follow for addresses, for types that a name hasn't, for names that aren't there and for another zone's.
Memory is the peak of what is resident, of which all that is read is a part.

A count under valgrind of a million frames takes hours. So short runs are counted (`--counted`), and what a further
frame costs is told by two of them that follow one another; of a long run the instructions a frame are those of the
shortest, and for each further frame what the last two tell. `--counted 2000 12000 100000 110000` shows how that grows.
"""
import itertools, sys
from .. import run as runs, wire
from ..wire import A, NS, NSEC, REPLY, RRSIG, SOA, check
from .zones import ABSENT, APEX, ELSEWHERE, LATER, LABELS, MOMENT, SET_TTL, SIGNED_SOA, SOA_DATA, TO_APEX
from .zones import answer, label, signed

MOST_RECORDS = 65_536  # of a zone that is audited
NAMES_AN_ANSWER = 100
ADDRESS, SERVER = bytes([192, 0, 2, 1]), b"\2ns" + APEX

# Runs a program, and tells the most memory that it had and its seconds of processor time. This is a process of its own,
# and small, since a new process begins with the memory that the one had that made it.
TELLS_USAGE = """\
import resource, subprocess, sys
status = subprocess.run(sys.argv[1:]).returncode
usage = resource.getrusage(resource.RUSAGE_CHILDREN)
print(usage.ru_maxrss, usage.ru_utime + usage.ru_stime, file=sys.stderr)
sys.exit(status)"""

class AuditedZone:
    """The apex with an SOA and a name server, and names of one label below it with an address each."""
    def __init__(self, records):
        self.count = records - 2
        self.gap = LABELS // (self.count + 1)

    def front(self, place, beside=0): return label(self.gap * (place + 1) + beside)

    def records(self):
        yield APEX, SOA, SOA_DATA
        yield APEX, NS, SERVER
        for place in range(self.count): yield self.front(place) + APEX, A, ADDRESS

    def sets(self):
        """What answers bring: the SOA, then of each name the address and the NSEC record; the apex comes last."""
        yield SIGNED_SOA
        for place in range(self.count):
            following = self.front(place + 1) if place + 1 < self.count else b""
            yield signed(self.front(place) + TO_APEX, 2, A, SET_TTL, ADDRESS)
            yield self.denial(self.front(place), 2, following, A)
        yield signed(TO_APEX, 1, NS, SET_TTL, SERVER)
        yield self.denial(b"", 1, self.front(0), NS, SOA)

    def denial(self, front, labels, following, *types):
        data = following + APEX + wire.type_bit_maps(*types, RRSIG, NSEC)
        return signed(front + TO_APEX, labels, NSEC, SET_TTL, data)

    def answers(self):
        sets, some = list(self.sets()), 2 * NAMES_AN_ANSWER
        return [answer(sets[at : at + some], MOMENT) for at in range(0, len(sets), some)]

    def query(self, number):
        """Names lie far apart from query to query."""
        front = self.front(number * 40_503 % self.count, self.gap // 2 if number % 4 == 2 else 0)
        name = front + (ELSEWHERE if number % 4 == 3 else APEX)
        return wire.frame(wire.QUERY, LATER, wire.query(name, ABSENT[number % 8] if number % 4 == 1 else A, ()))

class Audits:
    """Audits of runs of several lengths, over one zone."""
    def __init__(self, program, records, workers):
        self.program, self.workers, zone = program, workers, AuditedZone(records)
        self.zone, self.records, self.answers = zone, list(zone.records()), zone.answers()

    def source(self, frames):
        """What an audit reads of a run of so many frames, dealt out to workers, and the number of replies."""
        check(frames > len(self.answers), f"{frames} frames: {len(self.answers)} answers come before the queries")
        made = self.answers + [self.zone.query(number) for number in range(frames - len(self.answers))]
        octets = b"".join(each[:1] + bytes([number % self.workers]) + each[2:] for number, each in enumerate(made))
        output = runs.replay(self.program, octets, self.workers)[0]
        replies = sum(each.kind == REPLY for each in wire.frames(output, "output "))
        return wire.audit_source(APEX, self.records, octets, output), replies

    def used(self, frames):
        """Of an audit: octets read, replies, the most octets of resident memory, seconds of processor time."""
        source, replies = self.source(frames)
        line, told = runs.ran([sys.executable, "-c", TELLS_USAGE, self.program, "audit"], source)
        check_line(line, replies)
        kilobytes, seconds = told.split()[-2:]
        return len(source), replies, int(kilobytes) * 1024, float(seconds)

    def counted(self, frames):
        """The instructions of an audit."""
        source, replies = self.source(frames)
        count, line = runs.counted(self.program, source, ["audit"])
        check_line(line, replies)
        return count

def check_line(line, replies): check(line == b"yes %d\n" % replies, f"the audit says {line!r} of {replies} replies")

def show(*cells): print("| " + " | ".join(cells) + " |", flush=True)

def show_head(*titles):
    show(*titles)
    print("|" + "---:|" * len(titles), flush=True)

def show_counts(audits, counted, lengths):
    """What is counted, and what that tells of longer runs."""
    show_head("frames, counted", "instructions", "a further frame", "growth")
    counts = [(frames, audits.counted(frames)) for frames in sorted(set(counted))]
    show(f"{counts[0][0]:,}", f"{counts[0][1]:,}", "", "")
    further = []
    for (fewer, less), (frames, count) in itertools.pairwise(counts):
        further.append((count - less) / (frames - fewer))
        show(f"{frames:,}", f"{count:,}", f"{further[-1]:,.0f}", f"{further[-1] / further[0]:.2f}")
    print()
    show_head("frames", "instructions a frame, by these counts", "growth")
    least, count = counts[0]
    averages = [(frames, (count + (frames - least) * further[-1]) / frames) for frames in lengths]
    for frames, average in averages: show(f"{frames:,}", f"{average:,.0f}", f"{average / averages[0][1]:.2f}")

def words(parser):
    runs.takes_program(parser)
    several = {"nargs": "+", "type": runs.number(1), "metavar": "N"}
    parser.add_argument("--frames", default=(100_000, 1_000_000), help="(default: 100,000 and 1,000,000)", **several)
    parser.add_argument("--counted", default=(2_000, 12_000), help="(default: 2,000 and 12,000)", **several)
    parser.add_argument("--records", type=runs.number(4, MOST_RECORDS), default=MOST_RECORDS, metavar="N")
    runs.takes_numbers(parser, 1, workers=1)
    parser.add_argument("--no-counts", action="store_true", help="time and memory alone, without valgrind")

def run(args):
    audits, lengths = Audits(args.program, args.records, args.workers), sorted(set(args.frames))
    check(args.no_counts or len(set(args.counted)) > 1, "two runs have to be counted, to tell a further frame's cost")
    show_head("frames", "read MB", "replies", "peak MB", "seconds", "microseconds a frame")
    for frames in lengths:
        size, replies, most, seconds = audits.used(frames)
        cells = f"{size / 1e6:.1f}", f"{replies:,}", f"{most / 1e6:.1f}", f"{seconds:.2f}"
        show(f"{frames:,}", *cells, f"{seconds / frames * 1e6:.2f}")
    if args.no_counts: return
    print()
    show_counts(audits, args.counted, lengths)
