"""Measures what a query costs by `serve` and by `forward`, from the cache or asked upstream, by datagrams on loopback.

It needs Debian's package dnsperf. Zone and questions are those of `bench calls`. This script is the upstream resolver:
it is asked what no cache may answer, and its answers to that bring the zone's records, as many as fit into 4,096
octets. A worker of `serve` ends after 5,000 datagrams, so 32 workers share the cache: one to three are filled through,
and of the others each is measured once, alone or with three more. `forward` has one worker, which takes turns with each
that is alone: both are asked the same questions, now one first and now the other.

For these turns both programs, dnsperf and this script share one processor, and the latter two never interrupt a program
(SCHED_BATCH): to wake a client up on another processor can cost more than the query, and how often one sleeps or
interrupts is up to the client.

Processor time is the whole program's, user and system, by the kernel's clock of the process. A figure is the least of
several, from so many runs in one round or more, each with programs of its own. The last two set `forward` beside one
worker of `serve`, and are the medians of all turns, the first with its quartiles. From the cache 1.2 times as much and
0.5 µs more are the bounds. A question that `forward` asks upstream may cost 40 µs.
"""
import contextlib, os, re, statistics, struct, subprocess, tempfile, time
from pathlib import Path
from .. import run as runs, wire
from ..run import LOOPBACK
from ..try_forward.upstreams import Upstream, bound, question_in
from ..wire import A, check
from .zones import APEX, CHAINS, ELSEWHERE, FULL, KINDS, Call, Kind, Zone, look_at, query, replied, takes_several

WORKERS, DATAGRAMS, OCTETS = 32, 5_000, 4_096  # the most that serve takes, and the most octets of a datagram
TOGETHER = 4  # workers that are measured at once
WINDOW = 16  # messages of the filling on the way at once, so that they fit into a socket's buffer
OUTSTANDING = 50  # queries of a dnsperf, for the same reason
LOOKS, QUERIES = 20, 4_900  # of a measured worker: those by which it is looked at before, and those that are measured
TYPES = {1: "A", 15: "MX", 16: "TXT", 28: "AAAA", 29: "LOC", 33: "SRV", 52: "TLSA", 65: "HTTPS", 257: "CAA"}
RCODES = {0: "NOERROR", 3: "NXDOMAIN"}
FIRST_TYPE = 200  # of a window's questions, which differ, since equal ones join; no cache answers these types
UNSTORED = {ELSEWHERE: 0x8180, FULL: 0x81A0}  # flags of answers that aren't stored: no AD; AD, but no signatures
ADDRESS = wire.record(wire.TO_QUESTION, A, bytes([192, 0, 2, 1]))

def elsewhere(apex):
    """Calls that are asked upstream, each for another name, and answered with an address."""
    def call(zone, number):
        return Call(query(zone.turned_label(number, zone.places, number) + apex, A), replied(0, 1, 0))
    return call

UPSTREAM_KINDS = {
    "unvalidated": Kind(elsewhere(ELSEWHERE), "asked upstream, answer without AD", most=QUERIES // 2),  # two datagrams
    "unsigned": Kind(elsewhere(FULL), "asked upstream, answer unsigned", most=QUERIES // 2),
}
ASKED = {each: KINDS[each] for each in ("name-error", "no-data", "set", "wildcard", "non-terminal")} | UPSTREAM_KINDS

def text_of(call):
    """A call's question in the words of dnsperf."""
    labels, at = wire.read_name(call.message, 12)
    return b".".join(labels).decode() + ". " + TYPES[struct.unpack_from(">H", call.message, at)[0]]

def unstored(question):
    """The answer to a question elsewhere, whose name is a label of eight letters and an apex."""
    flags = UNSTORED.get(question[9:-4])
    return flags and wire.message(flags, question, [ADDRESS])[2:]

class Server:
    """`serve` with its workers, and this script as their upstream resolver and as a client, until a stack is left."""
    command, workers, host, more = "serve", WORKERS, "", ("--datagrams", DATAGRAMS)

    def __init__(self, stack, program, listen):
        self.listen, self.answers = listen, {}  # the latter by the question, all behind the ID
        self.client, upstream = stack.enter_context(bound()), stack.enter_context(Upstream(self.say))
        self.client.settimeout(10)
        ports = "--listen", f"{self.host}{listen}", "--upstream", f"{self.host}{upstream.port}"
        words = [program, self.command, *ports, "--workers", self.workers, *self.more]
        self.process = subprocess.Popen([*map(str, words)], stdin=subprocess.DEVNULL, stderr=subprocess.PIPE)
        stack.callback(self.down)
        self.up()

    def up(self):
        """Waits until the last worker's port is bound. Nothing is sent, since each datagram counts."""
        wanted = "0100007F:%04X" % (self.listen + self.workers - 1)
        runs.wait(self.process, lambda: f" {wanted} " in Path("/proc/net/udp").read_text(), self.down)
        time.sleep(0.2)
        check(self.process.poll() is None, "the program has ended, so another has its ports")

    def down(self):
        """Ends the program, and gives what it wrote to standard error."""
        self.process.terminate()
        errors = self.process.stderr.read().decode(errors="replace").strip()
        self.process.wait()
        return errors

    def say(self, octets):
        """The answer to what is asked upstream, where there is one. A question that is asked again gets it again."""
        question = question_in(octets)
        answer = self.answers.get(question) or unstored(question)
        return [(False, octets[:2] + answer)] if answer else []

    def fill(self, calls):
        """Brings the messages of the filling through the last workers, and gives how many these are."""
        messages = [call.message for call in calls]
        fillers = min(self.workers, -(-2 * len(messages) // (DATAGRAMS - 4 * WINDOW)))
        for turn, at in enumerate(range(0, len(messages), WINDOW)):
            self.bring(self.workers - 1 - turn % fillers, messages[at : at + WINDOW])
        return fillers

    def bring(self, worker, messages):
        """Asks as many questions that are forwarded, and answers each with the records of a message."""
        questions = [wire.question(APEX, FIRST_TYPE + each) for each in range(len(messages))]
        for question, message in zip(questions, messages):
            check(len(message) <= OCTETS, f"a message of {len(message)} octets is too long")
            self.answers[question] = message[2:12] + question + message[12 + len(question) :]
        for question in questions:
            self.client.sendto(wire.message(0x0100, question, identity=0x1234), self.worker(worker))
        for _ in questions: self.client.recv(OCTETS)

    def look(self, worker, calls):
        """Each of the calls must have an outcome that its kind is for."""
        for number, call in enumerate(calls, 1):
            self.client.sendto(call.message, self.worker(worker))
            look_at(number, call, wire.REPLY, self.client.recv(OCTETS))

    def worker(self, number): return LOOPBACK, self.listen + number

    def processor_time(self):
        """Nanoseconds of processor time that the program has had, of all its threads (CPUCLOCK_SCHED of Linux)."""
        return time.clock_gettime_ns((~self.process.pid << 3) | 2)

    def measure(self, workers, some):
        """Asks each of the workers the calls of its own, all at once: microseconds a query, and queries a second."""
        with contextlib.ExitStack() as stack:
            files = [stack.enter_context(tempfile.NamedTemporaryFile("w", suffix=".queries")) for _ in workers]
            for file, calls in zip(files, some):
                file.write("".join(text_of(call) + "\n" for call in calls))
                file.flush()
            before = self.processor_time()
            children = [self.dnsperf(worker, file.name) for worker, file in zip(workers, files)]
            said = [child.communicate()[0] for child in children]
            took = self.processor_time() - before
        rate = sum(checked(text, calls) for text, calls in zip(said, some))
        return took / 1_000 / sum(map(len, some)), rate

    def dnsperf(self, worker, path):
        words = ["-s", LOOPBACK, "-p", str(self.listen + worker), "-d", path, "-n", "1", "-D", "-q", str(OUTSTANDING)]
        return subprocess.Popen(["dnsperf", *words], stdout=subprocess.PIPE, stderr=subprocess.STDOUT, text=True)

class Forwarder(Server):
    """`forward` with one worker."""
    command, workers, host, more = "forward", 1, f"{LOOPBACK}:", ()

def checked(text, calls):
    """Queries a second by what dnsperf says, which must be that each was answered as wanted."""
    wanted = {RCODES[rcode] for call in calls for _, rcode, *_ in call.wanted}
    codes = dict(re.findall(r"(\w+) (\d+) \([\d.]+%\)", text.partition("Response codes:")[2].partition("\n")[0]))
    is_each = set(codes) == wanted and sum(map(int, codes.values())) == len(calls)
    check(is_each, f"dnsperf had other answers than {' and '.join(wanted)}: {text[-1500:]}")
    return float(re.search(r"Queries per second: +([\d.]+)", text)[1])

def cells_of(args, zone, kind):
    """The figures of one worker of `serve`, of some together and of `forward`, and what the last costs by the first."""
    filling = list(zone.filling(18 if zone.chain.hashed else 24))  # what fits into a datagram
    every = [run for _ in range(args.rounds) for run in one_round(args, zone, kind, filling)]
    turns, together = zip(*every)
    costs, rates = zip(*together)
    leasts = [f"{min(figures):.2f}" for figures in (*zip(*turns), costs)]
    return [*leasts, f"{max(rates):,.0f}", *beside(turns)]

def beside(turns):
    """How many times as much `forward` costs as `serve`, and how much more."""
    low, middle, high = statistics.quantiles((forward / serve for serve, forward in turns), n=4)
    more = statistics.median(forward - serve for serve, forward in turns)
    return f"{middle:.2f} ({low:.2f} to {high:.2f})", f"{more:+.2f}"

def one_round(args, zone, kind, filling):
    """The figures of the runs over one program of each command."""
    with contextlib.ExitStack() as stack:
        port = runs.free_ports(1 + WORKERS)
        forwarder, server = Forwarder(stack, args.program, port), Server(stack, args.program, port + 1)
        forwarder.fill(filling)
        free = WORKERS - server.fill(filling)
        is_enough = args.runs * (1 + TOGETHER) <= free
        check(is_enough, f"{free} workers are free after the filling, too few for {args.runs} runs")
        return [one_run(server, forwarder, zone, kind, each) for each in range(args.runs)]

def one_run(server, forwarder, zone, kind, number):
    """What a query costs by a worker and by `forward`, in turn, and the figures of the following workers together."""
    first, count = (1 + TOGETHER) * number, LOOKS + min(QUERIES, kind.most)
    workers = range(first, first + 1 + TOGETHER)
    some = [[kind.call(zone, at * DATAGRAMS + each) for each in range(count)] for at in workers]
    for worker, calls in zip(workers, some): server.look(worker, calls[:LOOKS])
    forwarder.look(0, some[0][:LOOKS])
    alone, *others = [calls[LOOKS:] for calls in some]
    pair = [(server, first), (forwarder, 0)]
    with one_processor(server, forwarder):
        costs = {who: who.measure([worker], [alone])[0] for who, worker in (pair[::-1] if number % 2 else pair)}
    return (costs[server], costs[forwarder]), server.measure(workers[1:], others)

@contextlib.contextmanager
def one_processor(*servers):
    """Meanwhile these, this script and what it starts share one processor, and the latter two interrupt nobody."""
    every = os.sched_getaffinity(0)
    confine(servers, {max(every)}, os.SCHED_BATCH)
    try: yield
    finally: confine(servers, every, os.SCHED_OTHER)

def confine(servers, processors, policy):
    os.sched_setscheduler(0, policy, os.sched_param(0))
    os.sched_setaffinity(0, processors)
    for server in servers:
        for task in os.listdir(f"/proc/{server.process.pid}/task"): os.sched_setaffinity(int(task), processors)

def line(*cells):
    print("| " + " | ".join(cells) + " |", flush=True)

def words(parser):
    runs.takes_program(parser)
    kinds = ["name-error", "no-data", "set", *UPSTREAM_KINDS]
    takes_several(parser, sizes=[1_000, 100_000], chains=(CHAINS, ["nsec", "nsec3-0-0"]), kinds=(ASKED, kinds))
    runs.takes_numbers(parser, 1, runs=5, rounds=1)

def run(args):
    runs.need("dnsperf", "dnsperf")
    ways = "`serve`, 1 worker", "`forward`", f"`serve`, {TOGETHER} workers"
    heads = [f"{way}: µs a query" for way in ways]
    line("held", "query", *heads, "queries a second", "times as much", "µs more")
    line("---:", "---", *["---:"] * 6)
    for chain in map(CHAINS.get, args.chains):
        for size in args.sizes:
            zone = Zone(chain, size)
            for kind in map(ASKED.get, args.kinds):
                line(f"{size:,}", f"{chain.title}: {kind.title_for(chain)}", *cells_of(args, zone, kind))
