"""Resident memory while new names are forwarded and stored, and while others are answered from the cache."""
import multiprocessing, os, struct, threading
from .. import wire
from ..wire import A, NS, NSEC, RRSIG, SOA, check, name, type_bit_maps
from . import status
from .load import codes, dnsperf
from .upstreams import bound

APEX, FIRST, LAST = name(b"stored"), b"a", b"m"
GAP = name(FIRST, b"stored"), name(LAST, b"stored")  # between which there is no name
VALIDATED, NAME_ERROR = 0x81A0, 3
MOST, GROWTH = 150_000_000, 0.02  # octets, and of the last half
EACH = 0.5  # seconds from one sample to the next
SERVERS = 2  # processes that answer
DENIED = 100_000  # names that are answered, over and over
TOLD = "stored_total", "answered_total", "forwarded_total", "held_records"

def denials():
    """An SOA, the NSEC of the gap, and that of the apex, which says that there is no wildcard."""
    soa = bytes(2) + struct.pack(">5I", 1, 3_600, 600, 86_400, 300)
    own, gap = GAP[0] + type_bit_maps(NS, SOA, RRSIG, NSEC), GAP[1] + type_bit_maps(A, RRSIG, NSEC)
    parts = (APEX, SOA, soa, 1), (APEX, NSEC, own, 1), (GAP[0], NSEC, gap, 2)
    return [each for part in parts for each in wire.signed(*part, APEX)]

DENIALS = b"".join(denials())
ADDRESS = b"".join(wire.signed(wire.TO_QUESTION, A, bytes([192, 0, 2, 1]), 2, APEX))

def answer(octets):
    """A validated answer of two records to a name of the zone, and of denials to one in the gap."""
    asked = octets[12 : octets.index(0, 12) + 5]
    if FIRST < octets[13:14] < LAST:
        return octets[:2] + struct.pack(">5H", VALIDATED | NAME_ERROR, 1, 0, 6, 0) + asked + DENIALS
    return octets[:2] + struct.pack(">5H", VALIDATED, 1, 2, 0, 0) + asked + ADDRESS

def serve(one, parent):
    """Answers until the parent has gone."""
    one.settimeout(1)
    while os.getppid() == parent:
        try:
            octets, source = one.recvfrom(4_096)
            one.sendto(answer(octets), source)
        except (TimeoutError, ConnectionError):
            pass

class Samples:
    """Resident memory by the second, while it is entered."""
    def __init__(self, forward): self.forward, self.octets, self.stopped = forward, [], threading.Event()

    def __enter__(self):
        self.thread = threading.Thread(target=self.take, daemon=True)
        self.thread.start()
        return self

    def take(self):
        while not self.stopped.wait(EACH) and (octets := self.forward.resident()): self.octets.append(octets)

    def __exit__(self, *_):
        self.stopped.set()
        self.thread.join()

def growth(octets):
    """By which part memory grew in the last half: the end's beside the middle's."""
    return octets[-1] / octets[len(octets) // 2] - 1

def run(lab, tally):
    with lab.servers("memory") as servers:
        one = servers.enter_context(bound())
        for _ in range(SERVERS):
            process = multiprocessing.Process(target=serve, args=(one, os.getpid()), daemon=True)
            process.start()
            servers.callback(process.join)
            servers.callback(process.kill)
        forward = servers.forward(one.getsockname()[1], workers=4)
        forwarded, denied = servers.folder / "forwarded", servers.folder / "denied"
        with open(forwarded, "w") as file: file.writelines(f"n{at:08d}.stored A\n" for at in range(lab.args.forwarded))
        denied.write_text("".join(f"c{at:06d}.stored A\n" for at in range(min(DENIED, lab.args.answered))))
        rounds = max(lab.args.answered // DENIED, 1)
        grow(servers, tally, forward, f"{lab.args.forwarded:,} names forwarded and stored", forwarded, 1)
        grow(servers, tally, forward, f"{lab.args.answered:,} answered from the cache", denied, rounds)
        with tally.check("the status says so") as tell:
            counts = forward.later_counts()
            tell(", ".join(f"{each} {status.total(counts, f'dnsreplay_{each}'):,}" for each in TOLD))

def grow(servers, tally, forward, what, path, rounds):
    """At most so many octets, and in the last half no more growth than told."""
    with tally.check(what) as tell:
        with Samples(forward) as samples: rate, sent, lost, text = dnsperf(servers, forward.port, path, "-n", rounds)
        forward.look()
        more, most = growth(samples.octets), max(samples.octets)
        seen = f"{most / 1e6:.1f} MB at most, {more:+.1%} in the last half"
        check(most <= MOST and more <= GROWTH, seen)
        tell(f"{seen}, {rate:,.0f} a second, {lost:,} of {sent:,} lost, {codes(text)}")
