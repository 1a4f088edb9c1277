"""What an operator reads: lines at the start, and the status file, whose counts are those of what was asked."""
import re, signal, socket, struct, time
from .. import wire
from ..asking import read
from ..wire import OPT, A, check
from . import resolvers, status
from .clients import Question, ask, ask_all, datagram
from .lab import V4, V6
from .upstreams import bound

LISTENS, WARNS = re.compile("listens at"), re.compile("loopback")
ELSEWHERE = "192.0.2.1"  # of nobody (RFC 5737)
HOSTS, MISSING = 30, 20
UNBOUND = 8  # the status
OTHERS = {"UDP": bound, "TCP": lambda: socket.create_server((V4, 0))}
EVERY, OFF = 10, 2.5  # seconds from one status to the next, and how much that may be off on a busy machine
NOTIFY, LATER_VERSION = 4 << 11, struct.pack(">BHHIH", 0, OPT, 1_232, 1 << 16, 0)
NAME = wire.name(b"n000001", b"plain")

# Messages that get an error or nothing: the RCODE (RFC 1035, section 4.1.1; RFC 6891, section 6.1.3), how it is counted
ODD = (
    (b"12345", None, "dropped", {}),
    (wire.message(0x8180, wire.question(NAME, A)), None, "dropped", {}),
    (wire.query(NAME, A)[:20], 1, "told", {"error": "format_error"}),
    (wire.message(NOTIFY, wire.question(NAME, A)), 4, "told", {"error": "not_implemented"}),
    (wire.query(NAME, A, [LATER_VERSION]), 16, "told", {"error": "bad_version"}),
)  # fmt: skip

def run(lab, tally):
    with lab.servers("told") as servers:
        resolver = resolvers.unbound(servers)
        forward = servers.forward(resolver, workers=2)
        with tally.check("the lines at the start tell addresses, upstream and workers") as tell:
            said = forward.later_line(LISTENS)
            for each in (f"{V4}:{forward.port}", f"[{V6}]:{forward.port}", f"{V4}:{resolver}", "workers: 2"):
                check(each in said, f"{each} isn't in {said}")
            tell(said)
        with tally.check("a line warns of an upstream that isn't on this machine, and of no other") as tell:
            tell(servers.forward(53, name="elsewhere", host=ELSEWHERE).later_line(WARNS))
            check(not any(map(WARNS.search, forward.lines())), f"{forward.lines()}")
        with tally.check("the status counts what was asked") as tell: tell(counted(forward))
        with tally.check("datagrams that aren't queries get their errors, and are counted"): odd_ones(forward)
        with tally.check(f"the status is renewed every {EVERY} seconds") as tell: tell(renewed(forward))
        with tally.check("a signal ends it"):
            forward.process.terminate()
            check(forward.process.wait(5) == -signal.SIGTERM, f"status {forward.process.returncode}")
        for carrier, other in OTHERS.items():
            what = f"an address that another program has by {carrier}: status {UNBOUND}, and a line names it"
            with tally.check(what) as tell: tell(taken(servers, resolver, carrier, other))

def taken(servers, resolver, carrier, other):
    """A start at an address that is taken, behind one that isn't."""
    with other() as one:
        places = [f"{V4}:{port}" for port in (servers.lab.port(), one.getsockname()[1], resolver)]
        words = "--listen", places[0], "--listen", places[1], "--upstream", places[2], "--workers", 1
        process = servers.start(carrier, servers.lab.program, "forward", *words)
        check(process.wait(5) == UNBOUND, f"status {process.returncode}")
    lines = servers.lines(carrier)
    check(len(lines) == 1 and places[1] in lines[0], f"{lines}")
    return lines[0]

def counted(forward):
    """Each host is asked for and then held, each missing name after the first denied, and so is a missing type."""
    hosts = [Question(f"n{at:06d}.plain.", "A") for at in range(HOSTS)]
    nobody = [Question(f"nobody-{at}.plain.", "A") for at in range(MISSING + 1)]
    types = [Question("n000000.plain.", rtype) for rtype in ("MX", "TXT")]
    for some in (hosts, hosts): check(all(each.reply for each in ask_all(some, forward.port)), "no reply")
    for each in (*nobody, *types): check(ask(each, forward.port), f"no reply to {each}")
    counts = forward.later_counts()
    for by, count in (("set", HOSTS), ("name_error", MISSING), ("no_data", 1)): expect(counts, "answered", count, by=by)
    wanted = {"answered": HOSTS + MISSING + 1, "forwarded": HOSTS + 2, "joined": 0, "dropped": 0, "told": 0}
    for name, count in wanted.items(): expect(counts, name, count)
    return f"{len(counts)} samples"

def expect(counts, name, wanted, **labels):
    count = status.total(counts, f"dnsreplay_{name}_total", **labels)
    check(count == wanted, f"{name} {labels or ''}: {count} in place of {wanted}")

def odd_ones(forward):
    """Each gets its RCODE, or nothing within a second; a query behind it is answered."""
    for octets, rcode, _, _ in ODD:
        got = rcode_of(forward, octets)
        check(got == rcode, f"RCODE {got} in place of {rcode} for {octets.hex()}")
    counts = forward.later_counts()
    for *_, name, labels in ODD: expect(counts, name, sum(each[2:] == (name, labels) for each in ODD), **labels)

def rcode_of(forward, octets):
    """What comes to a datagram; none within a second."""
    import dns.message
    came = datagram(forward.port, octets)
    return None if came is None else int(read(dns.message.from_wire(came)).rcode)

def renewed(forward):
    """The seconds from one status to the next."""
    seen, times = {forward.stamp()}, []
    end = time.monotonic() + 5 * EVERY
    while len(times) < 3 and time.monotonic() < end:
        time.sleep(0.05)
        if forward.stamp() not in seen:
            seen.add(forward.stamp())
            times.append(time.monotonic())
    check(len(times) == 3, f"{len(times)} statuses within {5 * EVERY} s")
    gaps = [later - sooner for sooner, later in zip(times, times[1:])]
    check(all(abs(each - EVERY) <= OFF for each in gaps), f"after {gaps} s")
    return ", ".join(f"{each:.1f} s" for each in gaps)
