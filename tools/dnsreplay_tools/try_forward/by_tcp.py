"""TCP at both families (RFC 7766): `dig +tcp`, several questions over one connection, and streams in any pieces."""
import contextlib, re, subprocess
from ..try_tcp import Client
from ..wire import check
from . import resolvers, sockets
from .clients import Question, ask_all, differing, drawn, none_of, octets_of, questions, windows
from .digs import compared, is_cut, unlike
from .lab import V4, V6
from .stream_clients import ask_by_stream, framed
from .told import ODD

NAMES = (
    "n0001{at:02d}.plain A", "n0001{at:02d}.hashed AAAA", "n0001{at:02d}x.plain A", "n0001{at:02d}x.rsa A",
    "mid.plain TXT", "large.rsa TXT",
)  # fmt: skip
OPTIONS = "+tcp", "+tcp +dnssec", "+tcp +noedns", "+tcp +norecurse", "+tcp +dnssec +cdflag", "+tcp +bufsize=512"
KEPT = "n000020.plain A", "nobody.plain A", "large.plain TXT", "n000021x.rsa AAAA", "alias.plain A"
STATUSES = ["NOERROR", "NXDOMAIN", "NOERROR", "NXDOMAIN", "NOERROR"]
PIPELINED, AT_ONCE = 200, 20  # questions, and those of one connection: fewer than the 32 that may wait for replies
SHORTEST = 12  # octets of a message (RFC 1035, section 4.1.1)
PIECES = {65_535: "in one piece", 7: "in pieces of 7 octets", 1: "octet by octet"}

def run(lab, tally):
    with lab.servers("tcp") as servers:
        resolver = resolvers.unbound(servers)
        for address in (V4, V6):
            forward = servers.forward(resolver, workers=2, name=f"at{address.count(':')}")
            for at, options in enumerate(OPTIONS):
                with tally.check(f"dig at {address} {options}"): whole(forward, resolver, address, at, options)
            with tally.check(f"dig at {address} +tcp +keepopen: {len(KEPT)} questions over one connection"):
                kept_open(forward, address)
            with tally.check(f"messages at {address} that aren't queries get their errors or nothing"):
                odd_ones(forward, address)
            for size, how in PIECES.items():
                with tally.check(f"{PIPELINED} questions at {address}, {AT_ONCE} a connection, {how}") as tell:
                    tell(pipelined(lab, forward, resolver, address, size))

def whole(forward, resolver, address, at, options):
    """Each as the resolver says by TCP, from it and from the cache, and never cut."""
    asked = [f"{name.format(at=at)} {options}" for name in NAMES]
    every = [each for words in asked for each in compared(forward, resolver, address, words)]
    none_of([fault for each in every for fault in unlike(*each)], len(every))
    none_of([words for words, said, _ in every if is_cut(said)], len(every))

def kept_open(forward, address):
    before = clients_of(forward)
    words = [word for each in KEPT for word in each.split()]
    command = ["dig", "-r", f"@{address}", "-p", str(forward.port), "+tcp", "+keepopen", "+tries=1", *words]
    said = subprocess.run(command, capture_output=True, text=True, check=False, timeout=30).stdout
    statuses = re.findall(r"status: (\w+)", said)
    check(statuses == STATUSES, f"{statuses}")
    more = clients_of(forward) - before
    check(len(more) == 1, f"{len(more)} connections")

def odd_ones(forward, address):
    """All over one connection, and a query behind them; what is too short for a message isn't among them."""
    import dns.message
    every = [octets for octets, *_ in ODD if len(octets) >= SHORTEST]
    with Client(forward.port, address) as client:
        client.send(b"".join(map(framed, [*every, octets_of(Question("n000022.plain.", "A"))])))
        wanted = sorted([0, *(rcode for octets, rcode, *_ in ODD if octets in every and rcode)])
        got = sorted(int(dns.message.from_wire(client.reply()).rcode()) for _ in wanted)
        check(got == wanted, f"RCODEs {got} in place of {wanted}")
        client.socket.settimeout(1)
        with contextlib.suppress(TimeoutError): check(not client.socket.recv(1), "a reply more")

def clients_of(forward):
    """The clients' ports of connections that are or have just been, by the end that remembers them."""
    every = forward.sockets("tcp", "tcp6")
    ours = {each.remote for each in every if each.local == forward.port and each.state != sockets.LISTEN}
    return ours | {each.local for each in every if each.remote == forward.port}

def pipelined(lab, forward, resolver, address, size):
    """All replies over the connection of their questions, in any order, as the resolver's own."""
    asked = list(questions(drawn(lab.args.seed, f"pipelined {address} {size}"), PIPELINED))
    parts = windows(asked, AT_ONCE)
    came = [each for some in parts for each in ask_by_stream(some, forward.port, address, size)]
    own = [each.reply for some in parts for each in ask_all(some, resolver)]
    none_of(differing(asked, [each.reply for each in came], own), len(asked))
    return f"the last reply after {max(each.seconds for each in came):.2f} s"
