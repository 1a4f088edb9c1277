"""Tries `tcp` with real clients on loopback: dig, kdig, dnspython, and ones that cut, pipeline, close or say nothing.

It needs Debian's packages: apt-get install bind9-dnsutils knot-dnsutils python3-dnspython. The program is given a
source and a number of connections: that it then ends, with status 8 since some clients reset theirs, tells that the
clients have had as many as they should. A line tells each case; one that isn't as expected ends it with status 1.
"""
import contextlib, re, socket, struct, subprocess, tempfile, time
from pathlib import Path
from . import run as runs
from .wire import (
    NSEC, RRSIG, SOA, UPSTREAM, A, Fault, check, frame, message, name, question, signed, type_bit_maps,
)  # fmt: skip

try:
    import dns.message, dns.query
except ImportError:
    dns = None

TXT, SERVFAIL, NAME_ERROR = 16, 2, 3
APEX, BIG, NOBODY = name(b"example"), name(b"big", b"example"), name(b"nobody", b"example")
HOSTS = [name(b"host%02d" % number, b"example") for number in range(100)]
BIG_ITEMS = 216  # of 255 octets of text
MOST_OCTETS, LEAST_OF_BIG, TRUNCATED = 65_535, 60_000, 0x200
SECONDS, SILENCE = 5, range(8, 16)  # how long an answer may take, and when a silent client is sent away
ENDS_WITH = 8  # the status where a connection had a fault, and all were served
RESET = struct.pack("ii", 1, 0)  # SO_LINGER: what isn't sent is dropped

def source(moment):
    """Upstream answers: the SOA and an NSEC that covers `nobody`, an address for each host, and a long set."""
    soa = bytes(2) + struct.pack(">5I", 1, 3_600, 600, 86_400, 300)
    nsec = APEX + type_bit_maps(A, RRSIG, NSEC)
    denials = signed(APEX, SOA, soa, 1, APEX) + signed(HOSTS[-1], NSEC, nsec, 2, APEX)
    own = name(b"aaa", b"example") + type_bit_maps(SOA, RRSIG, NSEC)
    sets = [[*denials, *signed(APEX, NSEC, own, 1, APEX)]]
    sets += [signed(host, A, bytes([192, 0, 2, number]), 2, APEX) for number, host in enumerate(HOSTS)]
    texts = [b"\xff%03d" % number + b"t" * 252 for number in range(BIG_ITEMS)]
    items = [signed(BIG, TXT, text, 2, APEX) for text in texts]
    sets.append([item[0] for item in items] + items[0][1:])
    return b"".join(frame(UPSTREAM, moment, message(0x81A0, question(APEX, A), each)) for each in sets)

class Client:
    """A connection that sends queries behind their lengths."""
    def __init__(self, port, address=runs.LOOPBACK):
        self.socket = socket.create_connection((address, port), SILENCE.stop)
        self.socket.setsockopt(socket.IPPROTO_TCP, socket.TCP_NODELAY, 1)

    def __enter__(self): return self
    def __exit__(self, *_): self.socket.close()
    def send(self, octets): self.socket.sendall(octets)

    def take(self, count):
        octets = b""
        while len(octets) < count:
            piece = self.socket.recv(count - len(octets))
            check(piece, f"the connection ends {count - len(octets)} octets early")
            octets += piece
        return octets

    def reply(self): return self.take(*struct.unpack(">H", self.take(2)))

    def expect(self, identity, rcode=0, answers=1):
        """The next reply, whose ID, RCODE and number of answers are these, and which isn't cut."""
        octets = self.reply()
        got, flags, _, count = struct.unpack_from(">4H", octets)
        is_right = (got, flags & 15, count) == (identity, rcode, answers) and not flags & TRUNCATED
        check(is_right, f"ID {got}, flags {flags:04x} and {count} answers for ID {identity}")
        return octets

    def expect_end(self, seconds=range(SECONDS)):
        start, rest = time.monotonic(), b""
        with contextlib.suppress(ConnectionError): rest = self.socket.recv(1)
        took = time.monotonic() - start
        check(not rest, "something is sent in place of an end")
        check(int(took) in seconds, f"the end comes after {took:.1f} seconds")

    def reset(self):
        self.socket.setsockopt(socket.SOL_SOCKET, socket.SO_LINGER, RESET)
        self.socket.close()

def asked(host, rtype=A, identity=0, flags=0x0100):
    octets = message(flags, question(host, rtype), identity=identity)
    return struct.pack(">H", len(octets)) + octets

def said_by(command, port, *words):
    """What dig or kdig says, as the statuses of its replies."""
    how = [command, "@127.0.0.1", "-p", str(port), "+tcp", *words]
    done = subprocess.run(how, capture_output=True, text=True, check=False, timeout=60)
    return re.findall(r"status: (\w+)", done.stdout), done.stdout

def dig(port):
    """dig"""
    said, text = said_by("dig", port, "-r", "+tries=1", "host07.example", "A")
    check(said == ["NOERROR"] and "192.0.2.7" in text, text)

def dig_several(port):
    """dig, three questions in one connection"""
    questions = ("host01.example", "A"), ("nobody.example", "A"), ("big.example", "TXT")
    said, text = said_by("dig", port, "-r", "+keepopen", *(word for each in questions for word in each))
    check(said == ["NOERROR", "NXDOMAIN", "NOERROR"], text[-1_000:])

def kdig(port):
    """kdig"""
    said, text = said_by("kdig", port, "host08.example", "A")
    check(said == ["NOERROR"] and "192.0.2.8" in text, text)

def kdig_several(port):
    """kdig, two questions in one connection"""
    said, text = said_by("kdig", port, "+keepopen", "host01.example", "A", "host02.example", "A")
    check(said == ["NOERROR"] * 2, text)

def dnspython(port):
    """dnspython"""
    reply = dns.query.tcp(dns.message.make_query("host09.example", "A"), runs.LOOPBACK, SECONDS, port)
    check("192.0.2.9" in reply.to_text(), reply.to_text())

def long_reply(port):
    """a long reply, with and without EDNS"""
    with Client(port) as client:
        client.send(asked(BIG, TXT, 1))
        size = len(client.expect(1, answers=BIG_ITEMS))
        check(LEAST_OF_BIG <= size <= MOST_OCTETS, f"{size} octets")
    server = runs.LOOPBACK, SECONDS, port
    reply = dns.query.tcp(dns.message.make_query("big.example", "TXT", use_edns=0, payload=512), *server)
    check(len(reply.answer[0]) == BIG_ITEMS, "another number of texts")

def octet_by_octet(port):
    """an octet a time"""
    with Client(port) as client:
        for octet in asked(HOSTS[3], A, 3) + asked(NOBODY, A, 4):
            client.send(bytes([octet]))
            time.sleep(0.002)
        client.expect(3)
        client.expect(4, NAME_ERROR, 0)

def cut_in_length(port):
    """two messages at once and a third cut in its length"""
    with Client(port) as client:
        octets = asked(HOSTS[1], A, 1) + asked(HOSTS[2], A, 2) + asked(HOSTS[3], A, 3)
        cut = 2 * len(octets) // 3 + 1
        client.send(octets[:cut])
        for identity in (1, 2): client.expect(identity)
        time.sleep(0.2)
        client.send(octets[cut:])
        client.expect(3)

def pipelined(port):
    """a hundred questions at once, answered in turn"""
    with Client(port) as client:
        client.send(b"".join(asked(host, A, number) for number, host in enumerate(HOSTS)))
        for number in range(len(HOSTS)):
            check(client.expect(number).endswith(bytes([192, 0, 2, number])), "another host's")

def not_held(port):
    """what isn't held: SERVFAIL; a response: nothing; then a question"""
    with Client(port) as client:
        client.send(asked(HOSTS[1], TXT, 1) + asked(HOSTS[1], A, 2, 0x8100) + asked(HOSTS[1], A, 3))
        client.expect(1, SERVFAIL, 0)
        client.expect(3)

def too_small(port):
    """a message of 11 octets behind a question: the end, though a question follows"""
    with Client(port) as client:
        client.send(asked(HOSTS[1], A, 1) + b"\0\x0b" + bytes(11) + asked(HOSTS[2], A, 2))
        client.expect(1)
        client.expect_end()

def shut(port):
    """a question, and no more is sent: it is answered, and the connection ends"""
    with Client(port) as client:
        client.send(asked(HOSTS[1], A, 1))
        client.socket.shutdown(socket.SHUT_WR)
        client.expect(1)
        client.expect_end()

def closed(port):
    """closed at once"""
    with Client(port): pass

def half_a_length(port):
    """closed behind half a length"""
    with Client(port) as client: client.send(b"\0")

def reset(port):
    """reset within a question"""
    with Client(port) as client:
        client.send(asked(HOSTS[1], A, 1)[:-3])
        time.sleep(0.1)
        client.reset()

def unread(port):
    """long replies that nobody reads, then reset"""
    with Client(port) as client:
        client.send(asked(BIG, TXT, 1) * 100)
        time.sleep(0.5)
        client.reset()

def silent(port):
    """silent: sent away after ten seconds"""
    with Client(port) as client: client.expect_end(SILENCE)

# each case, and how many connections it takes; behind those that break off, one more question is asked
CASES = {
    dig: 1, dig_several: 1, kdig: 1, kdig_several: 1, dnspython: 1, long_reply: 2, octet_by_octet: 1, cut_in_length: 1,
    pipelined: 1, not_held: 1,
}  # fmt: skip
BROKEN = (too_small, shut, closed, half_a_length, reset, unread, silent)

def goes_on(port):
    """the next connection"""
    with Client(port) as client:
        client.send(asked(HOSTS[5], A, 5))
        client.expect(5)

def listens(port):
    """Whether the port is listened to, told without a connection."""
    lines = Path("/proc/net/tcp").read_text(encoding="ascii").splitlines()
    return any(re.match(rf" *\d+: \w+:{port:04X} \w+:0000 0A ", line) for line in lines)

def try_case(case, port):
    """Prints a case's line, and tells whether it isn't as expected."""
    try:
        case(port)
        fault = ""
    except (Fault, OSError, subprocess.TimeoutExpired, ValueError) as why:
        fault = f"  ** {type(why).__name__}: {why}"
    print(f"{case.__doc__}{fault}", flush=True)
    return bool(fault)

def words(parser): runs.takes_program(parser)

def run(args):
    if dns is None: raise Fault("it needs python3-dnspython")
    runs.need("bind9-dnsutils knot-dnsutils", "dig", "kdig")
    cases = [*CASES, *(each for broken in BROKEN for each in (broken, goes_on))]
    connections = sum(CASES.get(each, 1) for each in cases)
    port = runs.free_ports(1)
    with contextlib.ExitStack() as stack:
        said = stack.enter_context(tempfile.TemporaryFile())
        octets = stack.enter_context(runs.given(source(int(time.time()))))
        command = [args.program, "tcp", "--listen", str(port), "--connections", str(connections)]
        process = subprocess.Popen(command, stdin=octets, stdout=said, stderr=said)
        stack.callback(process.wait)
        stack.callback(process.kill)
        runs.wait(process, lambda: listens(port), lambda: told(said))
        faults = sum([try_case(each, port) for each in cases])
        with contextlib.suppress(subprocess.TimeoutExpired): process.wait(SECONDS)
        if process.poll() != ENDS_WITH:
            faults += 1
            print(f"  ** status {process.poll()} after {connections} connections, not {ENDS_WITH}: {told(said)}")
    print(f"{faults} not as expected" if faults else "all as expected")
    return int(faults > 0)

def told(file):
    file.seek(0)
    return file.read().decode(errors="replace").strip()[-2_000:]
