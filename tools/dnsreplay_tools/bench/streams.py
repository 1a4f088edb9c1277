"""Counts what a long message that comes to `forward` by TCP costs octet by octet, beside what it costs whole.

A client sends it, or the upstream answers with it what was asked by TCP. The figures are the program's instructions in
user mode, its receipts among them, less those of a run that is as long and brings nothing. Octets go out so far apart
that each could be received by itself. Twice as many instructions are the bound.
"""
import contextlib, re, socket, subprocess, time
from .. import run as runs, wire
from ..run import LOOPBACK
from ..try_forward.spoofed import RESPONSE, VALIDATED
from ..try_forward.stream_clients import framed
from ..try_forward.stream_upstreams import TXT, StreamUpstream, cut, identity_of
from ..try_forward.upstreams import question_in
from ..wire import check
from .messages import PLAIN, QUESTION, plain, pointing

SIZE = 65_535  # octets of a message
SECONDS = 9  # of a run behind its start; a client has ten to ask
PAUSES = {"client": 80e-6, "upstream": 50e-6}  # seconds from octet to octet; the upstream has four and a half in all
TEXT = b"\xfa" + bytes(250)

MESSAGES = {
    "dropped unread": lambda: wire.message(RESPONSE, QUESTION).ljust(SIZE, b"\0"),
    "plain records": lambda: plain(SIZE, PLAIN["roots"]),
    "names of pointers": lambda: pointing(SIZE, "ladders", "one", "labelled_owners"),
}

def answer_to(octets):
    """A validated answer with as many texts as fit."""
    question, text = question_in(octets), wire.record(wire.TO_QUESTION, TXT, TEXT)
    texts = [text] * ((SIZE - 12 - len(question)) // len(text))
    return wire.message(RESPONSE | VALIDATED, question, texts, identity=identity_of(octets))

def whole(one, octets, _): one.sendall(octets)

def by_octets(one, octets, pause):
    """Sends octet by octet, each so many seconds after the last one."""
    due = time.perf_counter()
    for at in range(len(octets)):
        while time.perf_counter() < due: pass
        one.sendall(octets[at : at + 1])
        due = time.perf_counter() + pause

def say(octets):
    """No data of the root, and of any other name a cut answer."""
    if question_in(octets) != QUESTION: return [(False, cut(octets))]
    return [(False, wire.message(RESPONSE, QUESTION, identity=identity_of(octets)))]

class Answering(StreamUpstream):
    """An upstream whose answers by TCP are long."""
    def __init__(self, send):
        super().__init__()
        self.say, self.send = say, send

    def answer(self, one):
        with contextlib.suppress(OSError), one.makefile("rb") as file:
            one.setsockopt(socket.IPPROTO_TCP, socket.TCP_NODELAY, 1)
            asked = file.read(int.from_bytes(file.read(2)))
            self.send(one, framed(answer_to(asked)), PAUSES["upstream"])

def counted(program, bring, send=whole):
    """The instructions of a run, to which `bring` brings something, given the port."""
    with Answering(send) as upstream:
        port = runs.free_ports(1)
        ends = "--listen", f"{LOOPBACK}:{port}", "--upstream", f"{LOOPBACK}:{upstream.port}"
        words = [*runs.COUNTER, program, "forward", *ends, "--workers", "1"]
        process = subprocess.Popen(words, stdin=subprocess.DEVNULL, stderr=subprocess.PIPE, text=True)
        try:
            listens = f"{int.from_bytes(socket.inet_aton(LOOPBACK), 'little'):08X}:{port:04X} 00000000:0000 0A"
            runs.wait(process, lambda: listens in open("/proc/net/tcp").read(), lambda: "")
            end = time.monotonic() + SECONDS
            with bring(port): time.sleep(max(0, end - time.monotonic()))
            check(time.monotonic() < end + 1, f"it took more than {SECONDS} seconds to send a message")
        finally: process.terminate()
        said = process.communicate()[1]
    found = re.search(r"I +refs: +([\d,]+)", said)
    check(found, f"valgrind told no count: {said}")
    return int(found[1].replace(",", ""))

@contextlib.contextmanager
def connected(port, octets=b"", send=whole):
    """A client that sends these octets over a connection, and then waits for its end."""
    with socket.create_connection((LOOPBACK, port)) as one:
        one.setsockopt(socket.IPPROTO_TCP, socket.TCP_NODELAY, 1)
        send(one, octets, PAUSES["client"])
        one.shutdown(socket.SHUT_WR)
        one.settimeout(SECONDS)
        while one.recv(SIZE): pass
        yield

@contextlib.contextmanager
def asked(port):
    """A client that asks one question, and has a reply in the end."""
    with socket.socket(socket.AF_INET, socket.SOCK_DGRAM) as one:
        one.settimeout(SECONDS)
        one.sendto(wire.message(0x0100, wire.question(wire.name(b"long", b"example"), TXT)), (LOOPBACK, port))
        check(one.recv(SIZE), "no reply")
        yield

def ways(program):
    """Each message's name, and its two counts."""
    nothing = counted(program, connected)
    for title, make in MESSAGES.items():
        octets = framed(make())
        brings = [lambda port, send=send: connected(port, octets, send) for send in (whole, by_octets)]
        yield title, [counted(program, bring) - nothing for bring in brings]
    nothing = counted(program, lambda _: contextlib.nullcontext())
    yield "an answer", [counted(program, asked, send) - nothing for send in (whole, by_octets)]

def words(parser): runs.takes_program(parser)

def run(args):
    runs.need("valgrind", "valgrind")
    for title, (together, apart) in ways(args.program):
        print(f"{title}: whole {together:,}, octet by octet {apart:,}, {apart / together:.2f} times", flush=True)
