"""Clients that ask over connections (RFC 7766), and one that asks by UDP meanwhile."""
import struct, threading, time
from ..asking import query, read
from ..try_tcp import Client
from ..wire import check
from .clients import LATEST, Came, Question, ask_all, drawn, missing, none_of, octets_of, rcode_text, text_of
from .lab import V4

AT_ONCE, PAUSE = 5, 0.2  # questions by UDP, and seconds from these to the next

def framed(octets):
    """A message behind its length (RFC 1035, section 4.2.2)."""
    return struct.pack(">H", len(octets)) + octets

def stream_of(asked):
    """The questions as one stream, with their places as IDs."""
    return b"".join(framed(at.to_bytes(2) + octets_of(each)[2:]) for at, each in enumerate(asked))

def ask_by_stream(asked, port, address=V4, size=65_535):
    """What comes to the questions over one connection, which gets so many octets at a time, in any order."""
    import dns.message
    queries, came, octets = [query(*each) for each in asked], [None] * len(asked), stream_of(asked)
    for at, each in enumerate(queries): each.id = at
    with Client(port, address) as client:
        start = time.monotonic()
        for at in range(0, len(octets), size): client.send(octets[at : at + size])
        for _ in queries:
            message = dns.message.from_wire(client.reply())
            is_new = message.id < len(asked) and came[message.id] is None
            check(is_new and queries[message.id].is_response(message), f"a reply to nothing that was asked: {message}")
            came[message.id] = Came(read(message), time.monotonic() - start)
    return came

def ask_one(question, port):
    """The reply over a connection of its own."""
    return ask_by_stream([question], port)[0].reply

def is_served(forward, name="n000003.plain."):
    """A new client by TCP has its answer."""
    reply = ask_one(Question(name, "A"), forward.port)
    check(rcode_text(reply) == "NOERROR" and reply.records, f"{name}: {reply}")
    forward.look()

class Meanwhile:
    """Asks by UDP what has to be forwarded, over and over, while it is entered; at the end each has its answer."""
    def __init__(self, lab, forward):
        self.rng, self.port, self.stopped = drawn(lab.args.seed, "meanwhile"), forward.port, threading.Event()
        self.faults, self.count, self.worst = [], 0, 0.0
        self.thread = threading.Thread(target=self.ask, daemon=True)

    def __enter__(self):
        self.thread.start()
        return self

    def ask(self):
        try:
            self.judge(missing(self.rng, AT_ONCE, "open."))
            while not self.stopped.wait(PAUSE): self.judge(missing(self.rng, AT_ONCE, "open."))
        except Exception as why:  # of the thread, to be told at the end
            self.faults.append(f"{type(why).__name__}: {why}")

    def judge(self, asked):
        for each, came in zip(asked, ask_all(asked, self.port)):
            self.count += 1
            self.worst = max(self.worst, came.seconds or 0)
            is_right = came.reply and rcode_text(came.reply) == "NXDOMAIN" and came.seconds <= LATEST
            if not is_right: self.faults.append(f"{text_of(each)}: {came}")

    def __exit__(self, kind, *_):
        self.stopped.set()
        self.thread.join()
        if kind is None: none_of(self.faults, self.count)

    def told(self): return f"{self.count} answered by UDP meanwhile, the last after {self.worst:.2f} s"
