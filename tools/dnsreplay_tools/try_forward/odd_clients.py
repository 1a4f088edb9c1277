"""Clients by TCP that are slow, don't read, are too many, or break off: each costs its own connection alone."""
import contextlib, resource, select, socket, time
from ..try_tcp import Client
from ..wire import check
from . import resolvers
from .clients import Question, octets_of
from .lab import V4
from .stream_clients import Meanwhile, framed, is_served, stream_of

WORKERS = 2
IDLE, LATER = 10, 13.5  # seconds after which a connection is closed, and by when that is seen on a busy machine
SHORT = Question("zz.plain.", "A", "plain")
LARGE = Question("large.plain.", "TXT", "plain")
# Of a client that doesn't read: a small window and small segments, so that the system keeps little for it.
WINDOW, SEGMENT = 4_096, 536
BATCH, MOST_BATCHES = 4, 500  # questions at once, and how often
CROWD, ROOM = 1_000, 32  # connections, and how many a worker has at once, beside one that it turns away
FILES = 4_096  # that are open at once in this process
SETTLED = 2  # seconds, in which they have connected, and over which they are counted
RESETS = 20

def run(lab, tally):
    with lab.servers("odd_clients") as servers:
        forward = servers.forward(resolvers.unbound(servers), workers=WORKERS)
        trials = {
            "nothing in ten seconds: the end": silent,
            "an octet each quarter of a second: the reply": quick,
            "an octet a second: the end after ten seconds without a reply, or the reply": slow,
            "a length of 11 octets: the end at once": too_small,
            "no more is sent after a question: its reply, then the end": shut,
            "replies that nobody reads: the end after ten seconds without progress": unread,
            "replies that nobody reads, and more and more questions: the end": flood,
            f"{CROWD:,} connections at once: {ROOM} a worker stay at most, and for ten seconds": crowd,
            f"{RESETS} connections reset within a reply, and behind each the next client is served": resets,
        }  # fmt: skip
        for what, trial in trials.items():
            with tally.check(what) as tell:
                with Meanwhile(lab, forward) as meanwhile: said = trial(forward)
                is_served(forward)
                tell(", ".join(filter(None, [said, meanwhile.told()])))

def silent(forward):
    with Client(forward.port) as client: client.expect_end(range(IDLE - 1, int(LATER) + 1))

def too_small(forward):
    with Client(forward.port) as client:
        client.send(b"\0\x0b" + bytes(11))
        client.expect_end()

def shut(forward):
    with Client(forward.port) as client:
        client.send(framed(octets_of(SHORT)))
        client.socket.shutdown(socket.SHUT_WR)
        client.reply()
        client.expect_end()

def quick(forward): check(by_octets(forward, 0.25) is None, "the end comes in place of the reply")

def slow(forward):
    """Idle is a connection of which all whole messages were replied to (RFC 7766, section 3): a server may close it."""
    ended = by_octets(forward, 1)
    if ended is None: return "the reply"
    check(IDLE - 1 <= ended <= LATER, f"the end comes after {ended:.1f} s")
    return f"the end after {ended:.1f} s"

def by_octets(forward, pause):
    """The seconds until the connection ends; none where the reply comes."""
    with Client(forward.port) as client:
        start = time.monotonic()
        for octet in framed(octets_of(SHORT)):
            if has_come(client, pause): break
            client.send(bytes([octet]))
        with contextlib.suppress(ConnectionError):
            if client.socket.recv(1): return None
        return time.monotonic() - start

def has_come(client, seconds): return bool(select.select([client.socket], [], [], seconds)[0])

def unread(forward):
    """Large replies until the system takes no more of them; from then on nothing is asked, and nothing is read."""
    with small_window(forward) as one:
        batches, start = fill(forward, one), time.monotonic()
        while held(forward, one):
            check(time.monotonic() - start <= LATER, f"no end in {LATER} s, after {batches} batches of {BATCH}")
            time.sleep(0.1)
        return f"{batches} batches of {BATCH} questions, and the end {time.monotonic() - start:.1f} s after them"

def flood(forward):
    with small_window(forward) as one: return f"{fill(forward, one, is_endless=True)} batches of {BATCH} questions"

def small_window(forward):
    one = socket.socket()
    one.setsockopt(socket.SOL_SOCKET, socket.SO_RCVBUF, WINDOW)
    one.setsockopt(socket.IPPROTO_TCP, socket.TCP_MAXSEG, SEGMENT)
    one.connect((V4, forward.port))
    one.settimeout(1)
    return one

def fill(forward, one, is_endless=False):
    """Asks until the connection ends, or what waits in the system for its client grows no more; gives how often."""
    before = -1
    for batch in range(1, MOST_BATCHES):
        with contextlib.suppress(ConnectionError, TimeoutError): one.sendall(stream_of([LARGE] * BATCH))
        time.sleep(0.5)
        waits = held(forward, one)
        if not waits or waits[0].unsent == before and not is_endless: return batch
        before = waits[0].unsent
    return check(False, f"{before} octets wait in the system, and there is no end")

def held(forward, one): return [each for each in forward.connections() if each.remote == one.getsockname()[1]]

def crowd(forward):
    files = resource.getrlimit(resource.RLIMIT_NOFILE)
    resource.setrlimit(resource.RLIMIT_NOFILE, (min(FILES, files[1]), files[1]))
    most = 0
    with contextlib.ExitStack() as stack:
        for _ in range(CROWD):
            one = stack.enter_context(socket.socket())
            one.setblocking(False)
            one.connect_ex((V4, forward.port))
        time.sleep(SETTLED)
        start = time.monotonic()
        while time.monotonic() - start < SETTLED: most = max(most, len(forward.connections()))
        check(0 < most <= WORKERS * (ROOM + 1), f"{most} connections are held")
        start = time.monotonic()
        while forward.connections():
            check(time.monotonic() - start <= 2 * LATER, f"{len(forward.connections())} are still held")
            time.sleep(0.1)
    return f"{most} held at once, none {time.monotonic() - start:.1f} s later"

def resets(forward):
    """Some octets of a large reply are read, or none of them."""
    for at in range(RESETS):
        with Client(forward.port) as client:
            client.send(stream_of([LARGE] * 4))
            if at % 2: client.take(100)
            client.reset()
        is_served(forward)
