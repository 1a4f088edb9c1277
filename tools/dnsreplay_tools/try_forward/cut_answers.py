"""What becomes of questions whose answers by UDP are cut, so that they are asked by TCP (RFC 7766, section 5)."""
from concurrent.futures import ThreadPoolExecutor
from ..try_tcp import Client
from ..wire import check
from . import status
from .clients import LATEST, Question, ask_all, none_of, rcode_text
from .spoofed import is_true
from .stream_clients import ask_by_stream, ask_one, stream_of
from .stream_upstreams import FINE, KINDS, TEXTS, StreamUpstream, say
from .upstreams import Upstream

ASKED = 5  # questions of each kind by UDP, and as many by TCP
MOST = 32  # questions of one connection that may wait for replies
PROMPT = 2.0  # seconds, in which questions are answered that nothing is wrong with
FAILED = f"SERVFAIL within {LATEST:.0f} s"
SPECIAL = "long", "twice"  # kinds with checks of their own
BY_STREAM = "dnsreplay_asked_by_stream_total"

def run(lab, tally):
    with lab.servers("cut_answers") as servers:
        bare = servers.enter_context(Upstream(say))  # at whose port nobody listens for streams
        refused = servers.forward(bare.port, name="refused")
        with tally.check(f"streams refused: {FAILED}") as tell: tell(try_kind(refused, "silent", False))
        upstream = servers.enter_context(StreamUpstream())
        forward = servers.forward(upstream.port)
        for label, kind in KINDS.items():
            if label in SPECIAL: continue
            with tally.check(f"by a stream comes {kind.what}: {'answered' if kind.is_right else FAILED}") as tell:
                tell(try_kind(forward, label, kind.is_right))
        with tally.check(f"by a stream comes {KINDS['long'].what}: whole by TCP, cut by UDP"): long(forward)
        with tally.check(f"by a stream comes {KINDS['twice'].what}: relayed, as no more is to be had"): twice(forward)
        with tally.check(f"{MOST} questions that wait over one connection: {FAILED} for each") as tell:
            tell(as_expected(ask_by_stream(named("silent-most", MOST), forward.port), False))
        with tally.check("one more: the end of the connection"): one_more(forward)
        with tally.check("each question is asked by a stream once, and counted") as tell:
            tell(counted(upstream, forward))

def try_kind(forward, label, is_right):
    """By both carriers at once, beside questions that nothing is wrong with."""
    asked, by_tcp, fine = (named(each) for each in (label, f"{label}-tcp", f"{FINE}-{label}"))
    with ThreadPoolExecutor() as pool:
        waiting = pool.submit(ask_by_stream, by_tcp, forward.port)
        came = ask_all([*asked, *fine], forward.port)
    none_of([f"{each}" for each in came[ASKED:] if not (is_true(each.reply) and each.seconds <= PROMPT)], ASKED)
    return as_expected([*came[:ASKED], *waiting.result()], is_right)

def as_expected(came, is_right):
    none_of([f"{each}" for each in came if not is_as_expected(each, is_right)], len(came))
    return f"the last reply after {max(each.seconds for each in came):.2f} s"

def one_more(forward):
    """Behind it the connection is closed, though its client goes on to wait."""
    with Client(forward.port) as client:
        client.send(stream_of(named("silent-more", MOST + 1)))
        client.expect_end()

def named(label, count=ASKED): return [Question(f"{label}-{at}.spoofed.", "A") for at in range(count)]

def is_as_expected(came, is_right):
    if came.reply is None or came.seconds > LATEST: return False
    return is_true(came.reply) if is_right else rcode_text(came.reply) == "SERVFAIL"

def long(forward):
    question = Question("long-1.spoofed.", "TXT")
    for _ in range(2):
        reply = ask_one(question, forward.port)
        check(len(reply.records) == TEXTS and "TC" not in reply.flags, f"{len(reply.records)} records, {reply.flags}")
    reply = ask_all([question], forward.port)[0].reply
    check(reply and "TC" in reply.flags.split(), f"{reply and reply.flags}")

def twice(forward):
    for ask in (ask_all, ask_by_stream):
        reply = ask([Question("twice-1.spoofed.", "A")], forward.port)[0].reply
        check(reply and "TC" in reply.flags.split() and not reply.records, f"{reply}")

def counted(upstream, forward):
    """By the upstream itself: none is asked by a stream that isn't asked by UDP first."""
    count = status.total(forward.later_counts(), BY_STREAM)
    check(count == upstream.streams, f"{count} in place of {upstream.streams}")
    cut = sum(seen for key, seen in upstream.seen.items() if not key[1:].startswith(FINE.encode()))
    check(count <= cut, f"{count} streams for {cut} answers that were cut")
    return f"{count:,} streams"
