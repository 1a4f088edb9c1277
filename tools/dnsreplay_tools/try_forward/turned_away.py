"""Connections that are closed for too many questions, or as too many, and replies to none: counted, and told."""
import contextlib, re, time
from ..try_tcp import Client
from ..wire import check
from .clients import LATEST
from .cut_answers import MOST, named, one_more
from .odd_clients import ROOM, has_come
from .spoofed import seen_of
from .stream_clients import stream_of
from .told import expect
from .upstreams import Upstream

READ = re.compile(f"streams that could not be read .*: 1, .*{MOST + 1} queries without a reply")
ACCEPT = re.compile(f"connections of clients that could not be accepted .*: 1, .*{ROOM} connections are open")
REPLY = re.compile("replies that could not be sent .*no client waits for it")
# Connections with too many questions, and reset; the one too many; replies to the questions of the former two.
COUNTED = {"read_stream": 2, "accept": 1, "reply": MOST + 1}

def run(lab, tally):
    with lab.servers("turned_away") as servers:
        upstream = servers.enter_context(Upstream(lambda octets: []))
        forward = servers.forward(upstream.port)
        with tally.check(f"{MOST + 1} questions that wait over one connection: its end, and a line") as tell:
            one_more(forward)
            tell(forward.later_line(READ))
        with tally.check(f"connection {ROOM + 1}: its end at once, the others stay, and a line") as tell:
            crowd(forward)
            tell(forward.later_line(ACCEPT))
        with tally.check("replies whose connection has gone: a line") as tell:
            reset(upstream, forward)
            tell(forward.later_line(REPLY))
        with tally.check("the status counts each of these"):
            counts = forward.later_counts()
            for call, count in COUNTED.items(): expect(counts, "faults", count, call=call)

def crowd(forward):
    """Of one connection more than a worker has, the last ends, as one worker takes them in their order."""
    with contextlib.ExitStack() as stack:
        every = [stack.enter_context(Client(forward.port)) for _ in range(ROOM + 1)]
        every.pop().expect_end()
        check(not any(has_come(each, 0) for each in every), "another ends too")

def reset(upstream, forward):
    """The client goes once its question was asked, so nobody waits for the reply."""
    question = named("silent-reset", 1)[0]
    end = time.monotonic() + LATEST
    with Client(forward.port) as client:
        client.send(stream_of([question]))
        while not seen_of(upstream, question):
            check(time.monotonic() < end, "the upstream isn't asked")
            time.sleep(0.05)
        client.reset()
