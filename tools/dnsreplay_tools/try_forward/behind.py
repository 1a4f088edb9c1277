"""Resolvers behind the forwarder: through a proxy that loses and doubles, and beside an unbound in front of it."""
from ..wire import check
from . import resolvers
from .clients import (
    LATEST, ask_all, differing, drawn, is_synthesized, none_of, octets_of, questions, rcode_text, unlike, windows,
)  # fmt: skip
from .upstreams import Proxy, key_of

LOSSY, AT_ONCE = 300, 100  # questions through each proxy, and how many of them are asked at once
TIMES = 3  # that a question is asked
TOGETHER = 40  # questions of the long comparison that are asked at once

def resolvers_behind(lab, tally):
    """Each resolver through a proxy: every query has a reply in time, the resolver's own unless it was lost thrice."""
    for title, start in resolvers.RESOLVERS.items():
        what = f"{title} through a proxy that loses each third asking and doubles each fifth answer"
        with tally.check(what) as tell, lab.servers(start.__name__) as servers:
            through_proxy(lab, servers, start(servers), tell)

def through_proxy(lab, servers, port, tell):
    asked = list(questions(drawn(lab.args.seed, "lossy"), LOSSY))
    before = in_windows(asked, port)
    proxy = servers.enter_context(Proxy(port))
    forward = servers.forward(proxy.port, workers=2)
    came = in_windows(asked, forward.port)
    own = [as_either(*each) for each in zip(came, before, in_windows(asked, port))]
    rows = [(each, one.reply, said) for each, one, said in zip(asked, came, own)]
    told = [row for row in rows if not (proxy.lost[key_of(octets_of(row[0]))] >= TIMES and is_failed(row[1]))]
    none_of(differing(*zip(*told)), len(asked))
    worst = max(each.seconds for each in came)
    check(worst <= LATEST, f"the last reply came after {worst:.2f} s")
    lost = len(rows) - len(told)
    tell(f"{len(asked)} questions, {proxy.askings} askings, {lost} lost thrice, the last reply after {worst:.2f} s")

def in_windows(asked, port): return [came for some in windows(asked, AT_ONCE) for came in ask_all(some, port)]

def is_failed(reply): return reply is not None and rcode_text(reply) == "SERVFAIL"

def as_either(came, before, after):
    """What the resolver says, which need not say twice the same: the one that a reply is as, if it is."""
    return before.reply if not unlike(came.reply, before.reply) else after.reply

def in_front(lab, tally):
    """Many questions of the forwarder, and of an unbound in front of it: each as of the resolver behind, none bogus."""
    with lab.servers("validator") as servers:
        resolver = resolvers.unbound(servers)
        forward = servers.forward(resolver, workers=2)
        front = resolvers.in_front(servers, forward.port)
        asked = list(questions(drawn(lab.args.seed, "validator"), lab.args.questions))
        own, got, validated = (came_of(each) for each in zip(*asked_of(asked, resolver, forward.port, front)))
        with tally.check("each reply as the resolver's own") as tell:
            none_of(differing(asked, got, own), len(asked))
            tell(counted(got, own))
        with tally.check("RCODE and AD through a validating unbound in front as of the resolver behind") as tell:
            none_of(differing(asked, *(map(without_records, each) for each in (validated, own))), len(asked))
            tell(f"{len(asked):,} questions")
        with tally.check("the validator's log has nothing bogus"):
            none_of([line for line in servers.lines("front") if "validation failure" in line], len(asked))

def asked_of(asked, *ports):
    """What comes of each port to the questions: window by window, and each second window in the other order."""
    for at, some in enumerate(windows(asked, TOGETHER)):
        order = ports if at % 2 == 0 else ports[::-1]
        came = {port: ask_all(some, port) for port in order}
        yield from zip(*(came[port] for port in ports))

def came_of(every): return [each.reply for each in every]

def without_records(reply): return reply and reply._replace(records=set())

def counted(got, own):
    """How many replies were synthesized, and how many of these have other records than the resolver's own."""
    made = [(one, other) for one, other in zip(got, own) if is_synthesized(one)]
    others = sum(one.records != other.records for one, other in made)
    return f"{len(got):,} questions, {len(made):,} replies synthesized, {others:,} of these with other records"
