"""A resolver that gives 512 octets by UDP at most, so most of its answers come by TCP, and may take few connections."""
import time
from ..wire import check
from . import resolvers
from .clients import LATEST, ask_all, differing, drawn, missing, none_of, questions, windows
from .silence import unanswered
from .stream_clients import ask_by_stream

NARROW = "    max-udp-size: 512"
ROOMY = f"{NARROW} incoming-num-tcp: 300"
ASKED, AT_ONCE = 300, 20
BURST = 250  # names at once, where unbound takes ten connections, as it does by itself
SETTLED = 1  # seconds, after which every stream is closed

def run(lab, tally):
    with lab.servers("narrow") as servers:
        own = resolvers.unbound(servers)
        forward = servers.forward(resolvers.unbound(servers, "narrow", more=ROOMY), workers=2)
        for how, ask in (("UDP", ask_all), ("TCP", ask_by_stream)):
            what = f"unbound with max-udp-size 512 behind it, {ASKED} questions by {how}: as of one without"
            with tally.check(what) as tell: tell(try_all(lab, forward, own, how, ask))
        usual = resolvers.unbound(servers, "usual", more=NARROW)
        forward = servers.forward(usual, workers=2, name="burst")
        what = f"{BURST} names at once, each cut, ten connections at unbound: all are answered, no stream stays open"
        with tally.check(what) as tell: tell(burst(lab, forward, usual))

def try_all(lab, forward, own, how, ask):
    asked = list(questions(drawn(lab.args.seed, f"narrow {how}"), ASKED))
    parts = windows(asked, AT_ONCE)
    came, others = ([each for some in parts for each in ask(some, port)] for port in (forward.port, own))
    replies, wanted = ([each.reply for each in every] for every in (came, others))
    none_of(differing(asked, replies, wanted), len(asked))
    cut, least = (sum("TC" in each.flags for each in every) for every in (replies, wanted))
    check(cut <= least, f"{cut} are cut, and {least} of the other's")
    worst = max(each.seconds for each in came)
    check(worst <= LATEST, f"the last reply came after {worst:.2f} s")
    return f"the last reply after {worst:.2f} s, {cut} cut"

def burst(lab, forward, resolver):
    """Names of an Opt-Out zone, which the cache denies none of, so each is asked, and each of its answers is cut."""
    asked = missing(drawn(lab.args.seed, "narrow at once"), BURST, "optout.")
    came = ask_all(asked, forward.port)
    none_of(unanswered(came, "NXDOMAIN", LATEST), BURST)
    time.sleep(SETTLED)
    left = forward.streams(resolver)
    check(not left, f"{len(left)} streams are open {SETTLED} s later")
    cut = sum("TC" in each.reply.flags.split() for each in ask_all(asked, resolver))
    check(cut == BURST, f"{cut} of {BURST} are cut")
    return f"the last reply after {max(each.seconds for each in came):.2f} s"
