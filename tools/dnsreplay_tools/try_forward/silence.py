"""The resolver stopped by SIGSTOP, and let go on: failed look-ups in time, answers again, and lines of both."""
import re, signal, time
from ..wire import check
from . import resolvers
from .clients import Question, ask, ask_all, drawn, missing, none_of, rcode_text, is_synthesized

AT_ONCE = 10
MOST_WAIT, MOST_RETURN = 5.0, 2.0  # seconds: of each query, and from the return on to the answers
SILENT, BACK = re.compile(r"silent|silence", re.I), re.compile(r"\bback\b|again", re.I)

def run(lab, tally):
    with lab.servers("silence") as servers:
        resolver = resolvers.unbound(servers)
        forward = servers.forward(resolver, workers=2)
        rng, process = drawn(lab.args.seed, "silence"), servers.running["unbound"]
        held = Question("zz.plain.", "A")
        ask(held, forward.port)
        lines = len(forward.lines())
        process.send_signal(signal.SIGSTOP)
        what = f"the resolver stopped for {lab.args.silence} s: SERVFAIL within {MOST_WAIT} s for each"
        with tally.check(what) as tell: tell(fail(forward, rng, lab.args.silence))
        with tally.check("what is held is answered meanwhile"):
            came = ask_all([held], forward.port)[0]
            check(came.reply and is_synthesized(came.reply) and came.seconds < 1, f"{held.name}: {came}")
        with tally.check("a line tells of the silence") as tell: tell(forward.later_line(SILENT, lines))
        lines = len(forward.lines())
        process.send_signal(signal.SIGCONT)
        with tally.check(f"answers within {MOST_RETURN} s of its return") as tell:
            came = ask_all(missing(rng, AT_ONCE, "open."), forward.port)
            none_of(unanswered(came, "NXDOMAIN", MOST_RETURN), AT_ONCE)
            tell(f"the last after {max(each.seconds for each in came):.2f} s")
        with tally.check("a line tells of its return") as tell: tell(forward.later_line(BACK, lines))

def fail(forward, rng, seconds):
    """Asks over and over what isn't held, which has to fail in time."""
    end, count, worst = time.monotonic() + seconds, 0, 0.0
    while time.monotonic() < end:
        came = ask_all(missing(rng, AT_ONCE, "open."), forward.port)
        none_of(unanswered(came, "SERVFAIL", MOST_WAIT), AT_ONCE)
        count, worst = count + AT_ONCE, max(worst, *(each.seconds for each in came))
    return f"{count} queries, the last reply after {worst:.2f} s"

def unanswered(came, rcode, seconds):
    """What hasn't come with an RCODE in time."""
    of = [(each, rcode_text(each.reply) if each.reply else "nothing") for each in came]
    return [f"{text} after {each.seconds} s" for each, text in of if text != rcode or each.seconds > seconds]
