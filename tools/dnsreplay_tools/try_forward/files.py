"""Few files that may be open at once, and an upstream that is silent, so that sockets fail until others are closed."""
import os, re, resource, time
from concurrent.futures import ThreadPoolExecutor
from ..wire import check
from .clients import LATEST, Question, ask, ask_all, is_synthesized, none_of
from .silence import unanswered
from .spoofed import forged, is_true, true
from .stream_clients import ask_one
from .stream_upstreams import FINE, label_of
from .upstreams import Upstream

FILES, ASKED = 64, 100  # open at once, and questions at once that nobody answers
MORE = 2  # files that may be open then beside those at the start
PROMPT, LATER = 1.0, 6  # seconds: of a reply from the cache, and after which the sockets of late questions are closed
SILENT = "silent"
HELD = Question("held.spoofed.", "A")
UNMADE = re.compile("sockets that could not be made .*Too many open files")

def say(octets):
    """Nothing, the right answer, or a validated denial, by the first label of the name."""
    label = label_of(octets)
    return [] if label == SILENT else [(False, (true if label == FINE else forged)(octets))]

def run(lab, tally):
    with lab.servers("files") as servers:
        forward = servers.forward(servers.enter_context(Upstream(say)).port)
        ask(HELD, forward.port)  # from now on the cache denies it
        few = open_files(forward)
        resource.prlimit(forward.process.pid, resource.RLIMIT_NOFILE, (FILES, FILES))
        what = f"{FILES} files, and {ASKED} questions that nobody answers: SERVFAIL within {LATEST:.0f} s for each"
        with tally.check(what) as tell: tell(burst(forward))
        with tally.check("a line tells of the sockets") as tell: tell(forward.later_line(UNMADE))
        what = f"{LATER} s later there are at most {MORE} files more than at the start, and both carriers are answered"
        with tally.check(what) as tell: tell(later(forward, few))

def open_files(forward): return len(os.listdir(f"/proc/{forward.process.pid}/fd"))

def burst(forward):
    asked = [Question(f"{SILENT}-{at}.example.", "A") for at in range(ASKED)]
    with ThreadPoolExecutor() as pool:
        waiting = pool.submit(ask_all, asked, forward.port)
        count, most = held(forward, waiting.done)
    none_of(unanswered(waiting.result(), "SERVFAIL", LATEST), ASKED)
    check(most == FILES, f"{most} files are open at most")
    return f"{count} answered from the cache meanwhile"

def held(forward, is_over):
    """The cache answers at once, over and over until then: how often, and the most files that were open."""
    count = most = 0
    while not is_over():
        came = ask_all([HELD], forward.port)[0]
        check(came.reply and is_synthesized(came.reply) and came.seconds <= PROMPT, f"{HELD.name}: {came}")
        count, most = count + 1, max(most, open_files(forward))
        time.sleep(0.1)
    return count, most

def later(forward, few):
    end = time.monotonic() + LATER
    count, _ = held(forward, lambda: time.monotonic() > end)
    now = open_files(forward)
    check(now <= few + MORE, f"{now} files, and {few} at the start")
    for carrier, way in (("TCP", ask_one), ("UDP", ask)):
        reply = way(Question(f"{FINE}-{carrier}.example.", "A"), forward.port)
        check(is_true(reply), f"by {carrier}: {reply}")
    return f"{now} files, {few} at the start, {count} answered from the cache meanwhile"
