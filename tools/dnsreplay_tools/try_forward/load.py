"""dnsperf with 64 clients over one port: figures, and nothing that is expected of them."""
import re
from ..wire import check
from . import resolvers
from .clients import drawn, questions

CLIENTS, WORKERS = 64, (1, 4)
NAMES = 20_000

def dnsperf(servers, port, path, *words, clients=CLIENTS):
    """What dnsperf says: queries a second, how many were sent and lost, and the text."""
    text = servers.done("dnsperf", "-s", "127.0.0.1", "-p", port, "-d", path, "-c", clients, "-D", *words)
    figures = [re.search(rf"Queries {what}: +([\d.]+)", text) for what in ("per second", "sent", "lost")]
    check(all(figures), text[-1_000:])
    return float(figures[0][1]), int(figures[1][1]), int(figures[2][1]), text

def codes(text): return " ".join(re.search(r"Response codes: +(.*)", text)[1].split())

def run(lab, tally):
    with lab.servers("load") as servers:
        resolver = resolvers.unbound(servers)
        path = servers.folder / "questions"
        asked = questions(drawn(lab.args.seed, "load"), NAMES)
        path.write_text("".join(f"{each.name} {each.rtype}\n" for each in asked))
        for workers in WORKERS:
            what = f"dnsperf -c {CLIENTS}, {workers} worker{'s' * (workers > 1)}"
            with tally.check(what) as tell: tell(figures(lab, servers, resolver, path, workers))

def figures(lab, servers, resolver, path, workers):
    forward = servers.forward(resolver, workers=workers, name=f"workers{workers}")
    before = forward.processor_time()
    rate, sent, lost, text = dnsperf(servers, forward.port, path, "-l", lab.args.seconds)
    cost = (forward.processor_time() - before) / 1_000 / max(sent - lost, 1)
    parts = f"{rate:,.0f} queries a second", f"{lost:,} of {sent:,} lost", f"{cost:.1f} µs of processor time each"
    return ", ".join([*parts, codes(text)])
