"""dnsperf by TCP: with fewer connections than there is room for, and with more, and UDP is answered meanwhile."""
from ..wire import check
from . import resolvers
from .clients import drawn, questions
from .load import NAMES, codes, dnsperf
from .stream_clients import Meanwhile, is_served

# A worker has 32 connections, and the system deals them out by chance: of 64 one of four workers gets more in one run
# of 40,000, while of 100 one does in six.
WORKERS, FEW, MANY = 4, 64, 200

def run(lab, tally):
    with lab.servers("load_tcp") as servers:
        forward = servers.forward(resolvers.unbound(servers), workers=WORKERS)
        path = servers.folder / "questions"
        asked = questions(drawn(lab.args.seed, "tcp"), NAMES)
        path.write_text("".join(f"{each.name} {each.rtype}\n" for each in asked))
        for count, is_whole in ((FEW, True), (MANY, False)):
            what = "all are answered" if is_whole else "nothing breaks, and those that have room are answered"
            with tally.check(f"dnsperf -m tcp -c {count}, {WORKERS} workers: {what}") as tell:
                tell(figures(lab, servers, forward, path, count, is_whole))

def figures(lab, servers, forward, path, count, is_whole):
    words = "-m", "tcp", "-l", lab.args.seconds
    with Meanwhile(lab, forward) as meanwhile:
        rate, sent, lost, text = dnsperf(servers, forward.port, path, *words, clients=count)
    check(lost == 0 or not is_whole, f"{lost:,} of {sent:,} lost")
    check(lost < sent, f"none of {sent:,} is answered")
    is_served(forward)
    return f"{rate:,.0f} queries a second, {lost:,} of {sent:,} lost, {codes(text)}, {meanwhile.told()}"
