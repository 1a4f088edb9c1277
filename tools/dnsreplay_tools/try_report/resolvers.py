"""What tcpdump captures before real resolvers and before `forward`, beside the counts of who made the load."""
import collections, re, signal, time
from ..captures.files import opened
from ..captures.messages import messages
from ..report import data
from ..try_forward import clients, lab as servers_lab, private, resolvers, status
from ..try_forward.clients import HOWS, Question, ask, ask_all, questions
from ..wire import check
from .. import run as runs
from . import counted, drawn, schema
from .figures import compare, of_model, of_report
from .lab import reported

BY_UDP, WITHOUT_DO, BY_TCP, BY_HAND = 2_000, 300, 400, 150
ADDRESS = "127.0.0.1"
PROGRAMS = "knotd", "tcpdump", "dnsperf", "unbound", "named", "kresd", "pdns_recursor", "dnssec-signzone", "dig"
PACKAGES = "knot tcpdump dnsperf unbound bind9 bind9-utils bind9-dnsutils knot-resolver pdns-recursor"
ASKINGS = "forwarded", "asked_again", "asked_by_stream"
GIVEN = 2  # seconds, in which tcpdump is given what came
RATE = 1_500  # queries a second, so that tcpdump keeps up
CODES = re.compile(r"(\w+) (\d+) \([\d.]+%\)")
RCODES = {"NOERROR": 0, "FORMERR": 1, "SERVFAIL": 2, "NXDOMAIN": 3, "NOTIMP": 4, "REFUSED": 5}

class Sniffer:
    """tcpdump over loopback, of a port."""
    def __init__(self, servers, path, port):
        self.path, name = path, f"tcpdump{port}"
        words = ("-i", "lo", "-n", "-s", "0", "-B", "32768", "-Z", "root", "-w", path, f"port {port}")
        self.process = servers.start(name, "tcpdump", *words)
        self.said = lambda: servers.said(name)
        servers.up(name, self.process, lambda: "listening on" in self.said())

    def end(self):
        """Ends it once it has been given all; nothing may have been dropped."""
        time.sleep(GIVEN)
        self.process.send_signal(signal.SIGINT)
        self.process.wait(20)
        check("\n0 packets dropped by kernel" in self.said(), f"tcpdump dropped packets: {self.said()}")
        return self.path

class Load:
    """A mixed load, and what the programs that make it count: queries by carrier, those with DO, and RCODEs."""
    def __init__(self, lab, servers, port):
        self.lab, self.servers, self.port = lab, servers, port
        self.udp = self.tcp = self.wanting = self.lost = 0
        self.rcodes = collections.Counter()

    def make(self):
        self.dnsperf("udp", BY_UDP, True)
        self.dnsperf("nodo", WITHOUT_DO, False)
        self.dnsperf("tcp", BY_TCP, True, "-m", "tcp", "-c", "4")
        some = enumerate(self.questions("hand", BY_HAND))
        asked = [Question(each.name, each.rtype, HOWS[at % len(HOWS)]) for at, each in some]
        for each in ask_all(asked, self.port):
            if each.reply: self.rcodes[each.reply.rcode & 15] += 1
            else: self.lost += 1
        self.udp += len(asked)
        self.wanting += sum("do" in each.how for each in asked)
        return self

    def questions(self, name, count): return list(questions(clients.drawn(self.lab.args.seed, f"{name} report"), count))

    def dnsperf(self, name, count, is_wanting, *words):
        path = self.servers.folder / f"{name}.questions"
        path.write_text("".join(f"{each.name} {each.rtype}\n" for each in self.questions(name, count)))
        options = ["-n", 1, "-Q", RATE, *words]
        text = said(self.servers, self.port, path, [*options, *["-D"] * is_wanting])
        sent, lost = (int(re.search(rf"Queries {what}: +(\d+)", text)[1]) for what in ("sent", "lost"))
        for code, number in CODES.findall(text.partition("Response codes:")[2].partition("\n")[0]):
            self.rcodes[RCODES[code]] += int(number)
        if "tcp" in words: self.tcp += sent
        else: self.udp += sent
        self.lost, self.wanting = self.lost + lost, self.wanting + sent * is_wanting

def said(servers, port, path, options):
    return servers.done("dnsperf", "-s", ADDRESS, "-p", port, "-d", path, *options)

def by_load(told, load):
    """The figures of a report's JSON beside the counts of the load."""
    wanted = {"total": load.udp + load.tcp, "udp": load.udp, "tcp": load.tcp, "with_do": load.wanting}
    wanted["without_answer"] = load.lost
    check(told["queries"] == wanted, f"queries {told['queries']}, by the load {wanted}")
    rcodes = {row["rcode"]: row["queries"] for row in told["rcodes"]}
    check(rcodes == dict(load.rcodes), f"RCODEs {rcodes}, by the load {dict(load.rcodes)}")
    check(told["nxdomain"]["total"] == load.rcodes[3], f"NXDOMAIN {told['nxdomain']}")

def by_model(report, port):
    """The figures beside what the reference model counts of the same messages."""
    captures = opened([report.captures[0].path])
    events, some, open_ones = [], [], {}
    for each in messages(captures[0].packets(), collections.Counter(), {port}):
        is_query = not each.octets[2] & 0x80
        client, octets = each.source if is_query else each.target, each.octets
        some_open = open_ones.setdefault((client, each.carrier, octets[:2]), [])
        if is_query:
            some_open.append(len(some))
            some.append(drawn.Exchange(each.time, octets, None, None, each.carrier, 0))
        events.append((each.time, is_query, octets, some_open[-1] if is_query else some_open.pop(0)))
    captures[0].close()
    compare("the capture", of_report(report, 0), of_model(counted.Counts(events, some), 0))

def figures(lab, path, port):
    """Of a capture at a port, which are as their schema says, and as the model counts."""
    report = reported(lab, [path], [f"{ADDRESS}:{port}"], port=port)
    told = data.of(report, 10)
    schema.look(told)
    by_model(report, port)
    return told

def words_of(told):
    queries, nx = told["queries"]["total"], told["nxdomain"]
    answered = told["answered"]["total"]
    return f"{queries:,} queries, {answered:,} answered; of {nx['total']:,} NXDOMAIN {nx['answered']:,}"

def run(lab, tally):
    runs.need(PACKAGES, *PROGRAMS)
    folder = lab.folder / "servers"
    folder.mkdir()
    folder.chmod(0o755)
    servers_of = servers_lab.Lab(lab.args, folder)
    with servers_of.servers("base") as base:
        base.knot(servers_of.authority)
        for name, start in resolvers.RESOLVERS.items():
            with tally.check(f"before {name}") as tell: tell(words_of(before(lab, servers_of, name.split()[0], start)))
        with tally.check("names that the resolver alone knows are to be passed") as tell:
            tell(own_names(lab, servers_of))
        with tally.check("before forward, and between it and unbound") as tell:
            tell(words_of(forwarded(lab, servers_of)))

def own_names(lab, servers_of):
    """Names that the resolver alone knows, after their neighbours were denied."""
    with servers_of.servers("report own") as servers:
        port = resolvers.unbound(servers, more=private.LOCAL, further=[servers_lab.PRIVATE])
        sniffer = Sniffer(servers, servers.folder / "capture", port)
        for asked in (private.NEIGHBOURS, private.NAMES.splitlines()):
            for each in asked: ask(Question(*f"{each} A".split()[:2], "do ad"), port)
        told = figures(lab, sniffer.end(), port)["denied"]
    wanted = {f"{each}." for each in private.PASSED}
    check(set(told["own"]["names"]) == wanted, f"to be passed: {told['own']['names']}, and not {wanted}")
    return f"{', '.join(sorted(wanted))}; without being told {', '.join(sorted(told['passed']['names']))}"

def before(lab, servers_of, name, start):
    """The figures of a capture before a resolver."""
    with servers_of.servers(f"report {name}") as servers:
        port = start(servers)
        sniffer = Sniffer(servers, servers.folder / "capture", port)
        load = Load(lab, servers, port).make()
        told = figures(lab, sniffer.end(), port)
        by_load(told, load)
        return told

def forwarded(lab, servers_of):
    """The figures before `forward`, and those behind it, where its own counters tell what it asked and stored."""
    with servers_of.servers("report forward") as servers:
        port = resolvers.unbound(servers)
        forward = servers.forward(port)
        sniffers = [Sniffer(servers, servers.folder / f"capture{each}", each) for each in (forward.port, port)]
        load = Load(lab, servers, forward.port).make()
        counts = forward.later_counts()
        ahead, behind = (figures(lab, sniffer.end(), each) for sniffer, each in zip(sniffers, (forward.port, port)))
        by_load(ahead, load)
        by_counters(behind, counts)
        return ahead

def by_counters(told, counts):
    asked = sum(status.total(counts, f"dnsreplay_{name}_total") for name in ASKINGS)
    check(told["queries"]["total"] == asked, f"{told['queries']['total']:,} queries, by forward's counters {asked:,}")
    stored = status.total(counts, "dnsreplay_stored_total")
    stored += status.total(counts, "dnsreplay_not_stored_total")
    check(told["answers"]["total"] == stored, f"{told['answers']['total']:,} answers, by forward's counters {stored:,}")
    spared = told["answers"]["spared"]  # to questions that were on their way while the answer to another one came
    refused = sum(told["answers"]["refused"].values())
    left = status.total(counts, "dnsreplay_not_stored_total") - refused
    what = f"{refused:,} refused and {spared:,} spared"
    check(0 <= left <= spared, f"{what}, by its counters {left + refused:,} not stored")
