"""dnsdist before several forwarders, by docs/dnsdist.conf: shares from the cache, and one that dies."""
import copy, random, re, signal, time
from concurrent.futures import ThreadPoolExecutor
from .. import run as runs
from ..signed_zones import delegation, signed
from ..try_serve import dig
from ..wire import check
from . import resolvers, status
from .clients import Question, ask_all, some_label
from .lab import V4, Servers
from .load import dnsperf

DOCS = runs.ROOT / "docs" / "dnsdist.conf"
BY_DOMAIN, CHASHED, ROUND = "byDomain", "chashed", "roundrobin"
DOMAINS, HOSTS = [f"d{at}.zone." for at in range(12)], 250  # each with a denial for each host
QUERIES, RATE, EXISTING = 9_000, 1_000, 0.3
MACHINES, LEAST_OF_ONE = (1, 2, 4), 0.9  # by domain four have nearly the share of one
REPEAT, PROMPT = 5, 1  # seconds after which dig and C libraries ask again, and in which the repeat is answered
BATCH, EACH, BATCHES, DIES = 20, 0.2, 50, 15  # questions at once, seconds between them, how many, and which one sees it
COUNTED = "answered", "forwarded", "joined"
WAYS = {"killed": signal.SIGKILL, "silent, as without power": signal.SIGSTOP}

def configuration(port, machines, policy):
    """That of the docs, with other addresses, and perhaps a policy of dnsdist's own."""
    text, servers = DOCS.read_text(), ", ".join(f"'{V4}:{each}'" for each in machines)
    forms = {r"setLocal\(.*\)": f"setLocal('{V4}:{port}')", r"setACL\(.*\)": f"setACL({{'{V4}/32'}})"}
    forms[r"\{'.*?:53'\}"] = f"{{{servers}}}"
    for form, ours in forms.items():
        text, count = re.subn(form, ours, text)
        check(count == 1, f"{DOCS} has {count} times {form}")
    if policy == CHASHED: text = text.replace("address = address,", "address = address, weight = 1000,")
    return text + (f"setServerPolicy({policy})\n" if policy != BY_DOMAIN else "")

def domains(lab):
    """The lab over a root with these domains alone, and their hosts."""
    made, rng = copy.copy(lab), random.Random(f"spread {lab.args.seed}")
    made.folder, made.authority = lab.folder / "domains", lab.port()
    made.folder.mkdir()
    hosts = {each: [some_label(rng) for _ in range(HOSTS)] for each in DOMAINS}
    anchors = [signed(made.folder, each, [f"{host} A 192.0.2.9" for host in some]) for each, some in hosts.items()]
    made.anchor = signed(made.folder, ".", [*map(delegation, DOMAINS), *anchors])
    return made, hosts

def names(rng, hosts):
    """Random names below the domains, and hosts of theirs."""
    while True:
        domain = rng.choice(DOMAINS)
        yield f"{rng.choice(hosts[domain]) if rng.random() < EXISTING else some_label(rng)}.{domain}"

class Spread:
    """So many forwarders over one resolver, and dnsdist before them."""
    def __init__(self, servers, resolver, policy, count):
        self.name, self.port = f"{policy}{len(servers.running)}", servers.lab.port()
        self.machines = [servers.forward(resolver, name=f"{self.name}-{at}") for at in range(count)]
        path = servers.folder / f"{self.name}.conf"
        path.write_text(configuration(self.port, [each.port for each in self.machines], policy))
        process = servers.start(self.name, "dnsdist", "--supervised", "--disable-syslog", "-C", path)
        servers.up(self.name, process, self.is_up)

    def is_up(self):
        try:
            return all(each.reply for each in ask_all([Question("zone.", "A")], self.port, seconds=1))
        except ConnectionError:
            return False

    def share(self):
        """Of the queries that were answered, forwarded or joined, those that the caches answered."""
        counts = [each.later_counts() for each in self.machines]
        sums = [sum(status.total(each, f"dnsreplay_{name}_total") for each in counts) for name in COUNTED]
        return sums[0] / sum(sums)

    def end(self, servers):
        for each in (*(machine.process for machine in self.machines), servers.running[self.name]): each.kill()

def run(lab, tally):
    runs.need("dnsdist", "dnsdist")
    over, hosts = domains(lab)
    with Servers(over, over.folder / "servers") as servers:
        servers.knot(over.authority, (".", *DOMAINS))
        resolver = resolvers.unbound(servers, zones=resolvers.STUB.format(zone=".", authority=over.authority))
        shares = {}
        for policy in (BY_DOMAIN, CHASHED, ROUND):
            for count in MACHINES:
                with tally.check(f"the share from the cache by {policy}, {count} behind dnsdist") as tell:
                    shares[policy, count] = share(servers, resolver, policy, count, hosts)
                    tell(f"{shares[policy, count]:.1%}")
        with tally.check("by domain four machines have nearly the share of one"):
            check(shares[BY_DOMAIN, 4] >= LEAST_OF_ONE * shares[BY_DOMAIN, 1], f"{shares}")
        with tally.check("by TCP too a name is denied with AD") as tell: tell(by_tcp(servers, resolver))
        for way, number in WAYS.items():
            with tally.check(f"one of four is {way}: each query is answered, at the latest when it is repeated") as tell:
                tell(dies(servers, resolver, hosts, number, way.split(",")[0]))

def share(servers, resolver, policy, count, hosts):
    spread = Spread(servers, resolver, policy, count)
    path, rng = servers.folder / "names", random.Random("names")
    made = names(rng, hosts)
    path.write_text("".join(f"{next(made)} A\n" for _ in range(QUERIES)))
    dnsperf(servers, spread.port, path, "-Q", RATE, "-n", 1, clients=16)
    try:
        return spread.share()
    finally:
        spread.end(servers)

def by_tcp(servers, resolver):
    """Twice the same: the first is the resolver's answer, the second the cache's."""
    spread = Spread(servers, resolver, BY_DOMAIN, 1)
    said = [dig(spread.port, f"nobody.{DOMAINS[0]} A +dnssec +tcp") for _ in range(2)]
    spread.end(servers)
    check(all(each.status == "NXDOMAIN" and "ad" in each.flags.split() for each in said), f"{said}")
    return said[1].flags

def dies(servers, resolver, hosts, number, name):
    """Questions go on and on while one machine dies; what had no reply is asked again, once."""
    spread, rng = Spread(servers, resolver, BY_DOMAIN, 4), random.Random(name)
    made = names(rng, hosts)
    batches = [[Question(next(made), "A") for _ in range(BATCH)] for _ in range(BATCHES)]
    with ThreadPoolExecutor(BATCHES) as pool:
        asked = []
        for at, batch in enumerate(batches):
            if at == DIES: spread.machines[0].process.send_signal(number)
            asked.append(pool.submit(repeats, batch, spread.port))
            time.sleep(EACH)
        told = [each.result() for each in asked]
    spread.end(servers)
    again, lost = (sum(each) for each in zip(*told))
    check(not lost, f"{lost} of {again} repeats had no reply")
    late = max((at for at, (some, _) in enumerate(told) if some), default=DIES)
    check(again, "no query was lost, so nothing was tried")
    return f"{again} of {BATCH * BATCHES} were asked again, none later than {(late + 1 - DIES) * EACH:.1f} s behind it"

def repeats(batch, port):
    """How many had no reply in time, and how many of these had none as they were asked again."""
    came = ask_all(batch, port, seconds=REPEAT)
    again = [each for each, what in zip(batch, came) if not what.reply]
    return len(again), sum(not each.reply for each in ask_all(again, port, seconds=PROMPT)) if again else 0
