"""Tries `serve` as an operator would: an authoritative server, a validating resolver, dnsreplay before it, and dig.

It needs Debian's packages: apt-get install knot unbound bind9-dnsutils. Everything runs on loopback, in a folder of its
own, and is stopped at the end. The table tells for each question what was said, where from (the resolver's log of
queries tells whether it was asked), and how that compares with what the resolver says by itself, asked next. A line
that isn't as expected ends it with status 1.
"""
import contextlib, os, re, shutil, signal, subprocess, tempfile, time
from collections import namedtuple
from pathlib import Path
from . import run as runs

ZONE = """\
$ORIGIN example.
$TTL 3600
@     SOA ns.example. admin.example. 1 3600 900 604800 600
@     NS  ns
ns    A   192.0.2.1
alpha A   192.0.2.10
kilo  A   192.0.2.12
kilo  AAAA 2001:db8::12
*.w   TXT "made by the wildcard"
mid   TXT {mid}
big   TXT {big}
sub   NS  ns.sub
ns.sub A  192.0.2.20
zulu  A   192.0.2.99
"""

KNOT = """\
server:
    listen: 127.0.0.1@{authority}
    rundir: "{folder}/run"
database:
    storage: "{folder}/keys"
log:
  - target: {folder}/knot.log
    any: info
policy:
  - id: signed
    algorithm: ecdsap256sha256
    single-type-signing: on
    nsec3: {nsec3}
    nsec3-iterations: 0
    nsec3-salt-length: 0
zone:
  - domain: example
    storage: "{folder}"
    file: "example.zone"
    zonefile-sync: -1
    dnssec-signing: on
    dnssec-policy: signed
"""

# aggressive-nsec is off, so that the resolver denies nothing from its own cache.
UNBOUND = """\
server:
    interface: 127.0.0.1 port: {resolver} access-control: 127.0.0.0/8 allow username: "" chroot: ""
    directory: "{folder}" pidfile: "{folder}/unbound.pid" trust-anchor-file: "{folder}/anchor"
    logfile: "{folder}/unbound.log" use-syslog: no log-queries: yes
    module-config: "validator iterator" do-not-query-localhost: no
    aggressive-nsec: no prefetch: no qname-minimisation: no
remote-control: control-enable: no
stub-zone: name: "example" stub-addr: 127.0.0.1@{authority}
"""

TEXTS = [f'"{letter * 200}"' for letter in "abcdefg"]
CACHE, RESOLVER = "cache", "resolver"
HEAD = "question", "status", "flags", "EDNS", "TTLs", "from", "resolver's TTLs", "differs in"
LINE = "{:<42} {:<9} {:<15} {:<8} {:<9} {:<9} {:<15} {:<10}"
SOA = "example SOA +dnssec"
DENIED, GOOD = "NXDOMAIN", "NOERROR"
REFUSED = ("status", "flags", "records")  # unbound refuses what doesn't ask for recursion

# a question in dig's words, and what is expected: with NSEC3 perhaps another source; how the resolver may differ
Row = namedtuple("Row", "words status flags source what hashed_source differs", defaults=("", ()))

# Names from bravo to juliett lie between big and kilo. Those here lie in one gap of the hashes too.
ROWS = [
    Row("bravo.example A +dnssec", DENIED, "qr rd ra ad", RESOLVER, "a name error: asked, relayed and kept"),
    Row("bravo.example A +dnssec", DENIED, "qr rd ra ad", CACHE, "the same again"),
    Row("charlie.example A +dnssec", DENIED, "qr rd ra ad", CACHE, "a neighbour, asked for the first time"),
    Row("deep.golf.example MX +dnssec", DENIED, "qr rd ra ad", CACHE, "a name below another, another type"),
    Row("ECHO.example A +dnssec", DENIED, "qr rd ra ad", CACHE, "large letters"),
    Row("india.example A", DENIED, "qr rd ra ad", CACHE, "dig's own: EDNS and AD, no DO"),
    Row("india.example A +noedns", DENIED, "qr rd ra ad", CACHE, "AD without EDNS"),
    Row("india.example AAAA +noedns +noadflag", DENIED, "qr rd ra", CACHE, "what a stub resolver sends"),
    Row("kilo.example MX +dnssec", GOOD, "qr rd ra ad", RESOLVER, "no data: asked"),
    Row("kilo.example TXT +dnssec", GOOD, "qr rd ra ad", CACHE, "another type that the name hasn't"),
    Row("kilo.example A +dnssec", GOOD, "qr rd ra ad", RESOLVER, "an address: asked"),
    Row("kilo.example A +noedns +noadflag", GOOD, "qr rd ra", CACHE, "its set, for a stub resolver"),
    Row("KILO.example A", GOOD, "qr rd ra ad", CACHE, "its set, in large letters", differs=("records",)),
    Row("one.w.example TXT +dnssec", GOOD, "qr rd ra ad", RESOLVER, "an answer by a wildcard: asked"),
    Row("two.w.example TXT +dnssec", GOOD, "qr rd ra ad", CACHE, "another name, the same wildcard"),
    Row("two.w.example A +dnssec", GOOD, "qr rd ra ad", CACHE, "a type that the wildcard hasn't", RESOLVER),
    Row("sub.example DS +dnssec", GOOD, "qr rd ra ad", RESOLVER, "no DS at a delegation: asked"),
    Row("sub.example DS +dnssec", GOOD, "qr rd ra ad", CACHE, "the same again"),
    Row("mid.example TXT +dnssec", GOOD, "qr rd ra ad", RESOLVER, "600 octets of text: asked"),
    Row("mid.example TXT +dnssec +bufsize=512", GOOD, "qr tc rd ra ad", CACHE, "the same for a small buffer: cut"),
    Row("mid.example TXT +noedns +noadflag", GOOD, "qr tc rd ra", CACHE, "the same without EDNS: cut"),
    Row("big.example TXT +dnssec +bufsize=4096", GOOD, "qr tc rd ra ad", RESOLVER, "1400 octets: cut", "", ("flags",)),
    Row("india.example TXT +dnssec +cdflag", DENIED, "qr rd ra ad cd", CACHE, "CD"),
    Row("india.example TXT +dnssec +norecurse", DENIED, "qr ra ad", CACHE, "without RD", differs=REFUSED),
    Row("kilo.example A +edns=1 +noednsnegotiation", "BADVERS", "qr rd ra", CACHE, "a later version of EDNS: refused"),
    Row("kilo.example ANY +dnssec +notcp", GOOD, "qr rd ra ad", RESOLVER, "a type that is always asked"),
]

class Said(namedtuple("Said", "status flags edns ttls records")):
    """A message as dig shows it; its records are without TTLs, each with its section."""

    @classmethod
    def by(cls, text):
        forms = (r"status: (\w+)", r"\n;; flags: ([a-z ]*);", r"; EDNS: .*flags:( ?\w*); udp: (\d+)")
        status, flags, edns = (re.search(each, text) for each in forms)
        section, records, ttls = "", [], []
        for line in text.splitlines():
            section = line[3:5] if line.endswith(" SECTION:") else section
            if line and line[0] != ";":
                owner, ttl, rest = line.split(maxsplit=2)
                records.append(f"{section} {owner} {' '.join(rest.split())}")
                ttls.append(int(ttl))
        told = f"{edns[2]}{edns[1]}" if edns else "none"
        return cls(status[1] if status else "no reply", flags[1] if flags else "", told, ttls, records)

    def unlike(self, other):
        """In what it differs. TTLs are looked at by eye: those of a denial from the cache count down from the first."""
        parts = [each for each in ("status", "flags", "edns") if getattr(self, each) != getattr(other, each)]
        if "tc" in (self.flags + other.flags).split() or self.records == other.records: return parts
        return [*parts, "order" if sorted(self.records) == sorted(other.records) else "records"]

    def lives(self):
        """The least and the greatest TTL."""
        return "-".join(map(str, sorted({min(self.ttls), max(self.ttls)}))) if self.ttls else ""

def dig(port, words, seconds=5, address="127.0.0.1", within=()):
    command = [*within, "dig", "-r", f"@{address}", "-p", str(port), "+tries=1", f"+time={seconds}", "+ignore", *words.split()]
    return Said.by(subprocess.run(command, capture_output=True, text=True, check=False).stdout)

class Lab:
    """The servers, on three ports."""
    def __init__(self, args, folder):
        self.program, self.nsec3, self.folder, self.running = args.program, args.nsec3, folder, []
        self.listen = runs.free_ports(3)
        self.authority, self.resolver = self.listen + 1, self.listen + 2

    def write(self, name, text):
        (self.folder / name).write_text(text)
        return self.folder / name

    def start(self, done, name, *words):
        """Starts a program, and waits until it is up."""
        said = self.folder / f"{Path(name).name}.said"
        with open(said, "wb") as file:
            how = {"stdin": subprocess.DEVNULL, "stdout": file, "stderr": file}
            process = subprocess.Popen([name, *map(str, words)], start_new_session=True, **how)
        self.running.append(process)
        runs.wait(process, done, lambda: said.read_text(errors="replace").strip()[-2000:])

    def up(self):
        for each in ("run", "keys"): (self.folder / each).mkdir()
        fields = {**vars(self), "nsec3": "on" if self.nsec3 else "off"}
        self.write("example.zone", ZONE.format(mid=" ".join(TEXTS[:3]), big=" ".join(TEXTS)))
        self.start(self.take_keys, "knotd", "-c", self.write("knot.conf", KNOT.format(**fields)))
        configuration = self.write("unbound.conf", UNBOUND.format(**fields))
        self.start(lambda: dig(self.resolver, SOA, 2).flags == "qr rd ra ad", "unbound", "-d", "-c", configuration)
        options = ("--listen", self.listen, "--upstream", self.resolver, "--workers", 1, "--datagrams", 5_000)
        self.start(lambda: dig(self.listen, SOA, 2).status == GOOD, self.program, "serve", *options)

    def take_keys(self):
        """Writes the zone's keys to a file, and tells whether it has signed any."""
        records = dig(self.authority, "example DNSKEY +dnssec", 2).records
        keys = [each.removeprefix("AN ") for each in records if " DNSKEY 2" in each]
        self.write("anchor", "".join(each + "\n" for each in keys))
        return keys and any(" RRSIG " in each for each in records)

    def asked(self):
        """How many questions the resolver has had."""
        time.sleep(0.05)
        return len(re.findall(r"info: 127\.0\.0\.1 ", (self.folder / "unbound.log").read_text()))

    def down(self):
        """Stops all that was started, and kills what doesn't stop by itself."""
        for process in reversed(self.running):
            if process.poll() is None: os.killpg(process.pid, signal.SIGTERM)
        for process in self.running:
            with contextlib.suppress(subprocess.TimeoutExpired): process.wait(5)
            if process.poll() is None: os.killpg(process.pid, signal.SIGKILL)

def try_row(lab, row):
    """Asks a row's question, prints its line, and tells whether it isn't as expected."""
    before = lab.asked()
    said = dig(lab.listen, row.words)
    source = RESOLVER if lab.asked() > before else CACHE
    alone = dig(lab.resolver, row.words)
    wanted = row.hashed_source if lab.nsec3 and row.hashed_source else row.source
    unlike = said.unlike(alone)
    pairs = {"status": (said.status, row.status), "flags": (said.flags, row.flags), "from": (source, wanted)}
    odd = [f"{name} {want} expected" for name, (got, want) in pairs.items() if got != want]
    odd += [f"other {each} than the resolver's" for each in unlike if each not in row.differs]
    told = (row.words, *said[:3], said.lives(), source, alone.lives(), ", ".join(unlike) or "-")
    print(LINE.format(*told), row.what + ("  ** " + ", ".join(odd) if odd else ""), flush=True)
    return bool(odd)

def words(parser):
    runs.takes_program(parser)
    parser.add_argument("--nsec3", action="store_true", help="sign the zone with NSEC3")
    parser.add_argument("--keep", metavar="FOLDER", type=Path, help="a new folder for configurations and logs")

def run(args):
    os.environ["PATH"] += ":/usr/sbin:/sbin"  # where Debian has daemons, for a user without it
    runs.need("knot unbound bind9-dnsutils", "knotd", "unbound", "dig")
    if args.keep: args.keep.mkdir()
    folder = args.keep or Path(tempfile.mkdtemp(prefix="try_serve"))
    with contextlib.ExitStack() as stack:
        if not args.keep: stack.callback(shutil.rmtree, folder, ignore_errors=True)
        lab = Lab(args, folder.resolve())
        stack.callback(lab.down)
        lab.up()
        print(LINE.format(*HEAD), "what")
        faults = sum([try_row(lab, row) for row in ROWS])
    print(f"{faults} not as expected" if faults else "all as expected")
    return int(faults > 0)
