"""The servers of the demonstration: a signed zone, a resolver that validates, and questions of the kinds of a flood."""
import random, re, socket, subprocess, threading, time
from .. import wire
from ..library import done
from ..try_forward import resolvers
from ..wire import check

ZONE, HOSTS, APEX = "example.", 3_000, wire.name(b"example")
AUTHORITY, RESOLVER, FORWARD = 5301, 5302, 5303
LETTERS = "abcdefghijklmnopqrstuvwxyz"
VALIDATED = 0x20  # AD, in the fourth octet of a header
EACH = 0.1  # seconds, after which the authoritative server is asked for its count again
OPERATIONS, QUERIES = "mod-stats.server-operation", re.compile(r"\[query\] = (\d+)")
KNOT = """\
server:
    listen: 127.0.0.1@{port}
    rundir: "{folder}"
database:
    storage: "{folder}"
policy:
  - id: signed
    algorithm: ecdsap256sha256
    single-type-signing: on
template:
  - id: default
    global-module: mod-stats
zone:
  - domain: {zone}
    storage: "{folder}"
    file: zone
    zonefile-sync: -1
    journal-content: none
    dnssec-signing: on
    dnssec-policy: signed
"""
HEAD = "$ORIGIN example.\n$TTL 3600\n@ SOA ns admin 1 3600 900 604800 3600\n@ NS ns\nns A 192.0.2.1\n*.w A 192.0.2.2\n"

def label(rng): return "".join(rng.choices(LETTERS, k=10))

class Stage:
    """What `Servers` asks of a lab, and the names of the zone and of the floods."""
    def __init__(self, args, folder):
        self.program, self.folder, self.seed = args.program, folder, args.seed
        self.authority, self.anchor, self.ports = AUTHORITY, None, iter((RESOLVER, FORWARD))
        rng = random.Random(f"zone {args.seed}")
        self.hosts = sorted({label(rng) for _ in range(HOSTS)})

    def port(self): return next(self.ports)

    def names(self, flood):
        """Names without end that don't exist, some of them below a wildcard, and types that hosts don't have."""
        rng = random.Random(f"{flood} {self.seed}")
        while True:
            kind = rng.random()
            if kind < 0.8: yield wire.name(label(rng).encode(), b"example"), wire.A
            elif kind < 0.9: yield wire.name(label(rng).encode(), b"w", b"example"), wire.A
            else: yield wire.name(rng.choice(self.hosts).encode(), b"example"), wire.MX

class Authority:
    """How many queries the authoritative server has had, asked again and again while it is entered."""
    def __init__(self, path): self.path, self.samples, self.stopped = path, [(0, 0), (1, 0)], threading.Event()

    def __enter__(self):
        self.thread = threading.Thread(target=self.watch, daemon=True)
        self.thread.start()
        return self

    def __exit__(self, *_):
        self.stopped.set()
        self.thread.join()

    def watch(self):
        while not self.stopped.wait(EACH): self.samples = [self.samples[-1], (time.monotonic(), self.asked())]

    def count(self):
        """By now, as the last two samples have it go on."""
        (sooner, few), (later, many) = self.samples
        return round(many + (many - few) * (time.monotonic() - later) / (later - sooner))

    def asked(self):
        words = "knotc", "-s", self.path, "stats", OPERATIONS
        found = QUERIES.search(subprocess.run(words, capture_output=True, text=True, check=False).stdout)
        return int(found[1]) if found else 0

def start(servers):
    """The authoritative server's count, and the resolver's port, once all are up."""
    folder = servers.folder / "knot"
    folder.mkdir()
    (folder / "zone").write_text(HEAD + "".join(f"{each} A 192.0.2.9\n" for each in servers.lab.hosts))
    configuration = folder / "knot.conf"
    configuration.write_text(KNOT.format(folder=folder, port=AUTHORITY, zone=ZONE))
    process = servers.start("knotd", "knotd", "-c", configuration)
    servers.up("knotd", process, lambda: flags(AUTHORITY) is not None)
    servers.lab.anchor = done("keymgr", "-c", configuration, ZONE, "ds").splitlines()[0].strip()
    stub = resolvers.STUB.format(zone=ZONE, authority=AUTHORITY)
    resolver = resolvers.unbound(servers, zones=stub, is_up=lambda port: (flags(port) or 0) & VALIDATED)
    return servers.enter_context(Authority(folder / "knot.sock")), resolver

def flags(port):
    """The fourth octet of what a server says of the apex; none where it says nothing or a fault."""
    with socket.socket(socket.AF_INET, socket.SOCK_DGRAM) as one:
        one.settimeout(1)
        one.connect(("127.0.0.1", port))
        try:
            one.send(wire.query(APEX, wire.SOA))
            octets = one.recv(4_096)
        except OSError:
            return None
    check(len(octets) >= 12, "a reply without a header")
    return octets[3] if octets[3] & 15 == 0 and octets[7] else None
