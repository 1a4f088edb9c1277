"""The folder, the zones, and what runs in them: servers, the forwarder, a network of its own."""
import contextlib, itertools, os, re, subprocess, time
from pathlib import Path
from .. import run as runs
from ..library import done
from ..try_serve import dig
from ..signed_zones import ORIGINS, RSA, rsa_zone, tree, write_zone
from ..wire import Fault, check
from . import sockets, status

V4, V6 = "127.0.0.1", "::1"
PORTS = 60  # that a try takes at most
LINE = 15  # seconds in which a line comes
KILLED_WITH_US = ("setpriv", "--pdeathsig", "KILL")
TEXT = " ".join(f'"{letter * 200}"' for letter in "abc")
# Sets that are large when their names aren't compressed, or at all: the exchanges of a mail farm, and addresses.
EXCHANGES, ADDRESSES, TEXTS = 14, 60, 25
LARGE = [f"farm MX {at} mx{at:02d}.customers.mail-farm.example." for at in range(EXCHANGES)]
LARGE += [f"many A 198.51.100.{at}" for at in range(1, ADDRESSES + 1)]
LARGE += [f"many AAAA 2001:db8::{at:x}" for at in range(1, ADDRESSES + 1)]
LARGE += [f'large TXT "{at:03d}{"t" * 200}"' for at in range(TEXTS)]  # more than 5,000 octets
# These, a set of 600 octets, hosts of both families, and aliases into a zone that the resolver alone has.
HOST = "both A 192.0.2.12", "both AAAA 2001:db8::12"
MORE = f"mid TXT {TEXT}", *HOST, "toprivate CNAME h1.private.", *LARGE
PRIVATE = "private."

KNOT = """\
server:
    rundir: "{folder}"
    listen: 127.0.0.1@{port}
database:
    storage: "{folder}/db"
template:
  - id: default
    zonefile-sync: -1
    journal-content: none
zone:
"""

class Forward:
    """The program as a forwarder on both loopback addresses, and what it tells."""
    def __init__(self, servers, upstream, workers=1, passes=(), port=None, name="forward", host=V4, status="status"):
        self.servers, self.name, self.port, self.workers = servers, name, port or servers.lab.port(), workers
        self.status = servers.folder / name / status
        self.status.parent.mkdir(exist_ok=True)
        options = [("--listen", f"{host}:{self.port}") for host in (V4, f"[{V6}]")]
        options += [("--upstream", f"{host}:{upstream}"), ("--workers", workers), ("--status", self.status)]
        options += [("--pass", each) for each in passes]
        self.process = servers.start(name, servers.lab.program, "forward", *itertools.chain(*options))
        servers.up(name, self.process, self.is_bound)

    def is_bound(self):
        """Whether each worker's sockets are bound, for datagrams and for streams."""
        udp, tcp = (self.sockets(each, f"{each}6") for each in ("udp", "tcp"))
        listening = [each for each in tcp if each.state == sockets.LISTEN]
        return all(sum(each.local == self.port for each in some) == 2 * self.workers for some in (udp, listening))

    def sockets(self, *tables):
        """All sockets of its network that these tables have."""
        network = Path(f"/proc/{self.process.pid}/net")
        return [each for table in tables for each in sockets.read((network / table).read_text(encoding="ascii"))]

    def connections(self):
        """The clients' connections over IPv4 that it holds."""
        ours = (each for each in self.sockets("tcp") if each.local == self.port and each.inode)
        return [each for each in ours if each.state != sockets.LISTEN]

    def streams(self, upstream):
        """The streams over IPv4 to the upstream's port that it holds."""
        return [each for each in self.sockets("tcp") if each.remote == upstream and each.inode]

    def lines(self): return self.servers.lines(self.name)

    def later_line(self, form, before=0):
        """The first line of the form behind so many."""
        end = time.monotonic() + LINE
        while time.monotonic() < end:
            for line in self.lines()[before:]:
                if form.search(line): return line
            time.sleep(0.2)
        raise Fault(f"no line within {LINE} s: {self.lines()[before:]}")

    def look(self): check(self.process.poll() is None, f"the forwarder has ended: {self.servers.said(self.name)}")

    def counts(self):
        """The status that stands in the file; none where there is none yet."""
        with contextlib.suppress(FileNotFoundError): return status.read(self.status.read_text())
        return {}

    def later_counts(self, seconds=25):
        """A status that was written from now on: the second that comes, as the first may be on its way."""
        seen, end = {self.stamp()}, time.monotonic() + seconds
        while len(seen) < 3:
            self.look()
            check(time.monotonic() < end, f"no two statuses within {seconds} seconds")
            time.sleep(0.1)
            seen.add(self.stamp())
        return self.counts()

    def stamp(self):
        with contextlib.suppress(FileNotFoundError): return self.status.stat().st_ino, self.status.stat().st_mtime_ns
        return None

    def resident(self):
        """Octets of resident memory; 0 where the forwarder has ended."""
        text = Path(f"/proc/{self.process.pid}/status").read_text(encoding="ascii")
        found = re.search(r"VmRSS:\s+(\d+) kB", text)
        return int(found[1]) * 1024 if found else 0

    def processor_time(self):
        """Nanoseconds of processor time of all its threads (CPUCLOCK_SCHED of Linux)."""
        return time.clock_gettime_ns((~self.process.pid << 3) | 2)

class Servers(contextlib.ExitStack):
    """Programs that run in a folder, perhaps in a network of their own, and are killed when it is left."""
    def __init__(self, lab, folder, network=False):
        super().__init__()
        self.lab, self.folder, self.within, self.running = lab, folder, (), {}
        folder.mkdir()
        if network: self.own_network()

    def start(self, name, *command):
        log = self.enter_context(open(self.folder / f"{name}.log", "ab"))
        how = {"stdin": subprocess.DEVNULL, "stdout": log, "stderr": log}
        process = subprocess.Popen([*KILLED_WITH_US, *self.within, *map(str, command)], **how)
        self.callback(process.wait)
        self.callback(process.kill)
        self.running[name] = process
        return process

    def lines(self, name): return (self.folder / f"{name}.log").read_text(errors="replace").splitlines()
    def said(self, name): return "\n".join(self.lines(name)[-20:])

    def up(self, name, process, done):
        runs.wait(process, done, lambda: self.said(name))

    def validates(self, port):
        """Whether a resolver at a port validates what the root says."""
        return "ad" in dig(port, ". SOA +dnssec", 1, within=self.within).flags.split()

    def own_network(self):
        """A network with loopback alone, and mounts that nobody else sees."""
        check(os.geteuid() == 0, "a network of its own takes root")
        process = self.start("network", "unshare", "--net", "--mount", "sleep", "infinity")
        ours = os.readlink("/proc/self/ns/mnt")
        self.up("network", process, lambda: os.readlink(f"/proc/{process.pid}/ns/mnt") != ours)
        self.within = ("nsenter", "-t", str(process.pid), "-n", "-m")
        self.done("ip", "link", "set", "lo", "up")

    def done(self, *command): return done(*self.within, *map(str, command))

    def knot(self, port, zones=(".", *ORIGINS, RSA, PRIVATE)):
        """The authoritative server of all zones, at a port."""
        folder = self.folder / "knot"
        folder.mkdir()
        text = "".join(f'  - domain: "{zone}"\n    file: "{self.lab.folder}/{zone}zone"\n' for zone in zones)
        (folder / "knot.conf").write_text(KNOT.format(folder=folder, port=port) + text)
        return self.start("knot", "knotd", "-c", folder / "knot.conf")

    def forward(self, upstream, **how): return Forward(self, upstream, **how)

class Lab:
    """What all checks have in common: the words, a folder, signed zones, and who serves them."""
    def __init__(self, args, folder):
        self.args, self.program, self.folder = args, args.program, folder
        self.anchor = tree(folder, *MORE, below=rsa_zone(folder, *MORE))
        write_zone(folder, PRIVATE, ["h1 A 192.0.2.1"])
        first = runs.free_ports(PORTS)
        self.ports = iter(range(first, first + PORTS))
        self.authority = self.port()

    def port(self): return next(self.ports)
    def servers(self, name, network=False): return Servers(self, self.folder / name, network)
