"""Tries the module of Knot Resolver beside a kresd without it, over signed zones, and under load.

FOLDER is what `library` made. In a network of its own (so it runs as root): an authoritative server with a signed root
and zones below it (NSEC; NSEC3; NSEC3 with Opt-Out; each with wildcards; one unsigned), another with a private zone,
for which kresd's policy has a STUB rule, and two kresd without a cache of their own, one with the module. Each question
is asked of both, and RCODE, flags, records (their TTLs apart) and EDNS have to agree: questions with and without DO,
EDNS, NSID and CD, and random names. A private name is never denied. The queries that each brought to the authoritative
server are told, and the module's counts. Then dnsperf asks the one with the module, and its log may have no error.

It needs Debian's packages: apt-get install knot-resolver knot bind9-utils dnsperf iproute2 python3-dnspython.
"""
import contextlib, os, random, re, shutil, socket, subprocess, sys, tempfile, time
from pathlib import Path
from . import run as runs
from .asking import is_up, need_dnspython, query, said, told
from .library import done
from .signed_zones import ADDRESS, ORIGINS, SIGNED, tree, write_zone
from .wire import check

PRIVATE = "127.0.0.2"
WITH, WITHOUT = 5302, 5303
NETWORK = "DNSREPLAY_TRY_NETWORK"
LETTERS = "abcdefghijklmnopqrstuvwxyz0123456789"
TYPES = "A", "AAAA", "TXT", "MX"

KNOT = """\
server:
    rundir: "{folder}"
    listen: {address}@53
database:
    storage: "{folder}/db"
mod-stats:
  - id: count
    request-protocol: on
template:
  - id: default
    global-module: mod-stats/count
    zonefile-sync: -1
    journal-content: none
zone:
"""

KRESD = """\
net.listen('{address}', {port}, {{ kind = 'dns' }})
net.listen('{folder}/control', nil, {{ kind = 'control' }})
net.ipv6 = false
for _, name in ipairs({{
	'ta_signal_query', 'ta_sentinel', 'priming', 'detect_time_skew', 'detect_time_jump', 'ta_update',
}}) do
	pcall(modules.unload, name)
end
modules = {{ 'hints > iterate', 'policy > hints', 'stats', 'nsid' }}
nsid.name('tried')
hints.root({{ ['ns.'] = {{ '{address}' }} }})
hints['host.local'] = '192.0.2.99'
option('ALLOW_LOCAL', true)
option('NO_MINIMIZE', true)
cache.open(64 * MB, 'lmdb://{folder}/cache')
modules.unload('cache')
trust_anchors.add([[{anchor}]])
policy.add(policy.suffix(policy.FLAGS({{ 'NO_CACHE' }}), {{ todname('private.') }}))
policy.add(policy.suffix(policy.STUB('{private}'), {{ todname('private.') }}))
policy.add(policy.suffix(policy.DENY_MSG('denied here'), {{ todname('denied.plain.') }}))
"""

MODULE = """\
package.path = package.path .. ';{folder}/share/dnsreplay/?.lua'
modules = {{ dnsreplay = {{ library = '{folder}/lib/libdnsreplay.so.1' }} }}
"""

def words(parser):
    parser.add_argument("folder", metavar="FOLDER", type=Path, help="what `library` made")
    runs.takes_numbers(parser, names=2_000, seconds=300, seed=7)

class Servers:
    """What runs in a folder, and is ended with it."""
    def __init__(self, stack, folder):
        self.stack, self.folder = stack, folder

    def start(self, name, *command):
        log = self.stack.enter_context(open(self.folder / f"{name}.log", "ab"))
        process = subprocess.Popen([*map(str, command)], stdin=subprocess.DEVNULL, stdout=log, stderr=log)
        self.stack.callback(process.wait)
        self.stack.callback(process.terminate)
        return process

    def knot(self, name, address, origins):
        folder = self.folder / name
        folder.mkdir()
        zones = "".join(f'  - domain: "{origin}"\n    file: "{self.folder}/{origin}zone"\n' for origin in origins)
        (folder / "knot.conf").write_text(KNOT.format(folder=folder, address=address) + zones)
        self.start(name, "knotd", "-c", folder / "knot.conf")

    def kresd(self, name, port, anchor, more):
        folder = self.folder / name
        folder.mkdir()
        text = KRESD.format(folder=folder, address=ADDRESS, private=PRIVATE, port=port, anchor=anchor)
        (folder / "kresd.conf").write_text(text + more)
        process = self.start(name, "kresd", "-n", "-c", folder / "kresd.conf", folder)
        runs.wait(process, lambda: is_up(port), lambda: (self.folder / f"{name}.log").read_text())

    def asked(self):
        """How many queries came to the authoritative server."""
        told = done("knotc", "-s", self.folder / "public" / "knot.sock", "stats")
        return sum(map(int, re.findall(r"request-protocol\[[^]]*\] = (\d+)", told)))

def compare(name, rtype, how=""):
    one, other = (said(query(name, rtype, how), port) for port in (WITH, WITHOUT))
    check(one == other, f"{name} {rtype} {how}: with the module {told(one)}, without {told(other)}")
    return one

def questions(rng, count):
    """Random names: beside the hosts, below them, below the wildcard, in the unsigned zone and the private one."""
    def label(): return "".join(rng.choice(LETTERS) for _ in range(8))
    for at in range(count):
        origin = ORIGINS[at % 4]
        host = f"n0000{at % 100:02d}.{origin}"
        forms = f"{label()}.{origin}", f"{label()}.{host}", f"{label()}.w.{origin}", host
        yield rng.choice(forms), rng.choice(TYPES), rng.choice(("do", "do ad", "ad", "", "plain", "do cd", "plain cd"))
        if at % 20 == 0: yield f"{rng.choice(('h1', label()))}.private.", rng.choice(TYPES), "do"

def rows():
    """Each form of answer, twice: first as it is stored, then as it is proved."""
    for origin in SIGNED:
        for name in ("zz", "n000050", "x.w", "alias", "down", "cut", "x.cut", ""):
            for rtype in (*TYPES, "DS"):
                for how in ("", "do", "", "plain", "do cd", "plain cd", "ad nsid"):
                    yield f"{name}.{origin}".lstrip("."), rtype, how
    for name in ("host.local.", "denied.plain.", "x.denied.plain.", "h1.private.", "zz.private.", "zz."):
        for how in ("do", "", "do"): yield name, "A", how

def own_network():
    """Goes on in a network namespace of its own, where port 53 is nobody else's."""
    if os.environ.get(NETWORK): return
    os.execvpe("unshare", ["unshare", "--net", "--", sys.executable, *sys.argv], dict(os.environ, **{NETWORK: "own"}))

def run(args):
    packages = "knot-resolver knot bind9-utils dnsperf iproute2 python3-dnspython"
    runs.need(packages, "kresd", "knotd", "knotc", "dnssec-signzone", "dnsperf", "ip", "unshare")
    need_dnspython(packages)
    own_network()
    done("ip", "link", "set", "lo", "up")
    with contextlib.ExitStack() as stack:
        folder = Path(stack.enter_context(tempfile.TemporaryDirectory(prefix="try_kresd.")))
        folder.chmod(0o755)
        try_in(args, Servers(stack, folder))

def try_in(args, servers):
    folder = servers.folder
    anchor = tree(folder)
    write_zone(folder, "private.", ["h1 A 192.0.2.1"])
    servers.knot("public", ADDRESS, [".", *ORIGINS])
    servers.knot("private", PRIVATE, ["private."])
    servers.kresd("with", WITH, anchor, MODULE.format(folder=args.folder.absolute()))
    servers.kresd("without", WITHOUT, anchor, "")
    count = sum(compare(*row) is not None for row in rows())
    print(f"{count} questions of each form: RCODE, flags, records and EDNS as without the module", flush=True)
    asked = list(questions(random.Random(args.seed), args.names))
    for name, rtype, how in asked:
        rcode, flags, _, _ = compare(name, rtype, how)
        check(not name.startswith("h1.private") or (rcode == 0 and "AD" not in flags), f"{name} is denied")
    print(f"{len(asked):,} random questions: the same", flush=True)
    for port, name in ((WITH, "with"), (WITHOUT, "without")):
        before = servers.asked()
        for each in asked: said(query(*each), port)
        more = servers.asked() - before
        print(f"the same again, {name} the module: {more:,} queries at the authoritative server", flush=True)
    look_at_stats(folder / "with" / "control")
    load(args, folder, asked)

def console(path, line):
    """What kresd's console says to a line."""
    with socket.socket(socket.AF_UNIX) as control:
        control.connect(str(path))
        control.sendall(line.encode() + b"\n")
        time.sleep(0.5)
        return control.recv(65535).decode()

def module_stats(path):
    """What `stats` has of the module, which is renewed each second."""
    time.sleep(2)
    found = re.findall(r"dnsreplay\.([\w.]+)'?\]? = (\d+)", console(path, "stats.list('dnsreplay')"))
    return {name: int(count) for name, count in found}

def look_at_stats(path):
    """The counts of the module, which has answered, forwarded and stored; and that it can be emptied."""
    counts = module_stats(path)
    wanted = "answered", "forwarded", "stored", "stored_records", "records"
    check(all(counts.get(each) for each in wanted), f"counts: {counts}")
    print("the module: " + ", ".join(f"{name} {count:,}" for name, count in counts.items() if count), flush=True)
    console(path, "dnsreplay.clear()")
    check(module_stats(path)["records"] == 0, "records are held after clear()")

def load(args, folder, asked):
    (folder / "questions").write_text("".join(f"{name} {rtype}\n" for name, rtype, _ in asked))
    where = "-s", ADDRESS, "-p", str(WITH), "-d", folder / "questions"
    text = done("dnsperf", *where, "-l", str(args.seconds), "-c", "20", "-e", "-D")
    lost = re.search(r"Queries lost: +(\d+)", text)[1]
    log = (folder / "with.log").read_text()
    wrong = [line for line in log.splitlines() if re.search(r"error|panic|assert|dnsreplay", line, re.I)]
    check(not wrong, f"kresd's log: {wrong[:3]}")
    each_second = re.search(r"Queries per second: +([0-9.]+)", text)[1]
    print(f"dnsperf for {args.seconds} s: {each_second} a second, {lost} lost; no error in the log")
