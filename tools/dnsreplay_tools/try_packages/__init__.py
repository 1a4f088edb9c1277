"""Tries the packages of a folder on a throwaway copy of this machine, over which they are installed and purged.

The copy is an overlay of the root, where that is one file system, in a network of its own, with a signed root and
`org.` that knotd serves and a validating unbound at port 5353. A line tells of each check whether it is ok or FAILED,
and why; status 1 where one failed:

    lintian has no error and no warning; `mandoc -T lint` is quiet on each page
    apt installs all, and starts nothing
    the EXAMPLES of dnsreplay(1) and dnsreplay-forward(8) run as they are written
    /etc/default/dnsreplay stays as it is by an upgrade
    the example of the library is built and linked, and kresd loads the module
    what is removed leaves the configuration alone, and what is purged leaves nothing

It takes root, and Debian's packages: apt-get install lintian mandoc knot unbound knot-resolver bind9-utils
bind9-dnsutils gcc pkgconf iproute2.
"""
import gzip, os, shutil, tempfile
from pathlib import Path
from .. import apart, run as runs
from ..library import done
from ..roff import examples
from ..tally import Tally
from ..wire import Fault, check
from .machine import Machine

PACKAGES = "lintian mandoc knot unbound knot-resolver bind9-utils bind9-dnsutils gcc pkgconf iproute2 dpkg-dev"
PROGRAMS = "lintian", "mandoc", "knotd", "unbound", "kresd", "dnssec-signzone", "dig", "cc", "pkg-config", "ip"
PAGES = "man1/dnsreplay.1", "man8/dnsreplay-forward.8"
DEFAULTS = "etc/default/dnsreplay"
MODULE = "modules = { 'dnsreplay' }\nassert(dnsreplay.stats().records == 0) quit()\n"
BUILD = "cc -std=c11 -pthread threads.c $(pkg-config --cflags --libs dnsreplay) -o /tmp/threads && ldd /tmp/threads"

def words(parser): parser.add_argument("folder", metavar="FOLDER", type=Path, help="where `packages` has put them")

def run(args):
    os.environ["PATH"] += ":/usr/sbin:/sbin"  # where Debian has daemons
    runs.need(PACKAGES, *PROGRAMS)
    files = sorted(args.folder.resolve().glob("*.deb"))
    if not files: raise Fault(f"{args.folder} has no packages: make them by `dnsreplay-tools packages {args.folder}`")
    if os.geteuid(): raise Fault("a throwaway copy of the machine takes root")
    apart.go(apart.NETWORK | apart.MOUNTS)
    folder = Path(tempfile.mkdtemp(prefix="try_packages"))
    try:
        folder.chmod(0o755)
        with Machine(folder) as machine: return try_all(machine, files)
    finally:
        # what is mounted there is this machine's own
        if not os.path.ismount(folder / "root"): shutil.rmtree(folder, ignore_errors=True)

def names_of(files): return [each.name.partition("_")[0] for each in files]

def try_all(machine, files):
    tally = Tally()
    with tally.check("lintian has no error and no warning"):
        done("lintian", "--allow-root", "--fail-on", "error,warning", *files)
    with tally.check("apt installs them, and nothing is started"): install(machine, files)
    with tally.check("mandoc -T lint is quiet") as tell: tell(f"{look_at_pages(machine)} pages")
    for name in PAGES: try_examples(machine, tally, name)
    with tally.check("an upgrade keeps the configuration"): upgrade(machine, files)
    with tally.check("the example of the library is built") as tell: tell(build(machine))
    with tally.check("kresd loads the module"):
        machine.write("tmp/kresd.conf", MODULE)
        machine.shell("cd /tmp && kresd -n -c kresd.conf /tmp")
    with tally.check("what is removed leaves its configuration alone"):
        machine.apt("remove", *names_of(files))
        left(machine, {DEFAULTS}, without="systemd")
    with tally.check("what is purged leaves nothing"):
        machine.apt("purge", "dnsreplay")
        left(machine, set())
    return tally.end()

def install(machine, files):
    machine.apt("install", *machine.given(files))
    check(machine.has("etc/systemd/system/multi-user.target.wants/dnsreplay.service"), "the service isn't enabled")
    check("UPSTREAM=\n" in machine.read(DEFAULTS), "an upstream is named")
    running = machine.shell("cat /proc/[0-9]*/comm").split()
    check("dnsreplay" not in running, "the program runs")

def pages(machine): return sorted((machine.root / "usr/share/man").glob("man*/dnsreplay*.gz"))

def look_at_pages(machine):
    for each in pages(machine):
        said = machine.shell(f"zcat {machine.path(each)} | mandoc -T lint || true")
        check(not said, said)
    return len(pages(machine))

def try_examples(machine, tally, name):
    """Each example alone: its processes are gone with its shell."""
    text = gzip.decompress((machine.root / "usr/share/man" / f"{name}.gz").read_bytes()).decode()
    every = examples(text)
    check(every, f"{name} has no examples")
    for each in every:
        first = each.strip().splitlines()[0]
        with tally.check(f"an example of {name} runs: {first[:60]} .."): machine.shell(each)

def upgrade(machine, files):
    """A later version of the same, behind a change of the configuration."""
    machine.write(DEFAULTS, machine.read(DEFAULTS).replace("--workers 2", "--workers 3"))
    mine = machine.read(DEFAULTS)
    old = next(each for each in files if each.name.startswith("dnsreplay_"))
    later = machine.folder / "later"
    done("dpkg-deb", "-R", old, later)
    control = later / "DEBIAN" / "control"
    control.write_text(control.read_text().replace("\nVersion: ", "\nVersion: 1:"))
    done("dpkg-deb", "--root-owner-group", "-b", later, machine.folder / "later.deb")
    machine.apt("install", *machine.given([machine.folder / "later.deb"]))
    check(machine.read(DEFAULTS) == mine, "the configuration has changed")

def build(machine):
    said = machine.shell(f"cd /usr/share/doc/libdnsreplay-dev/examples && {BUILD}")
    found = [line.strip() for line in said.splitlines() if "libdnsreplay" in line]
    check(len(found) == 1 and "not found" not in found[0], said)
    return found[0]

def left(machine, wanted, without=None):
    """What is left must be that, without what systemd's helper notes until a package is purged."""
    found = {each for each in machine.left() if not without or without not in each}
    check(found == wanted, f"left: {sorted(found)}")
