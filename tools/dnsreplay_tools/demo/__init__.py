"""Shows a flood of random names at a resolver alone, and then through `forward` before it.

In a network of its own, which takes root, knotd serves a signed zone and unbound validates, with its own aggressive
caching off. A line tells of each second how many names were asked, by what the cache answered them, how many questions
reached the authoritative server, and how long a client waited. At the end both floods are drawn into one picture. It
takes a minute, all that it has started ends with it, and its folder goes. PROGRAM is a built or installed
dnsreplay. It needs Debian's packages: apt-get install knot unbound iproute2 python3-matplotlib.
"""
import importlib.util, os, shutil, tempfile
from pathlib import Path
from .. import apart, run as runs
from ..try_forward.lab import Servers
from ..wire import Fault, check
from . import picture, stage, table
from .flood import Flood

PACKAGES = "knot unbound iproute2 python3-matplotlib"
PROGRAMS = "knotd", "knotc", "keymgr", "unbound", "ip", "setpriv"
ALONE = "the resolver alone, its own aggressive caching off"
BEFORE = "through dnsreplay forward, before the same resolver"

def words(parser):
    what = "a dnsreplay (default: crates/dnsreplay/out/dnsreplay, or else an installed one)"
    parser.add_argument("program", metavar="PROGRAM", nargs="?", help=what)
    add = lambda name, read, default, metavar, text: parser.add_argument(
        name, type=read, default=default, metavar=metavar, help=f"{text}(default: {default})"
    )  # fmt: skip
    add("--picture", Path, Path("demo.svg"), "FILE", "")
    add("--seconds", runs.number(5, 40), 25, "N", "of each flood ")
    add("--rate", runs.number(100, 2_000), 1_000, "N", "a second ")
    runs.takes_numbers(parser, seed=7)

def program(word):
    """The program that is named, or built, or installed."""
    found = word or (runs.BUILT if runs.BUILT.is_file() else shutil.which("dnsreplay"))
    if not found: raise Fault(f"there is no dnsreplay: build it by `rt run` in {runs.CRATE}, or name one")
    path = shutil.which(found)
    if not path: raise Fault(f"{found} is no program: build one by `rt run` in {runs.CRATE}")
    return os.path.abspath(path)

def look(args):
    """All that can be missing, before anything is started."""
    os.environ["PATH"] += ":/usr/sbin:/sbin"  # where Debian has daemons
    missing = [each for each in PROGRAMS if not shutil.which(each)]
    missing += ["matplotlib"] * (importlib.util.find_spec("matplotlib") is None)
    if missing: raise Fault(f"{', '.join(missing)} is missing: apt-get install {PACKAGES}")
    if os.geteuid(): raise Fault("the network of its own takes root: sudo tools/dnsreplay-tools demo")
    folder = args.picture.absolute().parent
    check(os.access(folder, os.W_OK), f"{folder} can't be written to: name another place by --picture FILE")

def run(args):
    args.program = program(args.program)
    look(args)
    apart.go(apart.NETWORK)
    folder = Path(tempfile.mkdtemp(prefix="demo"))
    try:
        floods = show(args, folder)
    finally:
        shutil.rmtree(folder, ignore_errors=True)
    picture.draw(args.picture, args.rate, floods)
    print(f"\n{table.summary(floods)}\n{args.picture} has both floods in one plot")

def show(args, folder):
    """Both floods; of each its title and its seconds."""
    with Servers(stage.Stage(args, folder), folder / "servers") as servers:
        authority, resolver = stage.start(servers)
        forward = servers.forward(resolver, workers=2)
        floods = []
        for title, port in ((ALONE, resolver), (BEFORE, forward.port)):
            print(f"\n{title}:\n{table.HEAD}", flush=True)
            flood = Flood(port, servers.lab.names(title), args.rate, args.seconds)
            floods.append((title, table.told(flood, authority)))
    return floods
