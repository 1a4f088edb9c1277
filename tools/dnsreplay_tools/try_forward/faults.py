"""What must end nothing: clients that can't be sent to, and a status file that can't be written."""
import os, re, shutil, socket, struct, time
from ..wire import check
from . import resolvers, status
from .clients import ask_all, drawn, missing, none_of, octets_of, rcode_text
from .lab import V4
from .told import LISTENS

WORKERS, CLIENTS = 4, 200
FAULTS = "dnsreplay_faults_total"
UNSENT = 40  # queries from port 0, which are spread over all workers by their addresses
VANISHED = 13  # seconds, in which a status is due
OTHERS, NO_FILE = {"fifo": os.mkfifo, "folder": os.mkdir}, re.compile("it is no file")

def from_port_0(port, payload):
    """A UDP datagram from port 0, without a checksum (RFC 768)."""
    return struct.pack(">4H", 0, port, 8 + len(payload), 0) + payload

def run(lab, tally):
    with lab.servers("faults") as servers:
        resolver = resolvers.unbound(servers)
        forward = servers.forward(resolver, workers=WORKERS)
        with tally.check("clients from port 0: each costs its reply, and is counted") as tell:
            tell(port_0(lab, forward))
        with tally.check("every worker goes on"): goes_on(lab, forward, "port 0")
        with tally.check("the folder of the status file vanishes: a line, and it goes on") as tell:
            tell(vanish(lab, forward))
        with tally.check("the folder is there again: the status file too"):
            forward.status.parent.mkdir()
            forward.later_counts()
        for name, make in OTHERS.items():
            with tally.check(f"a {name} at the path of the status file: it stays, a line, and it goes on") as tell:
                tell(stays(lab, servers, resolver, name, make))

def port_0(lab, forward):
    check(os.geteuid() == 0, "to send from port 0 takes root")
    forward.later_line(LISTENS)
    before, lines = status.total(forward.counts(), FAULTS, call="reply"), len(forward.lines())
    for at, question in enumerate(missing(drawn(lab.args.seed, "port 0"), UNSENT)):
        with socket.socket(socket.AF_INET, socket.SOCK_RAW, socket.IPPROTO_UDP) as raw:
            raw.bind((f"127.0.0.{at + 1}", 0))
            raw.sendto(from_port_0(forward.port, octets_of(question)), (V4, 0))
    more = status.total(forward.later_counts(), FAULTS, call="reply") - before
    check(more == UNSENT, f"{more} faults in place of {UNSENT}")
    return only_line(forward, lines)

def only_line(forward, before):
    """The one line more than there were: of each kind of fault there is one a minute at most."""
    more = forward.lines()[before:]
    check(len(more) == 1, f"{len(more)} lines: {more[:3]}")
    return more[0]

def goes_on(lab, forward, what):
    """Clients of many ports, so of all workers, are answered."""
    asked = missing(drawn(lab.args.seed, what), CLIENTS, "open.")
    came = ask_all(asked, forward.port)
    none_of([each for each in came if not each.reply or rcode_text(each.reply) != "NXDOMAIN"], CLIENTS)
    forward.look()

def vanish(lab, forward):
    lines = len(forward.lines())
    shutil.rmtree(forward.status.parent)
    time.sleep(VANISHED)
    goes_on(lab, forward, "vanished")
    return only_line(forward, lines)

def stays(lab, servers, resolver, name, make):
    """What is there from the start stays alone in its folder."""
    path = servers.folder / name / "status"
    path.parent.mkdir()
    make(path)
    before = path.stat()
    forward = servers.forward(resolver, name=name)
    line = forward.later_line(NO_FILE)
    check(os.path.samestat(before, path.stat()), "it has been replaced")
    there = os.listdir(path.parent)
    check(there == [path.name], f"the folder has {there}")
    goes_on(lab, forward, name)
    return line
