"""Tries `forward` as an operator would, against servers and clients that no one here wrote.

Over a signed root with zones below it (NSEC; NSEC3; NSEC3 with Opt-Out; one unsigned) that knotd serves, everything on
loopback, in a folder of its own, and killed at the end. A line tells of each check whether it is ok or FAILED, and why;
status 1 where one failed. The checks by their groups:

    resolvers   unbound, Knot Resolver, BIND and PowerDNS Recursor behind it, each by a proxy that loses and doubles
    dig         RCODE, AD and answers as of the resolver at both families, by options of dig
    validator   many questions of it, and of a validating unbound in front of it: as of the resolver behind
    getent      the C library's stub resolver, in a network of its own
    told        lines at the start and the status file: what they count
    spoofed     answers from other ports, with other IDs and questions change nothing, and are counted
    silence     a resolver that stops for a while
    private     names that the resolver alone knows, after their neighbours were denied, with --pass
    dnsperf     figures of one worker and of four
    faults      clients from port 0, and a status file whose folder vanishes, or whose path is no file's
    files       few files that may be open at once, while the upstream is silent
    tcp         dig over TCP, several questions over one connection, in any pieces
    large       a denial that is short without its proof; answers that no datagram holds
    narrow      a resolver behind it that gives 512 octets by UDP at most, and takes few connections
    cut_answers an upstream that cuts its answers by UDP, and whose streams are refused, silent, cut or wrong
    odd_clients clients by TCP that are slow, don't read, are too many or break off: UDP is answered meanwhile
    turned_away connections closed for too many questions, or as too many, and replies to none: counted, and told
    dnsperf_tcp figures by TCP, with fewer connections than there is room for, and with more
    dnsdist     dnsdist before one, two and four: what share their caches answer, and what is lost where one dies
    board       the board and the rules of alerts in docs/, before a Prometheus that read a status file
    memory      resident memory over many names, only where it is asked for: it takes long

`getent` and the clients from port 0 take root. It needs Debian's packages: apt-get install knot unbound bind9
bind9-utils bind9-dnsutils knot-resolver pdns-recursor dnsperf iproute2 python3-dnspython; `board` takes prometheus
and prometheus-node-exporter besides, and `dnsdist` dnsdist.
"""
import os, shutil, tempfile
from pathlib import Path
from .. import run as runs
from ..asking import need_dnspython
from . import (
    behind, boards, by_tcp, cut_answers, digs, faults, files, getent, large, load, load_tcp, memory, narrow, odd_clients,
    private, silence, spoofed, spread, told, turned_away,
)  # fmt: skip
from .lab import Lab
from ..tally import Tally

PACKAGES = "knot unbound bind9 bind9-utils bind9-dnsutils knot-resolver pdns-recursor dnsperf iproute2"
PROGRAMS = "knotd", "unbound", "named", "dig", "dnssec-signzone", "kresd", "pdns_recursor", "dnsperf"
OF_THE_SYSTEM = "ip", "unshare", "nsenter", "setpriv", "getent"
CHECKS = {
    "resolvers": behind.resolvers_behind, "dig": digs.run, "validator": behind.in_front, "getent": getent.run,
    "told": told.run, "spoofed": spoofed.run, "silence": silence.run, "private": private.run, "dnsperf": load.run,
    "faults": faults.run, "files": files.run, "tcp": by_tcp.run, "large": large.run, "narrow": narrow.run,
    "cut_answers": cut_answers.run, "odd_clients": odd_clients.run, "turned_away": turned_away.run,
    "dnsperf_tcp": load_tcp.run, "dnsdist": spread.run, "board": boards.run, "memory": memory.run,
}  # fmt: skip
USUAL = [each for each in CHECKS if each != "memory"]

def words(parser):
    runs.takes_program(parser)
    which = {"choices": CHECKS, "default": USUAL, "metavar": "GROUP", "help": "(default: all but memory)"}
    parser.add_argument("--checks", nargs="+", **which)
    runs.takes_numbers(parser, seed=7)
    runs.takes_numbers(parser, 1, questions=10_000, silence=60, seconds=10)
    runs.takes_numbers(parser, 400_000, forwarded=2_000_000, answered=10_000_000)  # three times what fits, at least
    parser.add_argument("--keep", metavar="FOLDER", type=Path, help="a new folder for configurations and logs")

def run(args):
    os.environ["PATH"] += ":/usr/sbin:/sbin"  # where Debian has daemons, for a user without it
    runs.need(PACKAGES, *PROGRAMS, *OF_THE_SYSTEM)
    need_dnspython("python3-dnspython")
    if args.keep: args.keep.mkdir()
    folder = (args.keep or Path(tempfile.mkdtemp(prefix="try_forward"))).resolve()
    try:
        folder.chmod(0o755)
        return try_all(Lab(args, folder))
    finally:
        if not args.keep: shutil.rmtree(folder, ignore_errors=True)

def try_all(lab):
    tally = Tally()
    with lab.servers("base") as base:
        base.knot(lab.authority)
        for name in lab.args.checks:
            with tally.guard(f"{name}, to start with"): CHECKS[name](lab, tally)
    return tally.end()
