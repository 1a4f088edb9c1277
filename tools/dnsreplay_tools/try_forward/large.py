"""Replies that are short without their proofs, and ones that no datagram holds, for which dig asks anew by TCP."""
from ..try_serve import dig
from ..signed_zones import RSA
from ..wire import check
from . import lab as labs, resolvers
from .clients import Question, datagram, none_of, octets_of
from .digs import is_cut, unlike

ZONES = "plain.", RSA
ANSWERS = {"farm": ("MX", labs.EXCHANGES), "many": ("A AAAA", labs.ADDRESSES), "large": ("TXT", labs.TEXTS)}
STUB = "+noedns +noadflag"  # what a stub resolver sends
OPTIONS = STUB, "", "+dnssec", "+bufsize=4096", "+dnssec +bufsize=512", "+tcp", "+dnssec +tcp"
DENIED = "+dnssec +tcp", "+dnssec", "+tcp", ""
SHORT = 100  # octets
TRUNCATED, NAME_ERROR = 0x0200, 3

def run(lab, tally):
    with lab.servers("large") as servers:
        resolver = resolvers.unbound(servers, more=resolvers.LOGGED)
        forward = servers.forward(resolver)
        with tally.check(f"a name that {RSA} denies, without DO: fewer than {SHORT} octets, and not cut") as tell:
            tell(denied_shortly(servers, forward, resolver))
        for at, options in enumerate(DENIED):
            with tally.check(f"one more by dig {options}".rstrip()) as tell:
                tell(denied(servers, forward, resolver, f"no-{at}.{RSA}", options))
        for zone in ZONES:
            for label, (types, count) in ANSWERS.items():
                for rtype in types.split():
                    with tally.check(f"dig {label}.{zone} {rtype}: {count} records") as tell:
                        tell(answered(servers, forward, resolver, f"{label}.{zone} {rtype}", count))

def denied_shortly(servers, forward, resolver):
    """What a stub resolver is told, relayed and then of the cache, for another type; the proof would be cut."""
    check(is_cut(dig(resolver, f"no.{RSA} A +dnssec +bufsize=1232")), "its proof fits 1,232 octets")
    sizes = []
    for rtype, is_asked in (("A", True), ("AAAA", False)):
        before = resolvers.askings(servers)
        octets = datagram(forward.port, octets_of(Question(f"no.{RSA}", rtype, "plain")))
        check(octets is not None, "no reply")
        flags = int.from_bytes(octets[2:4])
        check(flags & 15 == NAME_ERROR and not flags & TRUNCATED, f"flags {flags:04x}")
        check(len(octets) < SHORT, f"{len(octets)} octets")
        asked = resolvers.askings(servers) > before
        check(asked == is_asked, f"{rtype}: the resolver is {'not ' * is_asked}asked")
        sizes.append(str(len(octets)))
    return " and ".join(sizes) + " octets"

def denied(servers, forward, resolver, name, options):
    """A name error with the resolver's own proof, relayed and then of the cache, for another type."""
    for rtype, is_asked in (("A", True), ("MX", False)):
        before = resolvers.askings(servers)
        said = dig(forward.port, f"{name} {rtype} {options} +noignore")
        asked = resolvers.askings(servers) > before
        own = dig(resolver, f"{name} {rtype} {options} +noignore")
        check(said.status == "NXDOMAIN" and not is_cut(said), f"{rtype}: {said.status} {said.flags}")
        check("ad" in said.flags.split(), f"no AD: {said.flags}")
        proofs = [sorted(line.lower() for line in each.records if " NSEC3 " in line) for each in (said, own)]
        is_same = proofs[0] == proofs[1] and bool(proofs[0]) == ("+dnssec" in options)
        check(is_same, f"{rtype}: {proofs[0]} in place of {proofs[1]}")
        check(asked == is_asked, f"{rtype}: the resolver is {'not ' * is_asked}asked")
    return f"{len(proofs[0])} records of a proof, the second from the cache"

def answered(servers, forward, resolver, words, count):
    """All records, with each option and twice: as the resolver's own."""
    cached, faults = 0, []
    for options in [*OPTIONS] * 2:
        before = resolvers.askings(servers)
        said = dig(forward.port, f"{words} {options} +noignore")
        cached += resolvers.askings(servers) == before
        own = dig(resolver, f"{words} {options} +noignore")
        got = sum(each.startswith("AN") and " RRSIG " not in each for each in said.records)
        faults += unlike(f"{words} {options}", said, own)
        if got != count or is_cut(said): faults.append(f"{options}: {got} records, {said.flags}")
    none_of(faults, 2 * len(OPTIONS))
    return f"{cached} of {2 * len(OPTIONS)} from the cache"
