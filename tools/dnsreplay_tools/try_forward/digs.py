"""`dig` at both families, with each of its options that changes what is asked: as the resolver says."""
from ..try_serve import dig
from ..wire import check
from . import resolvers
from .lab import V4, V6

# With a number for each option, so that what is asked isn't held yet: a host, a missing type, names between two hosts.
NAMES = (
    "n0001{at:02d}.plain A", "n0001{at:02d}.hashed AAAA", "n0001{at:02d}x.plain A", "n0001{at:02d}x.hashed A",
    "n0001{at:02d}x.open A", "a{at:02d}.w.plain TXT", "both.hashed AAAA", "mid.plain TXT", "alias.plain A", ". NS",
    "plain DNSKEY",
)  # fmt: skip
OPTIONS = (
    "", "+dnssec", "+norecurse", "+dnssec +norecurse", "+cdflag", "+dnssec +cdflag", "+bufsize=512",
    "+dnssec +bufsize=512", "+dnssec +bufsize=1232", "+dnssec +bufsize=4096", "+nsid", "+cookie", "+noedns",
    "+noedns +noadflag",
)  # fmt: skip

def run(lab, tally):
    with lab.servers("dig") as servers:
        resolver = resolvers.unbound(servers)
        for address in (V4, V6):
            forward = servers.forward(resolver, name=f"at{address.count(':')}")  # with an empty cache
            for at, options in enumerate(OPTIONS):
                with tally.check(f"dig at {address} {options}".rstrip()) as tell:
                    asked = [f"{name.format(at=at)} {options}" for name in NAMES]
                    every = [each for words in asked for each in compared(forward, resolver, address, words)]
                    faults = [fault for pair in every for fault in unlike(*pair)]
                    check(not faults, " | ".join(faults))
                    cut = sum(is_cut(said) and not is_cut(own) for _, said, own in every)
                    if cut: tell(f"{cut} of {len(every)} replies cut that the resolver's own aren't")

def compared(forward, resolver, address, words):
    """Each question is asked twice of the forwarder, to relay and from the cache, beside what the resolver says."""
    dig(resolver, words.replace("+norecurse", ""))  # so that it has it without recursion too
    first = dig(forward.port, words, address=address)
    own = dig(resolver, words)
    return [(words, said, own) for said in (first, dig(forward.port, words, address=address))]

def is_cut(said): return "tc" in said.flags.split()

def unlike(words, said, own):
    """In what it differs: RCODE, AD, and answers without regard to letters and order, unless they are cut."""
    is_trusted = ["ad" in each.flags.split() for each in (said, own)]
    if (said.status, is_trusted[0]) != (own.status, is_trusted[1]):
        return [f"{words}: {said.status} {said.flags} in place of {own.status} {own.flags}"]
    answers = [sorted(line.lower() for line in each.records if line.startswith("AN")) for each in (said, own)]
    is_same = answers[0] == answers[1] or is_cut(said) or is_cut(own)
    return [] if is_same else [f"{words}: {answers[0]} in place of {answers[1]}"]
