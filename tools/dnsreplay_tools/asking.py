"""Queries and replies as dnspython has them, for the tries that compare two servers."""
import contextlib
from collections import namedtuple
from .wire import Fault

SECONDS = 5
SYNTHESIZED = "EDE 29"  # RFC 8914's registry

# the records are without TTLs, each with its section; of EDNS: version, octets that are taken, DO, options
Reply = namedtuple("Reply", "rcode flags records edns")

def need_dnspython(packages):
    try:
        import dns
    except ImportError:
        raise Fault(f"dnspython is missing: apt-get install {packages}") from None

def query(name, rtype, how=""):
    """A query by words: `do`, `ad`, `cd`, `nsid`, and `plain` for one without EDNS."""
    import dns.edns, dns.flags, dns.message
    options = [dns.edns.GenericOption(dns.edns.NSID, b"")] if "nsid" in how else None
    edns = False if "plain" in how else 0
    made = dns.message.make_query(name, rtype, want_dnssec="do" in how, use_edns=edns, payload=1232, options=options)
    made.flags |= dns.flags.AD if "ad" in how else 0
    made.flags |= dns.flags.CD if "cd" in how else 0
    return made

def read(message):
    """RCODE, flags, the records of a reply with their sections, and what its OPT record has."""
    import dns.flags
    sections = ("answer", message.answer), ("authority", message.authority), ("additional", message.additional)
    sets = [(part, each) for part, section in sections for each in section]
    records = {(part, str(each.name).lower(), each.rdtype, str(data)) for part, each in sets for data in each}
    edns = message.edns, message.payload, message.ednsflags & dns.flags.DO, tuple(map(str, message.options))
    return Reply(message.rcode(), dns.flags.to_text(message.flags), records, edns)

def said(asked, port, seconds=SECONDS):
    """What a server on loopback says."""
    import dns.query
    return read(dns.query.udp(asked, "127.0.0.1", timeout=seconds, port=port))

def is_up(port):
    """Whether a validating resolver answers for the root."""
    import dns.exception, dns.flags
    with contextlib.suppress(OSError, dns.exception.DNSException):
        return "AD" in said(query(".", "SOA", "do"), port, 1).flags
    return False

def told(reply): return f"RCODE {reply.rcode}, {reply.flags}, {sorted(reply.records)}, EDNS {reply.edns}"
