"""Makes what `dnsreplay audit` reads: the records of a zone file, the input frames of a run and its output frames.

The zone file is in master format (RFC 1035, section 5), as it was served while the run was recorded: with the serial of
its SOA, with what its signer adds at the apex, and with the letters in its data, those of ORIGIN too, since an audit
compares data octet by octet. Its RRSIG, NSEC and NSEC3 records are left out. The result goes to standard output. What
an audit wouldn't read, and what isn't of that zone, is told by name, with status 1. It needs Debian's
python3-dnspython.
"""
import sys
from pathlib import Path
from .wire import INPUT_KINDS, NSEC, NSEC3, OUTPUT_KINDS, RRSIG, SOA, Fault, audit_source, canonical, check, frames

try:
    import dns.zone, dns.zonefile
except ImportError:
    dns = None

LEFT_OUT = (RRSIG, NSEC, NSEC3)
MOST_RECORDS, MOST_INPUT, MOST_OCTETS = 65_536, 67_108_864, 268_435_456  # of what an audit reads

def zone_records(path, origin):
    """The zone's name, and its records in canonical order: owner name, type and data, names written out."""
    try:
        apex = dns.name.from_text(origin)
    except dns.exception.DNSException as why:
        raise Fault(f"{origin}: {why}") from why
    zone = read_zone(path, apex)
    check(zone.get_rdataset(apex, SOA), f"{path}: {apex} has no SOA record")
    records = [(name.to_wire(), int(data.rdtype), data.to_wire()) for name, _, data in zone.iterate_rdatas()]
    kept = [each for each in records if each[1] not in LEFT_OUT]
    check(len(kept) <= MOST_RECORDS, f"{path}: {len(kept)} records, and an audit reads {MOST_RECORDS} at most")
    return apex.to_wire(), sorted(kept, key=lambda each: (canonical(each[0]), *each[1:]))

def read_zone(path, apex):
    """The zone of a file; what a server wouldn't load, or would pass over, is refused."""
    zone = dns.zone.Zone(apex, relativize=False)
    with open(path, encoding="utf-8") as file, zone.writer() as writer:
        reader = dns.zonefile.Reader(dns.tokenizer.Tokenizer(file, "line"), dns.rdataclass.IN, writer, True)

        def refuse_outside(): raise dns.exception.SyntaxError(f"it isn't at or below {apex}")

        reader._eat_line = refuse_outside  # what is done with another zone's record
        writer.check_put_rdataset(refuse_second)
        try:
            reader.read()
        except (dns.exception.DNSException, ValueError) as why:
            raise Fault(f"{path}: at {reader.last_name}: {why}") from why
    return zone

def refuse_second(writer, name, records):
    """Of some types a name has one record, in whose place another would be put."""
    held = writer.get(name, records.rdtype, records.covers)
    is_second = dns.rdatatype.is_singleton(records.rdtype) and held and held != records
    if is_second: raise dns.exception.SyntaxError(f"a second {dns.rdatatype.to_text(records.rdtype)} record")

def run_octets(path, kinds, most):
    """The octets of a file of frames of these kinds."""
    octets = path.read_bytes()
    check(len(octets) <= most, f"{path}: {len(octets)} octets, and an audit reads {most} at most")
    for number, each in enumerate(frames(octets, f"{path}: "), 1):
        check(each.kind in kinds, f"{path}: frame {number} has kind {each.kind}")
    return octets

def words(parser):
    parser.add_argument("zone", metavar="ZONE", type=Path, help="a zone file")
    parser.add_argument("origin", metavar="ORIGIN", help="the zone's name")
    parser.add_argument("input", metavar="INPUT", type=Path, help="what the run read")
    parser.add_argument("output", metavar="OUTPUT", type=Path, help="what it wrote")

def run(args):
    if dns is None: raise Fault("it needs python3-dnspython")
    zone = zone_records(args.zone, args.origin)
    recorded = run_octets(args.input, INPUT_KINDS, MOST_INPUT), run_octets(args.output, OUTPUT_KINDS, MOST_OCTETS)
    octets = audit_source(*zone, *recorded)
    check(len(octets) <= MOST_OCTETS, f"{len(octets)} octets in all, and an audit reads {MOST_OCTETS} at most")
    sys.stdout.buffer.write(octets)
