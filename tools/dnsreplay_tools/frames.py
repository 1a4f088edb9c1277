"""Makes input frames of dnsreplay, and shows its input and output frames as text.

docs/FRAMES.md has the format. `query` and messages as text need Debian's python3-dnspython.
"""
import collections, struct, sys
from pathlib import Path
from .captures.files import Capture
from .captures.messages import messages
from .run import number
from .wire import ERROR, INPUT_KINDS, OUTPUT_KINDS, QUERY, REFUSED, REPLY, STORED, UPSTREAM, Fault, frame
from .wire import frames as frames_of

try:
    import dns.message
except ImportError:
    dns = None

REFUSALS = {1: "malformed", 2: "not a response", 3: "truncated", 4: "not authentic", 5: "nothing to store", 7: "RCODE"}

DNS_PORT = 53

COLUMNS = (24, 32, 40, 48)  # where dig begins the TTL, the class, the type and the data of a record
FLAGS = ("QR", "AA", "TC", "RD", "RA", "AD", "CD")
SECTIONS = ("QUESTION", "ANSWER", "AUTHORITY", "ADDITIONAL")

def tell(text):
    sys.stdout.flush()
    print(f"frames: {text}", file=sys.stderr)

def query(args):
    if dns is None: raise Fault("query needs python3-dnspython")
    edns = {"use_edns": False}
    if args.dnssec or args.size is not None:
        edns = {"use_edns": 0, "payload": 1232 if args.size is None else args.size, "want_dnssec": args.dnssec}
    try:
        message = dns.message.make_query(args.name, dns.rdatatype.from_text(args.type), **edns)
        message.id = args.id
        octets = message.to_wire()
    except (dns.exception.DNSException, ValueError) as why:
        raise Fault(f"{args.name} {args.type}: {why}") from why
    sys.stdout.buffer.write(frame(QUERY, args.at, octets, args.worker))

def hex_lines(args):
    kind = UPSTREAM if args.kind == "upstream" else QUERY
    for at, line in enumerate(sys.stdin.buffer, 1):
        digits = b"".join(line.split(b"#")[0].split())
        try:
            message = bytes.fromhex(digits.decode("latin-1"))
        except ValueError as why:
            raise Fault(f"line {at}: not pairs of hex digits") from why
        sys.stdout.buffer.write(frame(kind, args.at, message, args.worker) if message else b"")

def pcap(args):
    passed, capture = collections.Counter(), Capture(args.file)
    for message in messages(capture.packets(), passed, {args.port}):
        kind = UPSTREAM if message.octets[2] & 0x80 else QUERY
        sys.stdout.buffer.write(frame(kind, int(message.time), message.octets, args.worker))
    for why, count in sorted(passed.items()): tell(f"packets passed over: {count} ({why})")
    if capture.broken: tell(capture.broken)

def show(args):
    octets = sys.stdin.buffer.read()
    if dns is None and octets: tell("python3-dnspython would show messages as text")
    for at, each in enumerate(frames_of(octets), 1): show_frame(at, each, args.input)

def show_frame(at, each, is_input):
    kind, worker, count, body = each
    kinds, word = (INPUT_KINDS, "at") if is_input else (OUTPUT_KINDS, "version")
    print(f"{at} {kinds.get(kind, f'unknown kind {kind}')}, worker {worker}, {word} {count}, length {len(body)}")
    if kind in ((QUERY, UPSTREAM) if is_input else (REPLY, ERROR)): show_message(body)
    else: show_numbers(None if is_input else kind, body)
    print()

def show_message(octets):
    if dns is None: return show_octets(octets)
    try:
        print("\n".join(dig_lines(octets)))
    except Exception as why:  # dnspython raises more than its own exceptions for octets that are no message
        print(f"  can't be read: {str(why) or type(why).__name__}")
        show_octets(octets)

def dig_lines(octets):
    """The message as dig prints it."""
    ident, flags, *counts = struct.unpack_from(">6H", octets)
    message = dns.message.from_wire(octets, ignore_trailing=True, one_rr_per_rrset=True)
    opcode, rcode = dns.opcode.to_text(message.opcode()), dns.rcode.to_text(message.rcode())
    names = " ".join(flag.lower() for flag in FLAGS if flags & dns.flags.Flag[flag])
    kinds = ", ".join(f"{kind}: {count}" for kind, count in zip(("QUERY", *SECTIONS[1:]), counts))
    yield f";; ->>HEADER<<- opcode: {opcode}, status: {rcode}, id: {ident}"
    yield f";; flags: {names}; {kinds}"
    if message.edns >= 0:
        wants = " do" if message.ednsflags & dns.flags.DO else ""
        edns = f"; EDNS: version: {message.edns}, flags:{wants}; udp: {message.payload}"
        yield from ("", ";; OPT PSEUDOSECTION:", edns)
        yield from (f"; OPT={int(option.otype)}: {option.to_wire().hex(' ')}" for option in message.options)
    for title, sets in zip(SECTIONS, message.sections):
        is_question = title == "QUESTION"
        if sets:
            if not is_question or message.edns < 0:  # the question follows the OPT record at once
                yield ""
            yield f";; {title} SECTION:"
            yield from (dig_record(rrset, is_question) for rrset in sets)
    yield from ("", f";; MSG SIZE  rcvd: {len(octets)}")

def dig_record(rrset, asked):
    """A question, or a record, in columns."""
    kind = (dns.rdataclass.to_text(rrset.rdclass), dns.rdatatype.to_text(rrset.rdtype))
    if asked: return ";" + in_columns(rrset.name.to_text(), zip(COLUMNS[1:], kind))
    data = rrset[0].to_text(chunksize=56)
    if rrset.rdtype == dns.rdatatype.NSEC3:  # salt and next hash in capitals
        parts = data.split(" ")
        data = " ".join([*parts[:3], parts[3].upper(), parts[4].upper(), *parts[5:]])
    return in_columns(rrset.name.to_text(), zip(COLUMNS, (str(rrset.ttl), *kind, data)))

def in_columns(text, fields):
    """The text and then each field at its column, behind tabs and blanks."""
    at = len(text)
    for column, field in fields:
        to = max(column, at + 1)
        tabs = to // 8 - at // 8
        text += "\t" * tabs + " " * (to - to // 8 * 8 if tabs else to - at) + field
        at = to + len(field)
    return text

def show_numbers(kind, body):
    if kind == STORED and len(body) == 4:
        print("  {} records stored, {} groups skipped".format(*struct.unpack(">HH", body)))
        body = b""
    elif kind == REFUSED and body:
        print(f"  code {body[0]}: {REFUSALS.get(body[0], 'unknown')}")
        body = body[1:]
    show_octets(body)

def show_octets(octets):
    for at in range(0, len(octets), 16): print("  " + octets[at : at + 16].hex(" ", -2))

def words(parser):
    commands = parser.add_subparsers(required=True, metavar="COMMAND")

    def command(function, name, text, has_moment=False):
        made = commands.add_parser(name, help=text, description=text)
        made.set_defaults(run=function)
        moment = {"type": number(0, 0xFFFF_FFFF), "default": 0, "metavar": "SECONDS", "help": "since 1970 (default: 0)"}
        if function is not show: made.add_argument("--worker", type=number(0, 0xFF), default=0, metavar="N")
        if has_moment: made.add_argument("--at", **moment)
        return made

    asked = command(query, "query", "writes the frame of a query", has_moment=True)
    asked.add_argument("name", metavar="NAME")
    asked.add_argument("type", metavar="TYPE")
    asked.add_argument("--dnssec", action="store_true", help="with an OPT record and DO")
    asked.add_argument("--size", type=number(0, 0xFFFF), metavar="N", help="the payload size, in an OPT record")
    asked.add_argument("--id", type=number(0, 0xFFFF), default=0, metavar="N", help="(default: 0)")
    lines = command(hex_lines, "hex", "reads messages in hex, one a line, and writes their frames", has_moment=True)
    lines.add_argument("kind", choices=("query", "upstream"))
    file = command(pcap, "pcap", "writes the frames of a capture's DNS messages")
    file.add_argument("file", metavar="FILE", type=Path)
    file.add_argument("--port", type=number(0, 0xFFFF), default=DNS_PORT, metavar="N", help="(default: 53)")
    sides = command(show, "show", "reads frames, and prints them as text").add_mutually_exclusive_group()
    sides.add_argument("--input", action="store_true", help="frames that dnsreplay reads")
    sides.add_argument("--output", action="store_true", help="frames that it writes (default)")
