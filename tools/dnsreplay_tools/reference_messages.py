"""Names, queries, messages, type bit maps and hashed owner names, read as the RFCs say: a part of the reference model.

A name is the tuple of its labels, the leftmost first; where names are compared, A to Z are lowered.
"""
import functools, hashlib, struct
from collections import namedtuple

NO_ERROR, FORMAT_ERROR, NAME_ERROR, NOT_IMPLEMENTED, TARGET_TOO_LONG, BAD_VERSION = 0, 1, 3, 4, 6, 16  # RCODEs
OPT = 41
LEAST_PAYLOAD = 512

# Data with names that may end in pointers (RFC 3597, section 4): what stands in it, in order; a number is of octets.
ONE_NAME, TEXT, REST = "name", "text", "rest"
LAYOUTS = {
    **dict.fromkeys((2, 3, 4, 5, 7, 8, 9, 12, 39), (ONE_NAME,)),
    6: (ONE_NAME, ONE_NAME, 20),
    **dict.fromkeys((14, 17), (ONE_NAME, ONE_NAME)),
    **dict.fromkeys((15, 18, 21, 36), (2, ONE_NAME)),
    **dict.fromkeys((24, 46), (18, ONE_NAME, REST)),
    26: (2, ONE_NAME, ONE_NAME),
    **dict.fromkeys((30, 47), (ONE_NAME, REST)),
    33: (6, ONE_NAME),
    35: (4, TEXT, TEXT, TEXT, ONE_NAME),
}
SMALL = bytes(octet + 32 if 65 <= octet <= 90 else octet for octet in range(256))
DIGITS = b"0123456789abcdefghijklmnopqrstuv"  # base32 with the extended hex alphabet (RFC 4648, section 7)

class Malformed(Exception): """The octets aren't what should stand there."""

def check(holds):
    if not holds: raise Malformed

def lowered(labels): return tuple(label.translate(SMALL) for label in labels)

def wire_form(labels):
    """Each label after its length, and the root's zero octet (RFC 1035, section 3.1)."""
    return b"".join(bytes([len(label)]) + label for label in labels) + b"\0"

def is_under(name, other):
    """At or below the other (RFC 1034, section 3.1)."""
    return len(name) >= len(other) and name[len(name) - len(other) :] == other

def is_below(name, other): return len(name) > len(other) and is_under(name, other)

def canonical(name):
    """A key by which names stand in canonical order: labels from the right, octet by octet (RFC 4034, section 6.1)."""
    return name[::-1]

def common_ancestor(name, other):
    """The longest name that both are under."""
    count = 0
    while count < min(len(name), len(other)) and name[-1 - count] == other[-1 - count]: count += 1
    return name[len(name) - count :]

def label_count(owner):
    """Labels as an RRSIG record counts them, without a leading asterisk (RFC 4034, section 3.1.3)."""
    return len(owner) - (owner[:1] == (b"*",))

def read_name(octets, at, pointers=True):
    """The labels that stand at an offset, as they came, and the offset behind them (RFC 1035, sections 3.1 and 4.1.4).

    A run of labels ends in a zero octet or in a pointer, and a pointer goes to before the first octet of its own run.
    The name has 255 octets at most, its zero included (section 2.3.4); it ends behind its first run.
    """
    labels, size, run, end = [], 1, at, None
    while at < len(octets):
        length = octets[at]
        if length == 0: return tuple(labels), at + 1 if end is None else end
        if length >= 192 and pointers:
            if at + 2 > len(octets): break
            end = at + 2 if end is None else end
            to = u16(octets, at) & 0x3FFF
            if to >= run: break
            run = at = to
            continue
        size += 1 + length
        if length >= 64 or size > 255 or at + 1 + length > len(octets): break
        labels.append(octets[at + 1 : at + 1 + length])
        at += 1 + length
    raise Malformed

def u16(octets, at): return octets[at] << 8 | octets[at + 1]
def u32(octets, at): return u16(octets, at) << 16 | u16(octets, at + 2)

Record = namedtuple("Record", "owner rtype rclass ttl data")

class Query:
    """A client's query, as far as it was read; `payload` is None without an OPT record."""
    name, rtype, rclass, asked, payload, wants_signatures = (), 0, 0, b"", None, False

    def __init__(self, identity, flags):
        self.identity, self.opcode = identity, flags >> 11 & 15
        self.recursion_desired, self.authentic_data, self.checking_disabled = flags & 0x100, flags & 0x20, flags & 0x10

def read_record(octets, at, with_data=True):
    """The record at an offset (RFC 1035, section 3.2.1), and the offset behind it; its data where that is wanted."""
    owner, at = read_name(octets, at)
    check(len(octets) >= at + 10)
    rtype, rclass, ttl, size = struct.unpack_from(">HHIH", octets, at)
    at += 10
    check(len(octets) >= at + size)
    data = written_out(octets, at, at + size, rtype) if with_data else b""
    return Record(lowered(owner), rtype, rclass, ttl, data), at + size

def written_out(octets, at, end, rtype):
    """Data with its names without pointers and in their own letters.

    The first run of each name lies inside the data, and what stands in it fills it exactly.
    """
    if rtype not in LAYOUTS: return octets[at:end]
    data = b""
    for part in LAYOUTS[rtype]:
        if part is ONE_NAME:
            labels, behind = read_name(octets, at)
            data += wire_form(labels)
        else:
            check(part is not TEXT or at < end)
            behind = end if part is REST else at + (1 + octets[at] if part is TEXT else part)
            data += octets[at:behind]
        check(behind <= end)
        at = behind
    check(at == end)
    return data

def read_query(octets):
    """What is wrong with a query, as an RCODE, 0 for nothing and None where it gets no reply; and the query.

    Less than a header and responses get no reply. Then, in this order: an opcode that isn't 0 (RFC 1035, section
    4.1.1); what can't be read, by another number of questions than one, by a name with a pointer in the question, by
    records that are cut short, by several OPT records in the additional section or one whose owner isn't the root (RFC
    6891, section 6.1.1); a version of EDNS other than 0 (section 6.1.3). Less than 512 octets of payload count as 512
    (section 6.2.3).
    """
    if len(octets) < 12 or octets[2] & 0x80: return None, None
    query = Query(u16(octets, 0), u16(octets, 2))
    if query.opcode: return NOT_IMPLEMENTED, query
    try:
        options = read_question(query, octets)
    except Malformed:
        return FORMAT_ERROR, query
    if len(options) > 1 or options and options[0].owner: return FORMAT_ERROR, query
    if options:
        query.payload = max(LEAST_PAYLOAD, options[0].rclass)
        query.wants_signatures = bool(options[0].ttl & 0x8000)
        if options[0].ttl >> 16 & 255: return BAD_VERSION, query
    return NO_ERROR, query

def read_question(query, octets):
    """Fills in the question, and gives the OPT records of the additional section."""
    check(u16(octets, 4) == 1)
    labels, at = read_name(octets, 12, pointers=False)
    check(len(octets) >= at + 4)
    query.name, query.rtype, query.rclass = lowered(labels), u16(octets, at), u16(octets, at + 2)
    query.asked = octets[12 : at + 4]
    at += 4
    options = []
    answers, others, additional = (u16(octets, offset) for offset in (6, 8, 10))
    for number in range(answers + others + additional):
        record, at = read_record(octets, at, with_data=False)
        if record.rtype == OPT and number >= answers + others: options.append(record)
    return options

def read_message(octets):
    """The flags, the extended RCODE and the records of the answer and authority section of a message of one question.

    The RCODE has its upper bits in the first OPT record of the root in the additional section (RFC 6891, section
    6.1.3). Octets behind the last record are passed over.
    """
    check(len(octets) >= 12 and u16(octets, 4) == 1)
    _, at = read_name(octets, 12)
    check(len(octets) >= at + 4)
    at += 4
    flags, *counts = (u16(octets, offset) for offset in (2, 6, 8, 10))
    records = []
    while len(records) < sum(counts):
        record, at = read_record(octets, at)
        records.append(record)
    count = counts[0] + counts[1]
    upper = next((record.ttl >> 24 for record in records[count:] if record.rtype == OPT and not record.owner), 0)
    return flags, 16 * upper + (flags & 15), records[:count]

def read_types(octets):
    """The types of type bit maps (RFC 4034, section 4.1.2): windows rise, have 1 to 32 octets, and don't end in 0."""
    at, last, types = 0, -1, set()
    while at < len(octets):
        check(at + 2 <= len(octets))
        window, size = octets[at], octets[at + 1]
        bits = octets[at + 2 : at + 2 + size]
        check(window > last and 1 <= size <= 32 and len(bits) == size and bits[-1])
        types.update(256 * window + bit for bit in range(8 * size) if bits[bit // 8] & 0x80 >> bit % 8)
        at, last = at + 2 + size, window
    return frozenset(types)

@functools.lru_cache(maxsize=1 << 18)
def hash_of(name, salt, iterations):
    """The iterated hash of a name, its salt after each input (RFC 5155, section 5)."""
    digest = hashlib.sha1(wire_form(name) + salt).digest()
    for _ in range(iterations): digest = hashlib.sha1(digest + salt).digest()
    return digest

def text_of_hash(digest):
    number = int.from_bytes(digest, "big")
    return bytes(DIGITS[number >> shift & 31] for shift in range(155, -1, -5))

def hash_of_text(text):
    """The hash that 32 digits of either case spell (RFC 4648, section 7)."""
    places = [DIGITS.find(digit) for digit in text.translate(SMALL)]
    check(len(places) == 32 and min(places) >= 0)
    return sum(place << 5 * at for at, place in enumerate(reversed(places))).to_bytes(20, "big")
