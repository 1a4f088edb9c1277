"""What an upstream answer says, as far as a report needs it: sets with their lives, signatures, the zone, Opt-Out.

Names are wire forms in small letters. Answers are read once the program has read them, so they are well formed; of a
query that isn't, nothing is told.
"""
import struct
from collections import namedtuple
from ..wire import IN, NS, NSEC, NSEC3, OPT, RRSIG, SOA

CNAME, DNAME = 5, 39
LIFE_OF_DENIALS, LIFE_OF_SETS = 10_800, 86_400  # docs/rules/intake.md, "How long it may be used"
AROUND = 1 << 32
FIELDS = struct.Struct(">HHIH")  # behind a record's name: type, class, TTL, length

# `answers` counts the records of the answer section; `zone` is None where nothing tells it
Answer = namedtuple("Answer", "rcode answers sets zone has_signatures has_opt_out")
# its owner name, type, zone and chain; its life in seconds; whether it is a denial record, and in the answer section
Set = namedtuple("Set", "key life is_denial is_answer")
Record = namedtuple("Record", "owner rtype rclass ttl start end section")

def name_at(octets, at):
    """The wire form of the name at an offset in small letters, and the offset behind it.

    A pointer goes to before its own run of labels (RFC 1035, section 4.1.4), so there is an end."""
    parts, end, run = [], None, at
    while size := octets[at]:
        if size >= 0xC0:
            end = at + 2 if end is None else end
            at = (size & 0x3F) << 8 | octets[at + 1]
            if at >= run: raise IndexError("a pointer that doesn't go back")
            run = at
        else:
            parts.append(octets[at : at + 1 + size])
            at += 1 + size
    return b"".join(parts).lower() + b"\0", at + 1 if end is None else end

def labels_of(name):
    """The labels of a wire form."""
    labels, at = [], 0
    while size := name[at]:
        labels.append(name[at + 1 : at + 1 + size])
        at += 1 + size
    return labels

def ancestors(name):
    """The name and all above it, the longest first."""
    at = 0
    while size := name[at]:
        yield name[at:]
        at += 1 + size
    yield b"\0"

def question_of(octets):
    """Name, type and class of the question, or None where there is none to be read."""
    try:
        if octets[4:6] != b"\0\1": return None
        at = 12
        while octets[at]:
            if octets[at] >= 0x40: return None
            at += 1 + octets[at]
        rtype, rclass = struct.unpack_from(">HH", octets, at + 1)
    except (IndexError, struct.error):
        return None
    return octets[12 : at + 1].lower(), rtype, rclass

def text_of(name):
    """A wire form as text (RFC 1035, section 5.1)."""
    return "".join("".join(map(sign, label)) + "." for label in labels_of(name)) or "."

def sign(octet):
    if octet in b'."\\;()@$': return "\\" + chr(octet)
    return chr(octet) if 33 <= octet <= 126 else f"\\{octet:03d}"

def options_of(query):
    """The payload and the DO bit that a query's OPT record tells; None without one."""
    try:
        each = next((each for each in records_of(query) if each.rtype == OPT), None)
    except (IndexError, struct.error):
        return None
    return each and (each.rclass, bool(each.ttl & 0x8000))

def records_of(octets):
    """The records of all sections, in turn."""
    at, fields = 12, FIELDS.unpack_from
    for _ in range(octets[4] << 8 | octets[5]): at = name_at(octets, at)[1] + 4
    for section in (0, 1, 2):
        for _ in range(octets[6 + 2 * section] << 8 | octets[7 + 2 * section]):
            owner, at = name_at(octets, at)
            rtype, rclass, ttl, size = fields(octets, at)
            at += 10 + size
            yield Record(owner, rtype, rclass, ttl, at - size, at, section)

def read(octets, now):
    """The answer in a message that the program has read."""
    records = list(records_of(octets))
    spoken = [each for each in records if each.section < 2]
    groups, signatures = {}, {}
    for each in spoken:
        if each.rtype != RRSIG: groups.setdefault((each.owner, each.rclass, each.rtype), []).append(each)
        else: add_signature(octets, now, each, signatures)
    sets = [set_of(octets, *key, some, signatures.get((key[0], key[2]))) for key, some in groups.items()]
    opt_out = any(each.rtype == NSEC3 and octets[each.start : each.end][1:2] > b"\0" for each in spoken)
    return Answer(
        octets[3] & 15, octets[6] << 8 | octets[7], [each for each in sets if each], zone_of(octets, spoken),
        any(each.rtype == RRSIG for each in spoken), opt_out,
    )  # fmt: skip

def add_signature(octets, now, record, signatures):
    """A usable one: its label count, how long it lets a set live, and its signer (docs/rules/intake.md, "Groups")."""
    covered, labels, original, expiration = struct.unpack_from(">HxBII", octets, record.start)
    left = (expiration - now) % AROUND
    if record.rclass == IN and 0 < left < AROUND // 2:
        signer = name_at(octets, record.start + 18)[0]
        signatures.setdefault((record.owner, covered), []).append((labels, min(original, left), signer))

def zone_of(octets, records):
    """The owner of the SOA, else who signed, else the owner of the NS set of the authority section."""
    signer = servers = None
    for each in records:
        if each.section == 1 and each.rtype == SOA: return each.owner
        if each.section == 1 and each.rtype == NS: servers = each.owner
        if each.rtype == RRSIG and signer is None: signer = name_at(octets, each.start + 18)[0]
    return signer or servers

def set_of(octets, owner, rclass, rtype, records, signatures):
    """A signed set, under the name that it is stored by; None without a usable signature."""
    if rclass != IN or not signatures: return None
    labels, _, zone = signatures[0]
    own = labels_of(owner)
    if labels < len(own) - (own[:1] == [b"*"]):
        owner = b"\1*" + b"".join(bytes([len(each)]) + each for each in own[len(own) - labels :]) + b"\0"
    is_denial = rtype in (NSEC, NSEC3)
    data = octets[records[0].start : records[0].end]
    chain = data[2 : 5 + data[4]] if rtype == NSEC3 and len(data) > 4 else b""
    lives = [0 if each.ttl >= 1 << 31 else each.ttl for each in records] + [least for _, least, _ in signatures]
    life = min(*lives, LIFE_OF_DENIALS if is_denial else LIFE_OF_SETS)
    return Set((owner, rtype, zone, chain), life, is_denial, records[0].section == 0)
