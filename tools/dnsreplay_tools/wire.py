"""Names, records, messages and frames as octets: the one encoder of all commands but `differential`.

A name is its wire form, which may end in a pointer where it is written, and a record is its octets.
"""
import base64, functools, hashlib, struct
from collections import namedtuple

HEAD = struct.Struct(">BBIH")  # of a frame: kind, worker, moment or version, length of what follows
QUERY, UPSTREAM = 1, 2
REPLY, FORWARD, STORED, REFUSED, DROPPED, ERROR = 1, 2, 3, 4, 5, 6
INPUT_KINDS = {QUERY: "query", UPSTREAM: "upstream answer"}
OUTPUT_KINDS = dict(enumerate(("reply", "forward", "stored", "refused", "dropped", "error"), 1))
IN, A, NS, SOA, NULL, MINFO, MX, OPT, ANY = 1, 1, 2, 6, 10, 14, 15, 41, 255
RRSIG, NSEC, DNSKEY, NSEC3, NSEC3PARAM = 46, 47, 48, 50, 51
INCEPTION, EXPIRATION = 900_000_000, 2_000_000_000  # of signatures
ROOT, TO_QUESTION = b"\0", b"\xc0\x0c"  # the latter points to the question's name
WANTS_SIGNATURES = struct.pack(">BHHIH", 0, OPT, 1_232, 0x8000, 0)  # an OPT record with DO

class Fault(Exception): """What went wrong, in words."""
class Unreadable(Fault): """What can't be read, in words."""

def check(holds, what):
    if not holds: raise Fault(what)

Frame = namedtuple("Frame", "kind worker number body")  # the number is a moment or a version

def name(*labels):
    """Each label after its length, and the root's zero octet (RFC 1035, section 3.1)."""
    return b"".join(bytes([len(label)]) + label for label in labels) + ROOT

def pointer(offset):
    """RFC 1035, section 4.1.4."""
    return struct.pack(">H", 0xC000 | offset)

def read_name(octets, at=0):
    """The labels of the name at an offset, behind pointers too, and the offset behind its first run."""
    labels, end = [], None
    while octets[at]:
        if octets[at] >= 0xC0:
            end = at + 2 if end is None else end
            at = struct.unpack_from(">H", octets, at)[0] & 0x3FFF
        else:
            labels.append(octets[at + 1 : at + 1 + octets[at]])
            at += 1 + octets[at]
    return labels, at + 1 if end is None else end

def canonical(octets):
    """A key by which names stand in canonical order: small letters, labels from the right (RFC 4034, section 6.1)."""
    return [label.lower() for label in reversed(read_name(octets)[0])]

def hash_of(octets, salt=b"", iterations=0):
    """The hash of a name in small letters (RFC 5155, section 5)."""
    for _ in range(iterations + 1): octets = hashlib.sha1(octets + salt).digest()
    return octets

def hashed_label(digest):
    """The first label of a hashed owner name: base32hex after its length (RFC 5155, section 3)."""
    return b"\x20" + base64.b32hexencode(digest).lower()

def record(owner, rtype, data=b"", ttl=3_600):
    return owner + struct.pack(">HHIH", rtype, IN, ttl, len(data)) + data

def signature(owner, rtype, labels, zone, ttl=3_600, tag=1, octets=b"ZZZZ"):
    """An RRSIG record, whose signer isn't compressed (RFC 4034, section 3.1.7)."""
    head = struct.pack(">HBBIIIH", rtype, 13, labels, ttl, EXPIRATION, INCEPTION, tag)
    return record(owner, RRSIG, head + zone + octets, ttl)

def signed(owner, rtype, data, labels, zone, ttl=3_600, octets=b"ZZZZ"):
    """A record and its RRSIG record."""
    return [record(owner, rtype, data, ttl), signature(owner, rtype, labels, zone, ttl, octets=octets)]

@functools.lru_cache(maxsize=None)
def type_bit_maps(*types):
    """RFC 4034, section 4.1.2."""
    windows = {rtype >> 8: bytearray(32) for rtype in sorted(types)}
    for rtype in types: windows[rtype >> 8][(rtype & 255) // 8] |= 0x80 >> rtype % 8
    blocks = ((window, bits.rstrip(b"\0")) for window, bits in windows.items())
    return b"".join(bytes([window, len(bits)]) + bits for window, bits in blocks)

def nsec3_data(following, types, salt=b"", iterations=0, flags=0):
    """RFC 5155, section 3.2, with SHA-1."""
    head = struct.pack(">BBHB", 1, flags, iterations, len(salt))
    return head + salt + bytes([len(following)]) + following + type_bit_maps(*types)

def question(octets, rtype): return octets + struct.pack(">HH", rtype, IN)

def message(flags, asked, answers=(), authority=(), additional=(), identity=0):
    """A message of one question."""
    sections = answers, authority, additional
    return struct.pack(">6H", identity, flags, 1, *map(len, sections)) + asked + b"".join(map(b"".join, sections))

def query(octets, rtype, additional=(WANTS_SIGNATURES,)):
    return message(0x0100, question(octets, rtype), additional=additional, identity=0x1234)

def frame(kind, moment, body, worker=0):
    check(len(body) <= 0xFFFF, f"a message of {len(body)} octets is too long for a frame")
    return HEAD.pack(kind, worker, moment, len(body)) + body

def audit_source(apex, records, recorded_input, recorded_output):
    """What an audit reads: a zone's records by owner name, type and data, and the frames of a run."""
    parts = [counted(">H", apex), struct.pack(">I", len(records))]
    for owner, rtype, data in records: parts += [counted(">H", owner), struct.pack(">H", rtype), counted(">H", data)]
    return b"".join([*parts, counted(">I", recorded_input), counted(">I", recorded_output)])

def counted(form, octets): return struct.pack(form, len(octets)) + octets

def frames(octets, of=""):
    """The frames in turn."""
    at = number = 0
    while at < len(octets):
        number += 1
        start = at + HEAD.size
        kind, worker, count, size = HEAD.unpack_from(octets, at) if start <= len(octets) else (0, 0, 0, 0)
        is_cut = start + size > len(octets)
        if is_cut: raise Unreadable(f"{of}frame {number} at offset {at} ends early, at {len(octets)}")
        yield Frame(kind, worker, count, octets[start : start + size])
        at = start + size
