"""Audits by the reference model: of runs of a few frames, and with one thing changed; what an audit reads; words."""
import contextlib, importlib.util, io, tempfile, unittest
from pathlib import Path
from types import SimpleNamespace
from unittest import mock

from dnsreplay_tools import audit_explain, reference_messages, wire
from dnsreplay_tools.audit_input import run_octets, zone_records
from dnsreplay_tools.reference_audits import audit
from dnsreplay_tools.wire import audit_source as source

NOW, MX, TXT, CNAME, DNAME, DS = 1_000_000_000, 15, 16, 5, 39, 43
APEX, FIRST, LAST = wire.name(b"example"), wire.name(b"a", b"example"), wire.name(b"b", b"example")
SERIAL = bytes([0, 0, 0, 1])
SOA_DATA = bytes(2) + SERIAL + bytes.fromhex("00000e10 00000258 00015180 0000012c")
ADDRESS, ANOTHER = bytes([192, 0, 2, 1]), bytes([192, 0, 2, 2])
ZONE = ((APEX, wire.SOA, SOA_DATA), (FIRST, wire.A, ADDRESS), (LAST, wire.A, ANOTHER))
SIGNED_SOA = wire.signed(APEX, wire.SOA, SOA_DATA, 1, APEX)

def upstream(*records, worker=0):
    answer = wire.message(0x81A0, wire.question(APEX, wire.SOA), authority=records)
    return wire.frame(wire.UPSTREAM, NOW, answer, worker)

def query(owner, rtype, worker=0):
    return wire.frame(wire.QUERY, NOW + 10, wire.message(0x0100, wire.question(owner, rtype)), worker)

def stored(count, version=1, worker=0): return wire.frame(wire.STORED, version, bytes([0, count, 0, 0]), worker)
def forward(version, worker=0): return wire.frame(wire.FORWARD, version, b"", worker)

def no_data(owner, rtype, version=1, ttl=300):
    """With the SOA's MINIMUM as its TTL (RFC 2308, section 5)."""
    authority = [wire.record(APEX, wire.SOA, SOA_DATA, ttl)]
    return wire.frame(wire.REPLY, version, wire.message(0x8180, wire.question(owner, rtype), authority=authority))

def denied(version=1, ttl=300):
    """An answer that brings the SOA and the NSEC from a to b, a question for a type that a hasn't, and both outputs."""
    nsec = wire.signed(FIRST, wire.NSEC, LAST + wire.type_bit_maps(wire.A, wire.RRSIG, wire.NSEC), 2, APEX)
    return upstream(*SIGNED_SOA, *nsec) + query(FIRST, TXT), stored(2) + no_data(FIRST, TXT, version, ttl)

def answered():
    """An answer that brings an address of a, the question for it, and both outputs; ten seconds of the TTL are over."""
    reply = wire.message(0x8180, wire.question(FIRST, wire.A), [wire.record(FIRST, wire.A, ADDRESS, 3_590)])
    inputs = upstream(*wire.signed(FIRST, wire.A, ADDRESS, 2, APEX)) + query(FIRST, wire.A)
    return inputs, stored(1) + wire.frame(wire.REPLY, 1, reply)

# Of the zone of RFC 5155, appendix A: hashed owner names, of a salt and 12 iterations
SALT, ITERATIONS = bytes.fromhex("aabbccdd"), 12
NS1, BELOW_W = wire.name(b"ns1", b"example"), wire.name(b"y", b"w", b"example")
NS1_HASH, NS1_NEXT = b"2t7b4g4vsa5smi47k61mv5bv1a22bojr", b"2vptu5timamqttgl4luu9kg21e0aor3s"
BELOW_W_HASH, BELOW_W_NEXT = b"ji6neoaepv8b5o6k4ev33abha8ht9fgc", b"k8udemvp1j2f7eg6jebps17vp3n8i58h"
HASHED_ZONE = tuple((owner, rtype, ADDRESS) for owner, rtype in (
    (NS1, wire.A), (wire.name(b"x", b"y", b"w", b"example"), MX), (wire.name(b"x", b"w", b"example"), MX),
    (wire.name(b"*", b"w", b"example"), MX), (wire.name(b"c", b"example"), wire.NS),
))  # fmt: skip

def hashed(text, following, *types, flags=0):
    following = reference_messages.hash_of_text(following)
    data = wire.nsec3_data(following, types, SALT, ITERATIONS, flags)
    return wire.signed(wire.name(text, b"example"), wire.NSEC3, data, 2, APEX)

def hashed_run(flags=0, asked=(NS1, BELOW_W)):
    """No data of two names: one has another type (appendix B.2), and one is an empty non-terminal (B.2.1)."""
    sets = hashed(NS1_HASH, NS1_NEXT, wire.A, wire.RRSIG, flags=flags)
    sets += hashed(BELOW_W_HASH, BELOW_W_NEXT, flags=flags)
    inputs = upstream(*SIGNED_SOA, *sets) + b"".join(query(each, TXT) for each in asked)
    return inputs, stored(3) + b"".join(no_data(each, TXT) for each in asked)

def inside(start, end):
    """A name whose hash is between the two."""
    start, end = map(reference_messages.hash_of_text, (start, end))
    labels = ((b"%d" % number, b"example") for number in range(1_000_000))
    return next(wire.name(*each) for each in labels if start < reference_messages.hash_of(each, SALT, ITERATIONS) < end)

class Lines(unittest.TestCase):
    def expect(self, wanted, run, *more, zone=ZONE):
        self.assertEqual(audit(source(APEX, [*zone, *more], *run)), wanted)

    def test_denial(self):
        self.expect("yes 1", denied())
        self.expect("no record 1 1", denied(), (wire.name(b"aa", b"example"), wire.A, bytes(4)))  # between a and b
        self.expect("no record 1 1", denied(), (FIRST, wire.NS, APEX))  # a type more, and a cut
        self.expect("no record 1 1", denied(), zone=ZONE[:2])  # no next name
        self.expect("no record 1 0", denied(), zone=((APEX, wire.SOA, SOA_DATA[:-1] + b"\0"), *ZONE[1:]))
        self.expect("yes 1", denied(), ZONE[1], (wire.name(b"c", b"example"), TXT, b"\0"))
        above = wire.name(b"aa", b"example")  # what is below a cut is another zone's (RFC 1034, section 4.2.1)
        glue = wire.name(b"aa", b"c", b"example"), wire.name(b"c", b"example")
        self.expect("yes 1", denied(), (glue[0], wire.A, ADDRESS), (glue[1], wire.NS, above))

    def test_set(self):
        self.expect("yes 1", answered())
        self.expect("no record 1 0", answered(), (FIRST, wire.A, ANOTHER))
        self.expect("no record 1 0", answered(), zone=(ZONE[0], (FIRST, wire.A, ANOTHER), ZONE[2]))
        self.expect("no record 1 0", answered(), (FIRST, wire.NS, LAST))  # a cut has no address of its own
        self.expect("no record 1 0", answered(), (APEX, DNAME, wire.name(b"test")))  # nothing is below a DNAME
        self.expect("yes 1", answered(), (FIRST, TXT, b"\0"), (LAST, wire.NS, FIRST))

    def test_hashes(self):
        more = (APEX, wire.SOA, SOA_DATA)
        self.expect("yes 2", hashed_run(), more, zone=HASHED_ZONE)
        self.expect("no record 1 1", hashed_run(), more, (NS1, MX, b"\0"), zone=HASHED_ZONE)
        self.expect("no record 1 1", hashed_run(), more, zone=HASHED_ZONE[1:])  # no name has the hash
        self.expect("no record 2 1", hashed_run(), more, zone=(HASHED_ZONE[0], *HASHED_ZONE[2:]))
        self.expect("no record 2 1", hashed_run(), more, (BELOW_W, MX, b"\0"), zone=HASHED_ZONE)
        between = inside(BELOW_W_HASH, BELOW_W_NEXT), wire.NS, APEX
        self.expect("no record 2 1", hashed_run(), more, between, zone=HASHED_ZONE)
        self.expect("yes 2", hashed_run(flags=1), more, between, zone=HASHED_ZONE)  # an Opt-Out span says nothing of it

    def test_clash(self):
        """Where another name had the hash of ns1.example, its record would be taken for the other's."""
        other, proper = wire.name(b"other", b"example"), reference_messages.hash_of

        def clashing(name, *more): return proper((b"ns1",) + name[1:] if name[:1] == (b"other",) else name, *more)

        with mock.patch("dnsreplay_tools.reference_model.hash_of", clashing):
            with mock.patch("dnsreplay_tools.reference_audits.hash_of", clashing):
                run = hashed_run(asked=(NS1, other))
                self.expect("no clash 2", run, (APEX, wire.SOA, SOA_DATA), zone=HASHED_ZONE)
                self.expect("no clash 1", run, (APEX, wire.SOA, SOA_DATA), (other, wire.A, ADDRESS), zone=HASHED_ZONE)

class Fits(unittest.TestCase):
    def expect(self, wanted, inputs, outputs): self.assertEqual(audit(source(APEX, ZONE, inputs, outputs)), wanted)

    def test_frames(self):
        """One output frame for each input frame, of its worker, one of 32."""
        inputs, outputs = denied()
        self.expect("yes 0", b"", b"")
        self.expect("no unfit 1", inputs, b"")
        self.expect("no unfit 1", b"", outputs)
        self.expect("no unfit 1", inputs, outputs + forward(1))
        self.expect("no unfit 1", query(FIRST, TXT), forward(0, worker=1))
        for worker, wanted in ((31, "yes 0"), (32, "no unfit 1")):
            self.expect(wanted, query(FIRST, TXT, worker), forward(0, worker))

    def test_versions(self):
        """The versions of stored answers are 1 to their number, each once."""
        inputs = upstream(*SIGNED_SOA) * 2
        self.expect("yes 0", inputs, stored(1) + stored(1, 2))
        for first, second in ((1, 1), (1, 3), (0, 1), (2, 2)):
            self.expect("no unfit 2", inputs, stored(1, first) + stored(1, second))

    def test_outcomes(self):
        """Each output frame is what its input frame gets at its version."""
        inputs, outputs = denied()
        self.expect("no unfit 3", *denied(version=2))  # which no answer made
        self.expect("no unfit 3", *denied(version=0))  # when nothing was held
        self.expect("no unfit 3", *denied(ttl=301))
        self.expect("no unfit 3", inputs, outputs.replace(stored(2), stored(3)))
        self.expect("no unfit 3", inputs, stored(2) + forward(1))
        reply = wire.message(0x8183, wire.question(FIRST, TXT))  # NXDOMAIN in place of no data
        self.expect("no unfit 3", inputs, stored(2) + wire.frame(wire.REPLY, 1, reply))
        self.expect("yes 0", upstream(), wire.frame(wire.REFUSED, 0, b"\5"))
        self.expect("no unfit 3", upstream(), wire.frame(wire.REFUSED, 0, b"\1"))
        self.expect("no unfit 3", upstream(), wire.frame(wire.REFUSED, 1, b"\5"))
        self.expect("no unfit 3", query(FIRST, TXT), wire.frame(wire.DROPPED, 0, b""))

    def test_order(self):
        """A worker's versions don't fall, and rise where it stores; those of several are in no order."""
        one, two = upstream(*SIGNED_SOA), upstream(*SIGNED_SOA, worker=1)
        for worker, wanted in ((0, "no unfit 4"), (1, "yes 0")):
            self.expect(wanted, one + query(FIRST, TXT, worker), stored(1) + forward(0, worker))
            self.expect(wanted, query(FIRST, TXT, worker) + one, forward(1, worker) + stored(1))
        self.expect("yes 0", one + two, stored(1, 2) + stored(1, 1, worker=1))
        self.expect("no unfit 4", one + one, stored(1, 2) + stored(1, 1))

class Sources(unittest.TestCase):
    def expect_none(self, octets): self.assertIsNone(audit(octets))

    def test_frames(self):
        inputs, outputs = denied()
        self.expect_none(source(APEX, ZONE, inputs, outputs[:-1]))
        self.expect_none(source(APEX, ZONE, inputs[:-1], outputs))
        self.expect_none(source(APEX, ZONE, b"\3" + inputs[1:], outputs))
        self.expect_none(source(APEX, ZONE, inputs, b"\7" + outputs[1:]))

    def test_form(self):
        octets = source(APEX, ZONE, *denied())
        self.expect_none(octets + b"\0")
        for end in range(len(octets)): self.expect_none(octets[:end])

    def test_names(self):
        """Under the apex, whole, without pointers, in whatever case."""
        for apex in (b"", APEX[:-1], APEX + b"\0", b"\xc0\0", b"\x40" + bytes(64) + b"\0", b"\1a" * 128 + b"\0"):
            self.expect_none(source(apex, (), b"", b""))
        self.assertEqual(audit(source(b"\1a" * 127 + b"\0", (), b"", b"")), "yes 0")
        for owner, rtype in ((wire.name(b"b"), wire.A), (wire.name(b"xexample"), wire.A), (wire.ROOT, wire.A)):
            self.expect_none(source(APEX, [(owner, rtype, ADDRESS)], b"", b""))
        for rtype in (wire.RRSIG, wire.NSEC, wire.NSEC3):
            self.expect_none(source(APEX, [(FIRST, rtype, APEX)], b"", b""))
        zone = [(owner.upper(), rtype, data) for owner, rtype, data in ZONE]
        self.assertEqual(audit(source(APEX.upper(), zone, *denied())), "yes 1")

MASTER_FILE = """\
@ 3600 IN SOA . . 1 3600 600 86400 300
b 3600 IN A 192.0.2.2
A 3600 IN A 192.0.2.1
a 3600 IN NSEC b A RRSIG NSEC
a 3600 IN RRSIG A 13 2 3600 20330518033320 19980709160000 1 example. WlpaWg==
"""
# What no server loads, or would pass over, and what tells it
BAD_LINES = {
    "a.test. 3600 IN A 192.0.2.1": "a.test.: line:6: it isn't at or below example.",
    "a 3600 IN A 192.0.2": "a.example.",
    "a 3600 CH A 192.0.2.1": "a.example.: line:6: RR class",
    "a 3600 IN CNAME b": "a.example.",
    "c 3600 IN CNAME a\nc 3600 IN CNAME b": "c.example.: line:8: a second CNAME record",
    "@ 3600 IN SOA . . 2 3600 600 86400 300": "example.: line:7: a second SOA record",
    "a" * 64 + " 3600 IN A 192.0.2.1": "line:6: A DNS label is > 63 octets long.",
}

@contextlib.contextmanager
def written(octets):
    with tempfile.NamedTemporaryFile() as file:
        file.write(octets)
        file.flush()
        yield Path(file.name)

@unittest.skipUnless(importlib.util.find_spec("dns"), "needs python3-dnspython")
class Files(unittest.TestCase):
    def zone(self, text, origin="example."):
        with written(text.encode()) as path: return zone_records(path, origin)

    def expect_fault(self, wanted, what, *words):
        with self.assertRaises(wire.Fault) as raised: what(*words)
        self.assertIn(wanted, str(raised.exception))

    def test_zone(self):
        apex, records = self.zone(MASTER_FILE)
        self.assertEqual((apex, [(owner.lower(), *more) for owner, *more in records]), (APEX, list(ZONE)))
        self.assertEqual(self.zone(f"$ORIGIN EXAMPLE.\n@ 60 NS Ns\n{MASTER_FILE}")[1][0][1:], (2, b"\2Ns\7EXAMPLE\0"))

    def test_bad_zones(self):
        for lines, wanted in BAD_LINES.items(): self.expect_fault(wanted, self.zone, f"{MASTER_FILE}{lines}\n")
        self.expect_fault("a..example: A DNS label is empty", self.zone, MASTER_FILE, "a..example")
        self.expect_fault("example. has no SOA record", self.zone, "a 3600 IN A 192.0.2.1\n")
        with mock.patch("dnsreplay_tools.audit_input.MOST_RECORDS", 2):
            self.expect_fault("3 records, and an audit reads 2 at most", self.zone, MASTER_FILE)

    def test_bad_runs(self):
        frames, kinds = denied()[0], wire.INPUT_KINDS
        for octets, most, wanted in (
            (frames[:-1], len(frames), "frame 2 at offset"),
            (frames + b"\3" + frames[1:], 2 * len(frames), "frame 3 has kind 3"),
            (frames, len(frames) - 1, "octets, and an audit reads"),
        ):  # fmt: skip
            with written(octets) as path: self.expect_fault(wanted, run_octets, path, kinds, most)
        with written(frames) as path: self.assertEqual(run_octets(path, kinds, len(frames)), frames)

@unittest.skipUnless(importlib.util.find_spec("dns"), "needs python3-dnspython")
class Words(unittest.TestCase):
    def said(self, line, run, zone=ZONE):
        with written(source(APEX, zone, *run)) as path, contextlib.redirect_stdout(io.StringIO()) as out:
            with mock.patch("sys.stdin", io.StringIO(line + "\n")): audit_explain.run(SimpleNamespace(file=path))
        return out.getvalue()

    def test_words(self):
        self.assertIn("Replies: 1.", self.said("yes 1", denied()))
        said = self.said("no record 1 1", denied(), (*ZONE, (wire.name(b"aa", b"example"), wire.A, ADDRESS)))
        for each in ("between the two: aa.example.", "NSEC\tb.example. A RRSIG NSEC", "192.0.2.1"):
            self.assertIn(each, said)
        said = self.said("no unfit 3", denied(ttl=301))
        for each in ("301\tIN\tSOA", "should be", "300\tIN\tSOA"): self.assertIn(each, said)

    def test_lines_of_others(self):
        for line in ("yes 2", "no unfit 1", "no record 1 0", "no record 0 0", "no record 9 0", "no clash 1"):
            with self.assertRaises(wire.Fault): self.said(line, denied())
        for line in ("", "yes", "no unfit 5", "no record 1", "yes 1\nyes 1"):
            with self.assertRaises(wire.Unreadable): self.said(line, denied())
        with self.assertRaises(wire.Unreadable): self.said("yes 1", (b"\0", b""))
