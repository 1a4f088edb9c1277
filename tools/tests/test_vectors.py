"""What the RFCs say of names, type bit maps, hashes and compression; each encoder has to make and read the same."""
import re, unittest
from pathlib import Path
from types import SimpleNamespace
from unittest import mock

from dnsreplay_tools import random_zones, reference_messages as judge, wire

JUDGES = ("reference_model", "reference_messages", "reference_replies", "reference_zones", "reference_audits")
JUDGES += ("random_zones", "random_walks", "random_scenarios", "random_audits")
ENCODERS = (
    SimpleNamespace(
        wire_form=lambda labels: wire.name(*labels),
        canonical=lambda labels: wire.canonical(wire.name(*labels)),
        bit_maps=lambda types: wire.type_bit_maps(*types),
        hash_text=lambda labels: wire.hashed_label(wire.hash_of(wire.name(*labels), SALT, ITERATIONS))[1:],
        nsec3_data=lambda following, types: wire.nsec3_data(following, types, SALT, ITERATIONS, flags=1),
        read_name=wire.read_name,
    ),
    SimpleNamespace(
        wire_form=judge.wire_form,
        canonical=lambda labels: judge.canonical(judge.lowered(labels)),
        bit_maps=random_zones.type_bit_maps,
        hash_text=lambda labels: judge.text_of_hash(judge.hash_of(labels, SALT, ITERATIONS)),
        nsec3_data=lambda following, types: random_zones.nsec3_data(SALT, ITERATIONS, 1, following, types),
        read_name=judge.read_name,
    ),
)
# In canonical order (RFC 4034, section 6.1)
ORDERED = b"example a.example yljkjljk.a.example Z.a.example zABC.a.EXAMPLE z.example \1.z.example *.z.example".split()
ORDERED += [b"\xc8.z.example"]
# The data of `alfa.example.com. NSEC host.example.com. ( A MX RRSIG NSEC TYPE1234 )` (RFC 4034, section 4.3)
NSEC_TYPES = (1, 15, 46, 47, 1234)
NSEC_DATA = bytes.fromhex("04686f7374076578616d706c6503636f6d00" "0006400100000003" "041b" + "00" * 26 + "20")
# With the salt aabbccdd and 12 iterations (RFC 5155, appendix A)
SALT, ITERATIONS = bytes.fromhex("aabbccdd"), 12
HASHES = {
    b"example": b"0p9mhaveqvm6t7vbl5lop2u3t2rp3tom",
    b"a.example": b"35mthgpgcu1qg68fab165klnsnk3dpvl",
    b"ai.example": b"gjeqe526plbf1g8mklp59enfd789njgi",
    b"ns1.example": b"2t7b4g4vsa5smi47k61mv5bv1a22bojr",
    b"ns2.example": b"q04jkcevqvmu85r014c7dkba38o0ji5r",
    b"w.example": b"k8udemvp1j2f7eg6jebps17vp3n8i58h",
    b"*.w.example": b"r53bq7cc2uvmubfu5ocmm6pers9tk9en",
    b"x.w.example": b"b4um86eghhds6nea196smvmlo4ors995",
    b"y.w.example": b"ji6neoaepv8b5o6k4ev33abha8ht9fgc",
    b"x.y.w.example": b"2vptu5timamqttgl4luu9kg21e0aor3s",
    b"xx.example": b"t644ebqk9bibcna874givr6joj62mlhv",
}
# `0p9m..tom.example. NSEC3 1 1 12 aabbccdd ( 2t7b..bojr MX DNSKEY NS SOA NSEC3PARAM RRSIG )` (there, and section 3.2)
NSEC3_TYPES, NSEC3_HEAD, NSEC3_MAPS = (15, 48, 2, 6, 51, 46), "0101000c04aabbccdd14", "000722010000000290"
# Names at their offsets: F.ISI.ARPA, FOO.F.ISI.ARPA, ARPA and the root (RFC 1035, section 4.1.4)
COMPRESSED = (
    (20, b"F.ISI.ARPA", b"\1F\3ISI\4ARPA\0"),
    (40, b"FOO.F.ISI.ARPA", b"\3FOO\xc0\x14"),
    (64, b"ARPA", b"\xc0\x1a"),
    (92, b"", b"\0"),
)

def labels(text): return tuple(text.split(b".")) if text else ()

class Vectors(unittest.TestCase):
    def test_canonical_order(self):
        for each in ENCODERS:
            keys = [tuple(each.canonical(labels(text))) for text in ORDERED]
            self.assertEqual(keys, sorted(set(keys)))

    def test_type_bit_maps(self):
        for each in ENCODERS:
            host = each.wire_form((b"host", b"example", b"com"))
            self.assertEqual(host + each.bit_maps(NSEC_TYPES), NSEC_DATA)
            self.assertEqual(judge.read_types(NSEC_DATA[len(host) :]), set(NSEC_TYPES))

    def test_hashes(self):
        for text, wanted in HASHES.items():
            for each in ENCODERS: self.assertEqual(each.hash_text(labels(text)), wanted)
            digest = judge.hash_of(labels(text), SALT, ITERATIONS)
            self.assertEqual(judge.hash_of_text(wanted.upper()), digest)

    def test_nsec3_data(self):
        following = judge.hash_of_text(HASHES[b"ns1.example"])
        wanted = NSEC3_HEAD + following.hex() + NSEC3_MAPS
        for each in ENCODERS: self.assertEqual(each.nsec3_data(following, NSEC3_TYPES).hex(), wanted)

    def test_compressed_names(self):
        made = random_zones.Message(mock.Mock(random=lambda: 0), True)
        for offset, text, written in COMPRESSED:
            made.octets += bytes(offset - len(made.octets))
            made.name(labels(text))
            self.assertEqual(made.octets[offset:], written)
            for each in ENCODERS:
                read, end = each.read_name(bytes(made.octets), offset)
                self.assertEqual((tuple(read), end), (labels(text), offset + len(written)))
        self.assertEqual(wire.name(b"FOO")[:-1] + wire.pointer(20), COMPRESSED[1][2])

    def test_judges_share_nothing(self):
        for name in JUDGES:
            text = Path(wire.__file__).with_name(f"{name}.py").read_text(encoding="utf-8")
            imported = set(re.findall(r"(?m)^ *(?:from|import) +(\.[\w.]*)", text))
            self.assertLessEqual(imported, {f".{each}" for each in JUDGES})
