"""What try_forward makes of a status, of samples and of replies, and the datagrams that it sends."""
import contextlib, io, struct, unittest

from dnsreplay_tools import tally, wire
from dnsreplay_tools.asking import Reply
from dnsreplay_tools.try_forward import (
    clients, faults, memory, sockets, spoofed, spread, status, stream_clients, stream_upstreams, upstreams,
)  # fmt: skip

try:
    import dns
except ImportError:
    dns = None

STATUS = """\
# HELP dnsreplay_answered_total Queries answered by the cache.
# TYPE dnsreplay_answered_total counter
dnsreplay_answered_total{by="set",worker="0"} 3
dnsreplay_answered_total{by="set",worker="1"} 4
dnsreplay_answered_total{by="no_data",worker="0"} 5
# HELP dnsreplay_held_records Records that are held.
# TYPE dnsreplay_held_records gauge
dnsreplay_held_records 131072
"""
ANSWERED = "dnsreplay_answered_total"
# what isn't of the format: a line without its end, a number that isn't one, labels, a kind, a sample twice, two places
ODD = (
    STATUS[:-1],
    STATUS + "dnsreplay_version one\n",
    STATUS + 'dnsreplay_version{worker=0} 1\n',
    STATUS + "# TYPE dnsreplay_version number\n",
    STATUS + "dnsreplay_held_records 1\n",
    STATUS + 'dnsreplay_answered_total{by="wildcard",worker="0"} 1\n',
    STATUS + "\n",
)

def reply(rcode=0, flags="QR RD RA AD", records=(), options=()):
    return Reply(rcode, flags, set(records), (0, 1232, 0, options))

HOST, OTHER = ("answer", "a.", 1, "192.0.2.1"), ("answer", "a.", 1, "192.0.2.2")
MARKED = ("EDE 29: synthesized",)
# a reply, the resolver's own, and whether the one is as the other
PAIRS = (
    (reply(records=[HOST]), reply(records=[HOST]), True),
    (reply(records=[HOST]), reply(records=[OTHER]), False),
    (reply(records=[HOST], options=MARKED), reply(records=[OTHER]), True),
    (reply(flags="QR TC RD RA AD"), reply(records=[HOST]), True),
    (reply(3), reply(0), False),
    (reply(3, options=MARKED), reply(0), False),
    (reply(flags="QR RD RA"), reply(), False),
    (reply(), None, False),
    (None, reply(), False),
)
# a connection, as Linux's proc_net_tcp.rst has one, and a socket that listens
SOCKETS = """\
  sl  local_address rem_address   st tx_queue rx_queue tr tm->when retrnsmt   uid  timeout inode
  46: 010310AC:9C4C 030310AC:1770 01 00000150:00000000 01:00000019 00000000  1000        0 54165785 4 cd1e6040 25 4 27 3 -1
   0: 0100007F:0035 00000000:0000 0A 00000000:00000000 00:00000000 00000000     0        0 588 1 00000000e4f0513f 100 0 0 10 0
"""
ASKED = wire.query(wire.name(b"Identity-1", b"spoofed"), wire.A)

class Statuses(unittest.TestCase):
    def test_totals(self):
        counts = status.read(STATUS)
        totals = [status.total(counts, ANSWERED, **labels) for labels in ({}, {"by": "set"}, {"worker": "0"})]
        self.assertEqual(totals, [12, 7, 8])
        self.assertEqual(status.total(counts, "dnsreplay_held_records"), 131_072)

    def test_odd_ones(self):
        for text in ODD:
            with self.subTest(text[-60:]), self.assertRaises(wire.Fault): status.read(text)

class Sockets(unittest.TestCase):
    def test_of_a_table(self):
        every = sockets.read(SOCKETS)
        self.assertEqual(every, [(40_012, 6_000, 1, 336, 54_165_785), (53, 0, sockets.LISTEN, 0, 588)])

class Streams(unittest.TestCase):
    def test_a_message_stands_behind_its_length(self):
        """RFC 1035, section 4.2.2."""
        self.assertEqual(stream_clients.framed(b"abc").hex(), "0003616263")

    @unittest.skipUnless(dns, "it needs python3-dnspython")
    def test_questions_have_their_places_as_ids(self):
        """The query for . NS by RFC 1035, section 4.1, with RD alone."""
        root = "0100" "0001000000000000" "00" "0002" "0001"
        asked = [clients.Question(".", "NS", "plain")] * 2
        self.assertEqual(stream_clients.stream_of(asked).hex(), "0011" "0000" + root + "0011" "0001" + root)

    def test_answers_that_are_cut(self):
        """QR, TC, RD and RA, and no records (RFC 1035, section 4.1.1)."""
        octets = stream_upstreams.cut(ASKED)
        self.assertEqual(octets[:12].hex(), "1234" "8380" "0001000000000000")
        self.assertEqual(octets[12:], upstreams.question_in(ASKED))

    def test_the_longest_answer_is_a_message(self):
        octets = stream_upstreams.longest(ASKED)
        self.assertEqual(struct.unpack_from(">4H", octets), (0x1234, 0x81A0, 1, stream_upstreams.TEXTS))
        self.assertTrue(50_000 < len(octets) < 1 << 16)

    def test_what_streams_answer(self):
        """Each that is right is the answer behind its length, and no other is."""
        whole = stream_clients.framed(spoofed.true(ASKED))
        right = {label for label, kind in stream_upstreams.KINDS.items() if kind.octets(ASKED) == whole}
        self.assertEqual(right, {label for label, kind in stream_upstreams.KINDS.items() if kind.is_right})

class Replies(unittest.TestCase):
    @unittest.skipUnless(dns, "it needs python3-dnspython")
    def test_unlike(self):
        for got, wanted, is_same in PAIRS:
            with self.subTest(f"{got} beside {wanted}"): self.assertEqual(not clients.unlike(got, wanted), is_same)

    def test_questions_are_drawn_by_the_seed(self):
        first, again, other = (list(clients.questions(clients.drawn(seed, "x"), 50)) for seed in (1, 1, 2))
        self.assertEqual(first, again)
        self.assertNotEqual(first, other)

class Datagrams(unittest.TestCase):
    def test_port_0(self):
        """Source and destination port, length, checksum (RFC 768)."""
        self.assertEqual(faults.from_port_0(53, b"abc").hex(), "0000" "0035" "000b" "0000" "616263")

    def test_letters_of_a_question_make_no_other(self):
        self.assertEqual(upstreams.question_in(ASKED), b"\nIdentity-1\7spoofed\0\0\1\0\1")
        self.assertEqual(upstreams.key_of(ASKED), upstreams.key_of(ASKED.replace(b"Id", b"iD")))

    def test_forged_answers_stand_before_the_right_one(self):
        said = spoofed.say(ASKED.replace(b"I", b"i"))
        self.assertEqual([datagram[:2] for _, datagram in said], [b"\x13\x35"] * spoofed.BURST + [b"\x12\x34"])
        self.assertFalse(any(is_elsewhere for is_elsewhere, _ in said))

    def test_answers_that_fill(self):
        """The flags QR, RD, RA, AD and the RCODE, and the counts of records (RFC 1035, section 4.1.1)."""
        heads = [memory.answer(wire.query(wire.name(each, b"stored"), wire.A))[2:12] for each in (b"n1", b"c1")]
        self.assertEqual([each.hex() for each in heads], ["81a0" "0001000200000000", "81a3" "0001000000060000"])

class Spreads(unittest.TestCase):
    def test_the_configuration_is_that_of_the_docs(self):
        """With its addresses in the place of those there, and a policy of dnsdist's own behind that by domain."""
        by_domain, chashed = (spread.configuration(53, [1, 2], policy) for policy in (spread.BY_DOMAIN, spread.CHASHED))
        self.assertIn("{'127.0.0.1:1', '127.0.0.1:2'}", by_domain)
        self.assertNotIn("192.0.2.", by_domain)
        self.assertEqual([text.rstrip().endswith("setServerPolicy(chashed)") for text in (by_domain, chashed)], [False, True])

class Tallies(unittest.TestCase):
    def test_growth(self):
        for octets, wanted in (((10, 90, 100, 101), 1), ((100, 100, 100, 104), 4), ((100,), 0)):
            self.assertAlmostEqual(memory.growth(octets), wanted / 100)

    def test_lines(self):
        made, said = tally.Tally(), io.StringIO()
        with contextlib.redirect_stdout(said):
            with made.check("one") as tell: tell("three")
            with made.check("two"): wire.check(False, "why")
            with made.check("four"): raise OSError("gone")
            self.assertEqual(made.end(), 1)
        wanted = "ok one; three", "FAILED two: why", "FAILED four: OSError: gone", "3 checks, 2 failed"
        self.assertEqual(tuple(said.getvalue().splitlines()), wanted)
