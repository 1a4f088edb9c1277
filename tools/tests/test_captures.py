"""Messages in captures of all kinds, as they were written; names and options of messages that nobody has read yet."""
import collections, random, struct, tempfile, unittest
from pathlib import Path

from dnsreplay_tools import wire
from dnsreplay_tools.captures import merged, messages
from dnsreplay_tools.captures.files import Capture, opened
from dnsreplay_tools.captures.packets import CUT, UNFINISHED
from dnsreplay_tools.captures.streams import MISSING, Streams
from dnsreplay_tools.report import answers, sides
from dnsreplay_tools.report.figures import Series
from dnsreplay_tools.report.held import Held
from dnsreplay_tools.try_report import drawn, written

CLIENT, SERVER = written.end("192.0.2.1", 4_000), written.end("192.0.2.53", 53)
CLIENT_6, SERVER_6 = written.end("2001:db8::1", 4_000), written.end("2001:db8::53", 53)
BIG_END = {"order": ">"}
FORMS = ("pcap", {}), ("pcap", BIG_END), ("pcap", {"nano": True}), ("pcapng", {}), ("pcapng", BIG_END), ("zipped", {})
LINKS = written.ETHERNET, written.COOKED, written.COOKED_2, written.RAW, written.LOOPBACK
QUERY = wire.query(wire.name(b"a", b"Example"), wire.A)

def read(octets):
    """The messages of a capture, what was passed over, and where it breaks off."""
    with tempfile.TemporaryDirectory() as folder:
        path = Path(folder) / "capture"
        path.write_bytes(octets)
        capture, passed = Capture(path), collections.Counter()
        found = list(messages(capture.packets(), passed, {53}))
        capture.close()
        return found, passed, capture.broken

class Captures(unittest.TestCase):
    def test_all_kinds(self):
        for seed, link in enumerate(LINKS):
            rng = random.Random(seed)
            some, file = list(drawn.exchanges(rng, 30)), written.File(link)
            drawn.write(rng, file, some)
            wanted = sorted((int(now), octets) for now, _, octets, _ in drawn.moments(some))
            for form, how in FORMS:
                found, passed, broken = read(getattr(file, form)(**how))
                with self.subTest(f"{form} {how} {link}"):
                    of_servers = [each for each in found if written.end("198.51.100.1", 53) != each.source]
                    self.assertEqual(sorted((int(each.time), each.octets) for each in of_servers), wanted)
                    self.assertFalse(set(passed) - {"another port than 53"})
                    self.assertIsNone(broken)

    def test_several_are_read_in_order_of_time(self):
        files = [written.File(), written.File()]
        for at in range(10): files[at % 2].datagram(at, CLIENT, SERVER, QUERY + bytes([at]))
        with tempfile.TemporaryDirectory() as folder:
            paths = [Path(folder) / name for name in "ab"]
            for path, file, form in zip(paths, files, ("pcap", "zipped")): path.write_bytes(getattr(file, form)())
            captures = opened(paths)
            found = list(merged(captures, collections.Counter(), {53}))
            for each in captures: each.close()
        self.assertEqual([each.octets[-1] for each in found], list(range(10)))

    def test_fragments_of_both_families(self):
        for client, server in ((CLIENT, SERVER), (CLIENT_6, SERVER_6)):
            file = written.File()
            file.datagram(1, client, server, QUERY, most=16)
            whole = file.packets
            self.assertEqual([each.octets for each in read(file.pcap())[0]], [QUERY])
            file.packets = whole[::-1]
            self.assertEqual([each.octets for each in read(file.pcap())[0]], [QUERY])
            file.packets = whole[1:]
            found, passed, _ = read(file.pcap())
            self.assertEqual((found, passed[UNFINISHED]), ([], len(whole) - 1))

    def test_streams(self):
        octets = b"".join(struct.pack(">H", len(each)) + each for each in (QUERY, QUERY + b"x"))
        segments = [written.tcp(CLIENT, SERVER, 0xFFFFFFF0, written.SYN)]
        for at in range(0, len(octets), 5):
            segments.append(written.tcp(CLIENT, SERVER, 0xFFFFFFF1 + at, written.ACK, octets[at : at + 9]))
        rng = random.Random(1)
        for turn in range(20):
            rest = segments[1:] * 2
            if turn: rng.shuffle(rest)
            streams = Streams(collections.Counter())
            found = [each for segment in [segments[0], *rest] for each in streams.add(0, (CLIENT, SERVER), segment)]
            self.assertEqual(found, [QUERY, QUERY + b"x"])
        streams = Streams(collections.Counter())
        for segment in segments[1:]: self.assertFalse(list(streams.add(0, (CLIENT, SERVER), segment)))
        self.assertEqual(streams.passed, {MISSING: len(segments) - 1})

    def test_what_the_snap_length_cuts(self):
        file = written.File(snap=60)
        file.datagram(1, CLIENT, SERVER, QUERY)
        self.assertEqual(read(file.pcap())[:2], ([], {CUT: 1}))

class Messages(unittest.TestCase):
    def test_names(self):
        """A pointer that doesn't go back ends it (RFC 1035, section 4.1.4)."""
        self.assertEqual(answers.name_at(QUERY, 12), (b"\1a\7example\0", 23))
        self.assertEqual(answers.text_of(b"\3a.b\1\xff\0"), "a\\.b.\\255.")
        for octets in (b"\xc0\x00", b"\1a\xc0\x00", b"\xc0\x02\xc0\x00"):
            with self.assertRaises(IndexError): answers.name_at(octets, 0)

    def test_options(self):
        self.assertEqual(answers.options_of(QUERY), (1_232, True))
        self.assertIsNone(answers.options_of(QUERY[:11] + b"\0" + QUERY[12:]))
        self.assertIsNone(answers.options_of(QUERY[:-5]))

    def test_ends(self):
        forms = {"192.0.2.53": SERVER, "192.0.2.53:53": SERVER, "2001:db8::53": SERVER_6, "[2001:db8::53]:53": SERVER_6}
        for text, wanted in forms.items(): self.assertEqual(sides.end_of(text, 53), wanted)
        for text in ("name", "192.0.2.53:0", "192.0.2.53:x", "192.0.2"):
            with self.assertRaises(wire.Fault): sides.end_of(text, 53)

class Times(unittest.TestCase):
    def test_steps_grow(self):
        series = Series()
        for moment in range(0, 100_000, 7): series.at(moment)["x"] += 1
        rows = series.rows()
        self.assertEqual(sum(counts["x"] for _, counts in rows), len(range(0, 100_000, 7)))
        self.assertTrue(100 < len(rows) <= 240)
        self.assertEqual([start for start, _ in rows], list(range(0, 100_000, series.step)))

    def test_what_is_held(self):
        """The same set anew, another one, and both expired."""
        held, zone = Held(), b"\7example\0"
        first, other = (answers.Set((owner + zone, 1, zone, b""), 10, False, True) for owner in (b"\1a", b"\1b"))
        held.add(1, 100, b"1", [first], True)
        held.add(2, 105, b"2", [first, other], True)
        self.assertEqual([held.look(moment) for moment in (105, 114, 115)], [2, 2, 0])
        self.assertEqual(held.carried(), [(105, b"2")])
