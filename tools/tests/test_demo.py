"""What the demonstration makes of replies, of samples and of two floods."""
import itertools, tempfile, unittest
from collections import Counter
from pathlib import Path
from types import SimpleNamespace
from unittest import mock

from dnsreplay_tools import wire
from dnsreplay_tools.demo import flood, picture, program, stage, table
from dnsreplay_tools.wire import Fault

try:
    import matplotlib
except ImportError:
    matplotlib = None

ASKED = wire.question(wire.name(b"a", b"example"), wire.A)
SYNTHESIZED = wire.record(wire.ROOT, wire.OPT, flood.SYNTHESIZED)  # RFC 8914, section 2
ANSWER = wire.record(wire.TO_QUESTION, wire.A, bytes(4))
# flags, answers and additional records of a reply, and by what it was made
REPLIES = (
    (0x8183, [], [SYNTHESIZED], flood.NAME_ERROR),
    (0x8180, [], [SYNTHESIZED], flood.NO_DATA),
    (0x8180, [ANSWER], [SYNTHESIZED], flood.WILDCARD),
    (0x8183, [], [], flood.RESOLVER),
    (0x8180, [ANSWER], [], flood.RESOLVER),
)

class Floods(unittest.TestCase):
    def test_kinds(self):
        for flags, answers, additional, wanted in REPLIES:
            octets = wire.message(flags, ASKED, answers, (), additional)
            with self.subTest(wanted): self.assertEqual(flood.kind(octets), wanted)

    def test_names(self):
        """Names are drawn by the seed and the flood, and no host is asked for what it has."""
        made = [stage.Stage(SimpleNamespace(program="", seed=seed), Path("/")) for seed in (1, 1, 2)]
        first, again, other = (list(itertools.islice(each.names("x"), 200)) for each in made)
        self.assertEqual(first, again)
        self.assertNotEqual(first, other)
        hosts = {wire.name(each.encode(), b"example") for each in made[0].hosts}
        self.assertTrue(all(rtype == wire.MX for name, rtype in first if name in hosts))
        self.assertEqual(len(Counter(len(wire.read_name(name)[0]) for name, _ in first)), 2)

class Tables(unittest.TestCase):
    def test_parts(self):
        self.assertEqual([table.part([3, 1, 2], share) for share in (0, 0.5, 0.99)], [1, 2, 3])
        self.assertEqual(table.part([], 0.5), 0)

    def test_sums(self):
        rows = [table.Row(10, 4, 6, 0.1), table.Row(10, 9, 1, 0.1)]
        self.assertEqual(table.summary([("x", rows)]), "x: 20 asked, 13 answered by the cache, 7 reached the authority")

    def test_a_count_goes_on_as_it_went(self):
        authority = stage.Authority("")
        authority.samples = [(10.0, 100), (10.5, 150)]
        with mock.patch.object(stage.time, "monotonic", return_value=10.7): self.assertEqual(authority.count(), 170)

    @unittest.skipUnless(matplotlib, "it needs python3-matplotlib")
    def test_the_picture_is_whole(self):
        rows = [table.Row(10, 4, 6, 0.1)] * 3
        with tempfile.TemporaryDirectory() as name:
            path = Path(name) / "x.svg"
            picture.draw(path, 10, [("a", rows), ("b", rows)])
            self.assertTrue(path.read_text().rstrip().endswith("</svg>"))
            self.assertEqual([each.name for each in Path(name).iterdir()], ["x.svg"])

class Words(unittest.TestCase):
    def test_no_program(self): self.assertRaisesRegex(Fault, "is no program: build one by", program, "/nonexistent")
