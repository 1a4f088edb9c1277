"""The board, the rules of alerts and docs/FORWARD.md name the families and labels that the program writes, and no others."""
import unittest

from dnsreplay_tools import board

class Families(unittest.TestCase):
    def test_the_table_has_each(self):
        self.assertEqual(board.told(), board.written())

    def test_what_is_used_is_written(self):
        self.assertLessEqual(set(board.FAMILY.findall(board.used())), board.written())
        self.assertGreater(len(set(board.FAMILY.findall(board.BOARD.read_text()))), 10)

    def test_labels_are_written(self):
        used = {each for each in board.LABEL.findall(board.used()) if each[0] not in ("instance", "file")}
        self.assertLessEqual(used, set(board.LABEL.findall(board.sources())))
        self.assertIn(("why", "late"), used)

    def test_each_query_has_its_variables(self):
        for panel, query in board.queries():
            with self.subTest(panel): self.assertNotIn("$", query)
