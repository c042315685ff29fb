"""The numbers of benchmarks, as files."""
import argparse
import csv
import json
import unittest

from support import RoomCase

from gossip.scripts import console, saving

ROWS = [{"what": "key", "ms": 1.5}, {"what": "sign, verify", "ms": 2.0, "noise": None}]


class Numbers(RoomCase):
    def words(self, *given):
        parser = argparse.ArgumentParser()
        saving.take_files(parser)
        return parser.parse_args(list(map(str, given)))

    def test_rows_are_written_as_json_and_as_csv(self):
        words = self.words("--json", self.room / "n.json", "--csv", self.room / "n.csv")
        saving.refuse_files(words)
        saving.write_files(words, ROWS)
        self.assertEqual(json.loads((self.room / "n.json").read_text()), ROWS)
        with open(self.room / "n.csv") as file:
            told = [*csv.DictReader(file)]
        self.assertEqual(told, [{"what": "key", "ms": "1.5", "noise": ""}, {"what": "sign, verify", "ms": "2.0", "noise": ""}])

    def test_nothing_is_written_where_no_file_is_named(self):
        before = [*self.room.iterdir()]
        saving.write_files(self.words(), ROWS)
        self.assertEqual([*self.room.iterdir()], before)

    def test_a_file_that_cannot_be_written_is_refused_before(self):
        for path in (self.room, self.room / "none" / "n.json"):
            with self.assertRaises(console.Refusal):
                saving.refuse_files(self.words("--json", path))


if __name__ == "__main__":
    unittest.main()
