"""Programs beside `bar`, which are crates of this repository."""
import unittest
from unittest import mock

from support import ROOT, RoomCase, lines_of

from gossip.programs import builds
from gossip.programs.builds import Beside


class Kept(RoomCase):
    def setUp(self):
        super().setUp()
        self.made = []
        self.enterContext(mock.patch.multiple(builds, ROOT=self.room, build_crate=self.make))

    def make(self, name):
        self.made.append(name)
        path = self.room / "crates" / name / "out" / name
        path.parent.mkdir(parents=True)
        path.write_text("built")

    def test_a_program_is_built_once(self):
        program = Beside("bar_party")
        path, _, progress = lines_of(lambda: builds.built(program))
        self.assertEqual((path.read_text(), path), ("built", self.room / "crates/bar_party/out/bar_party"))
        self.assertEqual(len(progress), 1)
        self.assertEqual((lines_of(lambda: builds.built(program)), self.made), ((path, [], []), ["bar_party"]))


class Programs(unittest.TestCase):
    def test_it_is_a_crate(self):
        crates = (ROOT / "crates.txt").read_text("utf-8")
        self.assertRegex(crates, rf"(?m)^{builds.PARTY.crate}: ")
        self.assertTrue((ROOT / "crates" / builds.PARTY.crate / "src/main.rt").is_file())


if __name__ == "__main__":
    unittest.main()
