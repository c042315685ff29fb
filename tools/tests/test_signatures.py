"""Keys that the tests make in Python, against those of another program in examples/keygen. That the built program makes the same signatures is
tested where broadcasts are.
"""
import re
import tomllib
import types
import unittest

from support import ROOT

from made_signatures import Signer

# keys whose trees take a while in Python
SLOW = "lms6_ots4*"


class Keys(unittest.TestCase):
    def test_public_keys(self):
        folders = {*(ROOT / "examples/keygen").iterdir()} - {*(ROOT / "examples/keygen").glob(SLOW)}
        self.assertGreaterEqual(len(folders), 6)
        for folder in sorted(folders):
            with self.subTest(folder=folder.name):
                key = tomllib.loads((folder / "expected.key.toml").read_text("utf-8"))
                session = types.SimpleNamespace(**{"top": None} | {name: key[name] for name in ("id", "lms", "ots", "top") if name in key})
                printed = re.search('^key = "(.*)"', (folder / "expected.out").read_text("utf-8"))[1]
                self.assertEqual(Signer(session, (folder / "secret").read_bytes()).public.hex(), printed)


if __name__ == "__main__":
    unittest.main()
