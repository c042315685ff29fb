"""The further edits of the crates, which the gate leaves out: that they still apply, and how they are tried."""
import importlib.machinery
import importlib.util
import pathlib
import re
import unittest
from unittest import mock

from support import ROOT, TOOLS, RoomCase, lines_of

from gossip.programs import bar

EDITS = ROOT / "tools/edits"


def loaded(script):
    """A script as a module."""
    loader = importlib.machinery.SourceFileLoader(script.replace("-", "_"), str(TOOLS / script))
    module = importlib.util.module_from_spec(importlib.util.spec_from_loader(loader.name, loader))
    loader.exec_module(module)
    return module


def faults_of(edit):
    """What keeps an edit from being applied: each of its old lines is in its file once, and is changed by what comes after it alone."""
    texts, path = {}, None
    for line in edit.read_text().splitlines():
        word, _, text = line.partition(": ")
        if word == "file":
            path = ROOT / "crates" / edit.parent.name / text
            texts.setdefault(path, path.read_text())
        elif word == "old":
            old = text
            if texts[path].count(old) != 1:
                yield f"{edit.relative_to(ROOT)}: {path.relative_to(ROOT)} has {texts[path].count(old)} times: {old}"
        elif re.match("new:", line):
            texts[path] = texts[path].replace(old, line.removeprefix("new:").removeprefix(" "))


class Edits(unittest.TestCase):
    def test_each_further_edit_applies(self):
        edits = sorted(EDITS.rglob("*.edit"))
        self.assertGreater(len(edits), 100)
        self.assertEqual([fault for edit in edits for fault in faults_of(edit)], [])

    def test_no_edit_is_in_both_tiers(self):
        both = [edit for edit in EDITS.rglob("*.edit") if (ROOT / "crates" / edit.parent.name / "must-fail" / edit.name).exists()]
        self.assertEqual(both, [])


class Tried(RoomCase):
    def outcome(self, answers, names=("bar_bytes",)):
        """The outcome of the script, where `rt ci` says this of the crates of a made-up folder."""
        script = loaded("try-edits")
        with mock.patch.object(bar, "rt_ci", lambda room, names: self.proved(room, names, answers)):
            outcome, out, _ = lines_of(lambda: script.main(mock.Mock(crates=list(names))))
        return outcome.status, outcome.lines[-1], out

    def proved(self, room, names, answers):
        self.assertEqual(names, ["bar_bytes"])
        self.edits = sorted(path.stem for path in pathlib.Path(room).glob("crates/bar_bytes/must-fail/*.edit"))
        lines = [f"rt: must-fail bar_bytes/{edit}.edit: {answers.get(edit, 'refused, as it must be')}" for edit in self.edits]
        return int(any(answers.values())), lines

    def test_all_are_refused(self):
        status, line, out = self.outcome({})
        self.assertEqual(self.edits, sorted(path.stem for path in EDITS.glob("bar_bytes/*.edit")))
        self.assertEqual((status, line, len(out)), (0, f"OK: {len(self.edits)} edits of 1 crate are refused", len(self.edits)))

    def test_one_is_not(self):
        first = min(path.stem for path in EDITS.glob("bar_bytes/*.edit"))
        status, line, _ = self.outcome({first: "NOT REFUSED"})
        self.assertEqual((status, line[:8]), (1, "FAILED: "))
        self.assertIn("`rt ci` ends with status 1", line)


if __name__ == "__main__":
    unittest.main()
