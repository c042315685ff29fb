"""Memory that is refused, and what is said of runs whose memory was."""
import dataclasses
import importlib.machinery
import importlib.util
import sys
import unittest
from unittest import mock

from support import TOOLS, RoomCase, lines_of, run_script

from gossip.programs.bar import Ran
from gossip.trouble.hazards import Skipped
from gossip.trouble.memory import Refused, Refusing


def script(name):
    """A script as a module."""
    loader = importlib.machinery.SourceFileLoader(name.replace("-", "_"), str(TOOLS / name))
    module = importlib.util.module_from_spec(importlib.util.spec_from_loader(loader.name, loader))
    sys.modules[loader.name] = module
    with mock.patch.object(sys, "dont_write_bytecode", True):
        loader.exec_module(module)
    return module


trying = script("try-memory")
KEY = 'version = 1\nid = "00"\nspent = '


class Refusals(RoomCase):
    def test_an_allocation_that_is_refused(self):
        try:
            refusing = Refusing(self.room)
        except Skipped as reason:
            self.skipTest(str(reason))
        source, program = self.room / "three.c", self.room / "three"
        source.write_text(
            '#include <stdio.h>\n#include <stdlib.h>\nint main(void) {\n    void *a = malloc(9), *b = calloc(2, 9), *c = realloc(NULL, 9);\n'
            '    char line[] = "000\\n";\n    line[0] += !a; line[1] += !b; line[2] += !c;\n    fputs(line, stderr);\n    return !(a && b && c);\n}\n'
        )
        self.assertEqual(trying.bar.run_words("cc", ["-O0", "-fno-builtin", "-o", str(program), str(source)]).status, 0)
        seen = {number: refusing.run([program], self.room / "counted", number) for number in range(5)}
        told = {number: (it.ran.status, it.ran.said, it.counted) for number, it in seen.items()}
        whole = (0, b"000\n", 3)
        self.assertEqual(told, {0: whole, 1: (1, b"100\n", 3), 2: (1, b"010\n", 3), 3: (1, b"001\n", 3), 4: whole})

    def test_a_compiler_that_is_missing(self):
        with mock.patch("shutil.which", return_value=None), self.assertRaises(Skipped):
            Refusing(self.room)


def left(status, said=b"", printed=b"", **others):
    return trying.Left(status, said, printed, **{"files": {}} | others)


def refused(printed):
    return Refused(Ran(0, printed, b""), 9)


class Stops(unittest.TestCase):
    """What is said of runs that were stopped."""

    whole = left(0, printed=b"1 1 aa\n3 1 bb\n", files={"key": b"fresh", "played": b"hi", "found.table": b"t"})
    before = {"key": b"fresh"}

    def faults(self, stopped, whole=None, case=None):
        case = case or trying.Case("replay", None, None, trying.replay_stop_faults)
        return [*trying.faults_of(case, stopped, whole or self.whole, self.before)]

    def stopped(self, printed, status=70, said=b"bar: no memory\n", **files):
        return left(status, said, printed, files={"key": b"fresh"} | {name.replace("_", "."): data for name, data in files.items()})

    def test_fronts(self):
        for printed, files in ((b"", {}), (b"1 1 a", {"played": b""}), (self.whole.printed, {"played": b"h"}), (self.whole.printed, {"played": b"hi"})):
            self.assertEqual(self.faults(self.stopped(printed, **files)), [])
        self.assertEqual(self.faults(self.stopped(self.whole.printed, played=b"hi", found_table=b"")), [])
        self.assertEqual(self.faults(self.stopped(b"", said=b"")), [])

    def test_what_is_no_front(self):
        self.assertEqual(self.faults(self.stopped(b"", 3)), ["its status is 3"])
        self.assertEqual(self.faults(self.stopped(b"", said=b"bar: file failed\n")), ["it says b'bar: file failed\\n'"])
        told = "what it prints or sends isn't a prefix of that of the undisturbed run"
        self.assertIn(told, self.faults(self.stopped(b"1 1 b")))
        self.assertEqual(self.faults(self.stopped(b"", other=b"")), ["it leaves the file other, which a whole run doesn't"])
        changed = self.stopped(b"")
        changed.files["key"] = b"spent"
        self.assertEqual(self.faults(changed), ["the file key is neither as it was nor a front of what it becomes"])
        del changed.files["key"]
        self.assertEqual(self.faults(changed), ["the file key is gone"])

    def test_what_belongs_to_later_inputs(self):
        missing = f"something of input {trying.PLAYED_AT} was printed or played, and something of input 3 wasn't"
        self.assertEqual(self.faults(self.stopped(b"1 1 aa\n", played=b"h")), [missing])
        early = ["what was found is written before all is printed and played"]
        self.assertEqual(self.faults(self.stopped(b"1 1 aa\n", found_table=b"")), early)

    def test_runs_that_end_as_undisturbed(self):
        self.assertEqual(self.faults(dataclasses.replace(self.whole, counted=7)), [])
        told = ["it ends with status 0 and leaves something else than the undisturbed run"]
        self.assertEqual(self.faults(dataclasses.replace(self.whole, printed=b"")), told)

    def test_what_a_peer_sent_and_recorded(self):
        head, whole = bytes(15), left(6, files={"k": b"spent"})
        for recorded, sent, is_right in ((0, 0, True), (1, 0, True), (1, 1, True), (2, 1, True), (2, 0, False), (1, 2, False)):
            stopped = left(70, files={"r": head + b"\1" * recorded, "k": b"fresh"}, sent=(b"",) * sent)
            self.assertEqual(not [*trying.peer_stop_faults(stopped, whole)], is_right, (recorded, sent))
        bound = left(70, files={"k": b"fresh"}, is_bound=True)
        self.assertEqual([*trying.bound_faults(bound, whole)], ["its link was bound, and its key isn't spent"])

    def test_what_a_run_in_memory_prints(self):
        printed = b"status 70\nbar: no memory\nticks 0 sent 0\nbound 1\nsent 2 ba47\nfile k 6b\nfile r \n"
        told = trying.left_by_node(refused(printed))
        expected = left(70, b"bar: no memory\n", b"ticks 0 sent 0\n", files={"k": b"k", "r": b""}, sent=(b"\xba\x47",), is_bound=True, counted=9)
        self.assertEqual(told, expected)
        self.assertIsNone(trying.left_by_node(refused(b"")).status)


class Rows(unittest.TestCase):
    def test_the_recording_that_is_replayed(self):
        entries, is_whole = trying.entries_of(trying.replayed_recording())
        self.assertEqual((entries.count(None), len(entries), is_whole), (trying.REPLAYED, trying.PLAYED_AT, True))
        self.assertEqual([entry[3] for entry in entries if entry], [1, 2])

    def test_a_run_each_of_whose_allocations_is_refused(self):
        seen = []

        def call(number):
            seen.append(number)
            status = {0: 0, 1: None, 4: 0}.get(number, 70)
            return left(status, b"bar: no" if status == 70 else b"", counted=3 if status == 0 else number)

        case = trying.Case("run", call, lambda whole: (), lambda stopped, whole: ())
        line, faults = lines_of(lambda: trying.tried(case, {}, 2))[0]
        self.assertEqual((line, faults), ("run: 2 allocations refused, statuses 0 (1) and 70 (2)", []))
        self.assertEqual(sorted(seen), [0, 1, 2, 3, 4])


class Scripts(RoomCase):
    def test_words_that_are_refused(self):
        status, out, err = run_script("try-memory", "--bar", self.room / "none")
        self.assertEqual((status, out), (2, []))
        self.assertIn("REFUSED: there is no program at", err[-1])
        self.assertEqual(run_script("try-memory", "--jobs", 0)[2], ["REFUSED: --jobs is 0: take 1 or more"])
