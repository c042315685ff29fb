"""What is said of changed datagrams, files and texts."""
from support import RoomCase, run_script

from gossip.programs import builds

PRINTED = """sessions 3
datagrams tried 7000 Short 1 BadMagic 2 BadVersion 3 BadKind 4 BadSession 5 BadLength 6 BadField 7 \
read 6972 checkable 40 signed 10 answered 9 sent 12 shown 1
evidence tried 700 costly 0 accepted 300
verdict tried 250 costly 20 accepted 5
table tried 650 costly 30 accepted 8
recording tried 700 costly 0 accepted 90
session tried 700 costly 0 accepted 60
key tried 690 costly 3 accepted 2
""".replace("\\\n", "")

TOLD = """7,000 datagrams in 3 sessions: 6,972 read
  refused: Short 1, BadMagic 2, BadVersion 3, BadKind 4, BadSession 5, BadLength 6, BadField 7
  at most 40 were verified, 10 of all were signed anew
  9 were answered, by 12 datagrams; 1 left evidence
700 split as evidence: 300 accepted
250 judged: 5 accepted, 20 costly
650 read as a table file: 8 accepted, 30 costly
700 read as a recording: 90 accepted
700 read as a session's text: 60 accepted
690 read as a key text: 2 accepted, 3 costly"""


class Scripts(RoomCase):
    def run_with(self, line, *words):
        """Runs the script with a program that is a line of a shell."""
        program = self.room / "fuzz"
        program.write_text(f"#!/bin/sh\n{line}\n")
        program.chmod(0o755)
        return run_script("fuzz-core", "--program", program, *words)

    def test_counts(self):
        (self.room / "printed").write_text(PRINTED)
        status, out, err = self.run_with(f'echo "$@" > "{self.room}/words"; cat "{self.room}/printed"', "--count", 7000, "--seed", 5)
        self.assertEqual((status, out[:-1], err), (0, TOLD.splitlines(), []))
        self.assertRegex(out[-1], "^OK: 10,690 changed datagrams, files and texts were answered in [0-9]+ s, with seed 5$")
        words = (self.room / "words").read_text().split()
        self.assertEqual(words[:3], ["fuzz", "5", "7000"])
        self.assertEqual([word.rpartition("/")[2] for word in words[3:7]], ["session.toml", "recording", "bad-opening", "e.00002"])

    def test_all_changed_datagrams_are_answered(self):
        if not builds.PARTY.path.exists():
            self.skipTest("the program bar_party isn't built: tools/fuzz-core builds it")
        status, out, err = run_script("fuzz-core", "--count", 300)
        self.assertEqual((status, err), (0, []), out)
        self.assertRegex(out[-1], "^OK: [0-9,]+ changed datagrams, files and texts were answered in [0-9]+ s, with seed 1$")

    def test_a_program_that_fails(self):
        status, out, _ = self.run_with("echo 'a message is spelled otherwise' >&2; exit 1")
        self.assertEqual(status, 1)
        self.assertRegex(out[-1], "^FAILED: bar_party ends with status 1: .*a message is spelled otherwise.*; --seed 1 repeats it$")

    def test_words_that_are_refused(self):
        status, _, err = run_script("fuzz-core", "--count", 0, "--seed", -2)
        self.assertEqual((status, err[:2]), (2, ["--count is 0: take 1 or more", "--seed is -2: take 1 or more"]))
        self.assertIn("there is no program at", run_script("fuzz-core", "--program", self.room / "none")[2][-1])
