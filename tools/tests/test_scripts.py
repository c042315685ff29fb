"""The scripts as processes: what they say of themselves, what they refuse, and how they end where they are stopped."""
import gzip
import os
import re
import shutil
import signal
import tomllib
import unittest

from support import ROOT, TOOLS, RoomCase, datagram, fake_program, has_ended, run_script, start_script, wait_for

from gossip.formats.datagrams import Reader
from gossip.formats.files import CASE, REQUEST, RESPONSE, Session, recording_of
from gossip.scripts import console

SCRIPTS = sorted(path.name for path in TOOLS.iterdir() if path.is_file() and not path.suffix)


class Helps(unittest.TestCase):
    def test_each_script_says_what_it_does(self):
        self.assertGreaterEqual(len(SCRIPTS), 9)
        for script in SCRIPTS:
            with self.subTest(script=script):
                status, out, err = run_script(script, "--help")
                self.assertEqual((status, err), (0, []))
                doc = (TOOLS / script).read_text().split('"""')[1]
                self.assertIn(" ".join(doc.split()), " ".join(" ".join(out).split()))

    def test_helps_fit_80_columns(self):
        wide = os.environ | {"COLUMNS": "200"}
        lines = ((script, line) for script in SCRIPTS for line in run_script(script, "--help", env=wide)[1])
        self.assertEqual([(script, line) for script, line in lines if len(line) > console.COLUMNS], [])

    def test_paragraphs_and_indented_lines(self):
        text = "one\ntwo\n  name    what it\n          is\n  other   is\nthree\n\nfour"
        wanted = ["one two", "  name    what it is", "  other   is", "three", "", "four"]
        self.assertEqual(console.paragraphs_of(text), wanted)
        wanted = ["  name    what it", "          is, by", "          --an-option"]
        self.assertEqual(console.wrapped("  name    what it is, by --an-option", 20), wanted)
        self.assertEqual(console.wrapped("    tshark -X one:two  ", 12), ["    tshark", "    -X", "    one:two"])

    def test_words_that_are_none(self):
        for script in SCRIPTS:
            with self.subTest(script=script):
                status, out, err = run_script(script, "--no-such-word")
                self.assertEqual((status, out, err[0][:6]), (2, [], "usage:"))

    def test_each_script_is_a_program(self):
        for script in SCRIPTS:
            self.assertTrue(os.access(TOOLS / script, os.X_OK), script)


class Refusals(RoomCase):
    def refused(self, *words):
        """The last line of a refusal."""
        status, out, err = run_script(*words)
        self.assertEqual((status, out), (2, []), err)
        self.assertTrue(err[-1].startswith("REFUSED: "), err)
        return err[-1]

    def test_folders_and_files_that_are_missing(self):
        none = self.room / "none"
        self.assertEqual(self.refused("check-vectors", none), f"REFUSED: {none} is missing: name a folder of expected values")
        self.assertEqual(self.refused("check-vectors", self.room), f"REFUSED: {self.room} has no expected values: name a folder that has")
        self.assertEqual(self.refused("check-nodes", none), f"REFUSED: {none} is missing: name a folder of expected values")
        self.assertIn("has no recordings of parties", self.refused("check-nodes", self.room))
        self.assertIn("session.toml, ", self.refused("measure-replay", self.room))
        self.assertIn("session.toml can't be read", self.refused("run-session", self.room))
        self.assertIn("session.toml can't be read", self.refused("simulate-session", self.room))
        self.assertIn("name a commit of this repository", self.refused("benchmark-keys", "no-such-commit"))

    def test_a_folder_of_expected_values_that_is_not_whole(self):
        shutil.copytree(ROOT / "examples/keygen", self.room / "keygen")
        (self.room / "keygen/lms5_ots1_party2/secret").unlink()
        self.assertIn("lms5_ots1_party2/secret is missing", self.refused("check-vectors", self.room))
        shutil.copytree(ROOT / "examples/first-path/one-block", self.room / "world-a")
        (self.room / "world-a/recording").rename(self.room / "world-a/1.recording")
        self.assertIn("world-a/K.1, ", self.refused("check-nodes", self.room))

    def test_a_folder_of_one_session_that_is_not_whole(self):
        for name in ("world", "puppet"):
            part = self.room / name / name
            part.mkdir(parents=True)
            (part / "1.recording").touch()
            (part / "1.transcript.gz").touch()
            (part.parent / "session.toml").touch()
            for script in ("check-vectors", "check-nodes"):
                self.assertIn(f"REFUSED: {part.parent}/K.1, ", self.refused(script, part.parent))

    def test_expected_lines_that_are_none(self):
        (self.room / "evidence").mkdir()
        (self.room / "evidence/expected.txt").write_text("e.1\t0\tparty 3 fault F1\ne.2 0 party 3 fault F1\n")
        self.assertIn("REFUSED: line 2 of ", self.refused("check-vectors", self.room))

    def test_numbers_of_benchmarks(self):
        status, _, err = run_script("benchmark-session", "--peers", 1, 3, "--rounds", 9999)
        self.assertEqual(status, 2)
        self.assertEqual([line.split(" is ")[0] for line in err[:2]], ["--peers", "--rounds"])
        self.assertEqual(run_script("benchmark-keys", "HEAD", "--lms", 8)[0], 2)
        self.assertEqual(self.refused("benchmark-session", "--flood", 0), "REFUSED: --flood is 0: take 1 or more")
        self.assertEqual(self.refused("measure-replay", "--times", 0), "REFUSED: --times is 0: take 1 or more")

    def test_numbers_of_experiments(self):
        self.assertEqual(self.refused("experiment", self.room, "--seeds", 0), "REFUSED: --seeds is 0: take 1 or more")
        self.assertEqual(self.refused("experiment", self.room, "--loss", 101), "REFUSED: --loss is 101: take 0 to 100")
        self.assertIn("--rounds is 0: it has to be", self.refused("experiment", self.room, "--rounds", 0, "--only", "cap"))
        self.assertIn("isn't a folder that takes files", self.refused("experiment", self.stream))

    def test_networks_and_liars(self):
        self.make_session(fake_program(self.room))
        for script in ("run-session", "simulate-session"):
            self.assertIn("--liar 3:key names no peer", self.refused(script, self.room / "session", "--liar", "3:key"))
            self.assertIn("--loss is 101", self.refused(script, self.room / "session", "--loss", "101"))

    def test_programs_that_are_missing(self):
        for script, *words in (("check-streams",), ("check-vectors",), ("benchmark-session",), ("demo",)):
            with self.subTest(script=script):
                self.assertIn("there is no program at", self.refused(script, *words, "--bar", self.room / "none"))
        for script in ("benchmark-session", "measure-replay"):
            self.assertIn("there is no program at", self.refused(script, "--before", self.room / "none"))


class Checks(RoomCase):
    """What the scripts that compare say, by a program that stands for `bar`."""

    def expected(self, printed):
        """A folder of expected values: a simulation, and evidence."""
        folder = self.room / "expected"
        (folder / "evidence").mkdir(parents=True)
        (folder / "simulate.txt").write_text(f"seed 1\n{printed}")
        return folder

    def test_values_that_are_the_same(self):
        program = fake_program(self.room, printed="as it should be\n")
        status, out, err = run_script("check-vectors", self.expected("as it should be\n"), "--bar", program)
        self.assertEqual((status, out, err), (0, ["OK: 3 values compared, none differs"], ["checks: 1 of 1"]))

    def test_keys_of_a_session(self):
        for numbers in ({}, {"top": 5}):
            folder, _ = self.make_session(fake_program(self.room), **numbers)
            (folder.path / "secret.1").write_bytes(bytes.fromhex(tomllib.loads(folder.key(1).read_text())["secret"]))
            (folder.path / "keygen.1.out").write_bytes(folder.session.read_bytes().split(b"[[peer]]\n")[1].strip() + b"\n")
            folder.key(1).rename(folder.path / "K.1")
            status, out, _ = run_script("check-vectors", folder.path, "--bar", self.room / "bar")
            self.assertEqual((status, out), (0, ["OK: 4 values compared, none differs"]))
            (folder.path / "K.1").write_text("version = 1\n")
            status, out, _ = run_script("check-vectors", folder.path, "--bar", self.room / "bar")
            self.assertEqual((status, out[0][:20], out[-1]), (1, "key of party 1 key: ", "FAILED: 1 of 4 values differ"))
            shutil.rmtree(folder.path)

    def test_a_folder_of_one_session(self):
        folder, _ = self.make_session(fake_program(self.room, printed=""), version=2)
        folder.key(1).rename(folder.path / "K.1")
        for name in ("world", "puppet"):
            (folder.path / name).mkdir()
            (folder.path / name / "1.recording").write_bytes(recording_of(b"BARL\x01" + bytes(9) + b"\x01", [None]))
            (folder.path / name / "1.transcript.gz").write_bytes(gzip.compress(b""))
            (folder.path / name / "1.played").write_bytes(b"played")
            (folder.path / name / "1.table").touch()
            (folder.path / name / "3.transcript.gz").touch()
        status, out, err = run_script("check-vectors", folder.path, "--bar", self.room / "bar")
        self.assertEqual((status, out), (0, ["OK: 12 values compared, none differs"]))
        self.assertIn(f"{folder.path}/puppet has files of party 3, which are left out: its session has 2 peers", err)
        (folder.path / "puppet/1.played").write_bytes(b"other")
        status, out, _ = run_script("check-vectors", folder.path, "--bar", self.room / "bar")
        self.assertEqual((status, out[0][:22], out[-1]), (1, "puppet peer 1 played: ", "FAILED: 1 of 12 values differ"))

    def checked(self, folder, **ways):
        """The status and the lines of the expected values of a folder."""
        status, out, _ = run_script("check-vectors", folder, "--bar", fake_program(self.room, **ways))
        return status, out

    def test_audits(self):
        folder = self.room / "expected"
        for part in ("audit", "audit-cut", "world"):
            (folder / part).mkdir(parents=True)
        (folder / "session.toml").touch()
        for party in (1, 2, 3):
            (folder / f"world/{party}.recording").write_bytes(b"\0")
            (folder / f"audit-cut/R.{party}.recording").write_bytes(b"\0")
        (folder / "audit/statuses").write_text("1 3 1\n2 2 1\n")
        (folder / "audit-cut/statuses").write_text("2 3 1\n")
        lines = ["exchange 2 0 1 2 cases 1 0 keys 1 1", "unbalanced 2 0 1 2"]
        for name in ("audit/1-3.out", "audit/2-2.out", "audit-cut/2-3.out"):
            (folder / name).write_text("\n".join([*lines, ""]))
        self.assertEqual(self.checked(folder, audited=lines), (0, ["OK: 9 values compared, none differs"]))
        told = ["audit of parties 1 to 3", "audit of parties 2 to 2", "audit-cut of parties 2 to 3"]
        status, out = self.checked(folder, audited=["balanced"])
        wanted = [f"{name} {said}" for name in told for said in ("status: ", "printed: ")]
        self.assertEqual((status, [line.partition(": ")[0] + ": " for line in out[:-1]]), (1, wanted))
        (folder / "audit-cut/R.2.recording").write_bytes(b"\1")
        status, out = self.checked(folder, audited=lines)
        self.assertEqual((status, out[-1]), (1, "FAILED: 3 of 9 values differ"))
        (folder / "audit/statuses").write_text("1 3\n")
        self.assertEqual(self.checked(folder), (2, []))

    def test_proofs(self):
        folder = self.expected("")
        (folder / "simulate.txt").unlink()
        (folder / "proofs").mkdir()
        (folder / "session.toml").touch()
        for name in ("evidence/table", "evidence/e.1", "evidence/e.2", "proofs/q.1"):
            (folder / name).touch()
        (folder / "proofs/p.1").write_bytes(b"proof")
        (folder / "proofs/pack.txt").write_text("e.1\tpacked 5 bytes\n")
        (folder / "proofs/proofs.txt").write_text("q.1\t0\tparty 3 fault F1\n")
        ways = {"packed": [b"proof".hex(), "packed 5 bytes"], "printed": "party 3 fault F1\n"}
        self.assertEqual(self.checked(folder, **ways), (0, ["OK: 8 values compared, none differs"]))
        status, out = self.checked(folder, **ways | {"packed": [b"other".hex(), "packed 5 bytes"]})
        self.assertEqual((status, out), (1, ["pack e.1 proof: line 1: b'other' for b'proof'", "FAILED: 1 of 8 values differ"]))
        (folder / "proofs/pack.txt").write_text("e.1\tno fault: Consistent\n")
        self.assertEqual(self.checked(folder, **ways | {"packed": ["", "no fault: Consistent"]})[0], 0)
        status, out = self.checked(folder, **ways)
        self.assertEqual([line.partition(": ")[0] for line in out[:-1]], ["pack e.1 status", "pack e.1 line", "pack e.1 files"])

    def test_proofs_of_evidence_that_is_judged(self):
        folder = self.expected("")
        (folder / "simulate.txt").unlink()
        (folder / "proofs").mkdir()
        for name in ("evidence/session.toml", "evidence/e.1", "proofs/p.1"):
            (folder / name).touch()
        shutil.copy(ROOT / "examples/evidence/table", folder / "evidence/table")
        (folder / "proofs/pack.txt").write_text("e.1\tpacked 0 bytes\n")
        (folder / "evidence/expected.txt").write_text("e.1\t0\tparty 3 fault F1\n")
        _, out = self.checked(folder, packed=["", "packed 0 bytes"], printed="party 4 fault F1\n")
        self.assertIn("verify p.1 line: line 1: b'party 4 fault F1' for b'party 3 fault F1'", out)

    def test_values_that_differ(self):
        program = fake_program(self.room, printed="as it is\n")
        status, out, _ = run_script("check-vectors", self.expected("as it should be\n"), "--bar", program)
        told = "simulate 1 printed: line 1: b'as it is' for b'as it should be'"
        self.assertEqual((status, out), (1, [told, "FAILED: 1 of 3 values differ"]))

    def test_closed_streams(self):
        status, out, _ = run_script("check-streams", "--bar", fake_program(self.room, status={"replay": 70}))
        self.assertEqual((status, out[-1]), (1, "FAILED: 10 values of 10 runs differ"))
        self.assertTrue(all(line.startswith("replay: ") for line in out[:-1]), out)

    def world(self):
        """The folder of a world, which is that of an example."""
        world = self.room / "world"
        shutil.copytree(ROOT / "examples/first-path/one-block", world)
        (world / "key.toml").rename(world / "K.1")
        (world / "recording").rename(world / "1.recording")
        return world

    def other_program(self, **ways):
        """An earlier program that stands for `bar`."""
        room = self.room / "earlier"
        room.mkdir()
        return fake_program(room, **ways)

    def test_longer_recordings(self):
        status, out, _ = run_script("measure-replay", self.world(), "--count", 500, "--times", 1, "--bar", fake_program(self.room))
        self.assertEqual((status, out[-1]), (0, "OK: replays of up to 500 datagrams were measured"))
        told = [re.sub(r"(: )-?[\d,.]+ (us|bytes|s|ms).*", r"\1", line) for line in out[:-1]]
        wanted = ["a hash: ", *(f"memory without an input, {told}: " for told in ("resident", "own", "data"))]
        wanted += ["repeated: this recording has none", "forged, 500 datagrams, each: "]
        wanted += ["verified, 500 datagrams, each: ", "early: this recording has none"]
        wanted += ["block again, 500 datagrams, each: "]
        wanted += [f"{kind} again: this recording has none" for kind in ("key", "query", "divulge")]
        self.assertEqual(told, wanted)

    def test_recordings_with_two_programs(self):
        programs = ["--bar", fake_program(self.room), "--before", self.other_program()]
        status, out, _ = run_script("measure-replay", self.world(), "--count", 10, "--times", 1, *programs)
        self.assertEqual(status, 0)
        told = r"^memory without an input, data: before [\d,]+ bytes, now [\d,]+ bytes, ratio \d\.\d\d, [+-][\d,]+ bytes$"
        self.assertRegex(out[3], told)
        told = r"^forged, 10 datagrams, each: before -?[\d.]+ ms, now -?[\d.]+ ms, (ratio [\d.]+|no ratio), give or take 0\.0000 ms$"
        self.assertRegex(out[5], told)

    def test_programs_that_say_other_things(self):
        programs = ["--bar", fake_program(self.room), "--before", self.other_program(sent={"1": [datagram(CASE, 1, 2).hex()]})]
        status, out, _ = run_script("measure-replay", self.world(), "--count", 10, "--times", 1, *programs)
        self.assertEqual((status, out[-1]), (1, "FAILED: the programs' transcripts of the recording alone differ"))

    def test_requests_that_are_answered_otherwise(self):
        world = self.world()
        session = Session.read(world / "session.toml")
        asked = datagram(REQUEST, 2, 1, (1).to_bytes(4, "big") + bytes(64 + Reader(session).signature), session.id)
        (world / "1.recording").write_bytes(recording_of(b"BARL\x01" + bytes.fromhex(session.id) + b"\x00\x01", [asked, None]))
        program = fake_program(self.room, sent={"1": [datagram(RESPONSE, 1, 2).hex()]})
        status, out, _ = run_script("measure-replay", world, "--count", 10, "--times", 1, "--bar", program)
        self.assertEqual((status, out[-1]), (1, "FAILED: now: repeated: the transcript has 1 lines instead of 11"))


class Signals(RoomCase):
    def stopped(self, process, number=signal.SIGINT):
        """Sends a signal to the process of a script alone, and returns its status and its lines."""
        process.send_signal(number)
        out, err = process.communicate(timeout=30)
        self.assertNotIn("Traceback", out + err)
        return process.returncode, out.splitlines(), err.splitlines()

    def test_parties_do_not_stay_behind(self):
        folder, _ = self.make_session(fake_program(self.room))
        file = self.room / "child"
        for number in (signal.SIGINT, signal.SIGTERM, signal.SIGHUP):
            with self.subTest(signal=number.name):
                program = fake_program(self.room, hang=str(file))
                with start_script("run-session", folder.path, "--bar", program) as process:
                    self.assertTrue(wait_for(lambda: file.exists() and file.read_text()))
                    status, out, _ = self.stopped(process, number)
                self.assertEqual((status, out), (1, [f"FAILED: stopped by {number.name}"]))
                self.assertTrue(has_ended(int(file.read_text())))
                file.unlink()

    def test_nothing_of_a_session_is_left(self):
        program, folder = fake_program(self.room, keygen_seconds=60), self.room / "a/b"
        words = ["--peers", 2, "--fanout", 1, "--stream", self.stream, "--bar", program]
        with start_script("make-session", folder, *words) as process:
            self.assertTrue(wait_for(lambda: [*folder.glob("secret.*")]))
            status, out, _ = self.stopped(process)
        self.assertEqual((status, out), (1, ["FAILED: stopped by SIGINT"]))
        self.assertEqual(sorted(path.name for path in self.room.iterdir()), ["bar", "bar.json", "stream"])

    def test_lines_that_nobody_reads(self):
        out, into = os.pipe()
        os.close(out)
        program = fake_program(self.room, printed="as it is\n")
        (self.room / "simulate.txt").write_text("seed 1\nas it is\n")
        with start_script("check-vectors", self.room, "--bar", program, stdout=into) as process:
            os.close(into)
            _, err = process.communicate(timeout=30)
        self.assertEqual((process.returncode, err.splitlines()), (1, ["checks: 1 of 1"]))


class Builds(RoomCase):
    def test_the_demo_hands_on_the_status_of_a_build(self):
        tools = self.room / "repository/tools"
        shutil.copytree(TOOLS, tools, ignore=shutil.ignore_patterns("tests", "__pycache__"))
        (self.room / "repository/crates/bar/src").mkdir(parents=True)
        (self.room / "repository/crates.txt").write_text("bar:\n")
        (self.room / "repository/HANDLES").write_text("Handles allowed: none.\n")
        rt = self.room / "rt"
        rt.write_text("#!/bin/sh\necho proving crates\nexit 101\n")
        rt.chmod(0o755)
        path = f"{self.room}:{os.environ['PATH']}"
        status, out, err = run_script(tools / "demo", env=os.environ | {"PATH": path})
        self.assertEqual((status, out), (101, []))
        self.assertEqual((err[0][:20], err[1]), ("there is no program:", "proving crates"))
        self.assertRegex(err[2], "^REFUSED: `rt ci` over a copy of bar.* and what it stands on ends with status 101")
        status, _, _ = run_script(tools / "check-streams", env=os.environ | {"PATH": path})
        self.assertEqual(status, 2)


if __name__ == "__main__":
    unittest.main()
