"""Sessions that are made, and each refusal of one, at which nothing is made."""
import hashlib
import os
import pathlib
import stat
import unittest

from support import NUMBERS, RoomCase, fake_program, lines_of, run_script

from gossip.formats import files
from gossip.scripts import console
from gossip.sessions import making


class Refusals(RoomCase):
    def refused(self, *words, stream=None, folder=None):
        """The lines of a refusal of make-session, at which nothing is made."""
        before = sorted(self.room.rglob("*"))
        given = folder or self.room / "new/session", "--stream", stream or self.stream, "--bar", self.room / "none", *words
        status, out, err = run_script("make-session", *given)
        self.assertEqual((status, out, sorted(self.room.rglob("*"))), (2, [], before))
        self.assertTrue(err[-1].startswith("REFUSED: "), err)
        return err

    def faults(self, stream=None, folder=None, seed=None, **numbers):
        """What refuses a session."""
        wanted = making.Wanted(folder or self.room / "new", stream or self.stream, NUMBERS | numbers, seed)
        return [*wanted.faults()]

    def test_all_faults_are_told(self):
        words = ["--peers", 1, "--life", 99, "--cap", "x", "--port", 65_500, "--seed", "xyz", "--rounds", -1]
        lines = self.refused(*words, stream=self.room / "missing")
        self.assertEqual([line.split(" is ")[0] for line in lines[:5]], ["--peers", "--rounds", "--life", "--cap", "--port"])
        self.assertIn("missing: name a file", lines[5])
        self.assertIn("--seed xyz isn't hex", lines[6])
        self.assertEqual(lines[7:], ["REFUSED: nothing was done, for the 7 reasons above"])

    def test_one_fault_is_the_last_line(self):
        self.assertEqual(self.refused("--peers", 1), ["REFUSED: --peers is 1: it has to be a whole number of 2 to 200"])

    def test_each_number_out_of_its_range(self):
        bounds = {name: files.NUMBERS[name] for name in (*making.DEFAULTS, "port")}
        tries = ((name, value) for name, number in bounds.items() for value in (number.least - 1, number.most + 1, "many"))
        for name, value in tries:
            with self.subTest(name=name, value=value):
                self.assertTrue(self.faults(**{name: value})[0].startswith(f"{making.option_of(name)} is "))

    def test_fanout_above_the_number_of_peers(self):
        self.assertEqual(self.faults(fanout=3), ["--fanout is 3: it has to be a whole number of 1 to 2, the number of peers"])

    def test_more_rounds_than_leaves(self):
        fault = "2 rounds need 36 leaves, and a key of LMS type 5 has 32: take LMS type 6, or at most 1 round"
        self.assertEqual(self.faults(rounds=2, lms=5), [fault])

    def test_numbers_that_do_not_go_with_two_levels(self):
        two = {"lms": 5, "ots": 3, "top": 5}
        told = {"lms": "--lms is 6: it has to be 5 with top", "top": "--top is 8: it has to be a whole number of 5 to 7"}
        told |= {"ots": "--ots is 2: it has to be a whole number of 3 to 4 with top"}
        for name, value in (("lms", 6), ("top", 8), ("ots", 2)):
            self.assertEqual(self.faults(**two | {name: value}), [told[name]])
        fault = "57 rounds need 1,026 leaves, and a key of top 5 has 1,024: take top 6, or at most 56 rounds"
        self.assertEqual((self.faults(**two, rounds=57), self.faults(**two, rounds=56)), ([fault], []))
        self.assertEqual(self.faults(**two | {"top": 7}, rounds=7200), [])

    def test_rounds_that_only_two_levels_have(self):
        self.assertEqual(self.faults(rounds=1821), ["--rounds is 1821: it has to be a whole number of 1 to 1,820, or to 7,200 with top"])

    def test_stream_larger_than_its_room(self):
        self.stream.write_bytes(bytes(2 * 1022 + 1))
        fault = "the stream has 2,045 bytes, and 1 round of 2 updates have room for 2,044"
        self.assertEqual(self.faults(), [f"{fault}: take 2 rounds of 2 updates with LMS type 6 or 1 round of 3 updates"])

    def test_stream_that_is_no_file(self):
        self.assertEqual(self.faults(stream=self.room), [f"the stream {self.room} is no file: name a file"])
        self.assertEqual(len(self.faults(stream=pathlib.Path("/dev/zero"))), 1)

    def test_folder_that_is_there(self):
        for folder in (self.room, self.stream, pathlib.Path("/")):
            self.assertEqual(self.faults(folder=folder), [f"{folder} is there already: name a folder that isn't"])
        (self.room / "link").symlink_to(self.room / "nowhere")
        self.assertEqual(len(self.faults(folder=self.room / "link")), 1)

    def test_folder_below_a_file(self):
        self.assertEqual(self.faults(folder=self.stream / "a/b"), [f"{self.stream} isn't a folder: name one below a folder"])

    def test_program_that_is_missing(self):
        self.assertIn("there is no program at", self.refused("--rounds", 1)[-1])

    def test_nothing_refuses_the_bounds(self):
        bounds = {"peers": 200, "fanout": 200, "life": 16, "cap": 16, "port": 65_335, "tick_ms": 60_000}
        for version, per_round in ((1, 64), (2, 128), (3, 128)):
            self.assertEqual(self.faults(version=version, per_round=per_round, seed="", **bounds), [])

    def test_updates_of_a_round_by_the_version(self):
        for version, most in ((1, 64), (2, 128), (3, 128)):
            fault = f"--per-round is {most + 1}: it has to be a whole number of 1 to {most} in version {version}"
            self.assertEqual(self.faults(version=version, per_round=most + 1), [fault])
        self.assertEqual(self.faults(version=4, per_round=65), ["--version is 4: it has to be a whole number of 1 to 3"])

    def test_stream_with_room_in_version_2(self):
        self.stream.write_bytes(bytes(64 * 1022 + 1))
        fault = "the stream has 65,409 bytes, and 1 round of 64 updates have room for 65,408"
        remedy = "take 2 rounds of 64 updates with LMS type 6 or 1 round of 65 updates with version 2"
        self.assertEqual(self.faults(per_round=64), [f"{fault}: {remedy}"])
        self.assertEqual(self.faults(version=2, per_round=65), [])


class Makings(RoomCase):
    def test_a_session(self):
        folder, session = self.make_session(fake_program(self.room), port=20_000)
        self.assertEqual((session.rounds, session.peers, session.port), (1, 2, 20_000))
        self.assertEqual(folder.stream.read_bytes(), self.stream.read_bytes())
        self.assertEqual(sorted(file.name for file in folder.path.iterdir()), ["key.0", "key.1", "key.2", "session.toml", "stream"])
        keys = [files.KeyFile.of_text(folder.key(party).read_bytes()) for party in range(3)]
        self.assertEqual([fault for party, key in enumerate(keys) for fault in key.faults(session, party)], [])
        self.assertEqual({stat.S_IMODE(file.stat().st_mode) for file in (folder.path, folder.key(1))}, {0o700, 0o600})

    def test_a_session_of_version_2(self):
        folder, session = self.make_session(fake_program(self.room), version=2, per_round=128)
        self.assertEqual((session.version, session.per_round, session.room), (2, 128, 128 * 1022))
        self.assertEqual(folder.session.read_text().splitlines()[0], "version = 2")
        self.assertEqual([files.KeyFile.of_text(folder.key(party).read_bytes()).party for party in range(3)], [0, 1, 2])

    def test_a_session_of_two_levels(self):
        words = ["--peers", 2, "--rounds", 56, "--fanout", 1, "--top", 5, "--stream", self.stream, "--bar", fake_program(self.room)]
        status, _, err = run_script("make-session", self.room / "new", *words)
        self.assertEqual(status, 0, err)
        session = files.Session.read(self.room / "new/session.toml")
        self.assertEqual((session.top, session.lms, session.ots, session.rounds), (5, 5, 3, 56))
        keys = [files.KeyFile.of_text((self.room / f"new/key.{party}").read_bytes()) for party in range(3)]
        self.assertEqual([fault for party, key in enumerate(keys) for fault in key.faults(session, party)], [])

    def test_the_same_seed_makes_the_same_keys(self):
        folder, session = self.make_session(fake_program(self.room))
        first = folder.session.read_bytes().replace(b"port = %d\n" % session.port, b"")
        folder.path.rename(self.room / "first")
        folder, session = self.make_session(fake_program(self.room))
        self.assertEqual(folder.session.read_bytes().replace(b"port = %d\n" % session.port, b""), first)

    def test_lines_of_the_script(self):
        words = ["--peers", 2, "--rounds", 1, "--fanout", 1, "--lms", 5, "--stream", self.stream, "--bar", fake_program(self.room)]
        status, out, err = run_script("make-session", self.room / "a/b", *words)
        self.assertEqual((status, files.Session.read(self.room / "a/b/session.toml").version), (0, 3))
        fingerprint = hashlib.sha256((self.room / "a/b/session.toml").read_bytes()).hexdigest()
        expected = "expected: peers play some 50% of the stream, a single one 50% to 50%, if no party is late and nothing is lost"
        last = "1 update of the last round can't be traded: take more rounds, or --fanout 2"
        self.assertEqual(out[:-1], [expected, last, f"the SHA-256 of session.toml is {fingerprint}"])
        self.assertRegex(out[-1], r"^OK: session [0-9a-f]{16}: 2 peers, 3.2 s, a stream of 600 bytes in a room of 8176$")
        self.assertEqual((err[0], err[-1]), ("keys: 1 of 3", "keys: 3 of 3"))
        status, out, _ = run_script("make-session", self.room / "a/c", *words, "--version", 2, "--per-round", 128)
        self.assertRegex(out[-1], r"^OK: session .*, a stream of 600 bytes in a room of 130816$")
        self.assertEqual((status, files.Session.read(self.room / "a/c/session.toml").version), (0, 2))

    def test_a_failing_program_leaves_nothing(self):
        program, mask = fake_program(self.room, status={"keygen": 70}, said="bar: it fails\n"), os.umask(0o022)
        os.umask(mask)
        with self.assertRaises(console.Failure) as failure:
            wanted = making.Wanted(self.room / "a/b/session", self.stream, NUMBERS)
            lines_of(lambda: making.make(wanted, program))
        told = "the key of party [0-2] couldn't be made: status 70: there is no memory left .bar: it fails."
        self.assertRegex(str(failure.exception), told)
        self.assertEqual(sorted(file.name for file in self.room.iterdir()), ["bar", "bar.json", "stream"])
        self.assertEqual(os.umask(mask), mask)


if __name__ == "__main__":
    unittest.main()
