"""The folders of hosts, the scripts that start parties in them, and how files come back."""
import contextlib
import pathlib
import shutil
import stat
import subprocess
import tempfile
import time
import unittest
from unittest import mock

from support import NUMBERS, RoomCase, fake_program, lines_of, run_script

from gossip.networks import forwarding, host_text, spans
from gossip.runs import namespaces, runner
from gossip.scripts import console
from gossip.sessions import making
from gossip.sessions.session_folder import Folder

HOSTS = """[[host]]
name = "one"
address = "192.0.2.10"
parties = [0, 1]

[[host]]
name = "two"
address = "192.0.2.11"
parties = [2]
"""

# a program that says its words in a file, and ends with the status that another file has
PARTY = """#!/bin/sh
echo "$@" > "words.$5"
[ ! -e "status.$5" ] || exit "$(cat "status.$5")"
"""


class SpanCase(RoomCase):
    """A test with a session of two peers and a text of two hosts."""

    @classmethod
    def setUpClass(cls):
        room = tempfile.TemporaryDirectory()
        cls.addClassCleanup(room.cleanup)
        cls.made = pathlib.Path(room.name)
        (cls.made / "stream").write_bytes(b"stream" * 100)
        wanted = making.Wanted(cls.made / "session", cls.made / "stream", NUMBERS)
        lines_of(lambda: making.make(wanted, fake_program(cls.made)))

    def setUp(self):
        super().setUp()
        self.program = fake_program(self.room)
        shutil.copytree(self.made / "session", self.room / "session")
        self.folder = Folder(self.room / "session")
        self.session = runner.session_of(self.folder)
        self.text = self.room / "hosts.toml"
        self.text.write_text(HOSTS)
        self.hosts = host_text.read_hosts(self.text, self.session)

    def spread(self, by=forwarding.SOCAT, begin=None):
        span = spans.Span(self.folder, self.session, self.program, self.hosts, by, begin)
        spans.spread(span)
        return span.places


class Folders(SpanCase):
    def test_what_each_host_gets(self):
        places = self.spread()
        names = {name: {path.name for path in place.iterdir()} for name, place in places.items()}
        shared = {"session.toml", "bar", "forward", "forward.sh", "start.sh"}
        self.assertEqual(names, {"one": shared | {"stream", "key.0", "key.1"}, "two": shared | {"key.2"}})
        self.assertEqual({path.name for path in self.folder.path.iterdir()}, {"hosts", "session.toml", "stream"})
        for place in places.values():
            self.assertEqual((place / "session.toml").read_bytes(), self.folder.session.read_bytes())
            self.assertEqual((place / "bar").read_bytes(), self.program.read_bytes())
        self.assertEqual((places["one"] / "stream").read_bytes(), self.stream.read_bytes())

    def test_nobody_else_can_read_them(self):
        for path in self.spread()["one"].rglob("*"):
            self.assertEqual(stat.S_IMODE(path.stat().st_mode) & 0o077 if path.name != "bar" else 0, 0, path)

    def test_what_forwards(self):
        self.assertEqual(len([*(self.spread()["one"] / "forward").iterdir()]), 4)

    def test_by_nftables(self):
        (table,) = (self.spread(forwarding.NFTABLES)["two"] / "forward").iterdir()
        self.assertEqual(table.read_text(), forwarding.table_of(self.session, self.hosts, self.hosts[1]))

    def test_a_session_is_spread_once(self):
        self.spread()
        (fault,) = spans.faults_of_span(self.folder)
        self.assertIn("/hosts is there already: the session's keys were spread, so make a new session", fault)

    def test_keys_stay_where_folders_cannot_be_written(self):
        with mock.patch("shutil.copyfile", side_effect=OSError("no")), self.assertRaises(OSError):
            self.spread()
        self.assertEqual({path.name for path in self.folder.path.iterdir()}, {"session.toml", "stream", "key.0", "key.1", "key.2"})

    def test_all_files_of_parties_come_back(self):
        places = self.spread()
        for name, file in (("one", "party.0.table"), ("one", "party.1.recording"), ("two", "party.2.played"), ("two", "party.2.1")):
            (places[name] / file).write_text(file)
        spans.gather(self.folder, self.hosts)
        came = {path.name for path in self.folder.path.glob("*.*")} - {"session.toml"}
        self.assertEqual(came, {"key.0", "key.1", "key.2", "party.0.table", "party.1.recording", "party.2.played", "party.2.1"})
        self.assertFalse((self.folder.path / "hosts").exists())

    def test_nothing_is_written_over(self):
        places = self.spread()
        (self.folder.path / "key.0").write_text("of value")
        self.assertIn("key.0 is there already: move it away", self.reasons_of(lambda: spans.gather(self.folder, self.hosts))[0])
        self.assertEqual((self.folder.path / "key.0").read_text(), "of value")
        self.assertTrue((places["one"] / "key.0").exists())

    def test_a_trial_that_fails_leaves_the_folder_as_it_was(self):
        before = {path.name: path.read_bytes() for path in self.folder.path.iterdir()}
        span = spans.Span(self.folder, self.session, self.program, self.hosts, forwarding.SOCAT)
        moved, move = [], spans.move

        def move_one(file, to):
            moved.append(file)
            if len(moved) == 2:
                raise console.Failure("no")
            move(file, to)

        ways = {
            "gossip.runs.namespaces.run_hosts": console.Failure("no"),
            "gossip.networks.spans.write_host": console.Failure("no"),
            "gossip.networks.spans.move": move_one,
        }
        for name, effect in ways.items():
            laid_out = mock.patch("gossip.runs.namespaces.laid_out", return_value=contextlib.nullcontext())
            with self.subTest(name=name), laid_out, mock.patch(name, side_effect=effect), self.assertRaises(console.Failure):
                lines_of(lambda: namespaces.run_trial(span, namespaces.Wire()))
            self.assertEqual({path.name: path.read_bytes() for path in self.folder.path.iterdir()}, before)


class Starts(SpanCase):
    def setUp(self):
        super().setUp()
        self.program.write_text(PARTY)

    def start(self, *words, begin=None):
        self.place = self.place if hasattr(self, "place") else self.spread(begin=begin)["one"]
        return subprocess.run([self.place / "start.sh", *words], capture_output=True, text=True, cwd="/")

    def soon(self):
        return str(int(time.time()) + 5) + "000"

    def said(self, party):
        return (self.place / f"words.key.{party}").read_text().split()

    def test_each_party_is_started_by_its_words(self):
        begin = self.soon()
        ran = self.start(begin)
        self.assertEqual((ran.returncode, ran.stdout, ran.stderr), (0, "party 1 status 0\nparty 0 status 0\n", ""))
        words = ["--session", "session.toml", "--key", "key.1", "--begin", begin, "--played", "party.1.played"]
        self.assertEqual(self.said(1), ["peer", *words, "--recording", "party.1.recording", "--found", "party.1"])
        words = ["--session", "session.toml", "--key", "key.0", "--begin", begin, "--stream", "stream", "--found", "party.0"]
        self.assertEqual(self.said(0), ["broadcaster", *words])

    def test_a_party_that_fails(self):
        self.start("no begin")
        (self.place / "status.key.1").write_text("5")
        ran = self.start(self.soon())
        self.assertEqual((ran.returncode, ran.stdout), (9, "party 1 status 5\nparty 0 status 0\n"))

    def test_a_begin_that_is_written(self):
        begin = self.soon()
        self.assertEqual(self.start(begin=int(begin)).returncode, 0)
        self.assertIn(begin, self.said(0))

    def test_times_that_are_refused(self):
        ran = self.start()
        told = "REFUSED: name when the session begins, in milliseconds of Unix time: ./start.sh BEGIN\n"
        self.assertEqual((ran.returncode, ran.stdout, ran.stderr), (2, "", told))
        self.assertEqual(self.start("18:00").stderr, told)
        now = int(time.time())
        for begin in (now, 1000 * (now - 5), 1000 * (now + 200_000), 1_000_000 * now):
            ran = self.start(str(begin))
            self.assertEqual((ran.returncode, ran.stdout), (2, ""))
            self.assertIn(f"REFUSED: the begin {begin} is ", ran.stderr)
        self.assertFalse([*self.place.glob("words.*")])


class Script(SpanCase):
    def run_span(self, *words):
        return run_script("span-session", self.folder.path, "--hosts", self.text, "--bar", self.program, *words)

    def refused(self, *words):
        status, out, err = self.run_span(*words)
        self.assertEqual((status, out), (2, []), err)
        self.assertTrue((self.folder.path / "key.0").exists())
        return err

    def test_what_is_told(self):
        status, out, err = self.run_span()
        place = self.folder.path / "hosts"
        self.assertEqual((status, err), (0, []))
        self.assertEqual(out[0], "a CASE has up to 7,557 bytes, 6 packets of at most 1,500 bytes")
        self.assertEqual(out[1], f"host one: move {place}/one to 192.0.2.10, run ./forward.sh there by socat, and ./start.sh BEGIN beside it")
        self.assertEqual(out[-1], f"OK: 2 hosts, each with its folder in {place}")

    def test_a_begin(self):
        told = time.strftime("%Y-%m-%dT%H:%M:%S+00:00", time.gmtime(time.time() + 600))
        status, out, _ = self.run_span("--begin", told, "--by", "nftables")
        self.assertEqual((status, out[1][-40:]), (0, "sh there by nftables, and ./start.sh beside it"[-40:]))
        self.assertRegex(out[-2], r"^all parties begin at \d{10}000, in milliseconds of Unix time$")

    def test_times_that_are_refused(self):
        for text in ("18:00", "2030-01-01", "2030-01-01T18:00:00", "1796000000000"):
            told = f"REFUSED: --begin {text} isn't a time: give one with its zone, such as 2030-01-01T18:00:00+00:00"
            self.assertEqual(self.refused("--begin", text), [told])
        self.assertIn("is over, or more than 48 hours ahead", self.refused("--begin", "2020-01-01T00:00:00Z")[0])

    def test_words_that_are_refused(self):
        self.assertEqual(self.refused("--loss", 1), ["REFUSED: --loss is for --try: leave it out"])
        self.assertIn("--loss is 101: take 0 to 100 of a hundred packets", self.refused("--try", "--loss", 101)[0])
        self.assertIn("--mtu is 68: take 576 to 65,535 bytes", self.refused("--mtu", 68)[0])
        self.text.write_text(HOSTS.replace("[2]", "[1]"))
        told = ["party 1 is on one and two: it has one key, which signs on one host alone", "no host has party 2: give each party to a host"]
        self.assertEqual(self.refused()[:2], told)

    def test_a_session_that_cannot_be_run(self):
        self.folder.key(2).unlink()
        self.assertIn("has no key.2: make a new session", self.refused()[0])

    def test_a_second_time(self):
        self.assertEqual(self.run_span()[0], 0)
        status, _, err = self.run_span()
        self.assertEqual(status, 2)
        self.assertIn("/hosts is there already: the session's keys were spread", err[0])


if __name__ == "__main__":
    unittest.main()
