"""Sessions that are run by a program that stands for `bar`: what is refused, the causes of failures, and outcomes."""
import argparse
import errno
import pathlib
import shutil
import signal
import tempfile
import unittest
from unittest import mock

from support import NUMBERS, RoomCase, bound, datagram, fake_program, lines_of, run_script

from gossip.formats.files import KEYREQ, room_of
from gossip.programs.bar import Status
from gossip.reports import audits, failures
from gossip.reports.run_data import Run
from gossip.runs import runner
from gossip.scripts import console
from gossip.sessions import making, session_folder


class SessionCase(RoomCase):
    """A test with a copy of a session that was made once."""

    @classmethod
    def setUpClass(cls):
        room = tempfile.TemporaryDirectory()
        cls.addClassCleanup(room.cleanup)
        cls.made = pathlib.Path(room.name)
        (cls.made / "stream").write_bytes(b"stream" * 100)
        wanted = making.Wanted(cls.made / "session", cls.made / "stream", NUMBERS)
        lines_of(lambda: making.make(wanted, fake_program(cls.made)))

    def setUp(self):
        super().setUp()
        # what other programs take is no matter of these tests
        counts = mock.patch("gossip.runs.watching.COUNTS", self.room / "none")
        counts.start()
        self.addCleanup(counts.stop)
        shutil.copytree(self.made / "session", self.room / "session")
        self.folder = session_folder.Folder(self.room / "session")
        self.session = runner.session_of(self.folder)

    def change_key(self, party, old, new):
        path = self.folder.key(party)
        path.write_text(path.read_text().replace(old, new))


class Refusals(SessionCase):
    def refused(self, kill=None, folder=None):
        return self.reasons_of(lambda: runner.accept(folder or self.folder, kill))

    def test_a_session_that_can_be_run(self):
        self.assertEqual(runner.accept(self.folder, 2), self.session)

    def test_a_folder_that_is_none(self):
        (reason,) = self.refused(folder=session_folder.Folder(self.room / "none"))
        self.assertIn("none/session.toml can't be read: No such file or directory; make a new session", reason)
        (reason,) = self.refused(folder=session_folder.Folder(self.stream))
        self.assertIn("stream/session.toml can't be read: Not a directory; make a new session", reason)

    def test_a_text_that_is_none(self):
        self.folder.session.write_text("version = 1")
        self.assertIn("isn't the text of a session: it has no tables [[peer]]; make a new session", self.refused()[0])

    def test_files_that_are_missing(self):
        self.folder.key(2).unlink()
        self.folder.stream.unlink()
        self.assertEqual(len(self.refused()), 1)
        self.assertIn("has no key.2 and stream: make a new session", self.refused()[0])

    def test_keys_that_are_spent(self):
        self.change_key(2, "spent = false", "spent = true")
        self.assertIn(f"spent, since the session was run: key.2 in {self.folder.path}; a key serves one session", self.refused()[0])
        for party in (0, 1):
            self.change_key(party, "spent = false", "spent = true")
        self.assertIn("spent, since the session was run: all keys in ", self.refused()[0])

    def test_keys_that_are_others(self):
        self.change_key(0, "lms = 5", "lms = 6")
        self.change_key(1, "party = 1", "party = 2")
        self.change_key(2, "spent = false", "spent")
        reasons = self.refused()
        self.assertEqual(len(reasons), 3)
        self.assertIn("key.1 isn't a key of this session: it has another party than party 1 of the session; make", reasons[0])
        self.assertIn("key.2 isn't a key of this session: it isn't valid TOML", reasons[1])
        self.assertIn("key.0 isn't a key of this session: it has another lms than party 0 of the session; make", reasons[2])

    def test_a_stream_larger_than_its_room(self):
        self.folder.stream.write_bytes(bytes(self.session.room + 1))
        self.assertIn("the stream has 2,045 bytes, and 1 round of 2 updates have room for 2,044: take 2 rounds", self.refused()[0])
        self.folder.stream.write_bytes(bytes(self.session.room))
        self.assertEqual(runner.accept(self.folder), self.session)

    def test_results_of_another_run(self):
        self.folder.recording(1).write_bytes(b"of value")
        self.assertIn("has party.1.recording of another run: move these away", self.refused()[0])

    def test_a_peer_that_is_none(self):
        for kill in (-1, 0, 3):
            self.assertEqual(self.refused(kill), (f"--kill {kill} names no peer: take one of 1 to 2",))

    def test_ports_that_are_taken(self):
        with bound(self.session.port), bound(self.session.port + 2):
            (reason,) = self.refused()
        told = f"these ports are taken: {self.session.port} of party 0 and {self.session.port + 2} of party 2; end the program"
        self.assertTrue(reason.startswith(told), reason)

    def test_all_faults_are_told(self):
        self.folder.stream.write_bytes(bytes(room_of(2, 2)))
        self.change_key(1, "spent = false", "spent = true")
        with bound(self.session.port + 1):
            self.assertEqual(len(self.refused(9)), 4)


class Causes(SessionCase):
    def cause(self, party, status):
        return failures.cause_of(self.folder, self.session, party, status)

    def test_a_file_that_is_in_the_way(self):
        self.folder.played(2).mkdir()
        self.assertEqual(self.cause(2, Status.FILE), f"{self.folder.played(2)} can't be written: Is a directory")
        self.assertEqual(self.cause(1, Status.FILE), "a file can't be read or written")
        table = self.folder.path / "party.0.table"
        table.mkdir()
        self.assertEqual(self.cause(0, Status.FILE), f"{table} can't be written: Is a directory")

    def test_a_file_that_is_missing(self):
        self.folder.stream.unlink()
        self.assertEqual(self.cause(0, Status.FILE), f"{self.folder.stream} can't be read: No such file or directory")
        self.assertEqual(self.cause(1, Status.FILE), "a file can't be read or written")

    def test_a_disk_that_is_full(self):
        for number, told in ((errno.ENOSPC, "the disk is full"), (errno.EROFS, f"nothing can be written in {self.folder.path}: Read-only")):
            file = mock.MagicMock()
            file.__enter__.return_value.write.side_effect = OSError(number, "Read-only")
            with mock.patch("tempfile.TemporaryFile", return_value=file):
                self.assertEqual(self.cause(1, Status.FILE), told)

    def test_keys(self):
        self.assertEqual(self.cause(1, Status.KEY), "its key isn't this session's")
        self.change_key(1, "spent = false", "spent = true")
        self.assertEqual(self.cause(1, Status.KEY), "its key was spent before")
        self.folder.key(1).write_text("")
        self.assertEqual(self.cause(1, Status.KEY), "its key is refused: its version is missing")

    def test_ports(self):
        self.assertEqual(self.cause(1, Status.LINK), "the link failed")
        with bound(self.session.port + 1):
            self.assertEqual(self.cause(1, Status.LINK), f"port {self.session.port + 1} is taken")

    def test_streams(self):
        self.folder.stream.write_bytes(bytes(5000))
        self.assertTrue(self.cause(0, Status.INPUT).startswith("the stream has 5,000 bytes, and 1 round of 2 updates have room for 2,044"))
        self.assertEqual(self.cause(1, Status.INPUT), "an input is refused")

    def test_memory_and_signals(self):
        self.assertEqual(self.cause(1, Status.MEMORY), "there is no memory left")
        self.assertEqual(self.cause(1, 139), "SIGSEGV ended it")

    def causes(self, statuses, status, kill=None):
        return [*failures.causes_of(self.folder, self.session, statuses, status, kill)]

    def test_all_is_well(self):
        self.folder.recording(1).touch()
        self.folder.recording(2).touch()
        self.assertEqual(self.causes({1: 0, 2: 0, 0: 0}, 0), [])
        self.assertEqual(self.causes({1: 0, 2: 137, 0: 0}, 9, 2), [])

    def test_a_party_that_nobody_was_to_kill(self):
        self.folder.recording(1).touch()
        told = ["party 1 was to be killed, and ended before", "party 2 status 137: SIGKILL ended it"]
        self.assertEqual(self.causes({1: 0, 2: 137, 0: 0}, 9, 1), told)

    def test_a_party_that_ended_before_it_was_killed(self):
        self.folder.recording(1).touch()
        told = ["party 2 was to be killed, and ended before", "party 2 status 70: there is no memory left"]
        self.assertEqual(self.causes({1: 0, 2: 70, 0: 0}, 9, 2), told)

    def test_parties_without_a_status_or_a_recording(self):
        self.folder.recording(1).touch()
        self.assertEqual(self.causes({1: 0}, 9), ["there is no status of party 2 and party 0"])
        self.assertEqual(self.causes({1: 0, 2: 0, 0: 0}, 0), ["party 2 left no recording"])
        told = ["there is no status of any party", "the command `session` status 4: the session's text is refused"]
        self.assertEqual(self.causes({}, 4), told)


class Outcomes(SessionCase):
    def run_session(self, kill=None, **ways):
        """Runs the session: the outcome, and the lines of standard output and standard error."""
        program = fake_program(self.room, **ways)
        return lines_of(lambda: runner.run_session(self.folder, self.session, program, kill))

    def test_a_session_that_goes_well(self):
        sent = datagram(KEYREQ, 1, 2, b"\x00\x00\x00\x01\x00\x00", self.session.id).hex()
        outcome, out, err = self.run_session(sent={"1": [sent]}, taken={"2": [sent, sent]})
        parties = ["party 1 status 0 played 6 of 600 bytes, 1.0%", "party 2 status 0 played 6 of 600 bytes, 1.0%", "party 0 status 0"]
        audit, replays = "the audit finds no exchange", "all 2 replays agree; peers sent each other 1 datagrams and took 2"
        self.assertEqual(out, [*parties, audit, replays])
        told = f"OK: all parties ended with status 0, all replays agree, page {self.folder.page}"
        self.assertEqual((outcome.status, *outcome.lines), (0, told))
        self.assertTrue(self.folder.page.read_text().startswith("<!doctype html>"))
        self.assertEqual(err[-1], "replays: 2 of 2")
        self.assertRegex(err[0], "^the session begins in [0-9]+ s$")
        self.assertIn("spent, since the session was run: all keys", self.reasons_of(lambda: runner.accept(self.folder))[0])

    def test_a_run_is_written_as_data_and_drawn_again(self):
        self.run_session()
        run = Run.of_json(self.folder.data.read_text())
        self.assertEqual([(peer.peer, peer.status, peer.bytes_played, peer.ticks) for peer in run.peers], [(1, 0, 6, 1), (2, 0, 6, 1)])
        self.assertEqual(run.audit["line"], "the audit finds no exchange")
        pages = self.folder.page.read_text()
        for path in (self.folder.data, self.folder.page):
            path.unlink()
        status, out, err = run_script("draw-session", self.folder.path, "--bar", self.room / "bar")
        self.assertEqual((status, out[-1]), (0, f"OK: all replays agree, page {self.folder.page}"), err)
        self.assertEqual(self.folder.page.read_text(), pages)
        again = Run.of_json(self.folder.data.read_text())
        self.assertEqual([peer.bytes_played for peer in again.peers], [6, 6])
        words = "draw-session", self.folder.path, "--bar", self.room / "bar"
        picture = self.room / "picture.svg"
        picture.write_text("another file")
        status, _, err = run_script(*words, "--picture", picture)
        told = f"REFUSED: {picture} is there and isn't a picture of a run: name another file, or move it away"
        self.assertEqual((status, err, picture.read_text()), (2, [told], "another file"))
        for text in ("[]", "{}", '{"liars": []}', '{"liars": {"one": "key"}}', "no JSON"):
            self.folder.network.write_text(text)
            status, _, err = run_script(*words)
            self.assertEqual((status, err[-1]), (2, f"REFUSED: {self.folder.network} doesn't describe a network: move it away"))
        self.folder.network.write_text('{"liars": {"1": "\\u001b[2J"}}')
        status, out, err = run_script(*words)
        self.assertEqual((status, "\x1b" in "".join(out + err)), (2, False), err)

    def test_a_session_that_never_ran_is_not_drawn(self):
        status, out, err = run_script("draw-session", self.folder.path)
        told = f"REFUSED: {self.folder.path} has no recording: run the session by tools/run-session first"
        self.assertEqual((status, out, err), (2, [], [told]))

    def test_a_party_that_fails(self):
        with bound(self.session.port + 2):
            outcome, out, _ = self.run_session(statuses={"2": 6})
        self.assertEqual((outcome.status, *outcome.lines), (1, f"FAILED: party 2 status 6: port {self.session.port + 2} is taken"))
        self.assertEqual(out[1], "party 2 status 6")
        lines = ["the recordings weren't audited: party 2 left no recording"]
        lines += ["all 1 replays agree; peers sent each other 0 datagrams and took 0", f"page {self.folder.page}"]
        self.assertEqual(out[3:], lines)
        self.assertIn("The recordings weren’t audited: party 2 left no recording.", self.folder.page.read_text())

    def test_a_peer_that_is_killed(self):
        outcome, out, _ = self.run_session(kill=2, statuses={"2": 137})
        self.assertEqual(out[1], "party 2 status 137")
        told = f"OK: party 2 was killed, the others ended with status 0, all replays agree, page {self.folder.page}"
        self.assertEqual((outcome.status, *outcome.lines), (0, told))

    def test_nobody_is_killed(self):
        outcome, _, _ = self.run_session(kill=2)
        self.assertEqual(outcome.lines, ("FAILED: party 2 was to be killed, and ended before",))

    def test_replays_that_differ(self):
        outcome, out, _ = self.run_session(replayed="plaid", statuses={"2": 70})
        causes = "party 2 status 70: there is no memory left; party 1: the replay plays 5 bytes, the peer played 6, and they differ"
        self.assertEqual((outcome.status, *outcome.lines), (1, f"FAILED: {causes}"))
        self.assertEqual(out[-2], "0 of 1 replays agree; peers sent each other 0 datagrams and took 0")

    def test_datagrams_that_were_not_sent(self):
        strange = datagram(KEYREQ, 1, 2, b"\x00\x00\x00\x01\x00\x00", self.session.id).hex()
        outcome, _, _ = self.run_session(taken={"2": [strange]})
        self.assertEqual(outcome.lines, ("FAILED: party 2: took 1 datagram that party 1 didn't send",))

    def test_nobody_leaves_a_recording(self):
        outcome, out, _ = self.run_session(status={"session": 4})
        told = "there is no status of any party; the command `session` status 4: the session's text is refused"
        self.assertEqual((outcome.status, *outcome.lines), (1, f"FAILED: {told}"))
        audit = "the recordings weren't audited: party 1 and party 2 left no recording"
        self.assertEqual(out, [audit, "there is no page, since nobody left a recording that is replayed"])

    def test_exchanges_that_are_balanced(self):
        exchanges = ["exchange 1 0 1 2 cases 3 3 keys 1 1", "exchange 1 1 2 1 cases 1 0 keys 0 0"]
        outcome, out, _ = self.run_session(audited=[*exchanges, "balanced"])
        self.assertEqual((outcome.status, out[3]), (0, "the audit finds all 2 exchanges balanced"))
        told = "An auditor, who has the public keys alone, read the 2 recordings and found all 2 exchanges balanced: "
        self.assertIn(told, self.folder.page.read_text())

    def test_an_exchange_that_is_unbalanced(self):
        outcome, out, _ = self.run_session(audited=["exchange 1 0 1 2 cases 3 0 keys 1 1", "unbalanced 1 0 1 2"])
        told = "the audit finds exchange 1 0 1 2 unbalanced: peer 1 gave its key and has no briefcase of peer 2"
        self.assertEqual((outcome.status, out[3], *outcome.lines), (1, told, f"FAILED: {told}"))
        self.assertIn("the balanced exchange of round 1 that peer 1 started with peer 2 unbalanced: ", self.folder.page.read_text())

    def test_an_audit_that_is_refused(self):
        outcome, out, _ = self.run_session(status={"audit": 70}, said="bar: no memory\n")
        told = "the recordings weren't audited: status 70: there is no memory left (bar: no memory)"
        self.assertEqual((outcome.status, out[3], *outcome.lines), (1, told, f"FAILED: {told}"))

    def test_an_earlier_program_audits_nothing(self):
        outcome, out, _ = self.run_session(status={"audit": 2}, said="bar: usage\n")
        told = "the recordings weren't audited: the program has no command `audit`, as earlier ones have none"
        self.assertEqual((outcome.status, out[3]), (0, told))

    def test_a_recording_that_was_cut_is_audited_up_to_its_last_whole_entry(self):
        front = b"BARL\x01" + bytes(10) + b"\x01"
        self.folder.recording(1).write_bytes(front + b"\x02\x00\x05cut")
        self.folder.recording(2).write_bytes(front + b"\x00")
        program = fake_program(self.room, audited=["exchange 1 0 1 2 cases 1 1 keys 1 1", "balanced"])
        audit = audits.audit_of(self.folder, self.session, program)
        self.assertEqual((audit.line, audit.failures), ("the audit finds the one exchange balanced", []))
        self.assertEqual(self.folder.recording(1).read_bytes(), front + b"\x02\x00\x05cut")

    def test_what_was_lost_is_told_before_the_last_line(self):
        with mock.patch("gossip.runs.runner.Watch") as watch:
            watch.return_value.drops, watch.return_value.taken = {2: 31}, None
            watch.return_value.looks = lambda ended: ended.wait()
            outcome, out, _ = self.run_session()
        self.assertEqual(out[-1], "party 2: its receive buffer ran over, 31 datagrams were lost; a longer tick (--tick-ms) helps")
        self.assertEqual(outcome.status, 0)

    def test_a_page_that_cannot_be_written(self):
        self.folder.page.mkdir()
        outcome, _, _ = self.run_session()
        self.assertEqual((outcome.status, *outcome.lines), (1, f"FAILED: {self.folder.page} can't be written: Is a directory"))


class Ends(unittest.TestCase):
    """How a main ends, by its outcome or by what it raises."""

    def tearDown(self):
        for number in console.SIGNALS:
            signal.signal(number, self.before[number])

    def setUp(self):
        self.before = {number: signal.getsignal(number) for number in console.SIGNALS}

    def end(self, main):
        """The exit status, and the lines of standard output and standard error."""
        outcome = console.outcome_of(main, None)
        return lines_of(lambda: console.tell(outcome))

    def raises(self, error):
        def main(_):
            raise error

        return self.end(main)

    def test_outcomes(self):
        self.assertEqual(self.end(lambda _: console.well("it is done")), (0, ["OK: it is done"], []))
        self.assertEqual(self.end(lambda _: console.failed("one", "other")), (1, ["FAILED: one; other"], []))

    def test_refusals(self):
        self.assertEqual(self.raises(console.Refusal("why: do this")), (2, [], ["REFUSED: why: do this"]))
        lines = ["one", "other", "REFUSED: nothing was done, for the 2 reasons above"]
        self.assertEqual(self.raises(console.Refusal("one", "other")), (2, [], lines))
        self.assertEqual(self.raises(console.Refusal("why", status=101)), (101, [], ["REFUSED: why"]))

    def test_failures(self):
        self.assertEqual(self.raises(console.Failure("why")), (1, ["FAILED: why"], []))
        self.assertEqual(self.raises(OSError(errno.ENOSPC, "No space", "file")), (1, ["FAILED: No space: file"], []))
        self.assertEqual(self.raises(console.Stopped("SIGINT")), (1, ["FAILED: stopped by SIGINT"], []))
        status, out, _ = self.raises(KeyError("what"))
        self.assertEqual(status, 1)
        self.assertRegex("\n".join(out), r"^FAILED: KeyError in test_running.py, line [0-9]+: 'what'$")

    def test_a_signal_stops_the_main_once(self):
        def main(_):
            try:
                signal.raise_signal(signal.SIGTERM)
            finally:
                signal.raise_signal(signal.SIGINT)

        self.assertEqual(self.end(main), (1, ["FAILED: stopped by SIGTERM"], []))

    def test_words_in_a_row(self):
        self.assertEqual([console.listed(words) for words in ([1], [1, 2], [1, 2, 3])], ["1", "1 and 2", "1, 2 and 3"])
        self.assertEqual([console.counted(count, "peer") for count in (0, 1, 2000)], ["0 peers", "1 peer", "2,000 peers"])

    def test_measurements_that_are_compared(self):
        self.assertEqual(console.compared({"now": 0.5}, ".2f", "s"), "0.50 s")
        self.assertEqual(console.compared({"before": 2000, "now": 500}, ",", "bytes"), "before 2,000 bytes, now 500 bytes, ratio 0.25")
        self.assertEqual(console.compared({"before": -0.1, "now": 2}, ".1f", "ms"), "before -0.1 ms, now 2.0 ms, no ratio")
        self.assertEqual(console.compared({"before": 0.1, "now": 2}, ".1f", "ms", 0.2), "before 0.1 ms, now 2.0 ms, no ratio")

    def test_words_that_count(self):
        words = argparse.Namespace(times=0, count=1, flood=None)
        self.assertEqual([*console.faults_of_counts(words, "count", "flood", "times")], ["--times is 0: take 1 or more"])

    def test_files_that_are_required(self):
        here = pathlib.Path(__file__)
        console.require([here], "look")
        with self.assertRaises(console.Refusal) as refused:
            console.require([here, here / "a", here / "b"], "look")
        self.assertEqual(str(refused.exception), f"{here}/a and {here}/b are missing: look")


if __name__ == "__main__":
    unittest.main()
