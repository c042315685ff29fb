"""How runs in trouble are started, and what is noted of them."""
import os
import pathlib
import random
import signal
import subprocess
import sys
import tempfile
import threading
import time
import unittest
from unittest import mock

from support import RoomCase, fake_program, lines_of, run_script

from gossip.programs import bar
from gossip.programs.bar import Ran, run_words
from gossip.runs import parties
from gossip.sessions.session_folder import free_port
from gossip.trouble import clocks, edges, hazards
from gossip.trouble.edges import Done, Look
from gossip.trouble.hazards import Skipped

FULL = {"played": b"the whole", "found.table": b""}
WHOLE = Done(Ran(0, b"", b""), FULL, b"fresh", b"spent = true")


def ran(status, said=b"", files=FULL, key=b"fresh"):
    return Done(Ran(status, b"", said), files, b"fresh", key)


class Looks(unittest.TestCase):
    def faults(self, done, *statuses, said=True):
        look = Look()
        look.take("peer", done, WHOLE, *statuses, said=said)
        return look.faults

    def test_what_is_as_promised(self):
        self.assertEqual(self.faults(ran(0), 0), [])
        self.assertEqual(self.faults(ran(3, b"bar: file failed\n", {"played": b"the "}), 3), [])
        self.assertEqual(self.faults(ran(3, b"bar: file failed\n", {}), 6, 3), [])
        self.assertEqual(self.faults(ran(143, files={"played": b""}), 143), [])
        self.assertEqual(self.faults(ran(8, b"bar: input refused: recording NoEnd\n", {}), 8), [])
        self.assertEqual(self.faults(ran(9, b"bar: no memory\nbar: child failed\n", {}), 9), [])

    def test_statuses_that_are_others(self):
        told = ["peer: status 70 (there is no memory left) in place of 3 or 6"]
        self.assertEqual(self.faults(ran(70, b"bar: no memory\n", {}), 3, 6), told)

    def test_lines_that_are_others(self):
        self.assertEqual(self.faults(ran(3, b"", {}), 3), ["peer: with status 3 it says '' in place of `bar: file failed`"])
        self.assertEqual(self.faults(ran(3, b"", {}), 3, said=False), [])
        self.assertEqual(self.faults(ran(0, b"bar: usage\n"), 0), ["peer: with status 0 it says 'bar: usage\\n'"])
        twice = "peer: with status 3 it says 'bar: file failed\\nmore\\n' in place of `bar: file failed`"
        self.assertEqual(self.faults(ran(3, b"bar: file failed\nmore\n", {}), 3), [twice])

    def test_files_that_are_no_fronts(self):
        told = ["peer: it leaves the file other, which a whole run doesn't", "peer: the file played isn't a prefix of that of a whole run"]
        self.assertEqual(self.faults(ran(143, files={"played": b"whole", "other": b""}), 143), told)

    def test_runs_that_end_well_leave_all(self):
        told = ["peer: it ends well and leaves other files than a whole run"]
        self.assertEqual(self.faults(ran(0, files={"played": b"the whole"}), 0), told)
        self.assertEqual(self.faults(ran(1, files=FULL | {"played": b"the"}), 1), ["peer: it ends well and cuts the file played"])

    def test_keys(self):
        for key in (b"fresh", b"spent = true"):
            self.assertEqual(self.faults(ran(3, b"bar: file failed\n", {}, key), 3), [])
        told = ["peer: the key file is neither as it was nor the spent one"]
        for key in (b"", b"fres", b"spent"):
            self.assertEqual(self.faults(ran(3, b"bar: file failed\n", {}, key), 3), told)

    def test_a_folder_that_could_not_be_mounted_skips_the_case(self):
        with self.assertRaises(Skipped) as skipped:
            Look().take("peer", ran(125, b"mount: not\npermitted\n", {}), WHOLE, 3)
        self.assertEqual(str(skipped.exception), "nothing can be mounted: mount: not permitted")

    def test_what_is_told(self):
        look = Look()
        for status in (0, 70, 0):
            look.end("peer", ran(status).ran, (0, 70), said=False)
        look.end("replay", ran(0).ran, (0,))
        look.notes.append("over at once")
        self.assertEqual(look.told, "peer 0 (2) and 70 (1); replay 0; over at once")


class Hazards(RoomCase):
    def run_behind(self, front, *line):
        """Runs a line of a shell behind words."""
        first, *rest = [*map(str, front), "sh", "-c", *line]
        return run_words(first, rest)

    def mounted(self, call):
        """The words of a hazard with a mount, or the test is skipped where nothing can be mounted."""
        try:
            return call()
        except Skipped as reason:
            self.skipTest(str(reason))

    def test_a_small_disk(self):
        place, kept = self.room / "place", self.room / "kept"
        for folder in (place, kept):
            folder.mkdir()
        front = self.mounted(lambda: hazards.on_small_disk(place, kept, "4k"))
        done = self.run_behind(front, f'head -c 9000 /dev/zero > "{place}/file"')
        self.assertNotEqual(done.status, 0)
        self.assertEqual((kept / "file").stat().st_size, 4096)
        self.assertEqual([*place.iterdir()], [])

    def test_a_full_disk(self):
        place, kept = self.room / "place", self.room / "kept"
        for folder in (place, kept):
            folder.mkdir()
        front = self.mounted(lambda: hazards.on_small_disk(place, kept, "4k", True))
        self.assertEqual(self.run_behind(front, f': > "{place}/file" && ! echo word > "{place}/file"; exit 7').status, 7)
        self.assertEqual((kept / "file").read_bytes(), b"")

    def test_a_folder_that_takes_nothing(self):
        front = self.mounted(lambda: hazards.on_read_only(self.room))
        self.assertNotEqual(self.run_behind(front, f'echo word > "{self.room}/file"').status, 0)
        self.assertFalse((self.room / "file").exists())

    def test_limits(self):
        self.assertEqual(self.run_behind(hazards.limited("nofile", 9), "exit $(ulimit -n)").status, 9)
        large = ["exec head -c 9000 /dev/zero > \"$0\"", str(self.room / "file")]
        self.assertEqual(self.run_behind(hazards.limited("fsize", 100), *large).status, 128 + signal.SIGXFSZ)
        front = [*hazards.limited("fsize", 100), *hazards.without_signal("XFSZ")]
        self.assertEqual(self.run_behind(front, *large).status, 1)
        self.assertEqual((self.room / "file").stat().st_size, 100)

    def test_bytes_that_are_changed(self):
        draw, data = random.Random(7), bytes(range(40))
        all_changed = [edges.changed(draw, data) for _ in range(100)]
        self.assertNotIn(data, all_changed)
        lengths = [len(it) for it in all_changed]
        self.assertTrue(min(lengths) < len(data) < max(lengths) and len(data) in lengths)

    def test_tools_that_are_missing(self):
        with mock.patch("shutil.which", return_value=None), self.assertRaises(Skipped) as skipped:
            hazards.limited("nofile", 9)
        self.assertEqual(str(skipped.exception), "there is no `prlimit`")

    def test_a_pipe_that_another_file_replaces(self):
        place = self.room / "recording"
        os.mkfifo(place)
        writer = threading.Thread(target=edges.read_slowly, args=(place, b"front", b" and rest"), daemon=True)
        writer.start()
        self.assertEqual(place.read_bytes(), b"front and rest")
        writer.join(timeout=10)
        self.assertEqual(place.read_bytes(), b"another file")


class Clocks(RoomCase):
    def test_a_clock_that_is_set(self):
        try:
            clock = clocks.Clock(self.room)
        except Skipped as reason:
            self.skipTest(str(reason))
        line = "import sys, time\nfor line in sys.stdin: print(int(time.time()), flush=True)"
        pipes = {"stdin": subprocess.PIPE, "stdout": subprocess.PIPE}
        with bar.running([sys.executable, "-c", line], env=clock.environment, **pipes) as process:
            for seconds in (0, 3600, -3600, 0):
                clock.set(seconds)
                process.stdin.write(b"now\n")
                process.stdin.flush()
                self.assertLess(abs(int(process.stdout.readline()) - time.time() - seconds), 60)
            clock.require(process.pid)
            process.stdin.close()
        with self.assertRaises(Skipped):
            clock.require(os.getpid())


class Parties(RoomCase):
    def test_parties_are_stopped_and_ended(self):
        program = self.room / "party"
        program.write_text("#!/bin/sh\nsleep 0.5\necho done $PLACE\n")
        program.chmod(0o755)
        folder, session = self.make_session(fake_program(self.room))
        ways = {1: parties.Way(("env", "PLACE=here")), 2: parties.Way(environment={"PATH": "/usr/bin:/bin", "PLACE": "there"})}
        with parties.started(folder, session, program, 0, ways) as live:
            live.sleep(1, 1, 2)
            live.send(signal.SIGKILL, 0)
            ends = live.ends()
        told = {party: (it.status, it.printed) for party, it in ends.items()}
        self.assertEqual(told, {1: (0, b"done here\n"), 2: (0, b"done there\n"), 0: (137, b"")})

    def test_parties_that_run_are_killed_behind_the_block(self):
        program = self.room / "party"
        program.write_text("#!/bin/sh\nexec sleep 60\n")
        program.chmod(0o755)
        folder, session = self.make_session(fake_program(self.room))
        with parties.started(folder, session, program, 0) as live:
            processes = live.processes
        self.assertEqual({process.returncode for process in processes.values()}, {-signal.SIGKILL})


class Benches(RoomCase):
    @classmethod
    def setUpClass(cls):
        room = tempfile.TemporaryDirectory()
        cls.addClassCleanup(room.cleanup)
        program = fake_program(pathlib.Path(room.name), live=True, printed="", packed=["00", "packed 1 bytes"])
        ports = range(free_port(9), 65_536, 3)
        with mock.patch.dict(edges.NUMBERS, rounds=1, lms=5, tick_ms=10):
            cls.bench = lines_of(lambda: edges.Bench(pathlib.Path(room.name), program, ports))[0]

    def test_parties_of_a_live_session(self):
        def disturb(live):
            live.await_tick(8)
            live.send(signal.SIGTERM, 2)

        folder, ended = self.bench.live("term", disturb)
        look = Look()
        self.bench.look_at(look, folder, ended, {2: (143,)})
        self.assertEqual((look.faults, look.told), ([], "party 0 0; party 1 0; party 2 143"))
        folder.key(0).write_text("version = 1\n")
        folder.played(1).write_bytes(b"other")
        folder.recording(2).write_bytes(folder.recording(2).read_bytes() + b"\0")
        self.bench.look_at(look, folder, ended)
        self.assertTrue(look.faults[0].startswith("party 0: its key file is cut: id is missing; "), look.faults)
        self.assertRegex(look.faults[1], "^party 1: the replay plays [0-9]+ bytes, the peer played 5, and they differ$")
        self.assertEqual(look.faults[2], "party 2: status 143 (SIGTERM ended it) in place of 0")
        self.assertEqual(look.faults[3], "party 2: its recording has an end")

    def test_commands(self):
        peer, look = self.bench.commands["peer"], Look()
        whole = self.bench.whole["peer"]
        self.assertEqual((whole.ran.status, sorted(whole.files), whole.is_key_changed), (0, ["found.table", "played", "recording"], True))
        look.take("peer", self.bench.do(peer, played=self.room), whole, 3)
        look.take("peer", self.bench.do(peer, front=lambda room: hazards.limited("fsize", 3000)), whole, 3)
        self.assertEqual((look.faults, look.told), ([], "peer 3"))
        self.assertEqual(peer.inputs, ["session", "key"])


class Scripts(RoomCase):
    def test_programs_that_are_missing(self):
        for script in ("try-edge", "try-hostile"):
            status, out, err = run_script(script, "--bar", self.room / "none")
            self.assertEqual((status, out), (2, []))
            self.assertIn("REFUSED: there is no program at", err[-1])

    def test_numbers(self):
        status, _, err = run_script("try-hostile", "--count", 0, "--seconds", -1)
        self.assertEqual(status, 2)
        self.assertEqual(err[:2], ["--count is 0: take 1 or more", "--seconds is -1.0: take more than 0 and less than 3,600"])

    def test_a_session_that_is_not_run(self):
        program = fake_program(self.room, status={"peer": 70, "broadcaster": 70})
        status, out, _ = run_script("try-hostile", "--short", "--bar", program)
        self.assertEqual((status, out), (1, ["FAILED: the session that nobody attacks ends with the statuses 70"]))


if __name__ == "__main__":
    unittest.main()
