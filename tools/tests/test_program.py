"""The program's words and statuses, and the processes that are started and killed."""
import os
import signal
import subprocess
import sys
import threading
import time
import unittest
from unittest import mock

from support import RoomCase, fake_program, has_ended, is_running, lines_of, wait_for

from gossip.programs import bar
from gossip.programs.bar import Status
from gossip.scripts import console


class Words(unittest.TestCase):
    def test_options_stand_in_their_order(self):
        words = bar.words_of("peer", found="f", played="p", recording="r", begin=5, key="k", session="s", stream="t")
        self.assertEqual(" ".join(words), "peer --session s --key k --begin 5 --played p --recording r --found f")

    def test_an_option_that_is_missing(self):
        with self.assertRaises(KeyError):
            bar.words_of("simulate")


class Statuses(unittest.TestCase):
    def test_statuses_of_the_program(self):
        self.assertEqual([int(status) for status in Status], [*range(10), 70])
        self.assertEqual(bar.told_of_status(70), "there is no memory left")

    def test_signals(self):
        self.assertEqual(bar.told_of_status(137), "SIGKILL ended it")
        self.assertEqual(bar.told_of_status(134), "SIGABRT ended it")

    def test_other_statuses(self):
        for status in (10, 71, 127, 128, 255):
            self.assertEqual(bar.told_of_status(status), "the program has no such status")

    def test_how_a_command_ended(self):
        words = ["-c", "import os, sys; print('out'); print('err', file=sys.stderr); sys.stdout.flush(); os.kill(os.getpid(), 15)"]
        ran = bar.run_words(sys.executable, words)
        self.assertEqual((ran.status, ran.printed, ran.said), (128 + signal.SIGTERM, b"out\n", b"err\n"))
        self.assertEqual(ran.told, "status 143: SIGTERM ended it (err)")


class Processes(RoomCase):
    def parent(self, file):
        """The words of a process that starts another one, and writes its number to a file."""
        return ["sh", "-c", f"sleep 60 & echo $! > {file}.new; mv {file}.new {file}; wait"]

    def number_in(self, file):
        """The number that is written to a file."""
        self.assertTrue(wait_for(file.exists))
        return int(file.read_text())

    def test_a_process_takes_its_children_with_it(self):
        file = self.room / "child"
        with self.assertRaises(console.Stopped), bar.running(self.parent(file)) as process:
            child = self.number_in(file)
            self.assertTrue(is_running(child))
            raise console.Stopped("SIGINT")
        self.assertEqual((has_ended(child), process.returncode), (True, -signal.SIGKILL))

    def test_a_call_that_fails_ends_the_others(self):
        files = [self.room / name for name in ("first", "second")]

        def call(file):
            if file is None:
                for started in files:
                    self.number_in(started)
                raise console.Failure("it fails")
            with bar.running(self.parent(file)) as process:
                return process.wait()

        with self.assertRaises(console.Failure):
            bar.spread(call, [*files, None, None, None, None], at_once=3)
        self.assertEqual([has_ended(self.number_in(file)) for file in files], [True, True])

    def other_thread_takes_a_signal(self):
        """A signal that this process was sent and another thread than the main one took."""
        before = signal.getsignal(signal.SIGTERM)
        self.addCleanup(signal.signal, signal.SIGTERM, before)
        signal.signal(signal.SIGTERM, console.stop)
        self.enterContext(mock.patch.object(console, "SIGNALS", (signal.SIGTERM,)))
        return threading.Timer(0.3, lambda: signal.pthread_kill(threading.get_ident(), signal.SIGTERM))

    def assert_stopped(self, call):
        """A call in the main thread is stopped soon by a signal that another thread takes."""
        timer, began = self.other_thread_takes_a_signal(), time.monotonic()
        timer.start()
        with self.assertRaises(console.Stopped):
            call()
        self.assertLess(time.monotonic() - began, 20)
        timer.join()

    def test_a_signal_that_another_thread_takes_stops_a_command(self):
        self.assert_stopped(lambda: bar.run_words("sleep", ["60"]))

    def test_a_signal_that_another_thread_takes_stops_calls(self):
        self.assert_stopped(lambda: bar.spread(lambda seconds: bar.run_words("sleep", [seconds]), ["60", "60"]))

    def test_a_signal_that_another_thread_takes_stops_reading(self):
        def read():
            with bar.running(["sleep", "60"], stdout=subprocess.PIPE) as process:
                return [*bar.lines_of(process)]

        self.assert_stopped(read)

    def test_lines_of_a_process(self):
        script = "printf 'one\\ntw'; sleep 0.3; printf 'o\\n\\nthree'"
        with bar.running(["sh", "-c", script], stdout=subprocess.PIPE) as process:
            self.assertEqual([*bar.lines_of(process)], ["one", "two", "", "three"])
            bar.await_end(process)
        self.assertEqual(process.returncode, 0)

    def test_answers_stand_in_the_order_of_the_items(self):
        def call(number):
            time.sleep((5 - number) / 100)
            return number * number

        answers, _, progress = lines_of(lambda: bar.spread(call, range(5), "squares", at_once=5))
        self.assertEqual(answers, [0, 1, 4, 9, 16])
        self.assertEqual((progress[0], progress[-1]), ("squares: 1 of 5", "squares: 5 of 5"))

    def test_no_items(self):
        self.assertEqual(bar.spread(str, [], "nothing"), [])


# a program that stands for those of the toolchain: it writes down its words, and makes what it's told to make
COMPILER = """#!/bin/sh
echo "$0 $*" >> "$LEFT"
for word; do case $before in -o) echo wide > "$word"; chmod 755 "$word" ;; esac; before=$word; done
"""


class Buildings(RoomCase):
    def rt(self, script):
        """An `rt` that is a shell script, alone on the PATH with what the system has."""
        path = self.room / "rt"
        path.write_text(f"#!/bin/sh\n{script}\n")
        path.chmod(0o755)
        return mock.patch.dict(os.environ, PATH=f"{self.room}:/usr/bin:/bin")

    def program_of(self, path=None, flags="avx2", plain=False, called=bar.program_of):
        """Calls for the program, in a made-up repository and on a machine whose processors have these flags."""
        crate, processors = self.room / "crates/bar", self.room / "cpuinfo"
        processors.write_text(f"processor\t: 0\nflags\t\t: fpu {flags}\n")
        names = {"PROGRAM": crate / "out/bar", "WIDE": crate / "out/bar_avx2", "CRATE": crate, "PROCESSORS": processors}
        with mock.patch.multiple(bar, ROOT=self.room, **names):
            return called(mock.Mock(bar=path, plain=plain))

    def make_crates(self):
        """Makes a repository of two crates and a program, and returns where the program has to be."""
        for name, text in {
            "crates.txt": "# ground\nbar_bytes: sha2\nbar_tests: bar_bytes\nbar: bar_bytes sha2\n",
            "HANDLES": "Handles allowed: none.\n",
            "crates/bar/src/main.rt": "use std;\n\n#[cfg(test)]\nmod tests;\n\nfn main",
            "crates/bar/src/tests.rt": "tests",
            "crates/bar/must-fail/a.edit": "edit",
            "crates/bar_bytes/src/lib.rt": "lib",
        }.items():
            path = self.room / name
            path.parent.mkdir(parents=True, exist_ok=True)
            path.write_text(text)
        return self.room / "crates/bar/out/bar"

    def test_a_program_that_is_there(self):
        program = fake_program(self.room)
        self.assertEqual(self.program_of(program), program.resolve())

    def test_what_is_no_program(self):
        for path in (self.room / "none", self.room, self.stream):
            reasons = self.reasons_of(lambda path=path: self.program_of(path))
            self.assertEqual(reasons, (f"there is no program at {path}: `rt run` in {self.room / 'crates/bar'} builds one",))

    def test_an_earlier_program(self):
        program = fake_program(self.room)
        self.assertEqual(bar.programs_of(mock.Mock(bar=program, before=None)), {"now": program.resolve()})
        programs = bar.programs_of(mock.Mock(bar=program, before=program))
        self.assertEqual(([*programs], {*programs.values()}), (["before", "now"], {program.resolve()}))
        reasons = self.reasons_of(lambda: bar.programs_of(mock.Mock(bar=program, before=self.stream)))
        self.assertTrue(reasons[0].startswith(f"there is no program at {self.stream}: "), reasons)

    def test_a_program_is_built_where_it_is_not_there(self):
        path = self.make_crates()
        script = """
find crates -type f | sort > "$LEFT"; cat crates.txt crates/bar/src/main.rt >> "$LEFT"
echo "rt: bar_bytes proved"; echo "rt: bar proved"
mkdir -p crates/bar/out; echo built > crates/bar/out/bar; chmod 755 crates/bar/out/bar; echo "$1" >> "$LEFT"
"""
        with self.rt(script), mock.patch.dict(os.environ, LEFT=str(self.room / "left")):
            program, out, err = lines_of(self.program_of)
        self.assertEqual((program, path.read_text(), out), (path.resolve(), "built\n", []))
        left = ["crates/bar/src/main.rt", "crates/bar_bytes/src/lib.rt", "bar_bytes: sha2", "bar: bar_bytes sha2", "use std;", "", "fn mainci"]
        self.assertEqual((self.room / "left").read_text().splitlines(), left)
        told = ["bar_bytes is proved, 1 of 2 crates, after 0 minutes; some 1 more for the others", "bar is proved, 2 of 2 crates, after 0 minutes"]
        self.assertEqual(err[1:], [*told, "the program is crates/bar/out/bar"])

    def test_the_program_for_processors_with_avx2(self):
        """It's built after the other, over the same libraries, and taken on a machine that has them, unless it's refused."""
        path, flags = self.make_crates(), " ".join(bar.WIDE_FLAGS)
        tools = self.room / "kit"
        (tools / "bin").mkdir(parents=True)
        (tools / "rlibs/sha2.rlib").mkdir(parents=True)
        for name in ("rattle", "rattle-link"):
            (tools / "bin" / name).write_text(COMPILER)
            (tools / "bin" / name).chmod(0o755)
        script = f"""
case $1 in doc) echo {tools}/START-HERE.md; exit ;; esac
mkdir -p crates/bar/out crates/bar_bytes/out/rlib/bar_bytes.rlib; echo plain > crates/bar/out/bar; chmod 755 crates/bar/out/bar
"""
        with self.rt(script), mock.patch.dict(os.environ, LEFT=str(self.room / "left")):
            program, _, err = lines_of(lambda: self.program_of(flags=flags))
        self.assertEqual((program.name, program.read_text(), path.read_text()), ("bar_avx2", "wide\n", "plain\n"))
        self.assertEqual(err[-1], "the program is crates/bar/out/bar_avx2")
        build, link = (self.room / "left").read_text().splitlines()
        self.assertRegex(build, r"/bin/rattle build --crate-name bar src/main.rt --extern bar_bytes=\S+/libraries/bar_bytes.rlib ")
        self.assertIn(" --cpu=x86-64-v3 ", build)
        self.assertRegex(link, r"/bin/rattle-link .*/c/liblibc_c.a$")
        both = lines_of(lambda: self.program_of(flags=flags, called=bar.both_of))[0]
        self.assertEqual([program.name for program in both], ["bar_avx2", "bar"])
        for others in ({"flags": flags, "plain": True}, {"flags": "avx2 sse4_2"}):
            self.assertEqual(lines_of(lambda others=others: self.program_of(**others))[0], path.resolve())
        self.assertEqual(lines_of(lambda: self.program_of(called=bar.both_of))[0], [path.resolve()])

    def test_a_build_that_fails(self):
        path = self.make_crates()
        with self.rt("echo bar NOT PROVED; exit 3"), mock.patch.object(sys, "stderr", open(os.devnull, "w")) as quiet, quiet:
            with self.assertRaises(bar.BuildFailed) as failed:
                self.program_of()
        self.assertEqual((failed.exception.rt_status, failed.exception.status, path.exists()), (3, 2, False))
        self.assertIn("ends with status 3", str(failed.exception))

    def test_no_toolchain(self):
        path = self.make_crates()
        with mock.patch.dict(os.environ, PATH="/nowhere"), mock.patch.object(sys, "stderr", open(os.devnull, "w")) as quiet, quiet:
            with self.assertRaises(bar.BuildFailed) as failed:
                self.program_of()
        self.assertIn("there is no `rt`", str(failed.exception))

    def test_the_time_that_is_left(self):
        told = lines_of(lambda: bar.tell_proved({"low": 100, "high": 300}, ["low"], 300))[2]
        self.assertEqual(told, ["low is proved, 1 of 2 crates, after 5 minutes; some 16 more for the others"])

    def test_what_a_crate_stands_on(self):
        lines = "# ground\nbar_bytes:\nbar_lms: bar_bytes bar_lanes sha2\nbar: bar_lms\n"
        self.assertEqual(bar.crates_below(lines, "bar_lms"), ["bar_bytes", "bar_lanes", "sha2"])
        self.assertEqual(bar.crates_below(lines, "bar_bytes"), [])
        self.assertEqual(bar.crates_below(lines, "bar"), ["bar_lms", "bar_bytes", "bar_lanes", "sha2"])
        self.assertEqual([*bar.needed_for(lines, ["bar_lms"])], ["bar_bytes", "bar_lms"])


if __name__ == "__main__":
    unittest.main()
