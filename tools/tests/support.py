"""What the tests share: the modules of the tools, folders that are made up, and a program that stands for `bar`."""
import contextlib
import io
import json
import pathlib
import shlex
import signal
import socket
import subprocess
import sys
import tempfile
import time
import unittest

TOOLS = pathlib.Path(__file__).resolve().parent.parent
ROOT = TOOLS.parent
sys.path.insert(0, str(TOOLS))

# these are found by the path above
from gossip.programs.bar import PROGRAM
from gossip.scripts import console
from gossip.sessions import making
from gossip.sessions.session_folder import LOOPBACK

ID = "0011223344556677"
NUMBERS = {"version": 1, "peers": 2, "rounds": 1, "life": 2, "cap": 4, "per_round": 2, "fanout": 1, "tick_ms": 20, "lms": 5, "ots": 3}


def need_program(tests):
    """Skips these tests, in words, where the program isn't built, and says so."""
    if not PROGRAM.exists():
        told = f"{tests} are skipped: there is no {PROGRAM}"
        console.progress(told)
        raise unittest.SkipTest(told)


def fake_program(room, **ways):
    """A program in this folder that stands for `bar`, and does what these ways tell."""
    path, told = room / "bar", room / "bar.json"
    told.write_text(json.dumps(ways))
    words = shlex.join([sys.executable, "-IS", str(TOOLS / "tests/fake_bar.py"), str(told)])
    path.write_text(f'#!/bin/sh\nexec {words} "$@"\n')
    path.chmod(0o755)
    return path


def datagram(kind, sender, receiver, body=b"", session_id=ID):
    """The bytes of a datagram."""
    head = b"\xba\x47\x01" + bytes([kind]) + bytes.fromhex(session_id)
    return head + sender.to_bytes(2, "big") + receiver.to_bytes(2, "big") + body


def bound(port):
    """A socket that takes a port."""
    taken = socket.socket(socket.AF_INET, socket.SOCK_DGRAM)
    taken.bind((LOOPBACK, port))
    return taken


def lines_of(call):
    """Calls, and returns the answer with the lines that were printed on standard output and standard error."""
    out, err = io.StringIO(), io.StringIO()
    with contextlib.redirect_stdout(out), contextlib.redirect_stderr(err):
        answer = call()
    return answer, out.getvalue().splitlines(), err.getvalue().splitlines()


def heed_signals():
    for number in console.SIGNALS:
        signal.signal(number, signal.SIG_DFL)


def start_script(script, *words, **options):
    """Starts a script as a process, which is stopped by signals also where this process was started to ignore them."""
    heed = {"preexec_fn": heed_signals}
    pipes = {"stdout": subprocess.PIPE, "stderr": subprocess.PIPE, "text": True}
    return subprocess.Popen([sys.executable, TOOLS / script, *map(str, words)], **pipes | heed | options)


def run_script(script, *words, **options):
    """Runs a script as a process, and returns its status and the lines of its standard output and standard error."""
    with start_script(script, *words, **options) as process:
        out, err = process.communicate(timeout=60)
    return process.returncode, out.splitlines(), err.splitlines()


def wait_for(condition):
    """Waits until a condition holds, and says whether it does, after twenty seconds at the latest."""
    until = time.monotonic() + 20
    while not condition() and time.monotonic() < until:
        time.sleep(0.01)
    return condition()


def is_running(process):
    """Whether a process with this number runs. One that has ended may still stand in the table of processes."""
    try:
        return pathlib.Path(f"/proc/{process}/stat").read_text().rpartition(")")[2].split()[0] not in "ZX"
    except OSError:
        return False


def has_ended(process):
    """Whether a process ends, for which it may take a moment."""
    return wait_for(lambda: not is_running(process))


class RoomCase(unittest.TestCase):
    """A test that has a folder of its own, in which a session can be made by a program that stands for `bar`."""

    def setUp(self):
        room = tempfile.TemporaryDirectory()
        self.addCleanup(room.cleanup)
        self.room = pathlib.Path(room.name)
        self.stream = self.room / "stream"
        self.stream.write_bytes(b"stream" * 100)

    def make_session(self, program, **numbers):
        """Makes a session with these numbers: its folder and its numbers."""
        wanted = making.Wanted(self.room / "session", self.stream, NUMBERS | numbers, "00ff")
        return lines_of(lambda: making.make(wanted, program))[0]

    def reasons_of(self, call):
        """The reasons for which a call is refused."""
        with self.assertRaises(console.Refusal) as refused:
            call()
        return refused.exception.args
