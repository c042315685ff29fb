"""What happens to key files: runs that share one, runs that are killed while they spend one, and runs that name one as a file to write."""
import dataclasses
import os
import pathlib
import re
import shutil
import signal
import subprocess
import time
from collections.abc import Iterator, Sequence

from gossip.formats.files import RECORDING_HEAD, SLOTS, room_of
from gossip.programs.bar import Ran, Status, Word, await_end, run_words, running, status_of, words_of
from gossip.sessions import making
from gossip.sessions.session_folder import Folder, party_words

# the session of the keys; its peers end at once, because all ticks are due
NUMBERS = {"version": 1, "peers": 2, "rounds": 1, "life": 2, "cap": 4, "per_round": 2, "fanout": 1, "tick_ms": 1, "lms": 5, "ots": 3}

# the mode of files that the program writes: only the owner may read and write them
OWNERS_ALONE = 0o600


def spent_text(fresh: bytes) -> bytes:
    """Returns the text of the spent key, from that of the fresh one."""
    return fresh.replace(b"spent = false\n", b"spent = true\n")


@dataclasses.dataclass(frozen=True)
class Left:
    """The key file that a run left, and whether the run began its recording, which it does before it binds its link."""

    fresh: bytes
    key: bytes
    has_begun: bool

    @property
    def is_spent(self) -> bool:
        return self.key == spent_text(self.fresh)

    def faults(self) -> Iterator[str]:
        """Yields what mustn't be: a key that is neither fresh nor spent, or a fresh key with which something may have been sent."""
        if self.key not in (self.fresh, spent_text(self.fresh)):
            yield f"its key file has {len(self.key)} bytes, which are neither the fresh nor the spent key"
        elif self.has_begun and not self.is_spent:
            yield "its key is fresh, and it began its recording"


class Bench:
    """A session with fresh keys, and the copies of it that are run."""

    def __init__(self, room: pathlib.Path, program: pathlib.Path, port: int) -> None:
        self.room, self.program, self.count = room, program, 0
        stream = room / "stream"
        stream.write_bytes(os.urandom(room_of(NUMBERS["rounds"], NUMBERS["per_round"])))
        wanted = making.Wanted(room / "session", stream, NUMBERS | {"port": port})
        self.folder, self.session = making.make(wanted, program)
        self.fresh = self.folder.key(1).read_bytes()

    def copy(self, port: int | None = None) -> Folder:
        """Makes a copy of the session, with another port if one is named. Returns its folder."""
        self.count += 1
        path = self.room / f"copy.{self.count}"
        shutil.copytree(self.folder.path, path)
        folder = type(self.folder)(path)
        if port is not None:
            text = folder.session.read_text("utf-8")
            folder.session.write_text(re.sub(r"^port = \d+$", f"port = {port}", text, flags=re.MULTILINE), "utf-8")
        return folder

    def peer_words(
        self, folder: Folder, begin: int = 0, results: pathlib.Path | None = None, session: pathlib.Path | None = None
    ) -> list[Word]:
        """Returns the command of peer 1, which ends at once if its session began long ago."""
        return party_words(folder, self.program, 1, begin, results, session)

    def left(self, folder: Folder) -> Left:
        """Returns what peer 1 left of its key."""
        recording = folder.recording(1)
        has_begun = recording.exists() and recording.stat().st_size >= RECORDING_HEAD
        return Left(self.fresh, folder.key(1).read_bytes(), has_begun)

    def run(self, command: str, **values: object) -> Ran:
        return run_words(self.program, words_of(command, **values))

    def run_both(self, *commands: Sequence[Word]) -> list[Ran]:
        """Runs two commands at the same time to their ends."""
        pipes = {"stdout": subprocess.PIPE, "stderr": subprocess.PIPE}
        with running(commands[0], **pipes) as one, running(commands[1], **pipes) as two:
            printed = [await_end(process) for process in (one, two)]
        return [Ran(status_of(process), *told) for process, told in zip((one, two), printed)]

    def run_killed(self, folder: Folder, seconds: float, is_beside: bool = False) -> None:
        """Starts peer 1 a minute before its session. Kills it after so many seconds, or if `is_beside`, once it writes beside its key."""
        begin, beside = round(1000 * (time.time() + 60)), folder.key(1).with_name(f"{folder.key(1).name}.new")
        with running(self.peer_words(folder, begin), stdout=subprocess.PIPE, stderr=subprocess.PIPE) as process:
            until = time.monotonic() + seconds
            while time.monotonic() < until and not (is_beside and beside.exists()):
                time.sleep(0 if is_beside else max(0, until - time.monotonic()))
            process.send_signal(signal.SIGKILL)
            await_end(process)

    def seconds_to_begin(self) -> float:
        """Returns how many seconds peer 1 needs until it begins its recording."""
        folder, started = self.copy(), time.monotonic()
        with running(self.peer_words(folder, round(1000 * (time.time() + 60))), stderr=subprocess.PIPE) as process:
            while not self.left(folder).has_begun and process.poll() is None and time.monotonic() < started + 60:
                time.sleep(0.0005)
        return time.monotonic() - started


# ---- runs that share a key


def shared_faults(bench: Bench, is_one_text: bool, ports: int) -> Iterator[str]:
    """Yields what is wrong if two peers are started at once with one key. If not `is_one_text`, their texts differ in the port."""
    folder = bench.copy()
    other = folder.session
    if not is_one_text:
        other = folder.path / "other.toml"
        text = re.sub(r"^port = \d+$", f"port = {ports}", folder.session.read_text("utf-8"), flags=re.MULTILINE)
        other.write_text(text, "utf-8")
    results = folder.results if is_one_text else folder.path / "other"
    ran = bench.run_both(bench.peer_words(folder), bench.peer_words(folder, 0, results, other))
    statuses = sorted(it.status for it in ran)
    if statuses not in ([Status.DONE, Status.FILE], [Status.DONE, Status.KEY]):
        yield f"two runs of one key end with the statuses {statuses[0]} and {statuses[1]}"
        return
    yield from bench.left(folder).faults()
    done = [results, folder.results][ran[0].status == Status.DONE]
    recording = pathlib.Path(f"{done}.1.recording").read_bytes()
    ticks = SLOTS * (NUMBERS["rounds"] + NUMBERS["life"] + 1)
    if not recording.endswith(b"\x01\x00") or recording.count(b"\x01") < ticks:
        yield "the recording of the run that ended well isn't whole"
    lost = [results, folder.results][ran[1].status == Status.DONE]
    if lost != done and list(folder.path.glob(f"{lost.name}.1.*")):
        yield "the run that was refused leaves files"


# ---- runs that are killed


def killed_faults(bench: Bench, seconds: float, is_run_again: bool, is_beside: bool = False) -> tuple[bool, list[str]]:
    """Kills a peer after so many seconds, or if `is_beside`, once it writes beside its key. If `is_run_again`, runs it again afterwards.

    Returns whether its key is spent, and what is wrong.
    """
    folder = bench.copy()
    bench.run_killed(folder, seconds, is_beside)
    left = bench.left(folder)
    faults = [*left.faults()]
    if is_run_again and not faults:
        again = run_words(*split(bench.peer_words(folder)))
        wanted = Status.KEY if left.is_spent else Status.DONE
        if again.status != wanted:
            faults.append(f"with the key that it leaves a peer ends with {again.told}")
    shutil.rmtree(folder.path)
    return left.is_spent, faults


def split(words: list[Word]) -> tuple[Word, list[Word]]:
    """Splits a command into its program and its arguments."""
    return words[0], words[1:]


# ---- runs that name a key as a file to write


@dataclasses.dataclass(frozen=True)
class Over:
    """A command that would overwrite a key file: its description, its arguments and the file."""

    told: str
    words: list[str]
    path: pathlib.Path


def over_keys(bench: Bench, folder: Folder) -> Iterator[Over]:
    """Yields the commands that would overwrite a key file."""
    session, other = {"session": folder.session}, folder.key(2)
    secret = folder.path / "secret"
    secret.write_bytes(bytes(range(32)))
    found = folder.path / "found.table"
    shutil.copy(other, found)
    numbers = {"id": bench.session.id, "rounds": 1, "ots": 3, "secret": secret, "key": other}
    begun = {"begin": 0, "played": folder.played(1), "recording": folder.recording(1), "found": folder.results}
    yield Over("keygen", words_of("keygen", party=2, lms=5, **numbers), other)
    yield Over("hsskeygen", words_of("hsskeygen", party=2, top=5, **numbers), other)
    for option, path in (("played", other), ("recording", other), ("found", folder.path / "found")):
        words = words_of("peer", **session, key=folder.key(1), **begun | {option: path})
        yield Over(f"peer with --{option}", words, found if option == "found" else path)
        folder.key(1).unlink()
        folder.key(1).write_bytes(bench.fresh)
        for left in folder.path.glob(f"{folder.results.name}.1.*"):
            left.unlink()


def over_faults(bench: Bench) -> Iterator[str]:
    """Yields what is wrong if a command names a key as a file to write. It has to be refused, and the key has to be unchanged."""
    folder = bench.copy()
    for over in over_keys(bench, folder):
        was = over.path.read_bytes()
        ran = run_words(bench.program, over.words)
        if ran.status != Status.FILE:
            yield f"{over.told} over a key: {ran.told}"
        if over.path.read_bytes() != was:
            yield f"{over.told} writes over a key"


def own_key_faults(bench: Bench) -> Iterator[str]:
    """Yields what is wrong if a peer or a replay names its own key as the played file. The key has to be the fresh or the spent one."""
    for command in ("peer", "replay"):
        folder = bench.copy()
        if command == "replay":
            run_words(*split(bench.peer_words(folder)))
        values = {"session": folder.session, "key": folder.key(1), "begin": 0, "played": folder.key(1), "found": folder.path / "again"}
        ran = bench.run(command, **values, recording=folder.recording(1))
        if ran.status not in (Status.FILE, Status.DONE):
            yield f"{command} that plays to its own key: {ran.told}"
        left = Left(bench.fresh, folder.key(1).read_bytes(), False)
        yield from (f"{command} that plays to its own key: {fault}" for fault in left.faults())


def name_faults(bench: Bench) -> Iterator[str]:
    """Yields what is wrong if a key has two names. With a hard link nothing may be spent; through a symbolic link the key has to be."""
    folder = bench.copy()
    other = folder.path / "other name"
    os.link(folder.key(1), other)
    ran = run_words(*split(bench.peer_words(folder)))
    if ran.status != Status.FILE or folder.key(1).read_bytes() != bench.fresh:
        yield f"a key with two names: {ran.told}"
    other.unlink()
    folder.key(1).rename(other)
    folder.key(1).symlink_to(other)
    ran = run_words(*split(bench.peer_words(folder)))
    if ran.status != Status.DONE or other.read_bytes() != spent_text(bench.fresh):
        yield f"a key behind a link: {ran.told}"


# ---- modes


def mode_faults(bench: Bench, mask: int) -> Iterator[str]:
    """Yields what is wrong with the modes of the files that are written under this mask."""
    folder = bench.copy()
    folder.key(1).chmod(0o644)
    secret = folder.path / "secret"
    secret.write_bytes(bytes(range(32)))
    made = folder.path / "made"
    numbers = {"party": 1, "id": bench.session.id, "rounds": 1, "lms": 5, "ots": 3, "secret": secret, "key": made}
    for words in (words_of("keygen", **numbers), split(bench.peer_words(folder))[1]):
        ran = run_words(bench.program, words, umask=mask)
        if ran.status != Status.DONE:
            yield f"under the mask {mask:03o} {words[0]} ends with {ran.told}"
    for path in (made, folder.key(1), folder.played(1), folder.recording(1), folder.path / f"{folder.results.name}.1.table"):
        if path.exists() and path.stat().st_mode & 0o777 != OWNERS_ALONE:
            yield f"under the mask {mask:03o} {path.name} has the mode {path.stat().st_mode & 0o777:03o}"
