"""Runs commands in trouble, and checks what is promised about how they end and what they leave."""
import collections
import contextlib
import dataclasses
import os
import pathlib
import random
import re
import shutil
import subprocess
import tempfile
import threading
import time
from collections.abc import Callable, Collection, Iterable, Iterator, Mapping, Sequence
from typing import IO

from gossip.formats.files import KeyFile, Malformed, Session, entries_of, room_of
from gossip.programs.bar import ROOT, Ran, Status, Word, await_end, run_words, running, status_of, told_of_status, words_of
from gossip.reports.replays import found_differences, played_differences, replay
from gossip.runs.parties import Live, Way, started
from gossip.scripts.console import listed
from gossip.sessions import making
from gossip.sessions.session_folder import Folder, begin_of
from gossip.trouble.hazards import UNMOUNTED, Skipped

EXAMPLE = ROOT / "examples/evidence"

# the session in which parties run: two peers that trade for about a second
NUMBERS = {"version": 1, "peers": 2, "rounds": 3, "life": 2, "cap": 4, "per_round": 6, "fanout": 1, "tick_ms": 20, "lms": 6, "ots": 3}

# the lines on standard error, by the status
SAID = {
    Status.WORDS: "bar: usage",
    Status.FILE: "bar: file failed",
    Status.SESSION: "bar: session refused: .+",
    Status.KEY: "bar: key refused: .+",
    Status.LINK: "bar: link failed",
    Status.OUTPUT: "bar: output failed",
    Status.INPUT: "bar: input refused: .+",
    Status.CHILD: "(?s:.*)bar: child failed",
    Status.MEMORY: "bar: no memory",
}


@dataclasses.dataclass(frozen=True)
class Command:
    """A command: the values of its options that name what it reads, and the options that name what it writes."""

    name: str
    read: dict[str, object]
    written: tuple[str, ...] = ()
    # the option that names a key file, which is rewritten
    spends: str | None = None

    @property
    def inputs(self) -> list[str]:
        """The options that name a file that is read."""
        return [name for name, value in self.read.items() if isinstance(value, pathlib.Path)]

    def words(self, room: pathlib.Path, **others: object) -> list[str]:
        """Returns the arguments of the command, which writes in the folder `room`. `others` replaces the values of some options."""
        own = {self.spends: room / "key"} if self.spends else {}
        places = {name: room / "out" / name for name in self.written}
        return words_of(self.name, **self.read | own | places | others)


@dataclasses.dataclass(frozen=True)
class Done:
    """How a command ended, and the files that it left, by name. If it spends a key: the key file before and after it."""

    ran: Ran
    files: dict[str, bytes]
    fresh: bytes | None = None
    key: bytes | None = None

    @property
    def is_key_changed(self) -> bool:
        return self.key != self.fresh


def front_faults(files: dict[str, bytes], whole: dict[str, bytes]) -> Iterator[str]:
    """Yields the files that aren't prefixes of those of a whole run."""
    for name, data in sorted(files.items()):
        if name not in whole:
            yield f"it leaves the file {name}, which a whole run doesn't"
        elif not whole[name].startswith(data):
            yield f"the file {name} isn't a prefix of that of a whole run"


def said_faults(ran: Ran) -> Iterator[str]:
    """Yields what is wrong with the line on standard error, given the status."""
    said, form = ran.said.decode(errors="replace"), SAID.get(ran.status)
    if form is None and said:
        yield f"with status {ran.status} it says {said!r}"
    elif form is not None and not re.fullmatch(f"{form}\n", said):
        yield f"with status {ran.status} it says {said!r} in place of `{form}`"


def key_faults(done: Done, whole: Done) -> Iterator[str]:
    """Yields a fault if the key file is neither unchanged nor what a whole run leaves."""
    if done.is_key_changed and done.key != whole.key:
        yield "the key file is neither as it was nor the spent one"


class Look:
    """What was seen of a number of runs: how they ended, and what isn't as promised."""

    def __init__(self) -> None:
        self.ends, self.faults, self.notes = collections.defaultdict(collections.Counter), [], []

    def end(self, label: str, ran: Ran, statuses: Collection[int], said: bool = True) -> None:
        """Notes how a run ended. The status has to be one of these. If `said`, the line on standard error has to fit the status."""
        if ran.status == UNMOUNTED and UNMOUNTED not in statuses:
            raise Skipped(f"nothing can be mounted: {' '.join(ran.said.decode(errors='replace').split())}")
        self.ends[label][ran.status] += 1
        if ran.status not in statuses:
            wanted = listed((f"{status}" for status in statuses), "or")
            self.faults.append(f"{label}: status {ran.status} ({told_of_status(ran.status)}) in place of {wanted}")
        self.faults += [f"{label}: {fault}" for fault in (said_faults(ran) if said else ())]

    def take(self, label: str, done: Done, whole: Done, *statuses: int, said: bool = True) -> None:
        """Notes how a command ended and what it left. Its files have to be prefixes of those that a whole run leaves."""
        self.end(label, done.ran, statuses, said)
        faults = [*front_faults(done.files, whole.files), *key_faults(done, whole)]
        if done.ran.status in (Status.DONE, Status.NO_FAULT) and done.files.keys() != whole.files.keys():
            faults.append("it ends well and leaves other files than a whole run")
        if done.ran.status in (Status.DONE, Status.NO_FAULT) and not faults:
            faults += [f"it ends well and cuts the file {name}" for name in done.files if done.files[name] != whole.files[name]]
        self.faults += [f"{label}: {fault}" for fault in faults]

    def fault_if(self, label: str, faults: Iterable[str]) -> None:
        self.faults += [f"{label}: {fault}" for fault in faults]

    @property
    def told(self) -> str:
        """A description of how the runs ended."""
        parts = []
        for label, ends in self.ends.items():
            times = [f"{status}" if len(ends) == 1 else f"{status} ({count})" for status, count in sorted(ends.items())]
            parts.append(f"{label} {listed(times)}")
        return "; ".join([*parts, *self.notes])


class Bench:
    """The program, a session that ran undisturbed, and commands whose whole runs are known."""

    def __init__(self, room: pathlib.Path, program: pathlib.Path, ports: Sequence[int]) -> None:
        self.room, self.program = room, program
        self.stream = room / "stream"
        self.stream.write_bytes(os.urandom(room_of(NUMBERS["rounds"], NUMBERS["per_round"])))
        numbers = NUMBERS | {"port": ports[0]}
        self.folder, self.session = making.make(making.Wanted(room / "session", self.stream, numbers), program)
        self.ports, self.port = iter(ports[1:]), threading.Lock()
        self.lead = begin_of(self.session, program) - self.now()
        self.ran, self.ended = self.live("whole")
        self.commands = self.known_commands()
        self.whole = {name: self.do(command) for name, command in self.commands.items()}
        self.lacking = [name for name, done in self.whole.items() if done.ran.status == Status.WORDS]

    @staticmethod
    def now() -> int:
        return round(1000 * time.time())

    def known_commands(self) -> dict[str, Command]:
        """Returns commands whose whole runs are short. The parties among them begin in the past, so all their ticks are due at once."""
        secret = self.room / "secret"
        secret.write_bytes(bytes(range(32)))
        evidence = {"session": EXAMPLE / "session.toml", "table": EXAMPLE / "table", "evidence": EXAMPLE / "bad-opening"}
        numbers = {"party": 1, "id": "0501aabbccddeeff", "rounds": 1, "lms": 5, "ots": 3}
        session = {"session": self.ran.session}
        commands = [
            Command("keygen", numbers | {"secret": secret}, ("key",)),
            Command("replay", session | {"key": self.ran.key(1), "recording": self.ran.recording(1)}, ("played", "found")),
            Command("judge", evidence),
            Command("pack", evidence, ("proof",)),
            Command("audit", session | {"results": str(self.ran.results), "first": 1, "last": self.session.peers}),
            Command("peer", session | {"key": self.folder.key(1), "begin": 0}, ("played", "recording", "found"), "key"),
            Command("broadcaster", session | {"key": self.folder.key(0), "begin": 0, "stream": self.stream}, ("found",), "key"),
        ]
        return {command.name: command for command in commands}

    def usable(self, *names: str) -> list[Command]:
        """Returns the commands of these names, or all commands, except for those that the program doesn't have."""
        return [self.commands[name] for name in names or self.commands if name not in self.lacking]

    def new_folder(self) -> pathlib.Path:
        return pathlib.Path(tempfile.mkdtemp(dir=self.room))

    def do(
        self,
        command: Command,
        front: Callable[[pathlib.Path], Iterable[Word]] = lambda room: (),
        prepare: Callable[[pathlib.Path], None] = lambda room: None,
        stdout: int | IO = subprocess.PIPE,
        stderr: int | IO = subprocess.PIPE,
        **others: object,
    ) -> Done:
        """Prepares a new folder and runs a command in it, with the prefix that `front` returns for the folder."""
        room = self.new_folder()
        (room / "out").mkdir()
        (room / "kept").mkdir()
        if command.spends:
            shutil.copy(command.read[command.spends], room / "key")
        prepare(room)
        words = [*map(str, front(room)), str(self.program), *command.words(room, **others)]
        # all parties bind the same port, so they run one at a time
        with self.port if command.spends else contextlib.nullcontext(), running(words, stdout=stdout, stderr=stderr) as process:
            printed, said = await_end(process)
        left = [path for part in ("out", "kept") for path in (room / part).iterdir()]
        files = {path.name: path.read_bytes() for path in left if path.is_file() and path.name not in ("filler", "filled")}
        fresh, key = [path.read_bytes() if command.spends else None for path in (command.read.get(command.spends), room / "key")]
        return Done(Ran(status_of(process), printed or b"", said or b""), files, fresh, key)

    # ---- live sessions

    def copy(self, name: str, **numbers: int) -> tuple[Folder, Session]:
        """Makes a copy of the session, with fresh keys, another port, and these numbers instead of its own."""
        folder = Folder(self.room / name)
        shutil.copytree(self.folder.path, folder.path)
        text = folder.session.read_text("utf-8")
        for key, value in ({"port": next(self.ports)} | numbers).items():
            text = re.sub(rf"^{key} = \d+$", f"{key} = {value}", text, flags=re.MULTILINE)
        folder.session.write_text(text, "utf-8")
        return folder, Session.read(folder.session)

    def live(
        self,
        name: str,
        disturb: Callable[[Live], None] = lambda live: None,
        ways: Callable[[Folder], Mapping[int, Way]] = lambda folder: {},
        begin: int | None = None,
        **numbers: int,
    ) -> tuple[Folder, dict[int, Ran]]:
        """Runs a copy of the session with a disturbance. Returns its folder, and how its parties ended."""
        folder, session = self.copy(name, **numbers)
        begin = self.now() + self.lead if begin is None else begin
        with started(folder, session, self.program, begin, ways(folder)) as live:
            disturb(live)
            return folder, live.ends()

    def party_faults(self, folder: Folder, party: int, is_whole: bool) -> Iterator[str]:
        """Yields what isn't as promised in what a peer left."""
        path = folder.recording(party)
        if not path.exists():
            return
        recording = path.read_bytes()
        if entries_of(recording)[1] != is_whole:
            yield f"its recording has {'no' if is_whole else 'an'} end"
        if not is_whole:
            yield from self.cut_faults(folder, party)
        log = replay(folder, self.program, party)
        if isinstance(log, str):
            yield f"its recording isn't replayed: {log}"
            return
        yield from played_differences(folder.played(party), log)
        yield from found_differences(folder.findings()[party], log)

    def cut_faults(self, folder: Folder, party: int) -> Iterator[str]:
        """Yields a fault unless a recording without an end is refused as a cut one."""
        with tempfile.TemporaryDirectory() as room:
            files = {"session": folder.session, "key": folder.key(party), "recording": folder.recording(party)}
            ran = run_words(self.program, words_of("replay", **files, played=f"{room}/played", found=f"{room}/found"))
        if ran.status != Status.INPUT or not re.fullmatch(rb"bar: input refused: recording (NoEnd|BadEntry at \d+|BadHead)\n", ran.said):
            yield f"its recording, which is cut, is replayed with {ran.told}"

    def look_at(self, look: Look, folder: Folder, ended: dict[int, Ran], disturbed: Mapping[int, Collection[int]] | None = None) -> None:
        """Notes how all parties ended and what they left. Those that were disturbed may end with these statuses, all others only with 0."""
        for party, ran in sorted(ended.items()):
            statuses = (disturbed or {}).get(party, (Status.DONE,))
            label = f"party {party}"
            look.end(label, ran, statuses)
            look.fault_if(label, self.spent_faults(folder, party))
            if party:
                look.fault_if(label, self.party_faults(folder, party, ran.status == Status.DONE))

    def spent_faults(self, folder: Folder, party: int) -> Iterator[str]:
        """Yields a fault if the key of a party that was started isn't spent."""
        try:
            if not KeyFile.of_text(folder.key(party).read_bytes()).spent:
                yield "its key isn't spent"
        except Malformed as fault:
            yield f"its key file is cut: {fault}"


def read_slowly(place: pathlib.Path, front: bytes, rest: bytes) -> None:
    """Gives a reader of this pipe the first part of a file, replaces the pipe by another file, and then gives the reader the rest."""
    with open(place, "wb", buffering=0) as pipe:
        pipe.write(front)
        other = place.with_suffix(".other")
        other.write_bytes(b"another file")
        other.replace(place)
        pipe.write(rest)


def changed(draw: random.Random, data: bytes) -> bytes:
    """Returns the bytes with a random change: a bit is flipped, the end is cut off, or bytes are inserted or removed."""
    at = draw.randrange(len(data))
    some = draw.randbytes(draw.randrange(1, 4))
    turned = bytes([data[at] ^ 1 << draw.randrange(8)])
    return draw.choice([data[:at] + turned + data[at + 1 :], data[:at], data[:at] + some + data[at:], data[:at] + data[at + len(some) :]])
