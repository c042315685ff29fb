"""A session whose parties a script starts itself, so that it may start one in another way, or stop or end it in the middle of the run."""
import contextlib
import dataclasses
import pathlib
import signal
import subprocess
import time
from collections.abc import Iterator, Mapping

from gossip.formats.files import Session
from gossip.programs.bar import Ran, Word, await_end, running, status_of
from gossip.sessions.session_folder import Folder, party_words


@dataclasses.dataclass(frozen=True)
class Way:
    """How a party is started: a prefix of its command, its environment, and the path of its results.

    If `environment` is empty, the party has that of the script. `program` replaces the session's program, with arguments of its own before
    those of the party. `session` replaces the path of the session's text.
    """

    front: tuple[Word, ...] = ()
    environment: dict[str, str] = dataclasses.field(default_factory=dict)
    results: pathlib.Path | None = None
    program: tuple[Word, ...] = ()
    session: pathlib.Path | None = None

    def words(self, folder: Folder, program: pathlib.Path, party: int, begin: int) -> list[Word]:
        """Returns the command that starts a party in this way."""
        own = party_words(folder, program, party, begin, self.results, self.session)
        return [*self.front, *(self.program or own[:1]), *own[1:]]


@dataclasses.dataclass(frozen=True)
class Live:
    """A running session: its numbers, the processes of its parties by party, and when it begins, in milliseconds of Unix time."""

    session: Session
    processes: dict[int, subprocess.Popen[bytes]]
    begin: int

    def await_tick(self, tick: int) -> None:
        """Waits until a tick is due."""
        time.sleep(max(0, (self.begin + tick * self.session.tick_ms) / 1000 - time.time()))

    def send(self, number: signal.Signals, *parties: int) -> None:
        """Sends a signal to those of these parties that still run."""
        for party in parties:
            self.processes[party].send_signal(number)

    def sleep(self, ticks: float, *parties: int) -> None:
        """Stops these parties for this number of ticks, and then continues them."""
        self.send(signal.SIGSTOP, *parties)
        time.sleep(ticks * self.session.tick_ms / 1000)
        self.send(signal.SIGCONT, *parties)

    def ends(self) -> dict[int, Ran]:
        """Waits for all parties, and returns how each ended and what it printed."""
        printed = {party: await_end(process) for party, process in self.processes.items()}
        return {party: Ran(status_of(self.processes[party]), *printed[party]) for party in printed}


@contextlib.contextmanager
def started(folder: Folder, session: Session, program: pathlib.Path, begin: int, ways: Mapping[int, Way] | None = None) -> Iterator[Live]:
    """Starts the parties of a session, each in its own way if it has one. Those that still run after the block are killed."""
    with contextlib.ExitStack() as stack:
        processes = {}
        for party in session.parties:
            way = (ways or {}).get(party, Way())
            options = {"env": way.environment} if way.environment else {}
            pipes = {"stdout": subprocess.PIPE, "stderr": subprocess.PIPE}
            processes[party] = stack.enter_context(running(way.words(folder, program, party, begin), **pipes, **options))
        yield Live(session, processes, begin)
