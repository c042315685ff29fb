"""What is done while a session runs: its progress is printed, what buffers lose is noted, and a peer may be killed or flooded."""
import concurrent.futures
import contextlib
import math
import os
import pathlib
import signal
import socket
import sys
import threading
import time
import typing
from collections.abc import Iterator, Mapping, Sequence

from gossip.formats.datagrams import Message, Reader
from gossip.formats.files import RECORDING_HEAD, REQUEST, SLOTS, Session, entries_of
from gossip.programs.bar import Word
from gossip.scripts.console import counted, held, progress
from gossip.sessions.session_folder import LOOPBACK

# the seconds between two looks, and at least between two lines on the rounds and between two lines before the begin
LOOK, LINE, WAIT = 0.25, 1, 10

# how many seconds a flood lasts, and the seconds between two looks at it
FLOOD, FLOOD_LOOK = 1, 0.002

SOCKETS = pathlib.Path("/proc/net/udp")
# the counters of the system, among them that of the datagrams that programs have received
COUNTS = pathlib.Path("/proc/net/snmp")
# the loopback address in the form that /proc/net/udp has
ADDRESS = f"{int.from_bytes(socket.inet_aton(LOOPBACK), sys.byteorder):08X}"


class Clock:
    """Makes the lines on the progress of a session, from the time in seconds."""

    def __init__(self, session: Session, begin: int) -> None:
        self.session, self.begin, self.told, self.told_at = session, begin / 1000, None, -math.inf

    def line(self, now: float) -> str | None:
        """Returns the line that is due, or None. The first line on the rounds is due immediately."""
        number = math.floor((now - self.begin) * 1000 / (SLOTS * self.session.tick_ms)) + 1
        if now < self.begin:
            line, pause = f"the session begins in {math.ceil(self.begin - now)} s", WAIT
        else:
            line, pause = f"round {number} of {self.session.ends}", LINE if self.told_at >= self.begin else 0
        if number > self.session.ends or line == self.told or now < self.told_at + pause:
            return None
        self.told, self.told_at = line, now
        return line


def ports_of(session: Session) -> dict[int, int]:
    """Returns the ports that the parties of a session bind."""
    return {party: session.port + party for party in session.parties}


def drops_of(text: str, ports: Mapping[int, int]) -> dict[int, int]:
    """Returns how many datagrams each party's socket has lost because its receive buffer was full, from the text of /proc/net/udp."""
    sockets = [line.split() for line in text.splitlines()[1:]]
    parties = {f"{ADDRESS}:{port:04X}": party for party, port in ports.items()}
    return {parties[fields[1]]: int(fields[-1]) for fields in sockets if len(fields) > 2 and fields[1] in parties}


def taken_of(text: str) -> int:
    """Returns how many UDP datagrams all programs of this machine have received, from the text of /proc/net/snmp."""
    names, numbers = (line.split() for line in text.splitlines() if line.startswith("Udp: "))
    return int(dict(zip(names, numbers))["InDatagrams"])


def count_taken() -> int | None:
    """Returns how many UDP datagrams all programs have received so far, or None if the system doesn't report it."""
    try:
        return taken_of(COUNTS.read_text("utf-8"))
    except (OSError, ValueError, KeyError):
        return None


def find_process(words: Sequence[Word]) -> int | None:
    """Returns the id of the process that was started with these arguments, or None. The first word, its program, isn't compared."""
    wanted = "".join(f"{word}\0" for word in words[1:]).encode()
    for file in pathlib.Path("/proc").glob("[0-9]*/cmdline"):
        with contextlib.suppress(OSError):
            if file.read_bytes().partition(b"\0")[2] == wanted:
                return int(file.parent.name)
    return None


class Looking(typing.Protocol):
    """An observer that looks while something else is done."""

    def looks(self, ended: threading.Event) -> None:
        """Looks until `ended` is set."""


class Watch:
    """Looks at a session while it runs. `victim` is the command of the party that is killed in the middle, if there is one.

    The parties bind `ports`, or the session's ports if none are given. `taken` is how many datagrams all programs of this machine received
    meanwhile, if this is known.
    """

    def __init__(self, session: Session, begin: int, victim: Sequence[Word] | None = None, ports: dict[int, int] | None = None) -> None:
        self.session, self.clock, self.victim, self.drops = session, Clock(session, begin), victim, {}
        self.ports = ports or ports_of(session)
        self.middle = (begin + SLOTS * session.rounds * session.tick_ms / 2) / 1000
        self.before, self.taken = count_taken(), None

    def look(self, now: float) -> None:
        """Looks once, at this time in seconds."""
        line = self.clock.line(now)
        if line:
            progress(line)
        with contextlib.suppress(OSError, ValueError):
            self.drops |= self.drops_now()
        if self.victim and now >= self.middle:
            self.kill()

    def drops_now(self) -> dict[int, int]:
        """Returns how many datagrams each party's socket has lost so far."""
        return drops_of(SOCKETS.read_text("utf-8"), self.ports)

    def kill(self) -> None:
        """Kills the victim if it runs. If it doesn't, the next look tries again."""
        process = find_process(self.victim)
        if process is not None:
            with contextlib.suppress(ProcessLookupError):
                os.kill(process, signal.SIGKILL)
            self.victim = None

    def looks(self, ended: threading.Event) -> None:
        """Looks until `ended` is set, and then counts what was received."""
        pause = 0
        while not ended.wait(pause):
            now = time.time()
            self.look(now)
            pause = min(LOOK, self.middle - now) if now < self.middle else LOOK
        after = count_taken()
        self.taken = None if self.before is None or after is None else after - self.before


class Growing:
    """A recording that is being written."""

    def __init__(self, path: pathlib.Path) -> None:
        self.path, self.at = path, RECORDING_HEAD

    def more(self) -> list[bytes | None]:
        """Returns the inputs that were completed since the last call, each a datagram, or None for a tick."""
        try:
            with open(self.path, "rb") as file:
                file.seek(self.at)
                entries, _ = entries_of(bytes(RECORDING_HEAD) + file.read())
        except FileNotFoundError:
            return []
        self.at += sum(1 if entry is None else 3 + len(entry) for entry in entries)
        return entries


class Flood:
    """Sends a peer the first REQUEST that it receives `count` times more, within a second, while the peer answers repeats.

    From the peer's growing recording it notes how many of these the peer receives, and how late its ticks are at most.
    """

    def __init__(self, session: Session, begin: int, party: int, recording: pathlib.Path, count: int) -> None:
        self.session, self.begin, self.party, self.count = session, begin, party, count
        self.reader, self.recording, self.model, self.since, self.last = Reader(session), Growing(recording), None, None, None
        self.sent = self.taken = self.ticks = self.late = 0

    def look(self, now: float, sender: socket.socket) -> None:
        """Looks once, at this time in seconds, and sends the copies that are due."""
        self.read(now)
        if self.ticks < self.session.ticks:
            self.late = max(self.late, now - (self.begin + self.ticks * self.session.tick_ms) / 1000)
        if self.model:
            due = min(self.count, math.ceil(self.count * (now - self.since) / FLOOD))
            for _ in range(due - self.sent):
                sender.sendto(self.model, (LOOPBACK, self.session.port + self.party))
            self.sent = max(due, self.sent)

    def read(self, now: float) -> None:
        """Notes what the peer has received up to this time."""
        for entry in self.recording.more():
            if entry is None:
                self.ticks += 1
            elif entry == self.model:
                self.taken, self.last = self.taken + 1, now
            elif self.model is None and self.is_request(entry):
                self.model, self.since, self.last = entry, now, now

    def is_request(self, datagram: bytes) -> bool:
        message = self.reader.read(datagram)
        return isinstance(message, Message) and message.kind == REQUEST and message.receiver == self.party

    def looks(self, ended: threading.Event) -> None:
        """Looks until `ended` is set, and reads the recording once more afterwards."""
        with socket.socket(socket.AF_INET, socket.SOCK_DGRAM) as sender:
            while not ended.wait(FLOOD_LOOK):
                self.look(time.time(), sender)
        self.read(time.time())

    @property
    def kept(self) -> bool:
        """Whether the peer took all ticks, and took each before the next one was due."""
        return self.ticks == self.session.ticks and self.late * 1000 < self.session.tick_ms

    def line(self) -> str:
        """Returns a line on the result."""
        if not self.sent:
            return f"peer {self.party} took no REQUEST, so none was sent again"
        rate = self.taken / (self.last - self.since) if self.taken else 0
        took = f"was sent a REQUEST {counted(self.sent, 'time')} more and took {self.taken:,} of these, {rate:,.0f} a second"
        ticks = f"it {'kept' if self.kept else 'did not keep'} its ticks: it took {self.ticks:,} of {self.session.ticks:,}"
        return f"peer {self.party} {took}; {ticks}, at most {1000 * self.late:.0f} ms late"


@contextlib.contextmanager
def watched(watch: Looking) -> Iterator[None]:
    """Lets an observer look, in a thread of its own, while the block runs."""
    ended = threading.Event()
    with concurrent.futures.ThreadPoolExecutor(1) as pool:
        try:
            with held():
                looking = pool.submit(watch.looks, ended)
            yield
        finally:
            ended.set()
        looking.result()
