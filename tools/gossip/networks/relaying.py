"""A relay between the parties of a live session, which loses, repeats and delays what they send each other.

Each party reads its own copy of the session's text, in which only the port differs. If the copy of party P has the port B, P binds the port
B + P, and sends to B + Q what is for party Q. So each party has a row of ports, with one port for each party. In the row of P the relay
binds all ports but P's own. If a datagram arrives there at the port for party Q, the relay forwards it to the port that Q binds in its own
row.
"""
import contextlib
import dataclasses
import heapq
import itertools
import pathlib
import re
import resource
import selectors
import socket
import threading
import time
import typing
from collections.abc import Iterator

from gossip.formats.files import Session
from gossip.networks.disturbances import Fates
from gossip.scripts.console import Refusal
from gossip.sessions.session_folder import LOOPBACK, Folder, free_port

# how many seconds one wait lasts at most, and the first and the last port of the range in which free rows are searched
WAIT, FIRST_PORT, LAST_PORT = 0.1, 20_000, 31_999

# the size of the largest datagram, the size of receive buffers to request, and how many files a process opens besides its ports
LARGEST, BUFFER, OTHER_FILES = 65_507, 1 << 22, 64


@dataclasses.dataclass(frozen=True)
class Layout:
    """The rows of ports of a number of parties, one row after another from the port `first` on."""

    first: int
    parties: int

    def base(self, party: int) -> int:
        """Returns the port in the party's copy of the text, with which its row begins."""
        return self.first + self.parties * party

    def own(self, party: int) -> int:
        """Returns the port that a party binds."""
        return self.base(party) + party

    @property
    def relayed(self) -> dict[int, tuple[int, int]]:
        """Each port that the relay binds, with the sender and the receiver of the datagrams that arrive at it."""
        pairs = itertools.permutations(range(self.parties), 2)
        return {self.base(sender) + receiver: (sender, receiver) for sender, receiver in pairs}


def layout_for(session: Session) -> Layout:
    """Returns rows of free ports for the parties of a session, and lets this process open as many sockets."""
    parties = session.peers + 1
    most = next(count for count in itertools.count() if (count + 1) ** 2 > LAST_PORT - FIRST_PORT)
    if parties > most:
        told = f"a relay has a row of ports for each party, and {session.peers} peers have too many: take at most {most - 1}"
        raise Refusal(f"{told}, or simulate the session by tools/simulate-session")
    take_files(parties**2 + OTHER_FILES)
    return Layout(free_port(parties**2), parties)


def take_files(count: int) -> None:
    """Lets this process open `count` files at once. Raises `Refusal` if the system doesn't allow so many."""
    soft, hard = resource.getrlimit(resource.RLIMIT_NOFILE)
    if hard != resource.RLIM_INFINITY and hard < count:
        raise Refusal(f"{count:,} files would be open, and the system allows {hard:,}: raise `ulimit -Hn`, or take fewer peers")
    if soft != resource.RLIM_INFINITY and soft < count:
        resource.setrlimit(resource.RLIMIT_NOFILE, (count, hard))


def with_port(text: str, port: int) -> str:
    """Returns a session's text with another port and no other change."""
    changed, count = re.subn(r"^(\s*port\s*=\s*)\d+", rf"\g<1>{port}", text, count=1, flags=re.MULTILINE)
    if not count:
        raise Refusal("the session's text has no line of its own for its port: make a session by tools/make-session")
    return changed


def write_texts(folder: Folder, session: Session, layout: Layout, room: pathlib.Path) -> dict[int, pathlib.Path]:
    """Writes each party's copy of the text to a folder, and returns the paths by party."""
    text, paths = folder.session.read_text("utf-8"), {party: room / f"session.{party}.toml" for party in session.parties}
    for party, path in paths.items():
        path.write_text(with_port(text, layout.base(party)), "utf-8")
    return paths


def bound(stack: contextlib.ExitStack, port: int) -> socket.socket:
    """Returns a non-blocking socket that is bound to a port. The stack closes it."""
    taken = stack.enter_context(socket.socket(socket.AF_INET, socket.SOCK_DGRAM))
    taken.setsockopt(socket.SOL_SOCKET, socket.SO_RCVBUF, BUFFER)
    taken.setblocking(False)
    taken.bind((LOOPBACK, port))
    return taken


class OnWay(typing.NamedTuple):
    """A datagram in transit: when it is due, its number, its receiver and its bytes. Those due at the same time are ordered by number."""

    due: float
    number: int
    receiver: int
    datagram: bytes


class Relay:
    """Forwards what parties send each other, as its fates say."""

    def __init__(self, layout: Layout, fates: Fates) -> None:
        self.layout, self.fates = layout, fates
        # a heap of the datagrams in transit, with the next one first, and the numbers that datagrams are given
        self.on_way: list[OnWay] = []
        self.numbers = itertools.count()
        with contextlib.ExitStack() as stack:
            self.selector = stack.enter_context(selectors.DefaultSelector())
            try:
                for port, pair in layout.relayed.items():
                    self.selector.register(bound(stack, port), selectors.EVENT_READ, pair)
                self.sender = bound(stack, 0)
            except OSError as error:
                raise Refusal(f"the relay can't have its ports: {error.strerror}; try again") from None
            self.open = stack.pop_all()

    def close(self) -> None:
        """Closes the sockets of its ports."""
        self.open.close()

    def take(self, now: float, pair: tuple[int, int], datagram: bytes) -> None:
        """Notes when each copy of a datagram from one party to another is due."""
        for delay in self.fates.delays(*pair):
            heapq.heappush(self.on_way, OnWay(now + delay / 1000, next(self.numbers), pair[1], datagram))

    def due(self, now: float) -> Iterator[tuple[int, bytes]]:
        """Yields the datagrams that are due at this time, in seconds, each with its receiver."""
        while self.on_way and self.on_way[0].due <= now:
            first = heapq.heappop(self.on_way)
            yield first.receiver, first.datagram

    def pause(self, now: float) -> float:
        """Returns how many seconds to wait for datagrams at most."""
        return max(0, min(WAIT, self.on_way[0].due - now)) if self.on_way else WAIT

    def read(self, taken: socket.socket, pair: tuple[int, int]) -> None:
        """Receives all datagrams that have arrived at a port."""
        while True:
            try:
                datagram = taken.recv(LARGEST)
            except OSError:
                # no datagram is left; other errors of the socket are ignored
                return
            self.take(time.monotonic(), pair, datagram)

    def looks(self, ended: threading.Event) -> None:
        """Forwards datagrams until `ended` is set, and then closes the ports."""
        try:
            while not ended.is_set():
                for key, _ in self.selector.select(self.pause(time.monotonic())):
                    self.read(key.fileobj, key.data)
                for receiver, datagram in self.due(time.monotonic()):
                    self.send(receiver, datagram)
        finally:
            self.close()

    def send(self, receiver: int, datagram: bytes) -> None:
        """Sends a datagram to a party. If the system doesn't accept the datagram, it is lost."""
        with contextlib.suppress(OSError):
            self.sender.sendto(datagram, (LOOPBACK, self.layout.own(receiver)))
