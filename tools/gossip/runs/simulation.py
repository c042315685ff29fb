"""Simulates a session: its parties are processes that run the program's own commands over pipes, in a simulated time and network.

A party reads its inputs from one pipe. To another pipe it writes requests for its next input, and what it sends. Time is counted in
milliseconds and advances with the inputs; nothing waits for a clock. All inputs of one millisecond are given to the parties at once, which
handle them in parallel. What they send is then processed in the order of the parties' numbers. So the same session, network and seed give
the same run.
"""
import collections
import contextlib
import heapq
import itertools
import os
import pathlib
import selectors
import subprocess
import typing
from collections.abc import Iterable, Mapping, Sequence

from gossip.formats.files import SLOTS, Session
from gossip.networks.disturbances import Fates, Network
from gossip.networks.forging import Forger
from gossip.networks.relaying import OTHER_FILES, OnWay, take_files
from gossip.programs.bar import WAIT, Word, running, status_of
from gossip.programs.builds import PARTY, built
from gossip.runs.disturbed import Ended, status_of_all
from gossip.scripts.console import Count
from gossip.sessions.session_folder import Folder, party_words

# the first byte of what a party writes: a request for its next input, or a datagram that it sends. Any other byte begins its last lines
ASKED, SENT = b"\x01\x02"

# a tick as an input
TICK = b"\x01"

# how many bytes are read at once
CHUNK = 1 << 18


def datagram_entry(datagram: bytes) -> bytes:
    """Returns a datagram as an input."""
    return b"\x02" + len(datagram).to_bytes(2, "big") + datagram


class Posted(typing.NamedTuple):
    """A datagram that a party sent."""

    sender: int
    receiver: int
    datagram: bytes


class Party:
    """A running party: the inputs that aren't written to its pipe yet, and what it wrote."""

    def __init__(self, number: int, process: subprocess.Popen[bytes]) -> None:
        self.number, self.process = number, process
        self.to_give, self.told, self.printed = bytearray(), bytearray(), b""
        # how many requests for an input it still has to make before it waits, what it sent since the last look, and whether it has ended
        self.owes, self.sent, self.has_ended = 1, [], False
        for stream in (process.stdin, process.stdout):
            os.set_blocking(stream.fileno(), False)

    @property
    def is_busy(self) -> bool:
        return self.owes > 0 and not self.has_ended

    def give(self, entries: Sequence[bytes]) -> None:
        """Gives it these inputs, as far as its pipe has room for them."""
        self.to_give += b"".join(entries)
        self.owes += len(entries)
        self.flush()

    def flush(self) -> None:
        """Writes the remaining inputs, as far as its pipe has room for them. If it has ended, discards them."""
        try:
            del self.to_give[: os.write(self.process.stdin.fileno(), self.to_give)]
        except BlockingIOError:
            return
        except BrokenPipeError:
            self.to_give.clear()

    def read(self) -> None:
        """Reads what it has written, if there is something to read."""
        try:
            data = os.read(self.process.stdout.fileno(), CHUNK)
        except BlockingIOError:
            return
        self.has_ended = not data
        self.told += data
        del self.told[: self.taken()]

    def taken(self) -> int:
        """Handles all complete entries of what it wrote, and returns how many bytes they have."""
        told, at = self.told, 0
        while at < len(told):
            if told[at] == ASKED:
                self.owes, at = self.owes - 1, at + 1
                continue
            if told[at] != SENT:
                self.printed += told[at:]
                return len(told)
            end = at + 5 + int.from_bytes(told[at + 3 : at + 5], "big")
            if len(told) < max(end, at + 5):
                break
            self.sent.append((int.from_bytes(told[at + 1 : at + 3], "big"), bytes(told[at + 5 : end])))
            at = end
        return at

    def take_sent(self) -> list[tuple[int, bytes]]:
        """Returns what it sent since the last call, each datagram with its receiver."""
        sent, self.sent = self.sent, []
        return sent


class Parties:
    """All parties of a session, each a process with its pipes."""

    def __init__(self, stack: contextlib.ExitStack, words: Mapping[int, Sequence[Word]]) -> None:
        pipes = {"stdin": subprocess.PIPE, "stdout": subprocess.PIPE, "stderr": subprocess.PIPE}
        self.by_number, self.selector = {}, stack.enter_context(selectors.DefaultSelector())
        for number, own in words.items():
            party = Party(number, stack.enter_context(running(own, **pipes)))
            self.by_number[number] = party
            self.selector.register(party.process.stdout, selectors.EVENT_READ, party)
        # the parties whose pipes are full
        self.full = set()

    def give(self, inputs: Mapping[int, Sequence[bytes]]) -> list[Posted]:
        """Gives parties their inputs, and waits until each of them has handled its own. Returns what they sent, in the order of parties."""
        for number, entries in inputs.items():
            self.by_number[number].give(entries)
        self.await_all([self.by_number[number] for number in inputs])
        return [Posted(number, *sent) for number in sorted(inputs) for sent in self.by_number[number].take_sent()]

    def await_all(self, parties: Iterable[Party]) -> None:
        """Waits until each of these parties has handled its inputs or ended."""
        busy = {party for party in parties if party.is_busy}
        while busy:
            self.heed({party for party in busy if party.to_give})
            self.step()
            busy = {party for party in busy if party.is_busy}
        self.heed(set())

    def heed(self, full: set[Party]) -> None:
        """Watches the pipes of these parties, and of no others, for room for the rest of their inputs."""
        for party in full - self.full:
            self.selector.register(party.process.stdin, selectors.EVENT_WRITE, party)
        for party in self.full - full:
            self.selector.unregister(party.process.stdin)
        self.full = full

    def step(self) -> None:
        """Waits a short time for output of parties and for room in full pipes, and handles both."""
        for key, event in self.selector.select(WAIT):
            if event & selectors.EVENT_WRITE:
                key.data.flush()
                continue
            key.data.read()
            if key.data.has_ended:
                self.selector.unregister(key.fileobj)

    def statuses(self) -> dict[int, int]:
        """Waits until all parties have ended, and returns their statuses."""
        for party in self.by_number.values():
            party.process.stdin.close()
        while any(not party.has_ended for party in self.by_number.values()):
            self.step()
        for party in self.by_number.values():
            party.process.wait()
        return {number: status_of(party.process) for number, party in self.by_number.items()}


class Simulation:
    """The simulated time of a session, and the datagrams in transit between its parties."""

    def __init__(self, session: Session, parties: Parties, fates: Fates) -> None:
        self.session, self.parties, self.fates = session, parties, fates
        self.forger = Forger(session) if fates.network.forges else None
        # a heap of the datagrams in transit, with the next one first, by time in milliseconds, and the numbers that datagrams are given
        self.on_way: list[OnWay] = []
        self.numbers = itertools.count()

    def post(self, now: int, sent: Iterable[Posted]) -> None:
        """Puts the datagrams that parties sent at this time in transit, as often and as late as their fates say."""
        for sender, receiver, datagram in sent:
            for delay in self.fates.delays(sender, receiver):
                heapq.heappush(self.on_way, OnWay(now + delay, next(self.numbers), receiver, datagram))
            if self.forger:
                self.forge(now, self.forger.hear(datagram))

    def forge(self, now: int, sent: Iterable[tuple[int, bytes]]) -> None:
        """Puts the datagrams that a forger sent in transit, each once and without delay."""
        for receiver, datagram in sent:
            heapq.heappush(self.on_way, OnWay(now, next(self.numbers), receiver, datagram))

    def due(self) -> tuple[int, dict[int, list[bytes]]]:
        """Removes all that is due first, and returns its time and the inputs of each receiver, in the order in which they were sent."""
        now, inputs = self.on_way[0].due, collections.defaultdict(list)
        while self.on_way and self.on_way[0].due == now:
            first = heapq.heappop(self.on_way)
            inputs[first.receiver].append(datagram_entry(first.datagram))
            if self.forger:
                self.forge(now, self.forger.see(first.datagram))
        return now, inputs

    def tick(self, now: int) -> None:
        """Gives all parties a tick, and then the datagrams that are due before the next tick."""
        self.post(now, self.parties.give(dict.fromkeys(self.session.parties, [TICK])))
        while self.on_way and self.on_way[0].due < now + self.session.tick_ms:
            at, inputs = self.due()
            self.post(at, self.parties.give(inputs))

    def run(self, told: str | None) -> None:
        """Runs the session to its end. If `told` isn't None, lines that begin with it report the progress."""
        count = told and Count(told, self.session.ends)
        for tick in range(self.session.ticks):
            if self.forger and tick % SLOTS == 0:
                self.forge(tick * self.session.tick_ms, self.forger.asks_in(tick // SLOTS + 1))
            self.tick(tick * self.session.tick_ms)
            if count and (tick + 1) % SLOTS == 0:
                count.tell((tick + 1) // SLOTS)


def words_by_party(folder: Folder, session: Session, program: pathlib.Path, liars: dict[int, str]) -> dict[int, list[Word]]:
    """Returns the command of each party: that of a live session, but over a pipe."""
    return {
        party: [program, "pipe", liars.get(party, "none"), *party_words(folder, program, party, 0)[1:]]
        for party in session.parties
    }


def simulate(folder: Folder, session: Session, network: Network, told: str | None = "rounds") -> Ended:
    """Simulates a session in its folder, which has the files of a run afterwards, and returns how it ended.

    If `told` isn't None, lines that begin with it report the progress.
    """
    fates, program = Fates(network), built(PARTY)
    take_files(3 * len(session.parties) + OTHER_FILES)
    with contextlib.ExitStack() as stack:
        parties = Parties(stack, words_by_party(folder, session, program, network.liars))
        parties.await_all(parties.by_number.values())
        Simulation(session, parties, fates).run(told)
        statuses = parties.statuses()
    return Ended(statuses, status_of_all(statuses), fates=fates)
