"""Replays the recordings of a session's peers, and compares the replays with the peers' own files."""
import collections
import dataclasses
import itertools
import pathlib
import tempfile
import typing
from collections.abc import Iterable, Iterator, Mapping

from gossip.formats.files import RECORDING_HEAD, Malformed, Session, has_end_at, head_of, inputs_in, is_whole, sends_of, whole_recording
from gossip.programs.bar import Status, run_words, spread, words_of
from gossip.reports.audits import too_large
from gossip.scripts.console import counted
from gossip.sessions.session_folder import Folder


@dataclasses.dataclass
class Log:
    """What a peer's recording and its replay show of its run: what it received and sent, each datagram with the tick before it.

    `answered` has the numbers of the inputs to which it sent something, counted from 1.
    """

    whole: bool
    ticks: int
    taken: list[tuple[int, bytes]]
    sent: list[tuple[int, bytes]]
    played: bytes
    findings: dict[str, bytes]
    answered: frozenset[int] = frozenset()


# the logs of peers, by peer
Logs = dict[int, Log]


def log_of(
    recording: typing.BinaryIO, lines: Iterable[str], played: bytes, findings: dict[str, bytes], pool: dict[bytes, bytes] | None = None
) -> Log:
    """Returns a peer's log, from its recording, the lines that its replay printed, and what it played and found.

    Datagrams with the same bytes share one object. `pool` has the datagrams of other logs, and those of this one are added.
    """
    pool = {} if pool is None else pool
    tick, end, ticks, taken = 0, RECORDING_HEAD, [0], []
    for entry, end in inputs_in(recording):
        tick += entry is None
        ticks.append(tick)
        if entry is not None:
            taken.append((tick, pool.setdefault(entry, entry)))
    sent, answered = [], set()
    for number, _, datagram in sends_of(lines):
        if not 0 < number < len(ticks):
            raise Malformed("a line of the transcript has the number of no input")
        sent.append((ticks[number], pool.setdefault(datagram, datagram)))
        answered.add(number)
    return Log(has_end_at(recording, end), tick, taken, sent, played, findings, frozenset(answered))


# ---- replays


def replay(folder: Folder, program: pathlib.Path, party: int, pool: dict[bytes, bytes] | None = None) -> Log | str:
    """Replays a peer's recording up to its last complete entry, and returns its log, or why there is none.

    `pool` has the datagrams of other logs.
    """
    own = path = folder.recording(party)
    large = too_large(own)
    if large:
        return large
    with tempfile.TemporaryDirectory() as room:
        again = Folder(room)
        with own.open("rb") as recording:
            whole = is_whole(recording)
        if not whole:
            path = again.recording(party)
            path.write_bytes(whole_recording(own.read_bytes()))
        files = {"session": folder.session, "key": folder.key(party), "recording": path}
        words = words_of("replay", **files, played=again.played(party), found=f"{again.results}.{party}")
        with (again.path / "transcript").open("w+", encoding="utf-8", errors="replace") as transcript:
            ran = run_words(program, words, stdout=transcript)
            if ran.status != Status.DONE:
                return ran.told
            transcript.seek(0)
            try:
                with own.open("rb") as recording:
                    return log_of(recording, lines_in(transcript), again.played(party).read_bytes(), again.findings()[party], pool)
            except (OSError, Malformed) as error:
                return str(error)


def lines_in(file: Iterable[str]) -> Iterator[str]:
    """Yields the lines of a file, without their newlines."""
    return (line.removesuffix("\n") for line in file)


def replays_of(folder: Folder, program: pathlib.Path, parties: list[int]) -> tuple[Logs, dict[int, str]]:
    """Replays these peers. Returns their logs by party, and by party why there is no log."""
    pool = {}
    answers = dict(zip(parties, spread(lambda party: replay(folder, program, party, pool), parties, "replays")))
    logs = {party: answer for party, answer in answers.items() if isinstance(answer, Log)}
    return logs, {party: f"its replay is refused: {answer}" for party, answer in answers.items() if party not in logs}


# ---- what differs


def played_differences(played: pathlib.Path, log: Log) -> Iterator[str]:
    """Yields how the played file differs from the replay. A peer that was stopped may have played less than its recording gives."""
    if not played.exists():
        yield "what it played is missing"
        return
    own = played.read_bytes()
    if own != log.played and (log.whole or not log.played.startswith(own)):
        yield f"the replay plays {len(log.played)} bytes, the peer played {len(own)}, and they differ"


def found_differences(found: Mapping[str, bytes], log: Log) -> Iterator[str]:
    """Yields how the findings differ from those of the replay. A peer that was stopped hasn't written its findings."""
    names = sorted(name for name in found.keys() | log.findings.keys() if found.get(name) != log.findings.get(name))
    if log.whole and names:
        yield f"the replay finds other things: {', '.join(names)}"


class Unsent(typing.NamedTuple):
    """How many datagrams `party` received in the name of `sender` that `sender` didn't send."""

    party: int
    sender: int
    count: int


def unsent(session: Session, logs: Logs) -> Iterator[Unsent]:
    """Yields the pairs of peers with logs in which the first received datagrams in the second's name that the second didn't send.

    The network may repeat a datagram, so it doesn't matter how often one was received.
    """
    sent = {party: {datagram for _, datagram in log.sent} for party, log in logs.items()}
    for party, log in logs.items():
        heads = {datagram: head_of(datagram, session) for _, datagram in log.taken}
        senders = {datagram: head.sender for datagram, head in heads.items() if head and head.sender in sent and head.sender != party}
        counts = collections.Counter(sender for datagram, sender in senders.items() if datagram not in sent[sender])
        yield from (Unsent(party, sender, counts[sender]) for sender in sorted(counts))


def differences(folder: Folder, session: Session, logs: Logs) -> Iterator[tuple[int, str]]:
    """Yields how the peers' files differ from their replays and from each other's transcripts, each difference with its party."""
    found = folder.findings()
    for party, log in logs.items():
        own = itertools.chain(played_differences(folder.played(party), log), found_differences(found[party], log))
        yield from ((party, told) for told in own)
    for it in unsent(session, logs):
        yield it.party, f"took {counted(it.count, 'datagram')} that party {it.sender} didn't send"


def between_peers(session: Session, logs: Logs) -> tuple[int, int]:
    """Returns how many datagrams these peers sent each other, and how many they received from each other."""
    sent = [head_of(datagram, session) for log in logs.values() for _, datagram in log.sent]
    taken = [head_of(datagram, session) for log in logs.values() for _, datagram in log.taken]
    return sum(head.receiver in logs for head in sent if head), sum(head.sender in logs for head in taken if head)
