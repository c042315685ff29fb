"""Checks the parties that keep the rules, whoever attacks their session: how they end, what they play and what they find."""
import itertools
import pathlib
import signal
from collections.abc import Iterable, Iterator

from gossip.formats.files import CONTENT, Session, manifests_of
from gossip.programs.bar import Ran, Status
from gossip.reports import replays
from gossip.reports.replays import Logs
from gossip.scripts.console import listed
from gossip.sessions.session_folder import Folder


def end_faults(ended: dict[int, Ran], killed: int | None) -> Iterator[str]:
    """Yields what is wrong with how the parties ended, and with what the broadcaster printed."""
    for party, ran in ended.items():
        wanted = 128 + signal.SIGKILL if party == killed else Status.DONE
        if ran.status != wanted:
            yield f"party {party}: {ran.told} in place of {wanted:d}"
    evicted = [line for line in ended[0].printed.decode().splitlines() if line.startswith("evicted")]
    if evicted:
        yield f"the broadcaster {listed(evicted)}, who kept the rules"


def is_of_stream(played: bytes, stream: bytes) -> bool:
    """Whether the played bytes are pieces of the stream, in order."""
    pieces = iter([stream[at : at + CONTENT] for at in range(0, len(stream), CONTENT)])
    return all(piece in pieces for piece in (played[at : at + CONTENT] for at in range(0, len(played), CONTENT)))


def played_faults(folder: Folder, parties: Iterable[int]) -> Iterator[str]:
    """Yields what is wrong with what peers played. A last incomplete piece isn't checked, since a peer may have been killed."""
    stream = folder.stream.read_bytes()
    for party in parties:
        played = folder.played(party).read_bytes()
        if not is_of_stream(played[: len(played) // CONTENT * CONTENT], stream):
            yield f"party {party}: what it played isn't of the stream"


def found_faults(folder: Folder) -> Iterator[str]:
    """Yields what the parties found but shouldn't have: evidence, and manifests that aren't in the broadcaster's table."""
    found = folder.findings()
    signed = {manifest for _, manifest in manifests_of(found[0]["table"])}
    for party, names in sorted(found.items()):
        accused = [f"party {name}" for name in names if name != "table"]
        if accused:
            yield f"party {party}: it keeps evidence against {listed(accused)}, who kept the rules"
        if any(manifest not in signed for _, manifest in manifests_of(names.get("table", b""))):
            yield f"party {party}: its table has a manifest that the broadcaster didn't sign"


def replay_faults(folder: Folder, session: Session, program: pathlib.Path) -> tuple[Logs, list[str]]:
    """Returns the logs of the replays, and the faults: refused replays, and differences from what the parties left."""
    logs, refused = replays.replays_of(folder, program, session.parties[:-1])
    faults, found = [f"party {party}: {told}" for party, told in refused.items()], folder.findings()
    for party, log in logs.items():
        differ = itertools.chain(replays.played_differences(folder.played(party), log), replays.found_differences(found[party], log))
        faults += [f"party {party}: {told}" for told in differ]
    return logs, faults
