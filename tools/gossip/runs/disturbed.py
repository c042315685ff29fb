"""Runs a live session that is disturbed: a relay between its parties loses, repeats and delays datagrams, and peers lie."""
import contextlib
import dataclasses
import pathlib
import tempfile
from collections.abc import Mapping

from gossip.formats.files import Session
from gossip.networks.disturbances import Fates, Network
from gossip.networks.relaying import Relay, layout_for, write_texts
from gossip.programs.bar import Status
from gossip.programs.builds import PARTY, built
from gossip.runs.parties import Way, started
from gossip.runs.watching import Watch, watched
from gossip.sessions.session_folder import Folder, begin_of


@dataclasses.dataclass(frozen=True)
class Ended:
    """How a run ended: the status of each party, that of all of them together, what each receive buffer lost, and what the network did.
    `taken` is how many datagrams all programs of this machine received, if this is known and there was no relay.
    """

    statuses: dict[int, int]
    status: int
    drops: dict[int, int] = dataclasses.field(default_factory=dict)
    fates: Fates | None = None
    taken: int | None = None


def status_of_all(statuses: Mapping[int, int]) -> Status:
    """Returns the status of all parties together."""
    return Status.CHILD if any(statuses.values()) else Status.DONE


def ways_of(network: Network, texts: Mapping[int, pathlib.Path]) -> dict[int, Way]:
    """Returns how to start each party that lies or reads its own copy of the session's text."""
    program = built(PARTY) if network.liars else None
    parties = texts.keys() | network.liars.keys()
    lies = {party: (str(program), "udp", lie) for party, lie in network.liars.items()}
    return {party: Way(program=lies.get(party, ()), session=texts.get(party)) for party in parties}


def run_parties(folder: Folder, session: Session, program: pathlib.Path, network: Network, kill: int | None) -> Ended:
    """Runs all parties over the network, and returns how the run ended."""
    fates = Fates(network)
    with contextlib.ExitStack() as stack:
        room = pathlib.Path(stack.enter_context(tempfile.TemporaryDirectory(prefix="bar-texts-")))
        layout = None if network.is_plain else layout_for(session)
        texts = write_texts(folder, session, layout, room) if layout else {}
        ways = ways_of(network, texts)
        # a liar computes the tree of its key twice
        begin = begin_of(session, program, trees=2 if network.liars else 1)
        victim = ways.get(kill, Way()).words(folder, program, kill, begin) if kill else None
        ports = {party: layout.own(party) for party in session.parties} if layout else None
        watch = Watch(session, begin, victim, ports)
        if layout:
            stack.enter_context(watched(Relay(layout, fates)))
        stack.enter_context(watched(watch))
        live = stack.enter_context(started(folder, session, program, begin, ways))
        statuses = {party: ran.status for party, ran in live.ends().items()}
    return Ended(statuses, status_of_all(statuses), watch.drops, fates, None if layout else watch.taken)
