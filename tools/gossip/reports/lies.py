"""What happened to the peers of a run that lied: who kept evidence against them, whether they were evicted, what they cost the others."""
import collections
import json
from collections.abc import Container, Iterator

from gossip.networks.disturbances import LIES
from gossip.reports.audits import Audit
from gossip.reports.run_data import Run, SideRow
from gossip.scripts.console import Refusal, counted, listed
from gossip.sessions.session_folder import Folder

# the faults that the judge names, in words
FAULTS = {
    "F1": "a bad opening",
    "F2": "bad terms",
    "F3": "a wrong partner",
    "F4": "an identity twice",
    "F5": "a broken commitment",
    "F6": "another history",
    "F7": "a leaf twice",
}


def liars_in(folder: Folder) -> dict[int, str]:
    """Returns the peers that lied in the run of a folder, each with its lie. There are none if the folder has no network.json."""
    try:
        liars = {int(party): lie for party, lie in json.loads(folder.network.read_text("utf-8"))["liars"].items()}
        others = [lie for lie in liars.values() if lie not in LIES]
    except FileNotFoundError:
        return {}
    except (ValueError, KeyError, TypeError, AttributeError):
        raise Refusal(f"{folder.network} doesn't describe a network: move it away") from None
    if others:
        raise Refusal(f"{folder.network} describes lies, and nobody lies in this session: move it away")
    return liars


def fault_of(name: str | None) -> str:
    return FAULTS.get(name, "a fault that can't be told")


def keepers_of(run: Run, party: int) -> list[int]:
    """Returns the peers that keep evidence against a party."""
    return sorted({row.keeper for row in run.evidence if row.accused == party and row.keeper})


def line_of(run: Run, party: int, lie: str) -> str:
    """Returns a line on what happened to a liar."""
    keepers, evicted = keepers_of(run, party), {row.party: row for row in run.evictions}.get(party)
    kept = f"evidence of it is kept by {listed(f'peer {peer}' for peer in keepers)}" if keepers else "no peer keeps evidence of it"
    if evicted is None:
        return f"peer {party}, which lied ({lie}), wasn't evicted: {kept}"
    noticed = f"told to {counted(evicted.told, 'peer')} from round {evicted.round} on" if evicted.round else "told to nobody"
    return f"peer {party}, which lied ({lie}), was evicted for {fault_of(evicted.fault)}, {noticed}: {kept}"


def shorted(run: Run, liars: Container[int]) -> tuple[list[SideRow], list[SideRow]]:
    """Returns the sides on which an honest peer gave its key and opened nothing, and those of them with a liar as partner."""
    sides = [side for side in run.sides if side.peer not in liars and side.key_given is not None and side.key_got is None]
    return sides, [side for side in sides if side.partner in liars]


def lines_of_shorted(run: Run, liars: dict[int, str]) -> Iterator[str]:
    """Yields lines on what was unfair to honest peers: that they gave their keys and opened nothing."""
    sides, with_liars = shorted(run, liars)
    gave = sum(side.key_given is not None for side in run.sides if side.peer not in liars)
    honest = len(sides) - len(with_liars)
    brought = f"{len(sides)} brought them none that opens well, {honest} of these among themselves"
    yield f"unfair: of {counted(gave, 'key')} that honest peers gave, {brought}"
    if with_liars:
        counts = collections.Counter(side.peer for side in with_liars)
        items = sum(side.promised for side in with_liars)
        told = listed(f"peer {peer} {counted(count, 'time')}" for peer, count in sorted(counts.items()))
        yield f"liars had {counted(items, 'item')} for nothing: of {told}"


def lines_of(run: Run, liars: dict[int, str]) -> Iterator[str]:
    """Yields a line on each liar of a run, and lines on what was unfair."""
    yield from (line_of(run, party, lie) for party, lie in sorted(liars.items()))
    yield from lines_of_shorted(run, liars)


def faults_of(run: Run, liars: dict[int, str]) -> Iterator[str]:
    """Yields what mustn't happen: an honest peer is accused, or a peer keeps evidence against a liar that isn't evicted."""
    evicted = {row.party for row in run.evictions}
    framed = sorted((evicted | {row.accused for row in run.evidence}) - {*liars})
    if framed:
        yield f"there is evidence against {listed(f'peer {party}' for party in framed)}, who didn't lie"
    for party in sorted({*liars} - evicted):
        keepers = keepers_of(run, party)
        if keepers:
            yield f"peer {party} lied and wasn't evicted, though {listed(f'peer {peer}' for peer in keepers)} kept evidence"


def audit_failures(audit: Audit, liars: dict[int, str]) -> list[str]:
    """Returns the failures of an audit. With liars they count only if the audit itself failed or an unbalanced exchange has no liar."""
    honest = [it for it in audit.unbalanced if it.initiator not in liars and it.responder not in liars]
    return audit.failures if not liars or audit.is_failure or honest else []
