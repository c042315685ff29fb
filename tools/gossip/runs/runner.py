"""Runs a session in its folder, audits and replays the recordings, draws the run, and reports what failed and why.

A session that can't be run is refused.
"""
import dataclasses
import pathlib
import re
import subprocess
from collections.abc import Container, Iterable, Iterator

from gossip.drawings import decoded, session_picture, timeline
from gossip.formats.files import Malformed, Session
from gossip.networks.disturbances import Network
from gossip.programs.bar import await_end, lines_of, running, status_of
from gossip.reports import lacking, lies
from gossip.reports.audits import Audit, audit_of
from gossip.reports.failures import causes_of
from gossip.reports.flooding import flood_lines, floods_of, outside_of, outside_told, strange_of
from gossip.reports.gathering import Known, gathered
from gossip.reports.replays import Logs, between_peers, differences, replays_of
from gossip.reports.run_data import Run
from gossip.runs import disturbed
from gossip.runs.disturbed import Ended
from gossip.runs.watching import Watch, watched
from gossip.scripts.console import Outcome, Refusal, counted, failed, faults_of_place, listed, refuse, say, told_of, well
from gossip.sessions.session_folder import Folder, begin_of, is_free, key_of, party_words, session_words

ANEW = "make a new session by tools/make-session"

# with more peers than MANY, bursts of datagrams may run over receive buffers of less than ENOUGH bytes; BUFFER has the default size
MANY, ENOUGH = 50, 4 << 20
BUFFER = pathlib.Path("/proc/sys/net/core/rmem_default")


# ---- what is refused


def session_of(folder: Folder) -> Session:
    """Returns the session of a folder. Raises `Refusal` if the session's text is missing or malformed."""
    try:
        return Session.read(folder.session)
    except Malformed as fault:
        raise Refusal(f"{folder.session} isn't the text of a session: {fault}; {ANEW}") from None
    except OSError as error:
        raise Refusal(f"{folder.session} can't be read: {error.strerror}; {ANEW}") from None


def faults_of_files(folder: Folder, session: Session) -> Iterator[str]:
    """Yields a fault if files are missing."""
    files = [*map(folder.key, session.parties), folder.stream]
    missing = [file.name for file in files if not file.is_file()]
    if missing:
        yield f"{folder.path} has no {listed(missing)}: {ANEW}"


def faults_of_keys(folder: Folder, session: Session) -> Iterator[str]:
    """Yields what is wrong with the key files. Spent ones are reported together."""
    spent = []
    for party in session.parties:
        try:
            if key_of(folder, session, party).spent:
                spent.append(party)
        except Malformed as fault:
            yield f"{folder.key(party)} isn't a key of this session: {fault}; {ANEW}"
        except OSError as error:
            yield f"{folder.key(party)} can't be read: {error.strerror}"
    if spent:
        keys = "all keys" if len(spent) == len(session.parties) else listed(f"key.{party}" for party in sorted(spent))
        yield f"spent, since the session was run: {keys} in {folder.path}; a key serves one session, so {ANEW}"


def faults_of_results(folder: Folder, session: Session) -> Iterator[str]:
    """Yields a fault if files of another run are there, which would be overwritten."""
    left = [file.name for party in session.parties for file in (folder.recording(party), folder.played(party)) if file.exists()]
    if left:
        yield f"{folder.path} has {listed(left)} of another run: move these away, or {ANEW}"


def faults_of_ports(session: Session) -> Iterator[str]:
    """Yields a fault if ports of the session are taken."""
    taken = [(party, session.port + party) for party in sorted(session.parties) if not is_free(session.port + party)]
    if taken:
        told = listed(f"{port} of party {party}" for party, port in taken)
        yield f"these ports are taken: {told}; end the program that has them, or {ANEW}, which looks for free ones without --port"


def faults_of_folder(folder: Folder, session: Session) -> Iterator[str]:
    """Yields why the session of a folder can be run neither live nor simulated."""
    missing = [*faults_of_files(folder, session)]
    yield from missing
    if not missing:
        keys = [*faults_of_keys(folder, session)]
        yield from keys or faults_of_results(folder, session)
        yield from (f"{fault}; {ANEW}" for fault in session.faults_of_stream(folder.stream.stat().st_size))


def faults_of(folder: Folder, session: Session, kill: int | None) -> Iterator[str]:
    """Yields why the session of a folder can't be run live, and why this peer can't be killed in it, if one is named."""
    yield from faults_of_folder(folder, session)
    if kill is not None and not 1 <= kill <= session.peers:
        yield f"--kill {kill} names no peer: take one of 1 to {session.peers}"
    yield from faults_of_ports(session)


def faults_of_picture(path: pathlib.Path | None) -> Iterable[str]:
    """Returns why a picture can't be drawn to this path, if one is named."""
    return faults_of_place(path, b"<svg", "a picture of a run") if path else []


def accept(folder: Folder, kill: int | None = None) -> Session:
    """Returns the session of a folder. Raises `Refusal` if the session can't be run."""
    session = session_of(folder)
    refuse(faults_of(folder, session, kill))
    return session


# ---- the run


def buffer_lines(peers: int, file: pathlib.Path = BUFFER) -> Iterator[str]:
    """Yields a warning if there are many peers and the system's receive buffers are small."""
    size = int(file.read_text("ascii")) if file.exists() else ENOUGH
    if peers > MANY and size < ENOUGH:
        larger = f"`sysctl -w {file.parent.parent.name}.{file.parent.name}.{file.name}={ENOUGH}` makes them larger"
        yield f"{peers} peers: bursts may run over their receive buffers, of {counted(size, 'byte')} each; {larger}"


def line_of(folder: Folder, party: int, status: int) -> str:
    """Returns the line on a party that has ended. If it is a peer that played, it says how much."""
    played = folder.played(party)
    if party == 0 or not played.exists():
        return f"party {party} status {status}"
    size, length = played.stat().st_size, folder.stream.stat().st_size
    part = f"{size / length:.1%}" if length else "of an empty stream"
    return f"party {party} status {status} played {size} of {length} bytes, {part}"


def run_parties(folder: Folder, program: pathlib.Path, begin: int) -> tuple[dict[int, int], int]:
    """Runs all parties as processes, and prints a line when one ends. Returns their statuses, and that of the command."""
    statuses = {}
    with running(session_words(folder, program, begin), stdout=subprocess.PIPE) as process:
        for line in lines_of(process):
            told = re.fullmatch(r"party (\d+) status (\d+)", line)
            if told:
                party, status = map(int, told.groups())
                statuses[party] = status
            say(line_of(folder, party, status) if told else line)
        await_end(process)
        return statuses, status_of(process)


# ---- the replays


@dataclasses.dataclass(frozen=True)
class Compared:
    """The result of the replays of a run: the logs of peers, why others have none, and what differs, each with its party."""

    logs: Logs = dataclasses.field(default_factory=dict)
    refused: dict[int, str] = dataclasses.field(default_factory=dict)
    differ: list[tuple[int, str]] = dataclasses.field(default_factory=list)


def compare(folder: Folder, session: Session, program: pathlib.Path, parties: list[int]) -> Compared:
    """Replays these peers, and prints how many replays agree with the run."""
    logs, refused = replays_of(folder, program, parties)
    differ = [*differences(folder, session, logs)]
    sent, taken = between_peers(session, logs)
    agree = len(parties) - len({*refused, *(party for party, _ in differ)})
    said = f"{'all' if agree == len(parties) else f'{agree} of'} {len(parties)} replays agree"
    say(f"{said}; peers sent each other {sent} datagrams and took {taken}")
    return Compared(logs, refused, differ)


@dataclasses.dataclass(frozen=True)
class Drawn:
    """The result of comparing and drawing a run: what differs or failed, what to print about the page, and the run's data, if known."""

    causes: list[str]
    told: str
    run: Run | None = None


def draw(folder: Folder, run: Run, picture: pathlib.Path | None) -> tuple[list[str], str]:
    """Writes the data and the page of a run, and a picture if one is named. Returns what failed, and what to print about the page."""
    drawn = {folder.data: run.to_json, folder.page: lambda: timeline.page(run, decoded.video_in(folder))}
    drawn |= {picture: lambda: session_picture.picture(run)} if picture else {}
    for path, draw_in in drawn.items():
        try:
            path.write_text(draw_in(), "utf-8")
        except Malformed as fault:
            return [f"{folder.video} can't be read: {fault}"], f"{path.name} isn't drawn"
        except OSError as error:
            return [f"{path} can't be written: {error.strerror}"], f"{path.name} isn't whole"
    return [], f"page {folder.page}"


def outside_before(folder: Folder) -> int | None:
    """Returns how many datagrams from outside the earlier data of this run reports, or None."""
    try:
        return Run.of_json(folder.data.read_text("utf-8")).outside
    except (OSError, ValueError, Malformed):
        return None


def compare_and_draw(
    folder: Folder, session: Session, program: pathlib.Path, audit: Audit, picture: pathlib.Path | None, ran: Ended | None = None
) -> Drawn:
    """Replays each peer that left a recording and didn't lie, gathers the data of the run, and draws it with its audit.

    If the session has just been run, `ran` is how it ended. Prints what happened to liars.
    """
    liars = lies.liars_in(folder)
    parties = [party for party in session.parties[:-1] if folder.recording(party).exists() and party not in liars]
    try:
        compared = compare(folder, session, program, parties) if parties else Compared()
        refused = compared.refused | {party: f"it lied ({lie}), so its recording isn't replayed" for party, lie in liars.items()}
        outside = outside_of(folder, session, compared.logs, ran.taken) if ran else outside_before(folder)
        statuses = ran.statuses if ran else {}
        known = Known(audit, refused=refused, differ=compared.differ, statuses=statuses, liars=liars, outside=outside)
        run = gathered(folder, session, program, compared.logs, known) if compared.logs else None
        # the run has all that is drawn, and logs need far more memory
        compared.logs.clear()
    except OSError as error:
        return Drawn([f"the recordings can't be replayed: {told_of(error)}"], "there is no page")
    causes = [f"party {party}: {told}" for party, told in [*refused.items(), *compared.differ] if party not in liars]
    if not run:
        return Drawn(causes, "there is no page, since nobody left a recording that is replayed")
    if folder.network.exists():
        for line in lies.lines_of(run, liars):
            say(line)
        causes += lies.faults_of(run, liars)
    unwritten, page = draw(folder, run, picture)
    return Drawn([*causes, *unwritten], page, run)


def lost_lines(drops: dict[int, int], floods: Container[int] = (), strange: object = False) -> Iterator[str]:
    """Yields a line for each party whose receive buffer ran over, except for those that were flooded.

    A longer tick helps if the machine is too slow for the session. It is advised only if neither a flood nor anything strange was seen.
    """
    advice = "" if floods or strange else "; a longer tick (--tick-ms) helps"
    for party, count in sorted(drops.items()):
        if count and party not in floods:
            lost = f"{counted(count, 'datagram')} {'was' if count == 1 else 'were'} lost"
            yield f"party {party}: its receive buffer ran over, {lost}{advice}"


def outside_lines(folder: Folder, session: Session, ran: Ended, run: Run | None) -> Iterator[str]:
    """Yields the lines on floods, on what was lost, and on what came from outside the session."""
    strange = strange_of(run) if run and not ran.fates else {}
    outside = run.outside if run else None
    floods = floods_of(folder, session, ran.drops, strange)
    yield from flood_lines(floods)
    yield from lost_lines(ran.drops, floods, strange or outside)
    told = outside_told(outside)
    if told:
        yield told


# ---- all together


def run_session(
    folder: Folder,
    session: Session,
    program: pathlib.Path,
    kill: int | None = None,
    picture: pathlib.Path | None = None,
    network: Network | None = None,
) -> Outcome:
    """Runs an accepted session, undisturbed or over a network, and returns the script's outcome."""
    if network is None:
        ran = run_undisturbed(folder, session, program, kill)
    else:
        ran = run_disturbed(folder, session, program, network, kill)
    return outcome_of_run(folder, session, program, ran, kill, picture)


def run_undisturbed(folder: Folder, session: Session, program: pathlib.Path, kill: int | None) -> Ended:
    """Runs all parties with the program's own command `session`."""
    begin = begin_of(session, program)
    watch = Watch(session, begin, party_words(folder, program, kill, begin) if kill else None)
    with watched(watch):
        statuses, status = run_parties(folder, program, begin)
    return Ended(statuses, status, watch.drops, taken=watch.taken)


def run_disturbed(folder: Folder, session: Session, program: pathlib.Path, network: Network, kill: int | None) -> Ended:
    """Runs all parties over a network, and prints a line for each when all have ended."""
    say(network.told)
    ran = disturbed.run_parties(folder, session, program, network, kill)
    for party, status in ran.statuses.items():
        say(line_of(folder, party, status))
    return ran


def outcome_of_run(
    folder: Folder, session: Session, program: pathlib.Path, ran: Ended, kill: int | None = None, picture: pathlib.Path | None = None
) -> Outcome:
    """Audits a run, compares its replays and draws it, and returns the script's outcome."""
    causes = [*causes_of(folder, session, ran.statuses, ran.status, kill)]
    if ran.fates:
        folder.network.write_text(ran.fates.text(), "utf-8")
        say(ran.fates.line)
    audit = audit_of(folder, session, program)
    say(audit.line)
    failures = lies.audit_failures(audit, lies.liars_in(folder))
    drawn = compare_and_draw(folder, session, program, audit, picture, ran)
    lacked = lacking.lines_of(drawn.run, ran.drops) if drawn.run else ()
    for line in [*outside_lines(folder, session, ran, drawn.run), *lacked]:
        say(line)
    if causes or failures or drawn.causes:
        say(drawn.told)
        return failed(*causes, *failures, *drawn.causes)
    ended = f"party {kill} was killed, the others ended" if kill else "all parties ended"
    return well(f"{ended} with status 0, all replays agree, {drawn.told}")
