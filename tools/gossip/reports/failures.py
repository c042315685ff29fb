"""Why parties of a session failed, from their exit statuses and the state of their files and ports."""
import errno
import signal
import tempfile
from collections.abc import Iterator

from gossip.formats.files import Malformed, Session
from gossip.programs.bar import Status, told_of_status
from gossip.scripts.console import listed
from gossip.sessions.session_folder import Folder, is_free, key_of


def cause_of_files(folder: Folder, _session: Session, party: int) -> str | None:
    """Returns which file of a party can't be read or written, or why nothing can be written in its folder, or None."""
    read = [folder.session, folder.key(party), *([] if party else [folder.stream])]
    written = [folder.key(party), *sorted(folder.path.glob(f"{folder.results.name}.{party}.*"))]
    for path, mode, done in [*((path, "rb", "read") for path in read), *((path, "r+b", "written") for path in written)]:
        try:
            path.open(mode).close()
        except OSError as error:
            return f"{path} can't be {done}: {error.strerror}"
    return cause_of_room(folder)


def cause_of_room(folder: Folder) -> str | None:
    """Returns why nothing can be written in a folder, or None if something can."""
    try:
        with tempfile.TemporaryFile(dir=folder.path) as file:
            file.write(bytes(1 << 16))
    except OSError as error:
        full = error.errno in (errno.ENOSPC, errno.EDQUOT)
        return "the disk is full" if full else f"nothing can be written in {folder.path}: {error.strerror}"
    return None


def cause_of_key(folder: Folder, session: Session, party: int) -> str:
    """Returns why a key is refused: it was spent before, it isn't this session's, or it can't be read."""
    try:
        return "its key was spent before" if key_of(folder, session, party).spent else "its key isn't this session's"
    except (Malformed, OSError) as fault:
        return f"its key is refused: {fault}"


def cause_of_link(_folder: Folder, session: Session, party: int) -> str | None:
    """Returns a line if the party's port is taken, else None."""
    return None if is_free(session.port + party) else f"port {session.port + party} is taken"


def cause_of_input(folder: Folder, session: Session, party: int) -> str | None:
    """Returns a line if the party is the broadcaster and its stream is too large, else None."""
    if party:
        return None
    return next(session.faults_of_stream(folder.stream.stat().st_size), None)


CAUSES = {Status.FILE: cause_of_files, Status.KEY: cause_of_key, Status.LINK: cause_of_link, Status.INPUT: cause_of_input}


def cause_of(folder: Folder, session: Session, party: int, status: int) -> str:
    """Returns why a party ended with this status, as far as its files and ports show it."""
    seen = CAUSES[status](folder, session, party) if status in CAUSES else None
    return seen or told_of_status(status)


def causes_of(folder: Folder, session: Session, statuses: dict[int, int], status_of_all: int, kill: int | None) -> Iterator[str]:
    """Yields why a session failed, from the statuses of parties and of the command. `kill` is the peer that was to be killed, or None."""
    for party, status in statuses.items():
        if party == kill and status != 128 + signal.SIGKILL:
            yield f"party {party} was to be killed, and ended before"
        if party and status == Status.DONE and not folder.recording(party).exists():
            yield f"party {party} left no recording"
        if status != Status.DONE and (party, status) != (kill, 128 + signal.SIGKILL):
            yield f"party {party} status {status}: {cause_of(folder, session, party, status)}"
    silent = [party for party in session.parties if party not in statuses]
    if silent:
        yield f"there is no status of {listed(f'party {party}' for party in silent) if statuses else 'any party'}"
    if status_of_all not in (Status.DONE, Status.CHILD):
        yield f"the command `session` status {status_of_all}: {told_of_status(status_of_all)}"
