"""Makes a session in a new folder: a key file for each party, the session's text, and a copy of the stream. Impossible ones are refused."""
import contextlib
import dataclasses
import hashlib
import os
import pathlib
import secrets
import shutil
from collections.abc import Iterable, Iterator, Mapping

from gossip.formats.files import NUMBERS, Given, Numbers, Room, Session, faults_of_numbers, names_in, range_of
from gossip.programs.bar import spread
from gossip.scripts.console import held
from gossip.sessions.choosing import DEFAULTS, FREE
from gossip.sessions.session_folder import Folder, free_port, make_key, seconds_of_keys


def option_of(name: str) -> str:
    """Returns the option of a script that gives a number of the session."""
    return f"--{name.replace('_', '-')}"


@dataclasses.dataclass(frozen=True)
class Wanted:
    """The session to make: its folder, its stream and its numbers. A number that couldn't be read is the text that was given for it.

    If the port is missing, free ones are chosen. If the type of an upper tree is given, signatures have two levels. The seed, from which
    all secrets are derived, is a text of hex digits, or None for a random one.
    """

    folder: pathlib.Path
    stream: pathlib.Path
    numbers: Given
    seed: str | None = None

    def faults(self) -> Iterator[str]:
        """Yields the reasons to refuse it."""
        names = [*DEFAULTS, *(name for name in FREE if name in self.numbers)]
        yield from faults_of_folder(self.folder)
        yield from faults_of_numbers(self.numbers, names, option_of)
        yield from faults_of_stream(self.stream, self.numbers)
        yield from faults_of_seed(self.seed)


def faults_of_folder(path: pathlib.Path) -> Iterator[str]:
    """Yields the reasons why this folder can't be made."""
    above = next((parent for parent in path.absolute().parents if parent.exists()), path)
    if os.path.lexists(path):
        yield f"{path} is there already: name a folder that isn't"
    elif not above.is_dir():
        yield f"{above} isn't a folder: name one below a folder"
    elif not os.access(above, os.W_OK | os.X_OK):
        yield f"nothing can be made in {above}: name a folder below another"


def faults_of_stream(path: pathlib.Path, numbers: Mapping[str, object]) -> Iterator[str]:
    """Yields the reasons to refuse a file as the stream of a session. Whether it fits is checked only if the numbers are valid."""
    names = names_in(numbers, [field.name for field in dataclasses.fields(Room)])
    if not path.is_file():
        yield f"the stream {path} is {'no file' if path.exists() else 'missing'}: name a file"
    elif not os.access(path, os.R_OK):
        yield f"the stream {path} can't be read: name a file that can"
    elif all(range_of(name, numbers).has(numbers.get(name)) for name in names):
        yield from Room(**{name: numbers[name] for name in names}).faults(path.stat().st_size)


def faults_of_seed(seed: str | None) -> Iterator[str]:
    """Yields the reason to refuse the text of a seed, if it isn't hex."""
    try:
        bytes.fromhex(seed or "")
    except ValueError:
        yield f"--seed {seed} isn't hex: give an even number of hex digits"


# ---- making


@contextlib.contextmanager
def new_folder(path: pathlib.Path) -> Iterator[Folder]:
    """Makes a folder that only its owner can access, and its missing parents. If the block fails, all of them are removed again."""
    above = [parent for parent in path.absolute().parents if not parent.exists()]
    mask, made = os.umask(0o077), False
    try:
        with held():
            path.mkdir(parents=True)
            made = True
        yield Folder(path)
    except BaseException:
        if made:
            remove(path, above)
        raise
    finally:
        os.umask(mask)


def remove(folder: pathlib.Path, above: Iterable[pathlib.Path]) -> None:
    """Removes a folder with all that is in it, and then those of its parents `above` that are empty."""
    with contextlib.suppress(OSError):
        shutil.rmtree(folder)
        for parent in above:
            parent.rmdir()


def derived(seed: bytes, what: str) -> bytes:
    return hashlib.sha256(f"bar {what} ".encode() + seed).digest()


def make_keys(
    folder: Folder, program: pathlib.Path, session_id: str, numbers: Numbers, seed: bytes, told: str | None = "keys"
) -> list[str]:
    """Makes all key files, as many at a time as there are processors, and returns the lines of the session's text on each party."""

    def make_one(party: int) -> str:
        return make_key(folder, program, party, session_id, numbers, derived(seed, f"secret {party}"))

    parties = range(numbers["peers"] + 1)
    return spread(make_one, parties, told, seconds=told and seconds_of_keys(program, parties, session_id, numbers))


def text_of(session_id: str, numbers: Numbers, keys: Iterable[str]) -> str:
    """Returns the session's text."""
    lines = [f"{name} = {numbers[name]}" for name in NUMBERS if name in numbers and name not in ("version", "peers")]
    return "\n".join([f"version = {numbers['version']}", f'id = "{session_id}"', *lines, "\n[[peer]]\n".join(keys)])


def make(wanted: Wanted, program: pathlib.Path, told: str | None = "keys") -> tuple[Folder, Session]:
    """Makes a session that has no faults. Returns its folder and its numbers. Progress is reported with the label `told`, if any."""
    seed = secrets.token_bytes(32) if wanted.seed is None else bytes.fromhex(wanted.seed)
    session_id = derived(seed, "session")[:8].hex()
    numbers = wanted.numbers if "port" in wanted.numbers else wanted.numbers | {"port": free_port(wanted.numbers["peers"] + 1)}
    with new_folder(wanted.folder) as folder:
        keys = make_keys(folder, program, session_id, numbers, seed, told)
        folder.session.write_text(text_of(session_id, numbers, keys), "utf-8")
        shutil.copyfile(wanted.stream, folder.stream)
        return folder, Session.read(folder.session)


def summary_of(folder: Folder, session: Session) -> str:
    """Returns a line that describes the new session."""
    length = folder.stream.stat().st_size
    return f"session {session.id}: {session.peers} peers, {session.seconds:.1f} s, a stream of {length} bytes in a room of {session.room}"
