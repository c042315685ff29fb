"""Folders of expected values: to which sessions their parties belong."""
import pathlib
from collections.abc import Iterator

from gossip.formats.files import Malformed, Session
from gossip.scripts.console import progress


def home_of(folder: pathlib.Path) -> pathlib.Path:
    """Returns the folder of the session that parts of a folder share: the folder itself if it has a session's text, else its world-a."""
    return folder if (folder / "session.toml").exists() else folder / "world-a"


def worlds_of(folder: pathlib.Path) -> Iterator[tuple[pathlib.Path, pathlib.Path]]:
    """Yields each folder of what parties took and did, with the folder of their session."""
    yield from ((world, world) for world in sorted(folder.glob("world-*")))
    yield from ((part, home_of(folder)) for name in ("world", "puppet*", "caster") for part in sorted(folder.glob(name)))


def is_of_session(part: pathlib.Path, world: pathlib.Path, party: int) -> bool:
    """Whether the session of the folder `world` has this party. If not, a line says that its files in the folder `part` are left out.

    If the session's text is malformed or can't be read, the party counts as one of the session, so that what needs the text is refused.
    """
    try:
        peers = Session.read(world / "session.toml").peers
    except (Malformed, OSError):
        return True
    if party > peers:
        progress(f"{part} has files of party {party}, which are left out: its session has {peers} peers")
    return party <= peers
