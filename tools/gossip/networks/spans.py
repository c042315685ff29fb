"""The folders of the hosts that a session spans. Each has what the host's parties need, and only their keys.

A host's folder has these files:
  session.toml      the session's text
  key.P             the key file of each party P of the host; it was moved here, so there is one copy of it
  stream            what is broadcast, only on the broadcaster's host
  bar               the program
  forward.sh        forwards datagrams, as the files in the folder `forward` say, until it is stopped
  start.sh          starts the parties, which begin at a time that is the same on all hosts
The parties write their results there, under the names that these files have in a session's folder.
"""
import dataclasses
import os
import pathlib
import shutil
from collections.abc import Iterable, Iterator

from gossip.formats.files import Session
from gossip.networks import forwarding
from gossip.networks.host_text import Host
from gossip.programs.bar import words_of
from gossip.scripts.console import Refusal, held, listed
from gossip.sessions.making import new_folder
from gossip.sessions.session_folder import Folder

# how many hours after the start of the script a session may begin at most
MOST_HOURS = 48

START = """#!/bin/sh
# Starts {parties} of session {id} on host {name}. Its word is when the session begins, in milliseconds of
# Unix time, the same on all hosts. A key signs once, so a time that is over or more than {hours} hours ahead is refused.
cd "$(dirname "$0")" || exit 2
umask 077
begin=${{1:-{begin}}}
case $begin in
"" | *[!0-9]*) echo "REFUSED: name when the session begins, in milliseconds of Unix time: ./start.sh BEGIN" >&2; exit 2 ;;
esac
ahead=$((begin / 1000 - $(date +%s)))
if [ "$ahead" -le 0 ] || [ "$ahead" -gt {seconds} ]; then
    echo "REFUSED: the begin $begin is $ahead seconds ahead: take more than 0, and at most {seconds}" >&2; exit 2
fi
{lines}
trap 'kill {processes}; exit 143' INT TERM
failed=0
ended() {{ wait "$2"; status=$?; echo "party $1 status $status"; [ "$status" = 0 ] || failed=9; }}
{waits}
exit $failed
"""


@dataclasses.dataclass(frozen=True)
class Span:
    """A session that spans several hosts. `by` names what forwards their datagrams. `begin` is None if the time isn't chosen yet."""

    folder: Folder
    session: Session
    program: pathlib.Path
    hosts: list[Host]
    by: str
    begin: int | None = None

    @property
    def places(self) -> dict[str, pathlib.Path]:
        """The path of each host's folder, by the host's name."""
        return places_of(self.folder, self.hosts)


def span_of(folder: Folder) -> pathlib.Path:
    """Returns the path of the folder that contains the hosts' folders."""
    return folder.path / "hosts"


def places_of(folder: Folder, hosts: list[Host]) -> dict[str, pathlib.Path]:
    """Returns the path of each host's folder, by the host's name."""
    return {host.name: span_of(folder) / host.name for host in hosts}


def faults_of_span(folder: Folder) -> Iterator[str]:
    """Yields a fault if the session was already spread over hosts."""
    if os.path.lexists(span_of(folder)):
        yield f"{span_of(folder)} is there already: the session's keys were spread, so make a new session by tools/make-session"


# ---- the texts


def party_line(party: int) -> str:
    """Returns the line of a shell script that starts a party."""
    names = {"session": "session.toml", "key": f"key.{party}", "stream": "stream", "begin": '"$begin"', "found": f"party.{party}"}
    names |= {name: f"party.{party}.{name}" for name in ("played", "recording")}
    words = ["./bar", *words_of("peer" if party else "broadcaster", **names)]
    return f"{' '.join(words)} > /dev/null & process_{party}=$!"


def start_of(session: Session, host: Host, begin: int | None = None) -> str:
    """Returns the text of the script that starts a host's parties. They begin at `begin`, unless the script is given another time."""
    parties = [party for party in session.parties if party in host.parties]
    return START.format(
        parties=listed(f"party {party}" for party in host.parties),
        id=session.id,
        name=host.name,
        hours=MOST_HOURS,
        seconds=3600 * MOST_HOURS,
        begin=begin or "",
        lines="\n".join(map(party_line, parties)),
        processes=" ".join(f"$process_{party}" for party in parties),
        waits="\n".join(f"ended {party} $process_{party}" for party in parties),
    )


# ---- the folders


def write_script(path: pathlib.Path, text: str) -> None:
    path.write_text(text, "utf-8")
    path.chmod(0o700)


def write_host(span: Span, host: Host, place: pathlib.Path) -> None:
    """Writes the folder of a host, without its keys."""
    folder, session = span.folder, span.session
    (place / "forward").mkdir(parents=True)
    for name, text in forwarding.files_of(session, span.hosts, host, span.by).items():
        (place / "forward" / name).write_text(text, "utf-8")
    write_script(place / "forward.sh", forwarding.script_of(session, span.hosts, host, span.by))
    write_script(place / "start.sh", start_of(session, host, span.begin))
    shutil.copyfile(folder.session, place / folder.session.name)
    shutil.copy(span.program, place / "bar")
    if 0 in host.parties:
        shutil.copyfile(folder.stream, place / folder.stream.name)


def move(file: pathlib.Path, to: pathlib.Path) -> None:
    """Moves a file to a folder. Raises `Refusal` if the folder already has a file of that name."""
    if os.path.lexists(to / file.name):
        raise Refusal(f"{to / file.name} is there already: move it away")
    file.rename(to / file.name)


def move_all(pairs: Iterable[tuple[pathlib.Path, pathlib.Path]]) -> None:
    """Moves each file to its folder."""
    for file, to in pairs:
        move(file, to)


def spread(span: Span) -> None:
    """Writes the folders of all hosts, and then moves the keys there."""
    places = span.places
    with new_folder(span_of(span.folder)):
        for host in span.hosts:
            write_host(span, host, places[host.name])
    with held():
        move_all((span.folder.key(party), places[host.name]) for host in span.hosts for party in host.parties)


def files_of_parties(place: pathlib.Path, host: Host) -> Iterator[pathlib.Path]:
    """Yields those files of a host's parties that exist: their keys and their results."""
    for party in host.parties:
        yield from (file for file in (Folder(place).key(party), *sorted(place.glob(f"party.{party}.*"))) if file.exists())


def gather(folder: Folder, hosts: list[Host]) -> None:
    """Moves the files of all parties from the hosts' folders to the session's, then removes the hosts' folders and their other files."""
    places = places_of(folder, hosts)
    move_all([(file, folder.path) for host in hosts for file in files_of_parties(places[host.name], host)])
    if span_of(folder).is_dir():
        shutil.rmtree(span_of(folder))


# ---- what is printed


def lines_of(span: Span) -> Iterator[str]:
    """Yields a line for each host on what to do there, and a line on the time at which the session begins."""
    word = "" if span.begin else " BEGIN"
    for host in span.hosts:
        run = f"run ./forward.sh there by {span.by}, and ./start.sh{word} beside it"
        yield f"host {host.name}: move {span.places[host.name]} to {host.address}, {run}"
    if span.begin:
        yield f"all parties begin at {span.begin}, in milliseconds of Unix time"
    else:
        yield "BEGIN is the same on all hosts, in milliseconds of Unix time, such as $(date -d 18:00:00Z +%s)000"
