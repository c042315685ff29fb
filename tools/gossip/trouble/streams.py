"""Runs of the program with standard streams that are closed when it starts."""
import pathlib
import tempfile
from collections.abc import Collection, Iterator

from gossip.programs import bar
from gossip.scripts import console

STREAMS = ["standard input", "standard output", "standard error"]
CHOICES = [[], [0], [1], [2], [0, 1, 2]]


def values_of(program: pathlib.Path, words: list[str], closed: Collection[int]) -> dict[str, object]:
    """Runs a command in an empty folder with these streams closed. Returns its status, what it prints and the files that it leaves."""
    closing = " ".join(f"{number}>&-" for number in closed)
    # the output goes to files outside the folder; the shell closes the streams
    with tempfile.TemporaryDirectory() as room, tempfile.TemporaryFile() as out, tempfile.TemporaryFile() as err:
        shell = ["sh", "-c", f'exec "$0" "$@" {closing}', program, *words]
        with bar.running(shell, cwd=room, stdout=out, stderr=err) as process:
            process.wait(timeout=60)
        values = {"status": bar.status_of(process)}
        values |= {f"the file {file.name}": file.read_bytes() for file in pathlib.Path(room).iterdir()}
        for name, file in ((STREAMS[1], out), (STREAMS[2], err)):
            file.seek(0)
            values[name] = file.read()
    # what is printed on a closed stream is lost
    return {name: value for name, value in values.items() if name not in {STREAMS[number] for number in closed}}


def differences(words: list[str], closed: Collection[int], found: dict[str, object], wanted: dict[str, object]) -> Iterator[str]:
    """Yields what differs from `wanted` in a run with these streams closed."""
    where = console.listed(STREAMS[number] for number in closed) if closed else "nothing"
    names = wanted.keys() - {STREAMS[number] for number in closed} | found.keys()
    yield from (f"{words[0]}: {name} differs where {where} is closed" for name in sorted(names) if wanted.get(name) != found.get(name))


def compare(program: pathlib.Path, words: list[str], known: dict[str, object]) -> list[str]:
    """Runs a command in each way. Returns a line for each value that differs from the known one, or from that with all streams open."""
    runs = bar.spread(lambda closed: values_of(program, words, closed), CHOICES, words[0])
    wanted = runs[0] | known
    return [line for closed, found in zip(CHOICES, runs) for line in differences(words, closed, found, wanted)]
