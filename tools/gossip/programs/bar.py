"""The program `bar`: its arguments and exit statuses, and how it is built and run. The tools run it, and call `rt`, only by this module.

Each process is started in a process group of its own. If the script is stopped or fails, the group is killed, so that no party of a session
keeps running. The main thread waits only for short times, so that a signal that arrives just before a wait, or in another thread, is
handled after it.
"""
import argparse
import concurrent.futures
import contextlib
import dataclasses
import enum
import os
import pathlib
import queue
import re
import select
import shutil
import signal
import subprocess
import sys
import tempfile
import threading
import time
import typing
from collections.abc import Callable, Collection, Iterable, Iterator, Sequence
from typing import IO, Self

from gossip.formats.files import Numbers
from gossip.scripts.console import Count, Refusal, counted, held, progress

ROOT = pathlib.Path(__file__).resolve().parents[3]
CRATE = ROOT / "crates/bar"
PROGRAM = CRATE / "out/bar"

# the same program for processors of the level x86-64-v3, which have AVX2; the level's name for `rt`; and the flags that /proc/cpuinfo lists
# for such a processor
WIDE = CRATE / "out/bar_avx2"
WIDE_PROCESSOR = "x86-64-v3"
WIDE_FLAGS = frozenset({"avx", "avx2", "bmi1", "bmi2", "f16c", "fma", "abm", "movbe", "xsave"})
PROCESSORS = pathlib.Path("/proc/cpuinfo")

# the longest time of one wait of the main thread, in seconds
WAIT = 0.2

# the options of each command, in their order
COMMANDS = {
    "replay": ("session", "key", "recording", "played", "found"),
    "peer": ("session", "key", "begin", "played", "recording", "found"),
    "broadcaster": ("session", "key", "begin", "stream", "found"),
    "judge": ("session", "table", "evidence"),
    "audit": ("session", "results", "first", "last"),
    "pack": ("session", "table", "evidence", "proof"),
    "verify": ("session", "proof"),
    "session": ("session", "keys", "stream", "begin", "results", "program"),
    "simulate": ("seed",),
    "keygen": ("party", "id", "rounds", "lms", "ots", "secret", "key"),
    "hsskeygen": ("party", "id", "rounds", "top", "ots", "secret", "key"),
}


# an argument of a process
Word = str | pathlib.Path

Item, Answer = typing.TypeVar("Item"), typing.TypeVar("Answer")


class Status(enum.IntEnum):
    """An exit status of the program, with its meaning."""

    DONE = 0, "all was done"
    NO_FAULT = 1, "no fault is shown"
    WORDS = 2, "the program doesn't know these words: is it built from these sources?"
    FILE = 3, "a file can't be read or written"
    SESSION = 4, "the session's text is refused"
    KEY = 5, "the key is refused"
    LINK = 6, "the link failed"
    OUTPUT = 7, "a line can't be printed"
    INPUT = 8, "an input is refused"
    CHILD = 9, "a party failed"
    MEMORY = 70, "there is no memory left"

    def __new__(cls, number: int, told: str) -> Self:
        status = int.__new__(cls, number)
        status._value_ = number
        status.told = told
        return status


def told_of_status(status: int) -> str:
    """Returns the meaning of a status in words. A status above 128 names the signal that ended the process."""
    with contextlib.suppress(ValueError):
        return Status(status).told
    with contextlib.suppress(ValueError):
        return f"{signal.Signals(status - 128).name} ended it"
    return "the program has no such status"


# ---- processes

_groups = set()


def kill_group(leader: int) -> None:
    """Kills a process that was started here, and all processes of its group."""
    with contextlib.suppress(ProcessLookupError):
        os.killpg(leader, signal.SIGKILL)


def kill_groups() -> None:
    """Kills all processes that were started here and still run."""
    for leader in tuple(_groups):
        kill_group(leader)


@contextlib.contextmanager
def running(words: Sequence[Word], **options: object) -> Iterator[subprocess.Popen[bytes]]:
    """Starts a process with these arguments. When the block ends, what still runs of its group is killed."""
    process = None
    try:
        with held():
            process = subprocess.Popen(words, process_group=0, **{"stdin": subprocess.DEVNULL} | options)
            _groups.add(process.pid)
        yield process
    finally:
        if process:
            end_process(process)


def end_process(process: subprocess.Popen[bytes]) -> None:
    """Kills what still runs of a process and its group, and waits for the process."""
    kill_group(process.pid)
    for stream in filter(None, (process.stdout, process.stderr)):
        stream.close()
    process.wait()
    _groups.discard(process.pid)


def await_end(process: subprocess.Popen[bytes]) -> tuple[bytes | None, bytes | None]:
    """Waits until a process ends. Returns what it printed on standard output and standard error, as far as these are pipes."""
    while True:
        with contextlib.suppress(subprocess.TimeoutExpired):
            return process.communicate(timeout=WAIT)


def lines_of(process: subprocess.Popen[bytes]) -> Iterator[str]:
    """Yields the lines that a process prints to a pipe of bytes, as they arrive, until the pipe is closed."""
    rest, data = b"", None
    while data != b"":
        if select.select([process.stdout], [], [], WAIT)[0]:
            data = os.read(process.stdout.fileno(), 1 << 16)
            *lines, rest = (rest + data).split(b"\n")
            yield from (line.decode(errors="replace") for line in lines)
    if rest:
        yield rest.decode(errors="replace")


def await_next(results: queue.SimpleQueue[concurrent.futures.Future], count: Count | None = None) -> concurrent.futures.Future:
    """Waits for the next item of a queue and returns it. If a count is given, it prints its line again during a long wait."""
    while True:
        with contextlib.suppress(queue.Empty):
            return results.get(timeout=WAIT)
        if count:
            count.wait()


def status_of(process: subprocess.Popen[bytes]) -> int:
    """Returns the exit status of a process that has ended, as a shell does: 128 plus the signal's number if a signal ended it."""
    return process.returncode if process.returncode >= 0 else 128 - process.returncode


@dataclasses.dataclass(frozen=True)
class Ran:
    """How a command ended, and what it printed on standard output and standard error."""

    status: int
    printed: bytes
    said: bytes

    @property
    def told(self) -> str:
        """The status in words, with what the program printed on standard error."""
        said = " ".join(self.said.decode(errors="replace").split())
        return f"status {self.status}: {told_of_status(self.status)}{f' ({said})' if said else ''}"


def words_of(command: str, **values: object) -> list[str]:
    """Returns the arguments of a command, with each of its options."""
    return [command, *(word for name in COMMANDS[command] for word in (f"--{name}", str(values[name])))]


def key_words(numbers: Numbers, **values: object) -> list[str]:
    """Returns the arguments that make a key of a session of these numbers. It has two levels if they have the type of an upper tree."""
    command = "hsskeygen" if numbers.get("top") else "keygen"
    return words_of(command, **{name: numbers[name] for name in COMMANDS[command] if name in numbers} | values)


def run_words(program: Word, words: Iterable[Word], stdout: int | IO = subprocess.PIPE, **options: object) -> Ran:
    """Runs the program until it ends. If `stdout` redirects what it prints, the result doesn't have that."""
    with running([program, *words], stdout=stdout, stderr=subprocess.PIPE, **options) as process:
        printed, said = await_end(process)
        return Ran(status_of(process), printed or b"", said)


def run(program: Word, command: str, **values: object) -> Ran:
    """Runs a command until it ends."""
    return run_words(program, words_of(command, **values))


def spread(
    call: Callable[[Item], Answer],
    items: Collection[Item],
    told: str | None = None,
    at_once: int | None = None,
    seconds: float | None = None,
) -> list[Answer]:
    """Calls a function for each item, `at_once` at a time or as many as there are processors, and returns the answers in the items' order.

    If there is a label `told`, lines report how many calls are done and the estimated time left. The estimate is based on the calls done,
    and before that on `seconds`. If a call fails or the script is stopped, no further call begins, and all processes are killed.
    """
    at_once, ended = at_once or os.cpu_count(), queue.SimpleQueue()
    count = Count(told, len(items), at_once, seconds) if told else None
    with concurrent.futures.ThreadPoolExecutor(at_once) as pool:
        try:
            # nobody would wait for a thread that was started but isn't the pool's yet
            with held():
                futures = [begin(pool, call, item, ended) for item in items]
            for done in range(1, len(futures) + 1):
                await_next(ended, count).result()
                if count:
                    count.tell(done)
            return [future.result() for future in futures]
        except BaseException:
            end_calls(pool)
            raise


def begin(
    pool: concurrent.futures.ThreadPoolExecutor,
    call: Callable[[Item], Answer],
    item: Item,
    ended: queue.SimpleQueue[concurrent.futures.Future],
) -> concurrent.futures.Future:
    """Has a pool make a call. Its future is put into the queue when the call has ended."""
    future = pool.submit(call, item)
    future.add_done_callback(ended.put)
    return future


def end_calls(pool: concurrent.futures.ThreadPoolExecutor) -> None:
    """Cancels the calls that haven't begun, and kills all processes until each call that began has ended."""
    ending = threading.Thread(target=pool.shutdown, kwargs={"cancel_futures": True})
    ending.start()
    while ending.is_alive():
        kill_groups()
        ending.join(0.02)


# ---- building

# a line in which `rt ci` reports that a crate is proved
PROVED = re.compile(r"rt: (\w+) proved")

# how many of the last lines that `rt` printed are shown if it failed
SHOWN = 30

# the parts of a crate that aren't copied to the folder where it is proved: what `rt` made of it, its edits and its tests
LEFT_OUT = shutil.ignore_patterns("out", "must-fail", "tests*")

# the lines by which a source includes its tests
NAMES_TESTS = "#[cfg(test)]\nmod tests;\n"


class BuildFailed(Refusal):
    """The program couldn't be built. `rt` ended with the status `rt_status`."""

    def __init__(self, reason: str, rt_status: int) -> None:
        super().__init__(reason)
        self.rt_status = rt_status


@contextlib.contextmanager
def running_rt(*words: Word, **options: object) -> Iterator[subprocess.Popen[bytes]]:
    """Starts `rt` with these arguments, as `running` does. Raises a `BuildFailed` if there is no `rt`."""
    try:
        with running(["rt", *words], **options) as process:
            yield process
    except FileNotFoundError:
        raise BuildFailed("there is no `rt`: put the toolchain's folder on the PATH, or name a built program by --bar", 127) from None


def rt_ci(room: pathlib.Path, names: Iterable[str]) -> tuple[int, list[str]]:
    """Has `rt ci` prove the crates of a folder in parallel, try their edits, and build and run their programs. Prints which crates are
    proved, and an estimate of the time that the others take. Returns the exit status and the lines of `rt`.
    """
    sizes, begun, lines = {name: size_of(room / "crates" / name) for name in names}, time.monotonic(), []
    proved = []
    with running_rt("ci", cwd=room, stdout=subprocess.PIPE, stderr=subprocess.STDOUT) as process:
        for line in lines_of(process):
            lines.append(line)
            found = PROVED.fullmatch(line)
            if found and found[1] in sizes:
                proved.append(found[1])
                tell_proved(sizes, proved, time.monotonic() - begun)
        await_end(process)
        return status_of(process), lines


def size_of(folder: pathlib.Path) -> int:
    """Returns the size of the sources and proofs of a crate, in bytes."""
    return sum(path.stat().st_size for ending in ("rt", "antt") for path in folder.rglob(f"*.{ending}"))


def tell_proved(sizes: dict[str, int], proved: list[str], seconds: float) -> None:
    """Prints that the last of these crates was proved after this time. The time left is estimated from the sizes of the other crates."""
    done, whole = sum(sizes[name] for name in proved), sum(sizes.values())
    left = f"; some {round(seconds * (whole - done) / done / 60) + 1} more for the others" if done < whole else ""
    progress(f"{proved[-1]} is proved, {len(proved)} of {counted(len(sizes), 'crate')}, after {round(seconds / 60)} minutes{left}")


def crates_in(lines: str) -> dict[str, list[str]]:
    """Returns the crates that each crate names, by the lines of crates.txt."""
    found = (line.partition(":") for line in lines.splitlines() if not line.startswith("#"))
    return {name: words.split() for name, colon, words in found if colon}


def crates_below(lines: str, crate: str) -> list[str]:
    """Returns the dependencies of a crate, by the lines of crates.txt: those that it names itself, and then those of its dependencies."""
    crates, below = crates_in(lines), []
    left = [*crates[crate]]
    while left:
        name = left.pop(0)
        if name not in below:
            below.append(name)
            left += crates.get(name, ())
    return below


def needed_for(lines: str, names: Iterable[str]) -> dict[str, list[str]]:
    """Returns these crates and all their dependencies in crates.txt, each with the crates that it names."""
    crates, needed, left = crates_in(lines), set(), [*names]
    while left:
        name = left.pop()
        if name in crates and name not in needed:
            needed.add(name)
            left += crates[name]
    return {name: crates[name] for name in crates if name in needed}


def lay_out(names: Iterable[str], room: pathlib.Path, source: pathlib.Path | None = None) -> list[str]:
    """Copies crates and all crates below them to a folder, without their tests and edits. Returns their names. The crates are those of this
    repository, or of another folder.
    """
    root = source or ROOT
    needed = needed_for((root / "crates.txt").read_text("utf-8"), names)
    for name in needed:
        shutil.copytree(root / "crates" / name, room / "crates" / name, ignore=LEFT_OUT)
        forget_tests(room / "crates" / name)
    (room / "crates.txt").write_text("".join(f"{name}: {' '.join(below)}\n" for name, below in needed.items()), "utf-8")
    shutil.copy(root / "HANDLES", room)
    return [*needed]


def forget_tests(folder: pathlib.Path) -> None:
    """Removes the lines that include tests from the sources of a copied crate, and keeps the layout that `rt` requires."""
    for path in folder.glob("src/**/*.rt"):
        text = path.read_text("utf-8")
        if NAMES_TESTS in text:
            path.write_text(re.sub("\n{3,}", "\n\n", text.replace(NAMES_TESTS, "")), "utf-8")


def keep(program: pathlib.Path, path: pathlib.Path) -> None:
    """Puts a program in its place in one step, so that no other process finds a part of it."""
    beside = path.with_name(f".{path.name}.{os.getpid()}")
    path.parent.mkdir(exist_ok=True)
    try:
        shutil.copy(program, beside)
        beside.rename(path)
    finally:
        with contextlib.suppress(FileNotFoundError):
            beside.unlink()


def is_wide() -> bool:
    """Whether this machine's processors have the level x86-64-v3."""
    with contextlib.suppress(OSError):
        found = re.search(r"^flags\s*:(.*)$", PROCESSORS.read_text("utf-8"), re.MULTILINE)
        return found is not None and WIDE_FLAGS <= {*found[1].split()}
    return False


def build_in(room: pathlib.Path, names: list[str], programs: dict[str, pathlib.Path]) -> None:
    """Has `rt ci` prove the crates of a folder, and copies the programs that some of them are to these paths."""
    status, lines = rt_ci(room, names)
    built = {name: room / "crates" / name / "out" / name for name in programs}
    missing = [name for name, path in built.items() if not path.exists()]
    if status or missing:
        progress("\n".join(lines[-SHOWN:]))
        told = f"`rt ci` over a copy of {', '.join(programs)} and what it stands on ends with status {status}: see above"
        raise BuildFailed(told, status or 1)
    for name, path in built.items():
        keep(path, programs[name])


def build_crate(name: str) -> None:
    """Builds the program of a crate: `rt ci` proves the crate and its dependencies, in a copy without tests and edits."""
    with tempfile.TemporaryDirectory(prefix="bar-build-") as folder:
        room = pathlib.Path(folder)
        build_in(room, lay_out([name], room), {name: ROOT / "crates" / name / "out" / name})


def kit() -> pathlib.Path:
    """Returns the folder of the toolchain, which has the page whose path `rt doc` prints."""
    with running_rt("doc", stdout=subprocess.PIPE) as process:
        printed, _ = await_end(process)
    return pathlib.Path(printed.decode().strip()).parent


def link_libraries(room: pathlib.Path) -> pathlib.Path:
    """Links the libraries of a folder of crates in one folder, and returns this folder."""
    libraries = room / "libraries"
    libraries.mkdir()
    for path in room.glob("crates/*/out/rlib/*.rlib"):
        (libraries / path.name).symlink_to(path)
    return libraries


def wide_words(tools: pathlib.Path, libraries: pathlib.Path, name: str, below: list[str], to: pathlib.Path) -> list[list[str]]:
    """Returns the commands that prove, compile and link a program for processors with AVX2. They are run in the crate's folder."""
    places = {each: next(folder for folder in (libraries, tools / "rlibs") if (folder / f"{each}.rlib").exists()) for each in below}
    own = [word for each, folder in places.items() for word in ("--extern", f"{each}={folder / each}.rlib")]
    of_kit = ["--extern", f"std={tools}/rlibs/std.rlib", "-L", f"dependency={libraries}", "-L", f"dependency={tools}/rlibs"]
    logic = ["--antt-project", f"{tools}/rattle/logic/antt-project.json", "--logic-built", f"{tools}/logic_built"]
    code = ["--toolchain", f"{tools}/toolchain", "--backend", "llvm", f"--cpu={WIDE_PROCESSOR}", "-o", f"{to}.o"]
    build = [f"{tools}/bin/rattle", "build", "--crate-name", name, "src/main.rt", *own, *of_kit, *logic, "--jobs", "1"]
    link = [f"{tools}/bin/rattle-link", "--target", "x86_64-unknown-linux-gnu", "--toolchain", f"{tools}/toolchain"]
    linked = ["-o", str(to), f"{to}.o", f"{tools}/c/libos_c.a", f"{tools}/c/liblibc_c.a"]
    return [[*build, "--links", f"{name}=", *code], [*link, *linked]]


def build_wide(room: pathlib.Path, name: str, path: pathlib.Path) -> None:
    """Proves and builds the program of a crate for processors with AVX2, and copies it to a path. It uses the libraries that `rt ci` proved
    in a folder of crates.

    `rt run` can also build for a processor, but proves all these libraries again. So the toolchain's commands are called, as `rt` calls
    them.
    """
    progress(f"{path.name} is built, for this machine's processors")
    below = crates_in((room / "crates.txt").read_text("utf-8"))[name]
    for words in wide_words(kit(), link_libraries(room), name, below, room / path.name):
        with running(words, cwd=room / "crates" / name, stdout=subprocess.PIPE, stderr=subprocess.STDOUT) as process:
            printed, _ = await_end(process)
        if process.returncode:
            progress("\n".join(printed.decode(errors="replace").splitlines()[-SHOWN:]))
            raise BuildFailed(f"`{words[0]}` over a copy of {name} ends with status {status_of(process)}: see above", 1)
    keep(room / path.name, path)


def build() -> None:
    """Builds the program as `build_crate` does. If this machine's processors have AVX2, it also builds the program for these."""
    missing = "program for this machine's processors" if PROGRAM.exists() else "program"
    progress(f"there is no {missing}: `rt ci` proves and builds it, which takes half an hour on four processors, or minutes if it was kept")
    with tempfile.TemporaryDirectory(prefix="bar-build-") as folder:
        room = pathlib.Path(folder)
        build_in(room, lay_out([CRATE.name], room), {CRATE.name: PROGRAM})
        if is_wide():
            build_wide(room, CRATE.name, WIDE)


def take_program(parser: argparse.ArgumentParser) -> None:
    """Adds the options that name the program."""
    told = "the program (default: that of this repository, which is built if it is missing)"
    parser.add_argument("--bar", type=pathlib.Path, metavar="PATH", help=told)
    parser.add_argument("--plain", action="store_true", help="don't use the program for processors with AVX2")


def take_programs(parser: argparse.ArgumentParser) -> None:
    """Adds the options that name the program and an earlier one."""
    take_program(parser)
    told = "an earlier program, which takes turns with the program and is compared with it"
    parser.add_argument("--before", type=pathlib.Path, metavar="PATH", help=told)


def program_of(words: argparse.Namespace, plain: bool = False) -> pathlib.Path:
    """Returns the absolute path of the program: the one that is named, or that of this repository, which is built if it is missing. If this
    machine's processors have AVX2, that is the program for these, unless the plain one is asked for.
    """
    if words.bar:
        return program_at(words.bar)
    wanted = WIDE if is_wide() and not words.plain and not plain else PROGRAM
    if not wanted.exists():
        build()
    progress(f"the program is {wanted.relative_to(ROOT)}")
    return program_at(wanted)


def both_of(words: argparse.Namespace) -> list[pathlib.Path]:
    """Returns the program. If it is that of this repository for processors with AVX2, the program for any processor follows it."""
    program = program_of(words)
    return [program, program_at(PROGRAM)] if program == WIDE.resolve() else [program]


def program_at(path: pathlib.Path) -> pathlib.Path:
    """Returns the absolute path of a program. Raises a `Refusal` if there is none."""
    if not (path.is_file() and os.access(path, os.X_OK)):
        raise Refusal(f"there is no program at {path}: `rt run` in {CRATE} builds one")
    return path.resolve()


def programs_of(words: argparse.Namespace) -> dict[str, pathlib.Path]:
    """Returns the program by the name `now`. If an earlier one is named, it comes first, by the name `before`."""
    before = {"before": program_at(words.before)} if words.before else {}
    return before | {"now": program_of(words)}
