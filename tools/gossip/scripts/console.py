"""What the mains of all scripts share: their arguments, lines of progress, outcomes and exit statuses.

A script's last line is its outcome. If the script succeeds, it is `OK: ` and what was done, with status 0. If it fails, it is `FAILED: `
and the causes, with status 1. If nothing could be run, it is `REFUSED: ` and the reason with its remedy, on standard error, by default with
status 2. Progress is printed on standard error. Neither a failure nor Ctrl-C ends with a traceback.
"""
import argparse
import contextlib
import dataclasses
import os
import pathlib
import re
import shutil
import signal
import sys
import textwrap
import threading
import time
import traceback
import types
from collections.abc import Callable, Iterable, Iterator, Mapping
from typing import NoReturn

SIGNALS = (signal.SIGINT, signal.SIGTERM, signal.SIGHUP)
FAILED, REFUSED = 1, 2

# after how many seconds without a line progress is printed again, and after how many seconds the time is printed too
SILENCE, LONG = 10, 5

# the greatest width of a help text, and what precedes the text of an indented line: spaces, or a name between spaces
COLUMNS = 80
NAMED = re.compile(r"(?: +(?:\S+(?: \S+)*  +)?)?")


class Refusal(Exception):
    """Nothing can be run. The arguments are the reasons, each with its remedy."""

    def __init__(self, *reasons: str, status: int = REFUSED) -> None:
        super().__init__(*reasons)
        self.status = status


class Failure(Exception):
    """The script failed. The argument is the cause."""


class Stopped(BaseException):
    """A signal stopped the script. Handlers of `Exception` don't catch it."""


# ---- lines


def say(line: object) -> None:
    """Prints a line on standard output."""
    print(line, flush=True)


def progress(line: str) -> None:
    """Prints a line of progress on standard error, if that can be written."""
    if sys.stderr is not None:
        with contextlib.suppress(OSError):
            print(line, file=sys.stderr, flush=True)


class Count:
    """Prints how many of a number of things are done: at most one line a second, and always the last one.

    If nothing is done for a while, a line is printed all the same. After the first seconds, lines have an estimate of the time left. It is
    computed from the things done so far, `at_once` at a time. While none is done, it is computed from `seconds`, the time that all are
    expected to take.
    """

    def __init__(self, told: str, total: int, at_once: int = 1, seconds: float | None = None) -> None:
        self.told, self.total, self.at_once, self.seconds = told, total, at_once, seconds
        self.done, self.next, self.began = 0, 0, time.monotonic()
        self.told_at = self.began

    def tell(self, done: int) -> None:
        """Notes that `done` things are done, and prints the line if it is due."""
        self.done, now = done, time.monotonic()
        if done == self.total or now >= self.next:
            self.say(now)
            self.next = now + 1

    def tell_late(self, done: int) -> None:
        """Calls `tell` if the first `LONG` seconds are over."""
        if time.monotonic() >= self.began + LONG:
            self.tell(done)

    def wait(self) -> None:
        """Prints the line again if none was printed for a while."""
        now = time.monotonic()
        if now >= self.told_at + SILENCE:
            self.say(now)

    def say(self, now: float) -> None:
        self.told_at = now
        progress(f"{self.told}: {self.done or 'none'} of {self.total}{self.left(now - self.began)}")

    def left(self, seconds: float) -> str:
        """Returns the time taken and the estimated time left, in words. The text is empty if all is done or little time has passed."""
        if self.done == self.total or seconds < LONG:
            return ""
        rounds, all_rounds = (-(-count // self.at_once) for count in (self.done, self.total))
        whole = seconds / rounds * all_rounds if self.done else self.seconds
        rest = f", some {counted(max(1, round(whole - seconds)), 'second')} more" if whole else ""
        return f" after {counted(round(seconds), 'second')}{rest}"


def counted(count: int, word: str) -> str:
    """Returns a count with its noun, in the plural unless the count is 1."""
    return f"{count:,} {word}{'' if count == 1 else 's'}"


def listed(words: Iterable[object], joined: str = "and") -> str:
    """Returns words separated by commas, with `and` or another word before the last."""
    *firsts, last = map(str, words)
    return f"{', '.join(firsts)} {joined} {last}" if firsts else last


def compared(values: Mapping[str, float], form: str, unit: str, noise: float = 0) -> str:
    """Returns measured values as text, in a format and a unit: one alone, or two with their names and the ratio of the second to the first.

    There is no ratio if one of the values isn't above the noise.
    """
    told = {name: f"{value:{form}} {unit}" for name, value in values.items()}
    if len(told) == 1:
        return listed(told.values())
    first, second = values.values()
    ratio = f"ratio {second / first:.2f}" if min(first, second) > noise else "no ratio"
    return ", ".join([*(f"{name} {value}" for name, value in told.items()), ratio])


def refuse(faults: Iterable[str]) -> None:
    """Raises a `Refusal` if there are faults."""
    reasons = [*faults]
    if reasons:
        raise Refusal(*reasons)


def faults_of_counts(words: argparse.Namespace, *names: str) -> Iterator[str]:
    """Yields a fault for each of these arguments that is given and is less than 1."""
    values = ((name, getattr(words, name)) for name in names)
    return (f"--{name.replace('_', '-')} is {value}: take 1 or more" for name, value in values if value is not None and value < 1)


def faults_of_place(path: pathlib.Path, front: bytes, what: str) -> Iterator[str]:
    """Yields a fault if there is a file at a path that isn't empty and doesn't begin with `front`, so that it may not be overwritten."""
    if path.is_file():
        with open(path, "rb") as file:
            begins = file.read(len(front))
        if begins not in (b"", front):
            yield f"{path} is there and isn't {what}: name another file, or move it away"


def require(paths: Iterable[pathlib.Path], remedy: str) -> None:
    """Raises a `Refusal` if some of these files and folders are missing."""
    missing = [str(path) for path in paths if not path.exists()]
    if missing:
        raise Refusal(f"{listed(missing)} {'is' if len(missing) == 1 else 'are'} missing: {remedy}")


# ---- outcomes


@dataclasses.dataclass(frozen=True)
class Outcome:
    """How a script ended: its exit status and its last lines, the very last of which is the outcome.

    The lines are printed on standard error if nothing could be run, or if standard output is for another program.
    """

    status: int
    lines: tuple[str, ...]
    on_error: bool = False


# a script's main, which is called with the parsed arguments
Main = Callable[[argparse.Namespace], Outcome]


def well(done: str) -> Outcome:
    """Returns the outcome of a script that did this."""
    return Outcome(0, (f"OK: {done}",))


def well_aside(done: str) -> Outcome:
    """Returns the same for a script whose standard output is for another program."""
    return Outcome(0, (f"OK: {done}",), True)


def failed(*causes: str) -> Outcome:
    """Returns the outcome of a script that failed for these causes."""
    return Outcome(FAILED, (f"FAILED: {'; '.join(causes)}",))


def refused(refusal: Refusal) -> Outcome:
    """Returns the outcome of a script that could run nothing."""
    if len(refusal.args) == 1:
        return Outcome(refusal.status, (f"REFUSED: {refusal}",), True)
    return Outcome(refusal.status, (*refusal.args, f"REFUSED: nothing was done, for the {len(refusal.args)} reasons above"), True)


def told_of(error: Exception) -> str:
    """Describes an exception in one line: an `OSError` by its reason and file, any other by its type, place in the code and text."""
    if isinstance(error, OSError):
        return f"{error.strerror or error}{f': {error.filename}' if error.filename else ''}"
    place = traceback.extract_tb(error.__traceback__)[-1]
    return f"{type(error).__name__} in {os.path.basename(place.filename)}, line {place.lineno}: {error}"


def outcome_of(main: Main, words: argparse.Namespace) -> Outcome:
    """Calls a main and returns its outcome, even if the main raises an exception."""
    try:
        heed_signals()
        return main(words)
    except Refusal as refusal:
        return refused(refusal)
    except Failure as failure:
        return failed(str(failure))
    except Stopped as stopped:
        return failed(f"stopped by {stopped}")
    except Exception as error:
        return failed(told_of(error))


# ---- signals


_holds, _pending = [], []


def stop(number: int, _frame: types.FrameType | None) -> None:
    """Handles a signal: stops the script, after the `held` block if it is in one. Further signals are ignored during the cleanup."""
    ignore_signals()
    _pending.append(signal.Signals(number).name)
    if not _holds:
        raise Stopped(_pending.pop())


@contextlib.contextmanager
def held() -> Iterator[None]:
    """Has a signal that arrives in the block stop the script only after the block. Only the main thread handles signals."""
    if threading.current_thread() is not threading.main_thread():
        yield
        return
    _holds.append(True)
    try:
        yield
    finally:
        _holds.pop()
    if _pending:
        raise Stopped(_pending.pop())


def ignore_signals() -> None:
    for number in SIGNALS:
        signal.signal(number, signal.SIG_IGN)


def heed_signals() -> None:
    """Has each signal stop the script, unless the script was started to ignore it."""
    for number in SIGNALS:
        if signal.getsignal(number) != signal.SIG_IGN:
            signal.signal(number, stop)


# ---- a script


def tell(outcome: Outcome) -> int:
    """Prints the last lines of an outcome and returns its exit status. If the lines can't be written, the script has failed."""
    to = sys.stderr if outcome.on_error else sys.stdout
    try:
        print("\n".join(outcome.lines), file=to, flush=True)
        return outcome.status
    except OSError:
        # what is left in the buffer is discarded when the script ends
        os.dup2(os.open(os.devnull, os.O_WRONLY), to.fileno())
        return outcome.status or FAILED


def wrapped(line: str, width: int) -> list[str]:
    """Wraps a paragraph to a width. If it begins with spaces, or with a name between spaces, further lines are indented as its text is."""
    front = NAMED.match(line)[0]
    indent = len(front) if len(front) <= width // 2 else 4
    whole = textwrap.TextWrapper(width, subsequent_indent=" " * indent, break_long_words=False, break_on_hyphens=False)
    return whole.wrap(f"{front}{' '.join(line[len(front) :].split())}") or [""]


def indent_of(line: str) -> int:
    return len(line) - len(line.lstrip())


def paragraphs_of(text: str) -> list[str]:
    """Splits a text into paragraphs. An indented line begins a paragraph of its own, which the more indented lines after it continue."""
    paragraphs = [""]
    for line in text.strip().splitlines():
        last, indent = indent_of(paragraphs[-1]), indent_of(line)
        if paragraphs[-1] and line.strip() and (indent == last == 0 or 0 < last < indent):
            paragraphs[-1] += f" {line.strip()}"
        else:
            paragraphs.append(line)
    return paragraphs[1:]


class Help(argparse.HelpFormatter):
    """Formats a script's help in lines of at most 80 columns, and keeps the paragraphs of its text."""

    def __init__(self, prog: str) -> None:
        super().__init__(prog, width=min(COLUMNS, shutil.get_terminal_size().columns) - 2)

    def _fill_text(self, text: str, width: int, indent: str) -> str:
        """Returns the text that says what a script does, wrapped."""
        return "\n".join(f"{indent}{line}" for paragraph in paragraphs_of(text) for line in wrapped(paragraph, width))

    def _split_lines(self, text: str, width: int) -> list[str]:
        """Returns the lines of an option's help. No option and no path is broken."""
        return wrapped(" ".join(text.split()), width)


def run(main: Main, doc: str, take_words: Callable[[argparse.ArgumentParser], None]) -> NoReturn:
    """Parses the arguments of a script, runs its main with them, and ends the script with the status of its outcome."""
    parser = argparse.ArgumentParser(description=doc, formatter_class=Help)
    take_words(parser)
    words = parser.parse_args()
    if sys.stdout is not None:
        sys.stdout.reconfigure(errors="backslashreplace")
    outcome = outcome_of(main, words)
    ignore_signals()
    sys.exit(tell(outcome))
