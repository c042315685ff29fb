"""Runs the blocks of documents that are marked to be run, and compares their output with the text shown after them."""
import contextlib
import itertools
import os
import pathlib
import re
import signal
import subprocess
import tempfile
import time

from gossip.documents.reading import Block

SECONDS = 90
GRACE_CHECKS = 100
# how many of the last printed lines a fault quotes
SAID_LINES = 12
# what the fence of a block may say, and what it says if the block is run
FORMS = ("sh", "toml", "text")
RUN = ["sh", "run"]
# stands for what differs between runs: within a line for a part of it, alone on a line for any number of lines
DOTS = "..."


def fault_of_words(words: list[str]) -> str | None:
    """Returns what is wrong with the words after a block's opening fence, if anything."""
    if words == RUN or len(words) == 1 and words[0] in FORMS:
        return None
    return f"the block doesn't say what it has: {', '.join(FORMS)} or {' '.join(RUN)}"


def pattern_of(line: str) -> str:
    """Returns the regular expression for what may be printed for a line that is shown."""
    if line.strip() == DOTS:
        return r"(?:.*\n)*"
    return ".*".join(re.escape(part) for part in line.rstrip().split(DOTS)) + r"[ \t]*\n"


def fault_of_lines(shown: list[str], printed: str) -> str | None:
    """Returns how the output differs from what is shown, if it does."""
    patterns = [pattern_of(line) for line in shown]
    printed = printed if printed.endswith("\n") or not printed else f"{printed}\n"
    if re.fullmatch("".join(patterns), printed):
        return None
    fronts = itertools.accumulate(patterns)
    lacking = [line for line, front in zip(shown, fronts) if not re.match(front, printed)]
    return f"the block doesn't print `{lacking[0]}` there" if lacking else "the block prints more than is shown"


def end(process: subprocess.Popen[bytes]) -> None:
    """Ends a block's process and those that it started: asks them to end, and kills them if they don't in time."""
    with contextlib.suppress(ProcessLookupError):
        os.killpg(process.pid, signal.SIGTERM)
        for _ in range(GRACE_CHECKS):
            process.poll()
            os.killpg(process.pid, 0)
            time.sleep(0.05)
        os.killpg(process.pid, signal.SIGKILL)
    process.wait()


def run(lines: list[str], root: pathlib.Path, seconds: float) -> tuple[int | None, str]:
    """Runs lines with a temporary folder. Returns the status, or `None` if the time is up, and what was printed on both streams."""
    words = ["bash", "-euo", "pipefail", "-c", "\n".join(lines)]
    with tempfile.TemporaryDirectory(prefix="bar-block-", ignore_cleanup_errors=True) as room, tempfile.TemporaryFile() as out:
        names = os.environ | {"room": room, "TMPDIR": room, "PYTHONUNBUFFERED": "1"}
        process = subprocess.Popen(words, cwd=root, env=names, start_new_session=True, stdin=subprocess.DEVNULL, stdout=out, stderr=out)
        try:
            status = process.wait(seconds)
        except subprocess.TimeoutExpired:
            status = None
        finally:
            end(process)
        out.seek(0)
        return status, out.read().decode(errors="replace")


def fault_of_run(block: Block, root: pathlib.Path, seconds: float = SECONDS) -> str | None:
    """Runs a block. Returns what is wrong with its status or its output, if anything, with the last lines that it printed."""
    status, printed = run(block.lines, root, seconds)
    if status is None:
        fault = f"the block took more than {seconds} s"
    elif status:
        fault = f"the block ended with status {status}"
    else:
        fault = fault_of_lines(block.shown.lines, printed) if block.shown else None
    return fault and "".join([fault, *(f"\n  | {line}" for line in printed.splitlines()[-SAID_LINES:])])
