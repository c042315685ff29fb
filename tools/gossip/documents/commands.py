"""Checks that the commands, options and files in the command lines of documents exist."""
import functools
import os
import pathlib
import re
import shlex
import subprocess
from collections.abc import Iterator

from gossip.documents.sources import Sources

HELP_SECONDS = 20
OPERATORS = set("();<>|&")
ASSIGNMENT = re.compile(r"\w+=")
# programs of the system and of the toolchain
SYSTEM = ("bash", "cat", "cd", "cmp", "diff", "git", "kill", "ls", "man", "mktemp", "python3", "rt", "ss", "wc")
# what stands for the rest of a line
REST = ("..", "...")


def is_program(word: str) -> bool:
    """Whether the first word of a line is the program: its name, its path, or a variable for it."""
    return re.sub(r"\W", "", word.rpartition("/")[2]) == "bar"


def lines_of(lines: list[str]) -> Iterator[tuple[int, str]]:
    """Yields the lines of a block, each with its index. A line that ends in a backslash continues on the next one."""
    whole, first = "", 0
    for place, line in enumerate(lines):
        first = place if not whole else first
        whole += line.removesuffix("\\")
        if not line.endswith("\\"):
            yield first, whole
            whole = ""


def commands_of(line: str) -> Iterator[list[str]]:
    """Yields the words of each command of a line, without its leading assignments to variables."""
    lexer = shlex.shlex(line, posix=True, punctuation_chars=True)
    lexer.whitespace_split = True
    words = []
    for word in [*lexer, ";"]:
        if not OPERATORS.issuperset(word):
            words += [word] if words or not ASSIGNMENT.match(word) else []
        elif words:
            yield words
            words = []


def commands_in(lines: list[str]) -> Iterator[tuple[int, list[str]]]:
    """Yields the words of each command of a block, each with the index of its line. Raises ValueError if a line can't be split."""
    for place, line in lines_of(lines):
        yield from ((place, words) for words in commands_of(line))


def folder_behind(folder: pathlib.Path | None, word: str) -> pathlib.Path | None:
    """Returns the current folder after `cd`, or `None` if it isn't known."""
    return folder / word if folder and (folder / word).is_dir() else None


def options_in(words: list[str]) -> list[str]:
    """Returns the options among words, without their values."""
    return [word.partition("=")[0] for word in words if word.startswith("--") and word != "--"]


class Commands:
    """Checks commands of the program, of the scripts of tools/ and of the system."""

    def __init__(self, sources: Sources) -> None:
        self.sources = sources

    def is_line(self, text: str) -> bool:
        """Whether a text between backticks is a command with arguments, or an option alone."""
        first, *rest = text.split() or [""]
        is_child = first.isupper() and rest[:1] and rest[0] in self.sources.commands
        return first.startswith("--") or bool(rest) and (first == "bar" or first in SYSTEM or "/" in first or bool(is_child))

    def fault_of_line(self, text: str, scripts: tuple[str, ...]) -> str | None:
        """Returns what is wrong with a command between backticks, if anything."""
        words = text.split()
        if words[0].startswith("--"):
            return self.fault_of_option(words[0].partition("=")[0], scripts)
        if is_program(words[0]) or words[0].isupper():
            return self.fault_of_program(words[1:], is_whole=len(words) > 2)
        return self.fault_of_command(words, self.sources.root)

    def fault_of_option(self, option: str, scripts: tuple[str, ...]) -> str | None:
        """Returns a fault unless an option is one of the program, or of the scripts that its passage names (any, if it names none)."""
        of_program = {f"--{name}" for names in self.sources.commands.values() for name in names}
        if option in of_program or any(option in (self.options_of(script) or ()) for script in scripts or self.sources.scripts()):
            return None
        return f"there is no option `{option}` of {' or '.join(scripts) or 'any script'} or of the program"

    def fault_of_program(self, words: list[str], is_whole: bool = True) -> str | None:
        """Returns what is wrong with a command line of the program, if anything. A whole one has each option of its command once."""
        command, *rest = words or [""]
        if command not in self.sources.commands:
            return f"the program has no command `{command}`"
        known, given = [f"--{name}" for name in self.sources.commands[command]], options_in(rest)
        unknown = [option for option in given if option not in known]
        if unknown:
            return f"`{command}` has no option `{unknown[0]}`"
        wanted = [option for option in known if given.count(option) != 1]
        if is_whole and wanted and rest[-1:] not in ([dots] for dots in REST):
            return f"`{command}` takes the option `{wanted[0]}` once"
        return None

    def fault_of_command(self, words: list[str], folder: pathlib.Path | None) -> str | None:
        """Returns what is wrong with a command in a folder, if anything. It calls the program, `rt`, a script or something else."""
        lacking = [word for word in words if folder and self.is_lacking(word, folder)]
        if lacking:
            return f"there is no file `{lacking[0]}`"
        if is_program(words[0]):
            return self.fault_of_program(words[1:])
        if words[0] == "rt" and "--" in words:
            return self.fault_of_program(words[words.index("--") + 1 :])
        return self.fault_of_script(words) if words[0].startswith("tools/") and options_in(words) else None

    def is_lacking(self, word: str, folder: pathlib.Path) -> bool:
        """Whether a word is a relative path without a placeholder in capitals, and it neither exists in the folder nor is built there."""
        if not re.fullmatch(r"[\w.][\w.-]*(?:/[\w.-]*)+", word) or re.search(r"\b[A-Z]+/", word):
            return False
        path = (folder / word).resolve()
        is_built = path.is_relative_to(self.sources.root) and self.sources.is_ignored(path)
        return not path.exists() and not is_built

    def fault_of_script(self, words: list[str]) -> str | None:
        known = self.options_of(words[0])
        if known is None:
            return f"`{words[0]} --help` prints nothing"
        unknown = [option for option in options_in(words) if option not in known]
        return f"`{words[0]}` has no option `{unknown[0]}`" if unknown else None

    @functools.cache
    def options_of(self, script: str) -> set[str] | None:
        """Returns the options that a script's `--help` names, or `None` if the script prints no help."""
        path = self.sources.root / script
        if not path.is_file() or not os.access(path, os.X_OK):
            return None
        try:
            ran = subprocess.run([path, "--help"], capture_output=True, timeout=HELP_SECONDS, stdin=subprocess.DEVNULL)
        except subprocess.TimeoutExpired:
            return None
        return set(re.findall(r"(?<![\w-])--[a-z][\w-]*", ran.stdout.decode(errors="replace"))) if ran.returncode == 0 else None

    def take_program(self, lines: list[str]) -> bool:
        """Whether lines call the program, or a script that has an option `--bar`."""
        firsts = {words[0] for _, words in commands_in(lines)}
        return any(is_program(first) or first.startswith("tools/") and "--bar" in (self.options_of(first) or ()) for first in firsts)

    def faults_of_block(self, lines: list[str]) -> Iterator[tuple[int, str]]:
        """Yields what is wrong with the lines of a shell block, each with the index of its line."""
        try:
            commands = list(commands_in(lines))
        except ValueError as error:
            yield 0, f"no lines for a shell: {error}"
            return
        folder = self.sources.root
        for place, words in commands:
            fault = self.fault_of_command(words, folder)
            if fault:
                yield place, fault
            if words[0] == "cd":
                folder = folder_behind(folder, words[-1])
