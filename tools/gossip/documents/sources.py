"""What a document can name: the repository's files and folders, what its crates define and print, and the program's commands.

All of it is read once; nothing is proved or built for it.
"""
import collections
import fnmatch
import os
import pathlib
import re
from collections.abc import Iterator

from gossip.documents.names import NAMES, Definition, Kind, definitions_of, named_in, patterns_of, script_texts_of, texts_of

UNREAD = {".git", "__pycache__"}
# an import; the traits that code implements, by `derive` or by an `impl` block; the options of a command
USES = re.compile(r"^ *(pub )?(?:ghost )?use ([^;\n]+(?:\n[^;\n]+)*?)(?:;|$)", re.MULTILINE)
DERIVES = re.compile(r"#\[derive\(([^)]*)\)\]")
KEPT = re.compile(r"^impl\b.*?(\w+)(?:<[^{]*>)? for ", re.MULTILINE)
OPTIONS = re.compile(r"const (\w+)_OPTIONS: [^=]+= \[([^\]]*)\];")


def is_telling(text: str) -> bool:
    """Whether a script's text is a line or a file's name: it isn't a lone word or a path to fill in, and isn't mostly filled in."""
    words = re.findall(r"[A-Za-z]{2,}", re.sub(r"\{[^{}]*\}", " ", text))
    is_filled_path = "/" in text and "{" in text and " " not in text
    return re.search(r"\W", text) is not None and not is_filled_path and (len(words) > 1 or text[0].isalpha())


class Sources:
    """The index of a repository."""

    def __init__(self, root: pathlib.Path) -> None:
        self.root = pathlib.Path(root)
        # for each crate, itself and all crates below it; and the crates of the toolchain
        self.crates: dict[str, frozenset[str]] = {}
        self.ported: set[str] = set()
        # the names that each crate uses, among them those of crates
        self.named: dict[str, set[str]] = collections.defaultdict(set)
        self.definitions: dict[str, list[Definition]] = collections.defaultdict(list)
        # the names that each crate re-exports
        self.published: dict[str, set[str]] = collections.defaultdict(set)
        # the names of the toolchain's libraries, and what the aliases of modules stand for
        self.library: set[str] = set()
        self.aliases: dict[str, set[str]] = collections.defaultdict(set)
        # the string literals of the crates; the lines and the names of files among those of the scripts
        self.texts: set[str] = set()
        self.script_texts: set[str] = set()
        self.commands: dict[str, list[str]] = {}
        # each suffix of the path of a file or folder, with and without its extension, and the crates that have one
        self.paths: dict[str, set[str]] = collections.defaultdict(set)
        self.ignored = [line for line in self.lines_of(".gitignore") if "/" in line]
        self.read_crates()
        self.read_files()
        self.texts.discard("")
        self.patterns = [*patterns_of(self.texts), *patterns_of(self.script_texts)]
        self.fronts = {front for text in self.script_texts if re.search(r"[A-Za-z]{2}", front := text.partition("{")[0])}

    def lines_of(self, name: str) -> list[str]:
        path = self.root / name
        return path.read_text(encoding="utf-8").splitlines() if path.exists() else []

    def read_crates(self) -> None:
        for line in self.lines_of("crates.txt"):
            name, colon, below = line.partition(":")
            if colon and not line.startswith("#"):
                self.crates[name] = frozenset([name]).union(*(self.crates.get(crate, {crate}) for crate in below.split()))
        self.ported = frozenset().union(*self.crates.values()) - self.crates.keys()

    def read_files(self) -> None:
        for path in self.entries():
            parts = path.relative_to(self.root).parts
            self.add_path(parts)
            if path.is_file():
                self.read_file(path, parts)

    def entries(self) -> Iterator[pathlib.Path]:
        """Yields the files and folders of the repository, except `.git`, `__pycache__` and what git ignores."""
        for name, folders, files in os.walk(self.root):
            folder = pathlib.Path(name)
            folders[:] = [each for each in folders if each not in UNREAD and not self.is_ignored(folder / each)]
            yield from (folder / each for each in (*folders, *files))

    def is_ignored(self, path: pathlib.Path) -> bool:
        """Whether git ignores a path or a folder above it. What is ignored must be in a folder that exists."""
        parts = path.relative_to(self.root).parts
        fronts = ["/".join(parts[:count]) + "/" for count in range(1, len(parts) + 1)]
        return any(fnmatch.fnmatch(front, line) and (self.root / front).parent.is_dir() for front in fronts for line in self.ignored)

    def add_path(self, parts: tuple[str, ...]) -> None:
        crate = parts[1] if parts[0] == "crates" and len(parts) > 1 else ""
        for start in range(len(parts)):
            end = "/".join(parts[start:])
            self.paths[end].add(crate)
            self.paths[os.path.splitext(end)[0]].add(crate)

    def read_file(self, path: pathlib.Path, parts: tuple[str, ...]) -> None:
        """Indexes what a file of a crate defines and prints, the name of an edit, or the texts of a script."""
        kind = Kind.MODULE if path.suffix in NAMES else Kind.EDIT if path.suffix == ".edit" else None
        if parts[0] == "crates" and kind:
            self.definitions[path.stem].append(Definition(path.stem, kind, parts[1], frozenset(parts[1:-1])))
        if parts[0] == "crates" and path.suffix in NAMES:
            self.read_source(path.read_text(encoding="utf-8"), path.suffix, parts[1], frozenset([*parts[1:-1], path.stem]))
        elif parts[0] == "tools" and "tests" not in parts and path.suffix in ("", ".py"):
            self.read_script(path.read_text(encoding="utf-8"), path.suffix)

    def read_script(self, text: str, ending: str) -> None:
        if ending == ".py" or "python" in text.partition("\n")[0]:
            self.script_texts.update(each for each in script_texts_of(text) if is_telling(each))

    def read_source(self, text: str, ending: str, crate: str, owners: frozenset[str]) -> None:
        self.named[crate] |= named_in(text, ending)
        for each in definitions_of(text, ending, crate, owners):
            self.definitions[each.name].append(each)
        if "proofs" not in owners:
            self.read_uses(text, crate)
        if not owners & {"proofs", "tests"} and not crate.endswith("_tests"):
            self.texts.update(texts_of(text))
            self.commands |= {name.lower(): re.findall(r'"([^"]+)"', options) for name, options in OPTIONS.findall(text)}

    def read_uses(self, text: str, crate: str) -> None:
        """Indexes the names that a file imports from the toolchain's libraries, re-exports, or gives an alias."""
        for public, used in USES.findall(text):
            words = re.findall(r"[\w-]+", used)
            if public:
                self.published[crate].update(words)
            if words[0] == "std" or words[0] in self.ported or words[0] == "Rattle" and words[1] not in self.crates:
                self.library.update(words)
            if " as " in used and "{" not in used:
                self.aliases[words[-1]].add([word for word in words[:-2] if word != "TheVariants"][-1])
        self.library.update(KEPT.findall(text), *(re.findall(r"\w+", names) for names in DERIVES.findall(text)))

    def scripts(self) -> list[str]:
        """Returns the scripts of tools/."""
        paths = (path for path in (self.root / "tools").iterdir() if path.is_file() and not path.suffix)
        return sorted(f"tools/{path.name}" for path in paths if os.access(path, os.X_OK))

    def prints(self, text: str) -> bool:
        """Whether a text has this line: exactly, with parts filled in, in two parts, or before a number or a placeholder."""
        cuts = [place for place, letter in enumerate(text) if letter == " "]
        return (
            text in self.texts
            or text in self.script_texts
            or text in self.fronts
            or any(pattern.fullmatch(text) for pattern in self.patterns)
            or any(text[:place] in self.texts and text[place:] in self.texts for place in cuts)
            or any(text[: place + 1] in self.texts and re.fullmatch(r"[A-Z]+|\d+", text[place + 1 :]) for place in cuts)
        )
