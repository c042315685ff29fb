"""All checks of the documents of a repository."""
import collections.abc
import dataclasses
import pathlib
import posixpath
import re
from collections.abc import Iterator

from gossip.documents import block_runs, lengths, lists, pages, trust
from gossip.documents.commands import Commands
from gossip.documents.mentions import Lookup, Subject
from gossip.documents.reading import Block, Document, Fault, Mention
from gossip.documents.sources import Sources

DOCUMENTS = ("README.md", "docs/*.md", "docs/*.1", "crates/*/README.md", "examples/**/README.md")
# how a link names a line of a source
LINE = re.compile(r"L[1-9]\d*")
LETTERS = "ABCDEFGHIJKLMNOPQRSTUVWXYZ"


@dataclasses.dataclass
class Check:
    """The check of a repository, and how much it has checked."""

    root: pathlib.Path
    # names that no source has, and sentences with words that may go stale, each with the reason why a document has it
    excused: dict[str, str] = dataclasses.field(default_factory=dict)
    allowed: dict[str, str] = dataclasses.field(default_factory=dict)
    # what crates.txt lists for a crate that doesn't name it, as "crate: listed", each with the reason
    needed: dict[str, str] = dataclasses.field(default_factory=dict)
    # texts of passages that may be longer than others, each with the reason
    long: dict[str, str] = dataclasses.field(default_factory=dict)
    # whether blocks that need the built program are run
    with_program: bool = False
    # called with a line when a block is run
    progress: collections.abc.Callable[[str], None] = lambda line: None
    documents: list[Document] = dataclasses.field(default_factory=list)
    names: int = 0
    blocks: int = 0

    def __post_init__(self) -> None:
        self.root = self.root.resolve()
        paths = [path for pattern in DOCUMENTS for path in sorted(self.root.glob(pattern))]
        if not paths or paths[0] != self.root / "README.md":
            raise ValueError(f"there is no README.md in {self.root}")
        self.documents = [Document.read(self.root, path) for path in paths]
        self.pages = {document.name: document for document in self.documents}
        self.sources = Sources(self.root)
        self.commands = Commands(self.sources)
        self.lookup = Lookup(self.sources, self.commands)

    def faults(self) -> Iterator[Fault]:
        """Yields the faults, document by document, and then those of what pages must contain."""
        for document in self.documents:
            yield from self.faults_of_names(document)
            yield from self.faults_of_blocks(document)
            yield from pages.faults_of_words(document, self.allowed)
            yield from lengths.faults_of_lengths(document, self.long)
        yield from pages.faults_of_readme(self.pages, self.sources)
        for name in {"docs/FORMATS.md", "docs/bar.1"} & self.pages.keys():
            yield from pages.faults_of_formats(self.pages[name], self.sources)
        yield from (Fault(trust.PAGE, line, fault) for line, fault in trust.faults_of_page(self.root))
        yield from lists.faults_of_lists(self.sources, self.needed)
        yield from lists.faults_of_files(self.root)
        yield from self.faults_of_exceptions()

    def faults_of_names(self, document: Document) -> Iterator[Fault]:
        """Yields a fault for what is named, in backticks or not, or linked, and doesn't exist."""
        mentions = [mention for _, mention in document.mentions() if self.commands.is_line(mention.text)]
        placeholders = frozenset(LETTERS).union(*(re.findall(r"\b[A-Z]+\b", mention.text) for mention in mentions))
        for passage in document.passages:
            subject = Subject.of(passage, document, self.sources, placeholders)
            named = [*passage.mentions(), *(Mention(name, line) for line, name in passage.bare_names())]
            found = [(each.line, self.lookup.fault(each, subject)) for each in named if each.text not in self.excused]
            found += [(line, self.fault_of_link(target, document)) for line, target in passage.links()]
            self.names += len(found)
            yield from (Fault(document.name, line, fault) for line, fault in found if fault)

    def fault_of_link(self, target: str, document: Document) -> str | None:
        """Returns what is wrong with a link, if anything. Links out of the repository aren't followed."""
        if re.match(r"[a-z]+:", target):
            return None
        path, _, anchor = target.partition("#")
        name = posixpath.normpath(posixpath.join(posixpath.dirname(document.name), path)) if path else document.name
        if not (self.root / name).exists():
            return f"the link goes to `{path}`, which isn't there"
        if anchor and LINE.fullmatch(anchor) and (self.root / name).is_file():
            last = (self.root / name).read_text(encoding="utf-8").count("\n")
            return None if int(anchor[1:]) <= last else f"the link goes to line {anchor[1:]}, and `{path}` has {last} lines"
        if anchor and (name not in self.pages or anchor not in self.pages[name].anchors):
            return f"the link goes to `#{anchor}`, and no heading has this name"
        return None

    def faults_of_blocks(self, document: Document) -> Iterator[Fault]:
        """Yields what is wrong with a document's blocks: what their fences say, what they name, and how they run."""
        for block in document.blocks:
            said = block_runs.fault_of_words(block.words)
            found = [(block.line, said)] if said else [(block.line + 1 + place, fault) for place, fault in self.faults_in(block)]
            if not found and block.words == block_runs.RUN and (self.with_program or not self.commands.take_program(block.lines)):
                self.progress(f"{document.name}:{block.line}: the block is run")
                self.blocks += 1
                found = [(block.line, block_runs.fault_of_run(block, self.root))]
            yield from (Fault(document.name, line, fault) for line, fault in found if fault)

    def faults_in(self, block: Block) -> Iterator[tuple[int, str]]:
        """Yields what a block names that doesn't exist, each with its index in the block: commands, options and files, or TOML keys."""
        if block.words[0] == "sh":
            yield from self.commands.faults_of_block(block.lines)
        elif block.words[0] == "toml":
            keys = [(place, key[1]) for place, line in enumerate(block.lines) if (key := re.match(r"\s*\[*(\w+)", line))]
            yield from ((place, f"there is no key `{key}`") for place, key in keys if key not in self.sources.texts)

    def faults_of_exceptions(self) -> Iterator[Fault]:
        """Yields a fault for each exception that no document needs."""
        named = {mention.text for document in self.documents for _, mention in document.mentions()}
        said = [passage.text for document in self.documents for passage in document.passages]
        unused = [name for name in self.excused if name not in named]
        unused += [sentence for sentence in (*self.allowed, *self.long) if not any(sentence in text for text in said)]
        yield from (Fault("tools/check-documents", 1, f"no document has `{each}` any more, which it excuses") for each in unused)
