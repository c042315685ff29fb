"""Reads documents in Markdown and manual pages: their passages, the names in these, their links and their blocks."""
import dataclasses
import functools
import pathlib
import re
from collections.abc import Iterator

from gossip.documents.manual import markdown_of

# the extension of a manual page
MANUAL = ".1"
SPAN = r"(?<!`)`[^`]+`(?!`)"
CRATE = r"\bbar_\w+"
FENCE = re.compile(r"(?P<indent> *)(?P<fence>`{3,})(?P<words>[^`]*)")
# what begins a passage: a heading, a list item, a table row or a quotation; headings and rows never continue on the next line
BEGINS = re.compile(r" *(?:#+ |[-*] |\d+\. |\||>)")
SINGLE = re.compile(r" *(?:#|\|)")
LINK = re.compile(r"\[[^\]]*\]\(([^)\s]+)\)")
# files and crates that are named without backticks
BARE = re.compile(rf"(?<![\w/.-])(?:(?:docs|tools|examples|crates)/[\w./-]*\w|[A-Z]+\.md\b|{CRATE})")

# names in a row: `a`, `b` and `c`
ROW = re.compile(rf"{SPAN}(?:(?:,| and| or|, and|, or)\s{SPAN})*")
WORD_BEFORE = re.compile(r"(?:(?<![\w'])([a-z]+)\s)?$")
# what names the owners of a row: before it, with what then ends the row; and after it
OWNERS = re.compile(rf"(?P<owners>{ROW.pattern})(?: of {SPAN})?(?P<form>:|'s|,)\s$")
ROW_ENDS = re.compile(r"\s*(?:[;|).,]|$)")
BEHIND = re.compile(rf"\s(?:of|in)\s(?:`(?P<owner>[^`]+)`|(?P<crate>{CRATE}))")


@dataclasses.dataclass(frozen=True)
class Fault:
    """What is wrong in a document."""

    document: str
    line: int
    what: str

    def __str__(self) -> str:
        return f"{self.document}:{self.line}: {self.what}"


@dataclasses.dataclass(frozen=True)
class Mention:
    """A name between backticks in a document, and what the text beside it says of it."""

    text: str
    line: int
    # the owners, by the text beside it, to one of which it belongs: crates, files, types, functions
    owners: tuple[str, ...] = ()
    # the word before its row, such as "clause" or "laws"
    word: str = ""


@dataclasses.dataclass(frozen=True)
class Passage:
    """A heading, an item, a row of a table, or a paragraph."""

    line: int
    text: str

    def line_at(self, place: int) -> int:
        return self.line + self.text.count("\n", 0, place)

    def names_of(self, pattern: str) -> list[str]:
        """Returns the matches of a pattern in it, in backticks or not."""
        return re.findall(pattern, self.text)

    def mentions(self) -> Iterator[Mention]:
        """Yields what it names between backticks."""
        for row in ROW.finditer(self.text):
            yield from self.mentions_of(row)

    def mentions_of(self, row: re.Match[str]) -> Iterator[Mention]:
        """Yields the names of a row with their owners. In a row after "of" or "in", an owner after the row is that of the last name."""
        word = WORD_BEFORE.search(self.text, 0, row.start())
        before = self.owners_before(word.start(), row.end(), word[1] or "")
        spans = list(re.finditer(SPAN, row[0]))
        for count, span in enumerate(spans, 1):
            goes_on = word[1] not in ("of", "in") or count == len(spans)
            owners = before or (self.owner_behind(row.end()) if goes_on else ())
            yield Mention(" ".join(span[0][1:-1].splitlines()), self.line_at(row.start() + span.start()), owners, word[1] or "")

    def owners_before(self, start: int, end: int, word: str) -> tuple[str, ...]:
        """Returns the owners that are named before a row: `owner`: `a`, `b`; `owner`'s `a`; `owner`, clause `a`."""
        before = OWNERS.search(self.text, 0, start)
        is_clause = word in ("clause", "clauses")
        if before is None or (before["form"] == "," and not is_clause) or (word and not is_clause):
            return ()
        if before["form"] == ":" and not ROW_ENDS.match(self.text, end):
            return ()
        return tuple(re.findall(r"`([^`]+)`", before["owners"]))

    def owner_behind(self, end: int) -> tuple[str, ...]:
        """Returns the owner that is named after a row: `a`, `b` of `owner`, or in `owner`."""
        behind = BEHIND.match(self.text, end)
        return (behind["owner"] or behind["crate"],) if behind else ()

    def bare_names(self) -> Iterator[tuple[int, str]]:
        """Yields the files and crates that it names without backticks, each as its line and its name."""
        plain = re.sub(rf"{SPAN}|{LINK.pattern}", lambda cut: re.sub(r"[^\n]", " ", cut[0]), self.text)
        for name in BARE.finditer(plain):
            yield self.line_at(name.start()), name[0]

    def links(self) -> Iterator[tuple[int, str]]:
        """Yields the line and the target of each of its links."""
        for link in LINK.finditer(self.text):
            yield self.line_at(link.start()), link[1]


@dataclasses.dataclass
class Block:
    """The text between two fences."""

    line: int
    # the words after its opening fence
    words: list[str]
    lines: list[str] = dataclasses.field(default_factory=list)
    # the text block after it, if only blank lines are between the two
    shown: "Block | None" = None


@dataclasses.dataclass
class Document:
    """A document of the repository."""

    name: str
    # the crate whose README it is, if any
    crate: str
    text: str
    passages: list[Passage] = dataclasses.field(default_factory=list)
    blocks: list[Block] = dataclasses.field(default_factory=list)

    @classmethod
    def read(cls, root: pathlib.Path, path: pathlib.Path) -> "Document":
        parts = path.relative_to(root).parts
        try:
            text = path.read_text(encoding="utf-8")
        except UnicodeDecodeError as error:
            raise ValueError(f"{'/'.join(parts)} isn't text in UTF-8") from error
        text = markdown_of(text) if path.suffix == MANUAL else text
        document = cls("/".join(parts), parts[1] if parts[0] == "crates" else "", text)
        document.cut()
        return document

    def cut(self) -> None:
        """Cuts the text into passages and blocks."""
        opening, last, goes_on = None, None, False
        for number, line in enumerate(self.text.splitlines(), 1):
            fence = FENCE.fullmatch(line)
            if opening and fence and fence["fence"].startswith(opening["fence"]) and not fence["words"]:
                opening, last = None, self.blocks[-1]
            elif opening:
                self.blocks[-1].lines.append(line.removeprefix(opening["indent"]))
            elif fence:
                opening, goes_on = fence, False
                self.add_block(Block(number, fence["words"].split()), last)
            elif line.strip():
                self.add_line(number, line, goes_on)
                last, goes_on = None, True
            else:
                goes_on = False

    def add_block(self, block: Block, last: Block | None) -> None:
        self.blocks.append(block)
        if last is not None and block.words[:1] == ["text"]:
            last.shown = block

    def add_line(self, number: int, line: str, goes_on: bool) -> None:
        """Adds a line of prose, which continues the passage before it or begins one."""
        if goes_on and not BEGINS.match(line) and not SINGLE.match(self.passages[-1].text):
            before = self.passages.pop()
            self.passages.append(Passage(before.line, f"{before.text}\n{line}"))
        else:
            self.passages.append(Passage(number, line))

    @functools.cached_property
    def anchors(self) -> set[str]:
        """The anchors of its headings, as links name them."""
        headings = [passage.text.lstrip("# ").lower() for passage in self.passages if passage.text.startswith("#")]
        return {re.sub(r"[^\w -]", "", heading).strip().replace(" ", "-") for heading in headings}

    def mentions(self) -> Iterator[tuple[Passage, Mention]]:
        """Yields what it names between backticks, each with its passage."""
        for passage in self.passages:
            yield from ((passage, mention) for mention in passage.mentions())
