"""Checks that what a document names exists in the repository.

The subject of a crate's own document, and of a passage with a link to one, is this crate and the crates that the passage names. What they
name must be in one of these crates or in one below them. What any other passage names may be in any crate. A file or folder may be named by
any suffix of its path, with or without its extension.
"""
import dataclasses
import fnmatch
import re
from collections.abc import Collection

from gossip.documents.commands import SYSTEM, Commands
from gossip.documents.names import Definition, Kind
from gossip.documents.reading import CRATE, Document, Mention, Passage
from gossip.documents.sources import Sources

# the kinds of names that the word before a name allows
KINDS = {
    "clause": {Kind.CLAUSE},
    "field": {Kind.FIELD},
    "law": {Kind.FUNCTION, Kind.FIELD},
    "lemma": {Kind.FUNCTION, Kind.DEFINITION},
    "trait": {Kind.TRAIT},
    "record": {Kind.TYPE},
    "enum": {Kind.TYPE},
    "variant": {Kind.VARIANT},
    "constructor": {Kind.VARIANT},
    "constant": {Kind.CONSTANT},
    "edit": {Kind.EDIT},
}

BYTES = re.compile(r"(?:[0-9a-f]{2} )*[0-9a-f]{2}|f+|\d+")
CALCULATION = re.compile(r".* [-+*/%^≤] .*|\(\w+ : \w+\)")
FILE = re.compile(r"[\w.*-]+(?:/[\w.*-]*)+|[\w*-]+(?:\.[\w*-]+)+")
PLACEHOLDER = re.compile(r"\b[A-Z]+\b")
# a name, after what contains it, and before a file extension, members in braces, or arguments
NAME = re.compile(r"(?P<name>[\w-]+(?:(?:::|\.|/)[\w-]+)*?)(?:\.(?:rt|antt|edit)|::\{(?P<members>[\w, ]+)\}|\(.*\)|(?: [a-z_]\w*)+)?")


@dataclasses.dataclass(frozen=True)
class Subject:
    """What a passage is about."""

    # its crates, and these with all below them; both are empty if it may name what is in any crate
    crates: frozenset[str]
    below: frozenset[str]
    # the scripts that it names
    scripts: tuple[str, ...]
    # the words in capitals that are placeholders in the document's commands
    placeholders: frozenset[str]

    @classmethod
    def of(cls, passage: Passage, document: Document, sources: Sources, placeholders: frozenset[str]) -> "Subject":
        linked = {document.crate, *passage.names_of(r"\((?:\.\./)?crates/(\w+)/README\.md\)")} & sources.crates.keys()
        crates = frozenset(linked | (sources.crates.keys() & passage.names_of(CRATE)) if linked else ())
        below = frozenset().union(*(sources.crates[crate] for crate in crates))
        return cls(crates, below, tuple(passage.names_of(r"\btools/[\w-]+")), placeholders)

    def allows(self, crates: Collection[str]) -> bool:
        """Whether something in one of these crates may be meant. Something outside of all crates always may."""
        return not self.below or "" in crates or not self.below.isdisjoint(crates)

    def __str__(self) -> str:
        return f" in {' or '.join(sorted(self.crates))} or below" if self.crates else ""


def kinds_of(word: str) -> set[Kind] | None:
    """Returns the kinds of names that the word before a name allows, in the singular or plural, or `None` if it allows any."""
    return KINDS.get(word, KINDS.get(word.removesuffix("s")))


def parts_of(owner: str) -> list[str]:
    """Returns the parts of a path, or of a name with its crate and type. Each of them owns what belongs to it."""
    return [part for part in re.findall(r"[\w-]+", owner.partition("(")[0]) if part not in ("crates", "rt", "antt")]


class Lookup:
    """Looks up what documents name."""

    def __init__(self, sources: Sources, commands: Commands) -> None:
        self.sources = sources
        self.commands = commands

    def fault(self, mention: Mention, subject: Subject) -> str | None:
        """Returns what is wrong with a mention, if anything. Commands of the program and crates of the toolchain aren't owners."""
        text = mention.text
        owners = tuple(owner for owner in mention.owners if owner not in self.sources.commands and owner not in self.sources.ported)
        mention = dataclasses.replace(mention, owners=owners)
        if self.commands.is_line(text):
            return self.commands.fault_of_line(text, subject.scripts)
        if BYTES.fullmatch(text) or CALCULATION.fullmatch(text) and self.is_calculation(text) or self.is_there(mention, subject):
            return None
        kind = f"{mention.word.removesuffix('s')} " if kinds_of(mention.word) else ""
        owners = f" of {' or '.join(f'`{owner}`' for owner in mention.owners)}" if mention.owners else ""
        return f"there is no {kind}`{text}`{owners}{subject}"

    def is_there(self, mention: Mention, subject: Subject) -> bool:
        """Whether it is a name of its kind and owner. If neither is given, it may also be a crate, a file, a text or a library's name."""
        is_bare = not mention.owners and not kinds_of(mention.word)
        return self.are_names(mention, subject) or is_bare and self.is_known(mention.text, subject)

    def is_known(self, text: str, subject: Subject) -> bool:
        sources = self.sources
        known = (sources.crates, sources.ported, sources.library, subject.placeholders, SYSTEM)
        return any(text in names for names in known) or sources.prints(text) or self.is_file(text, subject)

    def are_names(self, mention: Mention, subject: Subject) -> bool:
        name = NAME.fullmatch(mention.text)
        if name is None:
            return False
        members = re.findall(r"\w+", name["members"] or "")
        names = [f"{name['name']}::{member}" for member in members] or [name["name"]]
        return all(self.is_name(each, mention, subject) for each in names)

    def is_name(self, text: str, mention: Mention, subject: Subject) -> bool:
        *owners, name = re.split(r"::|\.|/", text.removeprefix("crates/"))
        kinds = kinds_of(mention.word) or set(Kind)
        return any(
            each.kind in kinds
            and subject.allows({each.crate})
            and all(self.owns(owner, each) for owner in owners)
            and (not mention.owners or any(self.has(owner, each) for owner in mention.owners))
            for each in self.sources.definitions.get(name, ())
        )

    def owns(self, part: str, definition: Definition) -> bool:
        """Whether a name is one of the owners of a definition, an alias of one of them, or a crate that re-exports the definition."""
        return (
            part in definition.owners
            or not definition.owners.isdisjoint(self.sources.aliases.get(part, ()))
            or definition.name in self.sources.published.get(part, ())
        )

    def has(self, owner: str, definition: Definition) -> bool:
        """Whether a definition belongs to the owner with this name, or is named in the text of that owner."""
        *owners, name = parts_of(owner)
        return all(self.owns(part, definition) for part in (*owners, name)) or any(
            each.says(definition.name) and all(self.owns(part, each) for part in owners) for each in self.sources.definitions.get(name, ())
        )

    def is_calculation(self, text: str) -> bool:
        """Whether each word of a calculation is known, except single letters."""
        words = re.findall(r"[^\W\d]\w+", text)
        return all(word in self.sources.definitions or word in self.sources.texts or word in self.sources.library for word in words)

    def is_file(self, text: str, subject: Subject) -> bool:
        """Whether it is a file or folder that exists, is built, is made by the program or a script, or belongs to the system."""
        crates = self.sources.paths.get(text.rstrip("/"))
        if crates is not None:
            return subject.allows(crates)
        if not FILE.fullmatch(text):
            return text.startswith(("/", "$"))
        pattern = re.sub(r"(?<=/)[A-Z]+(?=/)", "*", text)
        is_pattern = "*" in pattern and any(fnmatch.fnmatch(path, pattern) for path in self.sources.paths)
        return is_pattern or self.sources.is_ignored(self.sources.root / text) or self.is_made(text)

    def is_made(self, text: str) -> bool:
        """Whether a file's name is a text of a script, or the program has an extension for each part of it that isn't in capitals."""
        name = re.sub(r"^[A-Z]+/", "", text)
        words = re.findall(r"[a-z][\w-]*", PLACEHOLDER.sub("", name))
        return self.sources.prints(name) or all(f".{word}" in self.sources.texts for word in words)
