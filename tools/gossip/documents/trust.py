"""docs/TRUST.md: the definitions on which the headline rests, in the order in which to read them, and what isn't among them.

The headline is the type of two fields of the record that the clause `ruled` of `bar_run` names. It rests on the definitions that this type
uses, and on those that these use in turn. No definition uses one of a later file. The rest of the crates' definitions are sorted by what
they are for: other claims of `bar_run`, the link to the real outside, models of the program's own structures, and laws and the claims of
other calls.
"""
import collections
import collections.abc
import dataclasses
import fnmatch
import functools
import itertools
import pathlib
import re

from gossip.documents.definitions import Definition, Definitions, File, clauses_of

PAGE = "docs/TRUST.md"
# between these lines of the page is what is made from the sources
FIRST, LAST = "<!-- from here on made by tools/list-definitions --write -->", "<!-- up to here -->"

# where the headline is found: the call, its clause, the record that this names, and the fields of the record that are the headline
CALL = "crates/bar_cli/src/run.rt"
CLAUSE = re.compile(r"ensures ruled \{(.*?)\}$", re.MULTILINE | re.DOTALL)
RECORD, FIELDS = "ByTheRules", ("peer_headline", "replay_headline")
# the record with the parts of the headline, and the crates that define what these parts are
PARTS_RECORD, LAWS = "KeepsTheRules", ("bar_laws", "bar_cli")

# the parts of the reading, each with the files of its definitions
PARTS = {
    "Bytes": ["bar_bytes/*"],
    "Updates, windows and exchanges": ["bar_window/*"],
    "Datagrams": ["bar_wire/*"],
    "Signatures": ["bar_lms/*", "bar_seal/*"],
    "Seeds, terms and briefcases": ["bar_seeds/*", "bar_terms/*", "bar_case/*"],
    "Sessions": ["bar_session/*"],
    "The rules": ["bar_rules/*"],
    "What the rules are shown to keep": ["bar_laws/*"],
    "The outside: files, link and streams": ["bar_outside/*"],
    "Session and key files": ["bar_roster/*", "bar_session_files/*"],
    "Recordings and runs": ["bar_record/*", "bar_core/*", "bar_node/*", "bar_peer/*", "bar_party_commands/*"],
    "The command line and the headline": ["bar_arguments/*", "bar_child_processes/*", "bar_cli/*"],
}

# the folder of a crate's specs/ with the definitions about code: what the program's own structures represent, and what its functions do
# with them. The headline reaches none of them.
CODE = "Code"
# the crates of the real outside, which define what their histories of calls represent
OUTSIDE = ("bar_system", "bar_told", "bar")

# the sorts of definitions, with what the page says of each
HEADLINE, CALLS, LINK, MODELS, LAW = "headline", "other claims of `bar_run`", "the real outside", "code", "laws and other calls"
SORTS = (HEADLINE, CALLS, LINK, MODELS, LAW)
SAID = {
    CALLS: "what the other claims of `bar_run` rest on: read these before you rely on such a claim",
    LINK: "what the histories of the real files, link, streams and child programs represent, in place of the outside of the headline",
    MODELS: "what the program's own structures represent. No claim of `bar_run` rests on them; only contracts between functions do",
    LAW: "what other public calls and laws claim ([THEOREMS.md](THEOREMS.md) has them), and what their proofs share",
}


def subject_of(definition: Definition) -> str:
    """Returns the file of a definition as its crate and its name in specs/, without the extension."""
    return definition.place.file.removeprefix("crates/").replace("/specs/", "/").removesuffix(".antt")


def is_about_code(definition: Definition) -> bool:
    return subject_of(definition).split("/")[1] == CODE


def part_of(definition: Definition) -> str:
    """Returns the part of the reading that contains a definition."""
    for part, patterns in PARTS.items():
        if any(fnmatch.fnmatchcase(subject_of(definition), pattern) for pattern in patterns):
            return part
    raise ValueError(f"{definition.place}: no part of {PAGE} has this file; tools/gossip/documents/trust.py has the parts")


def link_to(definition: Definition) -> str:
    """Returns a link from the page to the line of a definition."""
    name = definition.place.file.removeprefix("crates/")
    return f"[{name}:{definition.place.first}](../{definition.place.file}#L{definition.place.first})"


@dataclasses.dataclass
class Trust:
    """The definitions of a repository, sorted by what they are for."""

    definitions: Definitions

    @classmethod
    def of(cls, root: pathlib.Path) -> "Trust":
        return cls(Definitions(root))

    @functools.cached_property
    def record(self) -> Definition:
        """The record that the clause names."""
        return self.named_by_call()[RECORD]

    def named_by_call(self) -> dict[str, Definition]:
        """Returns the definitions that the clause names, by name, found by the import lists of the call's file."""
        text = (self.definitions.root / CALL).read_text(encoding="utf-8")
        clause = CLAUSE.search(text)
        if clause is None:
            raise ValueError(f"{CALL} has no clause `ruled`")
        file = File(CALL, "")
        file.read_uses(re.sub(r"^ghost (use [^;]*);$", r"\1", text, flags=re.MULTILINE))
        words = set(re.findall(r"\w+", clause[1])) & file.taken.keys()
        found = {word: self.definitions.found(*file.taken[word]) for word in words}
        return {word: each for word, each in found.items() if each}

    @functools.cached_property
    def headline(self) -> set[Definition]:
        """The definitions on which the headline rests: what the two fields of the record use, and what else the clause names."""
        roots = {each for name, each in self.named_by_call().items() if name != RECORD}
        for field in clauses_of(self.record.text):
            name = field.removeprefix("  pub ").partition(" ")[0]
            if name in FIELDS:
                roots |= self.definitions.used_by(dataclasses.replace(self.record, text=field))
        return self.definitions.reached_from(roots)

    @functools.cached_property
    def calls(self) -> set[Definition]:
        """The definitions on which all clauses of the call rest: those in the record's file, and what they use."""
        return self.definitions.reached_from(self.definitions.file_of(self.record).own.values())

    def sort_of(self, definition: Definition) -> str:
        if definition in self.headline:
            return HEADLINE
        if definition.crate in OUTSIDE:
            return LINK
        if definition in self.calls:
            return CALLS
        return MODELS if is_about_code(definition) else LAW

    def in_order(self) -> list[tuple[str, list[Definition]]]:
        """Returns the part and the definitions of each file of the headline: by parts, and in a part each file after those that it uses."""
        files: dict[str, list[Definition]] = collections.defaultdict(list)
        for each in sorted(self.headline, key=lambda each: each.place.first):
            if not each.is_of_code:
                files[each.place.file].append(each)
        parts = list(PARTS)
        names = sorted(files, key=lambda name: (parts.index(part_of(files[name][0])), name))
        ordered: list[str] = []
        for name in names:
            self.put(name, files, ordered)
        return [(part_of(files[name][0]), files[name]) for name in ordered]

    def put(self, name: str, files: dict[str, list[Definition]], ordered: list[str]) -> None:
        """Appends a file after those of its own part that it uses."""
        if name in ordered:
            return
        part = part_of(files[name][0])
        used = {each.place.file for definition in files[name] for each in self.definitions.used_by(definition)} - {name}
        for other in sorted(used & files.keys()):
            if part_of(files[other][0]) == part:
                self.put(other, files, ordered)
        ordered.append(name)


# ---- the page


def counted_lines(definitions: collections.abc.Iterable[Definition]) -> str:
    definitions = list(definitions)
    return f"{len(definitions):,} definitions in {sum(each.size for each in definitions):,} lines"


def comment_of(root: pathlib.Path, name: str) -> str:
    """Returns the first sentence of the comment at the head of a file."""
    lines = (root / name).read_text(encoding="utf-8").splitlines()
    text = " ".join(line[2:].strip() for line in itertools.takewhile(lambda line: line.startswith("--"), lines))
    sentence = re.match(r".+?[.:](?= [A-Z]|$)", text)
    return sentence[0].rstrip(":") + ("" if sentence[0].endswith(".") else ".") if sentence else text


def name_of(definition: Definition) -> str:
    return definition.name if "=" in definition.name else f"`{definition.name}`"


def lines_of_fields(trust: Trust) -> collections.abc.Iterator[str]:
    """Yields the table of the headline's parts: each field of its record, and the definitions that it is made of."""
    record = next(each for each in trust.headline if each.name == PARTS_RECORD)
    yield f"`{PARTS_RECORD}` ({link_to(record)}) has a field for each part of the headline."
    yield ""
    yield "| field | definitions |"
    yield "|---|---|"
    for field in clauses_of(record.text):
        name = re.match(r"  pub (\w+) :", field)
        if name:
            used = trust.definitions.used_by(dataclasses.replace(record, text=field))
            laws = sorted({each for each in used if each.crate in LAWS} - {record}, key=lambda each: (each.name[0].islower(), each.name))
            yield f"| `{name[1]}` | {', '.join(f'{name_of(each)} ({link_to(each)})' for each in laws)} |"


def lines_of_reading(trust: Trust) -> collections.abc.Iterator[str]:
    """Yields the list of definitions on which the headline rests, file by file, in the order in which to read them."""
    count, last = 0, ""
    for part, definitions in trust.in_order():
        if part != last:
            count, last = count + 1, part
            yield from ("", f"### {count}. {part}", "")
        name = definitions[0].place.file
        listed = ", ".join(f"{name_of(each)}:{each.place.first}" for each in definitions)
        yield f"- [{name.removeprefix('crates/')}](../{name}). {comment_of(trust.definitions.root, name)} {listed}"


def lines_of_types(trust: Trust) -> collections.abc.Iterator[str]:
    """Yields the list of the types of the code that the headline names, of which only the fields and variants count."""
    types = sorted((each for each in trust.headline if each.is_of_code), key=lambda each: (each.place.file, each.place.first))
    yield f"They name {len(types)} structs and enums of the code, of which only the fields and variants count:"
    yield ""
    yield from (f"- {name_of(each)}: {link_to(each)}" for each in types)


def lines_of_kit(trust: Trust) -> collections.abc.Iterator[str]:
    """Yields the list of names that the definitions take from the kit, module by module."""
    taken: dict[str, set[str]] = collections.defaultdict(set)
    for each in trust.headline:
        for module, name in trust.definitions.taken_by(each):
            taken[module].add(name)
    words = {module: sorted(name for name in names if "◌" not in name and name.isidentifier()) for module, names in taken.items()}
    signs = sum(1 for names in taken.values() for name in names if "◌" in name)
    yield f"From the kit they take {signs} operators, and these names:"
    yield ""
    for module in sorted(module for module in words if words[module] and ".proofs." not in module):
        yield f"- {module}: {', '.join(f'`{word}`' for word in words[module])}"
    proofs = sum(len(names) for module, names in taken.items() if ".proofs." in module)
    yield f"- and {proofs} lemmas, in definitions that decide a property and prove that they do"


def about_code(root: pathlib.Path, head: pathlib.Path) -> str:
    """Returns what a crate's definitions about code are about, by the comment at the head of their folder's module."""
    return comment_of(root, head.relative_to(root).as_posix()).removeprefix("Definitions about code: ").removesuffix(".")


def lines_of_rest(trust: Trust) -> collections.abc.Iterator[str]:
    """Yields tables of how many definitions of each sort a crate has, and of the files about code."""
    every = trust.definitions.all()
    counts = collections.Counter((each.crate, trust.sort_of(each)) for each in every)
    crates = sorted({each.crate for each in every})
    yield f"The crates have {counted_lines(every)}. The rest are sorted by what they are for:"
    yield ""
    yield from (f"- *{sort}*: {SAID[sort]}" for sort in SORTS if sort in SAID)
    yield ""
    yield f"| crate | {' | '.join(SORTS)} |"
    yield f"|---|{'---|' * len(SORTS)}"
    for crate in crates:
        yield f"| {crate} | {' | '.join(str(counts[crate, sort] or '') for sort in SORTS)} |"
    yield f"| all | {' | '.join(str(sum(counts[crate, sort] for crate in crates)) for sort in SORTS)} |"
    yield from ("", f"The folders specs/{CODE} are about code, and the headline reaches no definition in them:", "")
    yield from ("| crate | files | what they are about |", "|---|---|---|")
    for head in sorted(trust.definitions.root.glob(f"crates/*/specs/{CODE}.antt")):
        names = ", ".join(sorted(path.stem for path in (head.parent / CODE).rglob("*.antt")))
        yield f"| {head.parts[-3]} | {names} | {about_code(trust.definitions.root, head)} |"


def made(trust: Trust) -> list[str]:
    """Returns the lines of the page from its first mark to its second one."""
    read = [each for each in trust.headline if not each.is_of_code]
    files = {each.place.file for each in read}
    return [
        FIRST,
        "",
        "## The headline, part by part",
        "",
        *lines_of_fields(trust),
        "",
        "## What to read, in this order",
        "",
        f"The headline rests on {counted_lines(read)} of {len(files)} files. Each item is a file, what its first comment says, and its"
        " definitions, each with the number of its line. No definition uses one of a later file, so the headline itself is at the end.",
        *lines_of_reading(trust),
        "",
        *lines_of_types(trust),
        "",
        *lines_of_kit(trust),
        "",
        "## What isn't among them",
        "",
        *lines_of_rest(trust),
        "",
        LAST,
    ]


def faults_of_code(trust: Trust) -> collections.abc.Iterator[str]:
    """Yields a fault for each definition about code that the headline reaches."""
    for each in sorted(trust.headline, key=lambda each: str(each.place)):
        if is_about_code(each) and not each.is_of_code:
            yield f"{each.place}: the headline reaches `{each.name}`, which is in specs/{CODE}, about code"


def with_made(text: str, lines: list[str]) -> str:
    """Returns the page with these lines in place of those from its first mark to its second one."""
    before, mark, rest = text.partition(FIRST)
    _, end, after = rest.partition(LAST)
    if not mark or not end:
        raise ValueError(f"{PAGE} lacks a line `{FIRST}` or `{LAST}`")
    return before + "\n".join(lines) + after


def faults_of_page(root: pathlib.Path) -> collections.abc.Iterator[tuple[int, str]]:
    """Yields the faults of the page, each with its line. A repository without the call has no page."""
    if not (root / CALL).exists():
        return
    trust = Trust.of(root)
    yield from ((1, fault) for fault in faults_of_code(trust))
    path = root / PAGE
    text = path.read_text(encoding="utf-8") if path.exists() else f"{FIRST}\n{LAST}"
    is_now, is_to_be = text.splitlines(), with_made(text, made(trust)).splitlines()
    for number, (now, line) in enumerate(zip(is_now, is_to_be), 1):
        if now != line:
            yield number, "it isn't what the sources say: `tools/list-definitions --write` updates it"
            return
    if len(is_now) != len(is_to_be):
        yield min(len(is_now), len(is_to_be)), "it isn't what the sources say: `tools/list-definitions --write` updates it"
