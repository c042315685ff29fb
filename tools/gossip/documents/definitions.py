"""The definitions of the crates' specs/, and for each the definitions that it uses, by the import lists of the files.

A file imports each name by a list in braces, or gives a module an alias. So the text of a definition shows what it uses: its names, except
those that it binds itself, are looked up in its file and in these lists.
"""
import collections.abc
import dataclasses
import functools
import pathlib
import re
import textwrap

# the first line of a definition; an import list or an alias of a module; a constructor of a type
HEADER = re.compile(
    r"(?P<indent>(?:  )?)(?:"
    r"(?:(?:abbrev|unfoldable|no_body)(?: pub)? |pub )(?P<sort>(?:record|data) )?(?P<name>[^\s:(){}]+)(?= |$)"
    r"|(?P<lemma>[\w-]+)(?= : ))"
)
TAKES = re.compile(r"^(?:pub )?use Rattle\.(?P<module>[\w.]+?)(?:\.\{(?P<names>[^}]*)\}| as (?P<alias>\w+))?$", re.MULTILINE)
PART = re.compile(r"^  (?:pub )?(?P<name>[^\s:(){}]+) : ", re.MULTILINE)
# a field of a record, which the fields after it may name; what precedes a field that is given a value
FIELD = re.compile(r"  pub ([^\s:(){}]+) :")
GIVEN = re.compile(r"[{;]\s*$")
# a name, with the module or the value before its dot; an operator
NAME = re.compile(r"(?<![\w.])(?:(?P<module>[^\W\d][\w]*)\.)?(?P<name>[^\W\d][\w]*(?:-\w+)*)")
OPERATOR = re.compile(r"[^\s\w(){}\[\].,;:]+")
# the operators that are written with words, and the word that shows the use of each
WORDED = {"if◌then◌else◌": "then", "[]": "[]"}
# what a definition binds: in parentheses or braces before a colon, after a lambda, and by `let`
BINDERS = re.compile(r"[({](?P<typed>[a-z_][\w ]*) : |λ (?P<given>[^.]+?)\. |\blet (?P<kept>\w+) ")
# the constructors of the kit's types that begin with a small letter, which occur in patterns
CONSTRUCTORS = {"zero", "suc", "pos", "negsuc", "true", "false", "string", "integer", "array", "item", "no_items"}
# a type of the code, up to the end of its fields or variants
RUST_TYPE = r"^(?:pub(?:\([\w:]+\))? )?(?:struct|enum|trait) {name}\b(?:[^\n]*;$|.*?^\}})"


@dataclasses.dataclass(frozen=True)
class Place:
    """The position of a definition: its file, relative to the repository's top, and its lines there."""

    file: str
    first: int
    last: int

    def __str__(self) -> str:
        return f"{self.file}:{self.first}"


@dataclasses.dataclass(frozen=True)
class Definition:
    """A definition of a crate's specs/, or a type of its code that definitions name."""

    name: str
    place: Place
    text: str = dataclasses.field(repr=False)
    # the names of the constructors of a type
    constructors: tuple[str, ...] = ()

    @property
    def crate(self) -> str:
        return self.place.file.split("/")[1]

    @property
    def is_of_code(self) -> bool:
        """Whether it is a type of the code."""
        return self.place.file.endswith(".rt")

    @functools.cached_property
    def size(self) -> int:
        """How many lines it has without blank ones and comments."""
        return sum(1 for line in self.text.splitlines() if says(line))


def module_of(name: str) -> str:
    """Returns the module of a file of specs/."""
    return name.removeprefix("crates/").removesuffix(".antt").replace("/", ".")


def says(line: str) -> bool:
    """Whether a line is neither blank nor a comment or attribute."""
    return bool(line.strip()) and not line.lstrip().startswith(("--", "//", "#["))


def is_given(clause: str, word: re.Match[str]) -> bool:
    """Whether a word is the name of a field that is given a value."""
    return clause.startswith(" = ", word.end()) and GIVEN.search(clause, 0, word.start()) is not None


def clauses_of(text: str) -> list[str]:
    """Returns the clauses of a definition, which are its statement, its equations and its fields, without comments and string literals."""
    found: list[str] = []
    for line in text.splitlines():
        line = re.sub(r"(?:^|\s)--.*$|\"(?:[^\"\\]|\\.)*\"", " ", line)
        if line.strip() and (not line.startswith(" ") or not found or FIELD.match(line)):
            found.append(line)
        elif line.strip():
            found[-1] += "\n" + line
    return found


@dataclasses.dataclass
class File:
    """A file of specs/: its definitions, and what it imports."""

    name: str
    module: str
    # the imported names, each with its module and its name there; and the aliases of modules, each with its module
    taken: dict[str, tuple[str, str]] = dataclasses.field(default_factory=dict)
    modules: dict[str, str] = dataclasses.field(default_factory=dict)
    own: dict[str, Definition] = dataclasses.field(default_factory=dict)

    @classmethod
    def read(cls, root: pathlib.Path, path: pathlib.Path) -> "File":
        name = path.relative_to(root).as_posix()
        text = path.read_text(encoding="utf-8")
        file = cls(name, module_of(name))
        file.read_uses(text)
        for definition in file.cut(text.splitlines()):
            file.own[definition.name] = definition
        return file

    def read_uses(self, text: str) -> None:
        """Records the import lists of a text, and its aliases of modules."""
        for use in TAKES.finditer(text):
            self.take(use)

    def take(self, use: re.Match[str]) -> None:
        if use["alias"]:
            self.modules[use["alias"]] = use["module"]
        for each in re.split(r",\s*", use["names"] or ""):
            name, _, other = each.strip().partition(" as ")
            if name:
                self.taken[other or name] = (use["module"], name)

    def cut(self, lines: list[str]) -> collections.abc.Iterator[Definition]:
        """Yields the definitions in the file's lines, each from its first line to the last that belongs to it."""
        within = False
        starts: list[tuple[int, re.Match[str]]] = []
        for number, line in enumerate(lines):
            within = line.startswith("module _") or within and line.startswith((" ", "\n")) or within and not line
            header = HEADER.match(line)
            if header and bool(header["indent"]) == within and (header["name"] or not within) and header["name"] not in ("mod", "use"):
                starts.append((number, header))
        for (start, header), (end, _) in zip(starts, [*starts[1:], (len(lines), None)]):
            last = max(number for number in range(start, end) if says(lines[number]) and not lines[number].startswith("module _"))
            text = textwrap.dedent("\n".join(lines[start : last + 1]))
            parts = tuple(part["name"] for part in PART.finditer(text)) if header["sort"] == "data " else ()
            yield Definition(header["name"] or header["lemma"], Place(self.name, start + 1, last + 1), text, parts)

    @functools.cached_property
    def constructors(self) -> dict[str, str]:
        """The name of the type of each constructor in the file."""
        return {part: each.name for each in self.own.values() for part in each.constructors}


@dataclasses.dataclass(eq=False)
class Definitions:
    """All definitions of a repository, and what each uses."""

    root: pathlib.Path
    files: dict[str, File] = dataclasses.field(default_factory=dict)

    def __post_init__(self) -> None:
        paths = sorted(self.root.glob("crates/*/specs/**/*.antt"))
        self.files = {file.module: file for file in (File.read(self.root, path) for path in paths)}

    def all(self) -> list[Definition]:
        return [each for file in self.files.values() for each in file.own.values()]

    def is_constructor(self, file: File, name: str) -> bool:
        """Whether a name is that of a constructor in this file."""
        module, there = file.taken.get(name, (file.module, name))
        if there in CONSTRUCTORS or there[:1].isupper():
            return True
        return any(each in self.files and there in self.files[each].constructors for each in (module, module.rpartition(".")[0]))

    def bound_in(self, file: File, clause: str) -> set[str]:
        """Returns the names that a clause itself binds: in its head, if it is an equation, and in binders."""
        groups = [group for binder in BINDERS.finditer(clause) for group in binder.groups() if group]
        found = set(re.findall(r"\w+", " ".join(groups)))
        head, *body = re.split(r"\s=\s", clause, maxsplit=1)
        if body and not HEADER.match(clause):
            found |= set(re.findall(r"(?<![\w.])[^\W\d]\w*(?![\w.])", head.partition(" ")[2]))
        return {name for name in found if not self.is_constructor(file, name)}

    def named_in(self, file: File, definition: Definition) -> set[tuple[str, str]]:
        """Returns the names that a definition uses, each as its module and its name there."""
        found: set[tuple[str, str]] = set()
        fields: set[str] = set()
        for clause in clauses_of(definition.text):
            bound = self.bound_in(file, clause) | fields
            fields.update(FIELD.findall(clause))
            clause = FIELD.sub("  ", clause)
            words = [word for word in NAME.finditer(clause) if not is_given(clause, word)]
            found.update(name for word in words if (name := self.meant(file, word["module"], word["name"], bound)))
            signs = [sign for word in OPERATOR.findall(clause) for sign in (word, f"◌{word}◌")]
            signs += [sign for sign, word in WORDED.items() if word in clause]
            found.update(name for sign in signs if (name := self.meant(file, None, sign, bound)))
        return found - {(file.module, definition.name)}

    def meant(self, file: File, before: str | None, name: str, bound: set[str]) -> tuple[str, str] | None:
        """Returns the module of a name and the name there, or `None` if it is a variable, a field or unknown in this file."""
        if before is not None and before in file.modules and before not in bound:
            return file.modules[before], name
        first = before or name
        if first in bound:
            return None
        if first in file.taken:
            return file.taken[first]
        return (file.module, first) if first in file.own or first in file.constructors else None

    def found(self, module: str, name: str) -> Definition | None:
        """Returns what a name in a module means: a definition, a constructor's type or a type of the code. The kit's modules have none."""
        file = self.files.get(module)
        if file is None:
            return self.type_of_code(module) or self.constructed(module, name)
        if name in file.own:
            return file.own[name]
        if name in file.constructors:
            return file.own[file.constructors[name]]
        return self.found(*file.taken[name]) if name in file.taken else None

    def constructed(self, module: str, name: str) -> Definition | None:
        """Returns the type of a constructor that is imported from the module of its type."""
        before, _, type_name = module.rpartition(".")
        file = self.files.get(before)
        return file.own.get(type_name) if file and file.constructors.get(name) == type_name else None

    def type_of_code(self, module: str) -> Definition | None:
        """Returns the type that a module declares, if this is a module of declared types or of one type's variants."""
        crate, *path = module.split(".")
        if path[:2] != ["specs", "declared"] or not (self.root / "crates" / crate).is_dir():
            return None
        path = [part for part in path[2:] if part != "TheVariants"]
        return self.rust_type(crate, "/".join(path[:-1]), path[-1])

    @functools.cache
    def rust_type(self, crate: str, module: str, name: str) -> Definition:
        path = self.root / "crates" / crate / "src" / f"{module or 'lib'}.rt"
        text = path.read_text(encoding="utf-8")
        found = re.search(RUST_TYPE.format(name=name), text, re.MULTILINE | re.DOTALL)
        if found is None:
            raise ValueError(f"{path.relative_to(self.root)}: there is no type `{name}`, which definitions name")
        first = text.count("\n", 0, found.start()) + 1
        place = Place(path.relative_to(self.root).as_posix(), first, first + found[0].count("\n"))
        return Definition(name, place, found[0])

    def used_by(self, definition: Definition) -> set[Definition]:
        """Returns the definitions that a definition uses, except itself."""
        if definition.is_of_code:
            return self.used_by_code(definition)
        found = {self.found(module, name) for module, name in self.named_in(self.file_of(definition), definition)}
        return {each for each in found if each and each != definition}

    def file_of(self, definition: Definition) -> File:
        return self.files[module_of(definition.place.file)]

    def taken_by(self, definition: Definition) -> set[tuple[str, str]]:
        """Returns the names of the kit, or of lemmas, that a definition uses, each as its module and its name there."""
        if definition.is_of_code:
            return set()
        named = self.named_in(self.file_of(definition), definition)
        return {(module, name) for module, name in named if self.found(module, name) is None}

    def used_by_code(self, definition: Definition) -> set[Definition]:
        """Returns the types of the code that a type of the code names, of its own crate or of one from which its file imports them."""
        text = (self.root / definition.place.file).read_text(encoding="utf-8")
        lines = "\n".join(line for line in definition.text.splitlines() if says(line))
        crates = {name: use[1] for use in re.finditer(r"^use (\w+)::([^;]+);", text, re.MULTILINE) for name in re.findall(r"\w+", use[2])}
        found: set[Definition] = set()
        for name in set(re.findall(r"\b[A-Z]\w*\b", lines)) - {definition.name}:
            crate = crates.get(name, "crate")
            found |= self.rust_types_of(definition.crate if crate == "crate" else crate, name)
        return found

    def rust_types_of(self, crate: str, name: str) -> set[Definition]:
        """Returns the type with this name in a crate's code, if there is one."""
        source = self.root / "crates" / crate / "src"
        for path in sorted(source.glob("**/*.rt")):
            if re.search(RUST_TYPE.format(name=name), path.read_text(encoding="utf-8"), re.MULTILINE | re.DOTALL):
                return {self.rust_type(crate, path.relative_to(source).with_suffix("").as_posix(), name)}
        return set()

    def reached_from(self, roots: collections.abc.Iterable[Definition]) -> set[Definition]:
        """Returns these definitions, and all that they use, directly or not."""
        found: set[Definition] = set()
        left = [*roots]
        while left:
            each = left.pop()
            if each not in found:
                found.add(each)
                left.extend(self.used_by(each) - found)
        return found
