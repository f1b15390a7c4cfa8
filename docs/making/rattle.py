"""Reads files of Rattle as far as documents tell of them: public items, their docstrings and their clauses.

Files are in the layout of `rt fmt`: items begin at no indentation, those of an `impl` or a `trait` at four spaces.
"""

import re
from dataclasses import dataclass, field
from pathlib import Path

FUNCTION = re.compile(r"^(?P<indent>(?:    )?)(?P<public>pub(?:\([^)]*\))? )?(?:const |unsafe |extern \"C\" )*fn (?P<name>\w+)")
TYPE = re.compile(r"^(?P<public>pub(?:\([^)]*\))? )?(?:struct|enum|trait|type|union) (?P<name>\w+)")
TRAIT = re.compile(r"^(?P<public>pub )?trait (?P<name>\w+)")
BLOCK = re.compile(r"^(?:unsafe )?impl\b(?P<head>.*)$")
CLAUSE = re.compile(r"(?P<kind>requires|ensures)\*?(?: (?P<name>\w+))? \{")
GHOST_FIELD = re.compile(r"^    (?:pub )?ghost (?P<name>\w+): \{")
INVARIANT = re.compile(r"^    ghost invariant = \{", re.M)
GHOST_USE = re.compile(r"^\s*ghost use Rattle\.(?P<path>[\w.]+)\.\{(?P<names>[^}]*)\};", re.M)
MODULE = re.compile(r"^(?P<public>pub )?(?:pub\(crate\) )?mod (?P<name>\w+);", re.M)
USE = re.compile(r"^pub use (?P<path>[^;]+);", re.M)
WORD = re.compile(r"[^\W\d][\w◌]*(?:-\w+)*")


@dataclass(frozen=True)
class Clause:
    """A condition (`requires`) or a promise (`ensures`), as it stands."""

    kind: str
    name: str
    text: str

    def shown(self) -> str:
        name = f" {self.name}" if self.name else ""
        return f"{self.kind}{name} {{{self.text}}}"


@dataclass(frozen=True)
class Function:
    """A function with its clauses. `owner` is its type or trait; `of_trait` the trait that it implements."""

    name: str
    owner: str
    of_trait: str
    is_public: bool
    doc: str
    clauses: tuple[Clause, ...]
    path: Path

    @property
    def full_name(self) -> str:
        return f"{self.owner}::{self.name}" if self.owner else self.name


@dataclass(frozen=True)
class Type:
    """A type or trait, with what always holds of its values."""

    name: str
    is_public: bool
    doc: str
    facts: tuple[Clause, ...]
    path: Path


@dataclass
class File:
    """What a file has."""

    path: Path
    head: str = ""
    functions: list[Function] = field(default_factory=list)
    types: list[Type] = field(default_factory=list)
    # What words of clauses mean: each name with the path of the file of definitions that has it.
    words: dict[str, str] = field(default_factory=dict)


def sentence(doc: str) -> str:
    """The first sentence of a docstring, or nothing where it has none."""
    paragraph = doc.strip().split("\n\n")[0].replace("\n", " ").strip()
    for end in re.finditer(r"[.:](?= |$)", paragraph):
        whole = paragraph[: end.start()]
        if whole.count("(") == whole.count(")") and whole.count("`") % 2 == 0 and end.group() == ".":
            return f"{whole}."
    return f"{paragraph}." if paragraph else ""


def closing(text: str, at: int) -> int:
    """Where the brace that opens at `at` is closed."""
    depth, in_text = 0, False
    for place in range(at, len(text)):
        letter = text[place]
        if letter == '"' and text[place - 1] != "\\":
            in_text = not in_text
        elif not in_text:
            depth += (letter == "{") - (letter == "}")
            if depth == 0:
                return place
    raise ValueError("a brace is not closed")


def clauses_in(text: str, at: int) -> list[Clause]:
    """The clauses of the function whose name stands at `at`: what stands between its signature and its body."""
    found, depth = [], 0
    while at < len(text):
        letter = text[at]
        depth += (letter in "([") - (letter in ")]")
        if depth == 0 and (told := CLAUSE.match(text, at)) and text[at - 1].isspace():
            end = closing(text, told.end() - 1)
            found.append(Clause(told["kind"], told["name"] or "", text[told.end() : end]))
            at = end
        elif text.startswith("//", at):
            at = text.index("\n", at)
        elif depth == 0 and letter in "{;":
            break
        at += 1
    return found


def without_generics(head: str) -> str:
    """The head of an `impl` without what stands in angle brackets; the arrow of a function's type closes none."""
    kept, depth = "", 0
    for place, letter in enumerate(head):
        depth -= letter == ">" and head[place - 1] != "-"
        kept += letter if depth == 0 and letter not in "<>" else ""
        depth += letter == "<"
    return kept


def owner_of(head: str) -> tuple[str, str]:
    """Of the head of an `impl` the type and, where it is of a trait, that."""
    plain = without_generics(head).split(" where")[0].strip("{ ")
    first, _, second = plain.partition(" for ")
    names = [re.sub(r"^[&']*(?:\w+::)*", "", each.strip()) for each in (first, second) if each]
    return (names[1], names[0]) if len(names) == 2 else (names[0] if names else "", "")


class Reader:
    """Goes over the lines of a file from top to bottom."""

    def __init__(self, path: Path) -> None:
        self.text = path.read_text()
        self.file = File(path)
        self.docs: list[str] = []
        self.owner = self.of_trait = ""
        self.owner_is_public = True

    def read(self) -> File:
        place = 0
        for line in self.text.split("\n"):
            self.take(line, place)
            place += len(line) + 1
        self.file.head = "\n".join(
            line.removeprefix("//!").strip() for line in self.text.split("\n") if line.startswith("//!")
        )
        for use in GHOST_USE.finditer(self.text):
            self.file.words |= words_of(use["path"], use["names"])
        return self.file

    def take(self, line: str, place: int) -> None:
        stripped = line.strip()
        if stripped.startswith("///"):
            self.docs.append(stripped.removeprefix("///").strip())
        elif told := FUNCTION.match(line):
            self.add_function(told, place)
        elif block := BLOCK.match(line):
            self.owner, self.of_trait = owner_of(block["head"])
            self.add_invariant(place)
        elif told := TYPE.match(line):
            self.add_type(told, place)
        elif line == "}":
            self.owner = self.of_trait = ""
        if stripped and not stripped.startswith(("///", "#[", "//")):
            self.docs = []

    def add_function(self, told: re.Match[str], place: int) -> None:
        in_block = bool(told["indent"])
        is_public = told["public"] == "pub " or (in_block and bool(self.of_trait))
        self.file.functions.append(
            Function(
                told["name"],
                self.owner if in_block else "",
                self.of_trait if in_block else "",
                is_public,
                "\n".join(self.docs),
                tuple(clauses_in(self.text, place + told.end())),
                self.file.path,
            )
        )

    def add_type(self, told: re.Match[str], place: int) -> None:
        end = self.text.find("\n}", place)
        body = self.text[place:end] if "{" in self.text[place : self.text.index("\n", place)] else ""
        facts = []
        for line in body.split("\n"):
            if ghost := GHOST_FIELD.match(line):
                at = place + body.index(line) + ghost.end() - 1
                facts.append(Clause("always", ghost["name"], self.text[at + 1 : closing(self.text, at)]))
        is_trait = TRAIT.match(told.string) is not None
        self.file.types.append(
            Type(told["name"], told["public"] == "pub ", "\n".join(self.docs), () if is_trait else tuple(facts), self.file.path)
        )
        if is_trait:
            self.owner, self.of_trait = told["name"], told["name"]

    def add_invariant(self, place: int) -> None:
        """What a type's `impl Model` says of all its values."""
        if self.of_trait != "Model":
            return
        end = self.text.find("\n}", place)
        if told := INVARIANT.search(self.text, place, end):
            at = told.end() - 1
            fact = Clause("always", "", self.text[at + 1 : closing(self.text, at)])
            self.file.types.append(Type(self.owner, False, "", (fact,), self.file.path))


def words_of(path: str, names: str) -> dict[str, str]:
    """The names that a `ghost use` brings in, each with the path that it comes from."""
    found = {}
    for name in names.split(","):
        original, _, other = name.strip().partition(" as ")
        if original:
            found[(other or original).strip()] = path
    return found


def read_file(path: Path) -> File:
    return Reader(path).read()


class Crate:
    """A crate of the repository: its files, and which of its items callers see."""

    def __init__(self, folder: Path) -> None:
        self.folder = folder
        self.name = folder.name
        paths = sorted(folder.glob("src/**/*.rt"), key=lambda path: path.with_suffix("").parts)
        self.files = [read_file(path) for path in paths]
        self.root = next((file for file in self.files if file.path.stem in ("lib", "main")), None)
        self.exported: set[str] = set()
        self.open_files = self._open_files()

    @property
    def is_for(self) -> str:
        """What the crate is for, in the first sentence of its root file."""
        return sentence(self.root.head) if self.root else ""

    def _open_files(self) -> set[Path]:
        """The files of modules that callers can name; notes on the way what is exported by name."""
        found: set[Path] = set()
        if self.root is not None:
            self._open(self.root.path, self.folder / "src", found)
        return found

    def _open(self, path: Path, below: Path, found: set[Path]) -> None:
        found.add(path)
        text = path.read_text()
        for use in USE.finditer(text):
            self.exported.update(re.findall(r"\w+", use["path"]))
        for module in MODULE.finditer(text):
            inner = below / f"{module['name']}.rt"
            if module["public"] and inner.is_file():
                self._open(inner, below / module["name"], found)

    def public_types(self) -> list[Type]:
        """The types that callers can name, each with all facts that the crate says of it."""
        facts: dict[str, tuple[Clause, ...]] = {}
        for file in self.files:
            for each in file.types:
                facts[each.name] = facts.get(each.name, ()) + each.facts
        return [
            Type(each.name, True, each.doc, facts[each.name], each.path)
            for file in self.files
            for each in file.types
            if each.is_public and (file.path in self.open_files or each.name in self.exported)
        ]

    def public_functions(self) -> list[Function]:
        """The functions that callers can call, with those that a public type has by a trait where clauses are written."""
        types = {each.name for each in self.public_types()}
        return [each for file in self.files for each in file.functions if self._is_seen(each, types)]

    def _is_seen(self, function: Function, types: set[str]) -> bool:
        if not function.is_public:
            return False
        if function.of_trait:
            return function.owner in types and bool(function.clauses)
        if function.owner:
            return function.owner in types
        return function.path in self.open_files or function.name in self.exported

    def functions(self) -> list[Function]:
        return [each for file in self.files for each in file.functions]

    def words(self) -> dict[str, str]:
        """What the words of the crate's clauses mean, by the files that bring them in."""
        found: dict[str, str] = {}
        for file in self.files:
            found |= file.words
        return found
