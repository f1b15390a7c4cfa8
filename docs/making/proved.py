"""The pages of docs/proved: for each crate its public functions with their clauses, as they stand in the code."""

import re
from collections.abc import Iterable
from pathlib import Path

from making.anchors import anchor
from making.crates import Repository
from making.rattle import WORD, Clause, Crate, Function, Type, sentence
from making.regions import by_hand, filled, region

# Further functions, which no caller sees and of which the page is to have the clauses: a comment of the page's by-hand part.
ALSO = re.compile(r"<!-- also: (?P<names>[^>]*?) -->")


def file_link(path: Path, top: Path) -> str:
    inside = path.relative_to(top)
    return f"[{'/'.join(inside.parts[2:])}](../../{inside})"


def title(function: Function) -> str:
    of = f" of `{function.of_trait}`" if function.of_trait not in ("", function.owner) else ""
    return f"`{function.full_name}`{of}"


def block(clauses: Iterable[Clause]) -> str:
    return "\n".join(["```text", *(plain(each.shown()) for each in clauses), "```"])


def plain(text: str) -> str:
    """A clause whose further lines are indented by four spaces, however deep it stands in its file."""
    first, *others = text.split("\n")
    return "\n".join([first, *(f"    {line.strip()}" for line in others)])


def entry(function: Function, top: Path) -> str:
    about = sentence(function.doc) or "Its trait says what it is for."
    return f"### {title(function)}\n\n{about} {file_link(function.path, top)}\n\n{block(function.clauses)}"


def type_entry(each: Type, top: Path) -> str:
    return f"### `{each.name}`, always\n\n{sentence(each.doc)} {file_link(each.path, top)}\n\n{block(each.facts)}"


def bare_list(functions: list[Function]) -> str:
    return "\n".join(f"- {title(each)}: {sentence(each.doc)}" for each in functions)


def contents(functions: list[Function]) -> str:
    return " · ".join(f"[{title(each)}](#{anchor(title(each))})" for each in functions)


def definitions(crate: Crate, functions: list[Function], top: Path) -> str:
    """Where the words of these clauses are defined: a row for each file of definitions of the repository."""
    known = {file.path: file.words for file in crate.files}
    found: dict[Path, set[str]] = {}
    for function in functions:
        for clause in function.clauses:
            for word in WORD.findall(clause.text):
                path = defined_in(known[function.path].get(word, ""), top)
                if path is not None:
                    found.setdefault(path, set()).add(word)
    rows = [f"| {crate_link(path, top)} | {', '.join(f'`{word}`' for word in sorted(words))} |" for path, words in sorted(found.items())]
    return "\n".join(["| File | Words |", "|-|-|", *rows]) if rows else ""


def crate_link(path: Path, top: Path) -> str:
    return f"[{path.relative_to(top / 'crates')}](../../{path.relative_to(top)})"


def defined_in(path: str, top: Path) -> Path | None:
    """The file behind the path of a `ghost use`: of definitions, or of the type that it is of."""
    parts = path.split(".")
    for count in range(len(parts), 1, -1):
        for stem in ([*parts[:count]], [parts[0], "src", *parts[3:count]] if parts[1:3] == ["specs", "declared"] else []):
            for ending in (".antt", ".rt"):
                file = (top / "crates").joinpath(*stem).with_suffix(ending) if len(stem) > 1 else None
                if file is not None and file.is_file():
                    return file
    return None


def named(crate: Crate, names: str) -> list[Function]:
    """The functions of the crate of these full names, in the order of the names."""
    wanted = [name.strip() for name in names.split(",") if name.strip()]
    found = {each.full_name: each for each in reversed(crate.functions())}
    missing = [name for name in wanted if name not in found]
    if missing:
        raise SystemExit(f"make: {crate.name} has no function {missing[0]}, which its page names")
    return [found[name] for name in wanted]


def made_of(crate: Crate, top: Path, hand: str) -> str:
    """The made part of a crate's page."""
    functions = crate.public_functions()
    told = [each for each in functions if each.clauses]
    bare = [each for each in functions if not each.clauses]
    types = [each for each in crate.public_types() if each.facts]
    also = [each for names in ALSO.findall(hand) for each in named(crate, names)]
    parts = [contents(told)] if told else []
    parts += ["## Public functions", *(entry(each, top) for each in told)] if told else []
    parts += ["## What always holds", *(type_entry(each, top) for each in types)] if types else []
    parts += ["## Behind them", *(entry(each, top) for each in also)] if also else []
    parts += ["## Public functions without a clause", bare_list(bare)] if bare else []
    words = definitions(crate, told + also, top)
    parts += ["## Where the words are defined", words] if words else []
    return "\n\n".join(parts)


def page(crate: Crate, top: Path, old: str) -> str:
    """A crate's page: what is by hand as it was, and the made part anew."""
    if not old:
        old = f"# What is proved of `{crate.name}`\n\n{region('clauses', '')}"
    return filled(old, {"clauses": made_of(crate, top, by_hand(old))})


def has_page(crate: Crate) -> bool:
    return bool(crate.public_functions()) and crate.name not in ("bh_scripts", "bh_services", "bh_bench")


def index(repository: Repository) -> str:
    """The table of docs/PROVED.md."""
    rows = ["| Crate | Functions | Clauses | Is for |", "|-|-|-|-|"]
    functions = clauses = 0
    for name, crate in repository.crates.items():
        if has_page(crate):
            told = crate.public_functions()
            count = sum(len(each.clauses) for each in told)
            functions, clauses = functions + len(told), clauses + count
            rows.append(f"| [`{name}`](proved/{name}.md) | {len(told)} | {count} | {repository.is_for(name)} |")
    rows.append(f"| all | {functions} | {clauses} | |")
    return "\n".join(rows)


def lacking(repository: Repository) -> list[str]:
    """The public functions of which no docstring says a sentence; those that a trait describes are not asked."""
    return [
        f"{name}: {each.full_name}"
        for name, crate in repository.crates.items()
        if has_page(crate)
        for each in crate.public_functions()
        if not each.of_trait and not sentence(each.doc)
    ]
