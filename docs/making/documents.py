"""The documents: which there are, what is made of each, and what a check looks at."""

import re
from functools import cache
from pathlib import Path

from making import architecture, arguments, decisions, man, proved, scripts, settings
from making.anchors import FENCE, anchors
from making.crates import Repository
from making.lines import Lines
from making.prose import by_hand_count, too_long
from making.regions import filled, names_in
from making.replies import Replies

LINK = re.compile(r"(?<!\!)\[[^\]]*\]\((?P<to>[^)\s]+)\)")
IMAGE = re.compile(r"!\[[^\]]*\]\((?P<to>[^)\s]+)\)")
DECISIONS = "docs/DECISIONS.md"
FORMATS = "docs/FORMATS.md"
MAN = "docs/bulkhead.1"


def pages(top: Path) -> list[Path]:
    """All documents and pages that are kept by hand, wholly or in part."""
    found = [top / "README.md", top / "CHANGELOG.md", *top.glob("docs/**/*.md"), *top.glob("crates/*/README.md")]
    found += [top / "python/README.md", top / "bench/README.md", *top.glob("examples/*/README.md")]
    return sorted(path for path in found if path.is_file())


def made(top: Path) -> dict[Path, str]:
    """Each document that has made parts, as it has to be."""
    repository = Repository(top)
    texts = {
        "crates": architecture.crates_table(repository),
        "tests": architecture.tests_table(repository),
        "machine": architecture.machine_table(repository),
        "trusted": architecture.trusted_list(repository),
        "index": proved.index(repository),
        "scripts": scripts.table(top),
    }
    found = {}
    for crate in repository.crates.values():
        if proved.has_page(crate):
            path = top / "docs/proved" / f"{crate.name}.md"
            found[path] = proved.page(crate, top, path.read_text() if path.is_file() else "")
    for path in pages(top):
        text = path.read_text()
        own = {"themes": decisions.themes_table(text)} if path == top / DECISIONS else {}
        own |= formats(top) if path == top / FORMATS else {}
        if set(names_in(text)) & {*texts, *own}:
            found[path] = filled(text, texts | own)
    if (top / MAN).is_file():
        found[top / MAN] = man.filled((top / MAN).read_text(), top)
    return found


def formats(top: Path) -> dict[str, str]:
    """The tables of lines, replies, faults, properties and words of the program."""
    lines, replies = Lines(top), Replies(top)
    return {
        "words": arguments.table(top),
        "properties": settings.table(top),
        "steps": lines.steps_table(),
        "control-lines": lines.control_table(),
        "shared-lines": lines.shared_table(),
        "replies": replies.table(),
        "faults": replies.faults_table(),
        "words-of-replies": replies.words_list(),
    }


def write(top: Path) -> list[Path]:
    """Writes what is made, and returns the files that were otherwise before."""
    (top / "docs/proved").mkdir(exist_ok=True)
    changed = []
    for path, text in made(top).items():
        if not path.is_file() or path.read_text() != text:
            path.write_text(text)
            changed.append(path)
    return changed


def faults_of_made(top: Path) -> list[str]:
    """What is committed otherwise than it has to be, docstrings that lack a sentence, and what is amiss in the records."""
    repository = Repository(top)
    found = [
        f"{path.relative_to(top)} is not what docs/make writes"
        for path, text in made(top).items()
        if not path.is_file() or path.read_text() != text
    ]
    wanted = {f"{name}.md" for name, crate in repository.crates.items() if proved.has_page(crate)}
    found += [f"docs/proved/{path.name} is of no crate" for path in top.glob("docs/proved/*.md") if path.name not in wanted]
    found += [f"no docstring says a sentence of {each}" for each in proved.lacking(repository)]
    records = top / DECISIONS
    return found + (decisions.faults_of_records(records.read_text()) if records.is_file() else [])


@cache
def places(path: Path) -> set[str]:
    """The names of a page's headings."""
    return anchors(path.read_text())


def faults_of_links(top: Path, path: Path) -> list[str]:
    """The links of a page that lead nowhere within the repository."""
    text, found = FENCE.sub("", path.read_text()), []
    for link in [*LINK.finditer(text), *IMAGE.finditer(text)]:
        to, _, place = link["to"].partition("#")
        if re.match(r"\w+:", to):
            continue
        target = (path.parent / to) if to else path
        if not target.exists():
            found.append(f"{path.relative_to(top)}: nothing is at {link['to']}")
        elif place and target.suffix == ".md" and place not in places(target.resolve()):
            found.append(f"{path.relative_to(top)}: no heading is at {link['to']}")
    return found


def faults_of_prose(top: Path, path: Path) -> list[str]:
    name = path.relative_to(top)
    return [f"{name}: a {each.what} of {each.words} words: {each.text[:70]} .." for each in too_long(path.read_text())]


def check(top: Path) -> int:
    """Looks at everything, tells what differs, and how much agrees."""
    faults = [faults_of_made(top)]
    for path in pages(top):
        faults += [faults_of_links(top, path), faults_of_prose(top, path)]
    for fault in [each for some in faults for each in some]:
        print(fault)
    differ = sum(1 for some in faults if some)
    print(f"{len(faults) - differ} agree, {differ} differ")
    return 1 if differ else 0


def count(top: Path) -> None:
    """Tells how many words of each document are by hand, and how much in it is too long."""
    total = 0
    for path in pages(top):
        text = path.read_text()
        words, long = by_hand_count(text), too_long(text)
        total += words
        print(f"{words:6} {len(long):4} too long  {path.relative_to(top)}")
    print(f"{total:6} words by hand")
