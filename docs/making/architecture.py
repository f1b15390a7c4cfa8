"""The tables of ARCHITECTURE and the list of trusted crates of the README."""

import re

from making.crates import STANDARD, Repository

# What touches the machine, and the calls by which a crate does so.
TOUCHES = (
    ("starts threads", r"\bspawn(?:_with)?\("),
    ("opens or makes files", r"\bFile::(?:open|create)\("),
    ("makes folders, or takes files and sockets away", r"\bDirBuilder::new\(|\bfs::remove_file\("),
    ("listens or connects", r"\b(?:Tcp|Unix)(?:Listener::bind|Stream::connect)\w*\("),
    ("accepts connections", r"\.accept\("),
    ("reads the machine's clock", r"\bInstant::now\("),
    ("sleeps, or waits no longer than a time", r"\bthread::sleep\(|\.wait_timeout(?:_while)?\("),
    ("has locks", r"\bMutex::new\("),
    ("reads the arguments", r"\benv::args\("),
)


def link(name: str, repository: Repository) -> str:
    page = repository.top / "crates" / name / "README.md"
    return f"[`{name}`](../crates/{name}/README.md)" if page.is_file() else f"`{name}`"


def listed(names: list[str]) -> str:
    return ", ".join(f"`{name.removeprefix('bh_')}`" for name in names) or "nothing"


def outside(names: list[str]) -> str:
    return ", ".join(f"`{name}`" for name in names) or "none"


def crates_table(repository: Repository) -> str:
    rows = ["| Crate | Is for | Stands on | Crates from outside |", "|-|-|-|-|"]
    for name in repository.crates:
        if name not in repository.of_tests:
            rows.append(
                f"| {link(name, repository)} | {repository.is_for(name)} | {listed(repository.own(name))} "
                f"| {outside(repository.from_outside(name))} |"
            )
    return "\n".join(rows)


def tests_table(repository: Repository) -> str:
    rows = ["| Crate | Has | Tests | Stands on |", "|-|-|-|-|"]
    for name in repository.of_tests:
        count = repository.test_count(name) or "none of its own"
        rows.append(f"| {link(name, repository)} | {repository.is_for(name)} | {count} | {listed(repository.own(name))} |")
    return "\n".join(rows)


def machine_table(repository: Repository) -> str:
    rows = ["| What | Where |", "|-|-|"]
    for what, calls in TOUCHES:
        found = []
        for name, crate in repository.crates.items():
            if name in repository.of_tests:
                continue
            files = [file.path for file in crate.files if re.search(calls, without_comments(file.path.read_text()))]
            if files:
                links = ", ".join(f"[{path.stem}](../{path.relative_to(repository.top)})" for path in files)
                found.append(f"`{name}` ({links})")
        rows.append(f"| {what} | {', '.join(found) or 'nowhere'} |")
    return "\n".join(rows)


def without_comments(text: str) -> str:
    return re.sub(r"^\s*//.*$", "", text, flags=re.M)


def trusted_list(repository: Repository) -> str:
    """The crates from outside that the program, the library and the examples stand on, tests and the benchmark aside."""
    names = {
        each
        for name in repository.crates
        if name not in repository.of_tests and name != "bh_bench"
        for each in repository.from_outside(name)
    }
    return ", ".join(f"`{name}`" for name in sorted(names - set(STANDARD)))
