"""Completions for shells, made of what the program prints for `--help`.

The grammar is the program's: its help lists the commands, and the help of a command its options and what each takes. So the
completions are made anew with each release, and none is kept.
"""

import re
import subprocess
from dataclasses import dataclass
from pathlib import Path

# How a line of the help tells of a command, of an option or of an argument; what it is for may stand on the next line.
COMMAND = re.compile(r"^  (?P<name>[a-z][a-z-]*)(?: +(?P<about>\S.*))?$")
OPTION = re.compile(r"^ +(?:-(?P<short>\w), |    |  )?--(?P<name>[a-z][a-z-]*)(?: <(?P<value>[^>]+)>)?(?: +(?P<about>\S.*))?$")
ARGUMENT = re.compile(r"^  [<\[](?P<name>[A-Z|]+)[>\]](?:\.\.\.)?(?: +(?P<about>\S.*))?$")
# What an option or argument takes that is the path of a file; any other value is left to the user.
PATHS = frozenset({"FILE", "PATH", "PLACE"})


@dataclass(frozen=True)
class Option:
    """An option of a command; `value` is what it takes, or None."""

    name: str
    value: "str | None"
    about: str

    @property
    def takes_path(self) -> bool:
        return self.value in PATHS


@dataclass(frozen=True)
class Command:
    """A command, with its options and the names of its arguments."""

    name: str
    about: str
    options: tuple[Option, ...] = ()
    arguments: tuple[str, ...] = ()

    @property
    def takes_path(self) -> bool:
        return any(it in PATHS for it in self.arguments)


def sections(text: str) -> dict[str, list[str]]:
    """The lines of each part of a help, by the part's head, without empty ones."""
    found: dict[str, list[str]] = {}
    head = ""
    for line in text.splitlines():
        if re.fullmatch(r"[A-Z][a-z]+:", line):
            head = line[:-1]
        elif line.strip() and line.startswith(" "):
            found.setdefault(head, []).append(line)
    return found


def matched(lines: list[str], pattern: "re.Pattern[str]") -> list["re.Match[str]"]:
    """The lines that tell of something, each with what it is for brought up from the line below where it stands there."""
    found = []
    for at, line in enumerate(lines):
        match = pattern.match(line)
        if match is not None and match["about"] is None and at + 1 < len(lines) and not pattern.match(lines[at + 1]):
            match = pattern.match(f"{line}  {lines[at + 1].strip()}") or match
        if match is not None:
            found.append(match)
    return found


def commands(text: str) -> list[Command]:
    """The commands of the help of the program, without their options."""
    return [Command(it["name"], it["about"] or "") for it in matched(sections(text).get("Commands", []), COMMAND)]


def command(name: str, about: str, text: str) -> Command:
    """A command by its own help."""
    parts = sections(text)
    options = [Option(it["name"], it["value"], it["about"] or "") for it in matched(parts.get("Options", []), OPTION)]
    arguments = [it["name"] for it in matched(parts.get("Arguments", []), ARGUMENT)]
    return Command(name, about, tuple(options), tuple(arguments))


def told(program: Path, *words: str) -> str:
    """What the program prints; raises CalledProcessError."""
    done = subprocess.run([str(program), *words], check=True, stdin=subprocess.DEVNULL, stdout=subprocess.PIPE, text=True)
    return done.stdout


def grammar(program: Path) -> list[Command]:
    """The commands that the program has, each with its options."""
    found = commands(told(program, "--help"))
    return [it if it.name == "help" else command(it.name, it.about, told(program, it.name, "--help")) for it in found]


def bash(found: list[Command]) -> str:
    """The completion for bash, which wants nothing beside bash itself."""
    cases, paths = [], []
    for it in found:
        words = " ".join(f"--{option.name}" for option in it.options)
        cases.append(f"        {it.name}) words='{words}' path={'yes' if it.takes_path else ''} ;;")
        paths += [f"--{option.name}" for option in it.options if option.takes_path]
    values = {f"--{option.name}" for it in found for option in it.options if option.value} - set(paths)
    return BASH.format(
        commands=" ".join(it.name for it in found),
        cases="\n".join(cases),
        paths="|".join(sorted(set(paths))),
        values="|".join(sorted(values)),
    )


BASH = """# Completion of bash for bulkhead. It was made of what `bulkhead --help` prints.
_bulkhead() {{
    local word=${{COMP_WORDS[COMP_CWORD]}} before=${{COMP_WORDS[COMP_CWORD - 1]}} words= path=
    COMPREPLY=()
    if [ "$COMP_CWORD" -eq 1 ]; then
        mapfile -t COMPREPLY < <(compgen -W '{commands} --help --version' -- "$word")
        return
    fi
    case $before in
        {paths}) mapfile -t COMPREPLY < <(compgen -f -- "$word"); return ;;
        {values}) return ;;
    esac
    case ${{COMP_WORDS[1]}} in
{cases}
    esac
    if [ -z "$path" ] || [[ $word = -* ]]; then
        mapfile -t COMPREPLY < <(compgen -W "$words" -- "$word")
    else
        mapfile -t COMPREPLY < <(compgen -f -- "$word")
    fi
}}
complete -o filenames -F _bulkhead bulkhead
"""


def for_zsh(text: str) -> str:
    """A text within single quotes and brackets of a specification of zsh."""
    return re.sub(r"([\[\]:\\])", r"\\\1", text).replace("'", "'\\''")


def zsh(found: list[Command]) -> str:
    """The completion for zsh."""
    names = "\n".join(f"        '{it.name}:{for_zsh(it.about)}'" for it in found)
    cases = []
    for it in found:
        lines = [f"            '--{option.name}[{for_zsh(option.about)}]{zsh_value(option)}'" for option in it.options]
        lines += [f"            '*:{name.lower()}:{'_files' if name in PATHS else ' '}'" for name in it.arguments[-1:]]
        body = " \\\n".join(["            _arguments", *lines])
        cases.append(f"        {it.name})\n{body}\n            ;;")
    return ZSH.format(names=names, cases="\n".join(cases))


def zsh_value(option: Option) -> str:
    """What zsh is told of an option's value."""
    if option.value is None:
        return ""
    return f":{option.value.lower()}:{'_files' if option.takes_path else ' '}"


ZSH = """#compdef bulkhead
# Completion of zsh for bulkhead. It was made of what `bulkhead --help` prints.
_bulkhead() {{
    local -a commands=(
{names}
    )
    if (( CURRENT == 2 )); then
        _describe command commands
        return
    fi
    local name=$words[2]
    shift words
    (( CURRENT-- ))
    case $name in
{cases}
    esac
}}
_bulkhead "$@"
"""


def for_fish(text: str) -> str:
    """A text within single quotes of fish."""
    return text.replace("\\", "\\\\").replace("'", "\\'")


def fish(found: list[Command]) -> str:
    """The completion for fish."""
    lines = ["# Completion of fish for bulkhead. It was made of what `bulkhead --help` prints.", "complete -c bulkhead -f"]
    for it in found:
        lines.append(f"complete -c bulkhead -n __fish_use_subcommand -a {it.name} -d '{for_fish(it.about)}'")
        within = f"complete -c bulkhead -n '__fish_seen_subcommand_from {it.name}'"
        if it.takes_path:
            lines.append(f"{within} -F")
        for option in it.options:
            takes = "" if option.value is None else " -r -F" if option.takes_path else " -x"
            lines.append(f"{within} -l {option.name}{takes} -d '{for_fish(option.about)}'")
    return "\n".join(lines) + "\n"
