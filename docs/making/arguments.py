"""What the program may be called with, as the builders of `bh_arguments` have it: the texts of `--help`.

Each function there is one expression over the builders of `clap`. It is evaluated as far as a page tells of it.
"""

import re
from dataclasses import dataclass, replace
from pathlib import Path
from typing import Any

from making.items import bodies

TOKEN = re.compile(
    r'\s+|//[^\n]*|"(?P<text>(?:[^"\\]|\\.)*)"|(?P<name>[A-Za-z_][\w:]*!?)|(?P<number>\d[\d_]*)'
    r"|(?P<sign>\.\.=?|[-&.,()?])"
)
PARAMETERS = re.compile(r"fn (?P<name>\w+)(?:<[^>]*>)?\((?P<list>[^)]*)\)")
TEXT = re.compile(r'const (?P<name>\w+): &str =\s*"(?P<text>[^"]*)";')


@dataclass(frozen=True)
class Argument:
    """An option, a flag or, with no long name, a word that is given by its place."""

    name: str
    long: str = ""
    value: str = ""
    help: str = ""
    usual: str = ""
    required: bool = False
    repeats: bool = False
    unless: str = ""
    beside: str = ""


@dataclass(frozen=True)
class Command:
    """A command with its arguments in order, and what `--help` says beneath them."""

    name: str
    about: str = ""
    after: str = ""
    version: str = ""
    arguments: tuple[Argument, ...] = ()
    commands: tuple["Command", ...] = ()


@dataclass
class Parser:
    """Evaluates one expression; `names` are the functions, texts and parameters that it may name."""

    tokens: list[tuple[str, str]]
    functions: dict[str, tuple[list[str], str]]
    names: dict[str, Any]
    at: int = 0

    def sign(self) -> str:
        return self.tokens[self.at][1] if self.at < len(self.tokens) else ""

    def expression(self) -> Any:
        """A value with the methods that are called on it."""
        while self.sign() == "&":
            self.at += 1
        value = self.primary()
        while self.sign() in (".", "?"):
            self.at += 1
            if self.tokens[self.at - 1][1] == ".":
                name = self.tokens[self.at][1]
                self.at += 1
                value = method(value, name, self.given())
        return value

    def primary(self) -> Any:
        kind, text = self.tokens[self.at]
        self.at += 1
        if kind != "name":
            return text
        if self.sign() != "(":
            return self.names.get(text, text)
        given = self.given()
        return self.call(text, given)

    def given(self) -> list[Any]:
        """What stands in parentheses; of a range nothing is told."""
        found = []
        self.at += 1
        while self.sign() != ")":
            if self.sign() in (",", "..", "..=", "-"):
                self.at += 1
            else:
                found.append(self.expression())
        self.at += 1
        return found

    def call(self, name: str, given: list[Any]) -> Any:
        if name in ("Command::new", "Arg::new"):
            return (Command if name.startswith("Command") else Argument)(name=given[1])
        if name in self.functions:
            parameters, body = self.functions[name]
            return evaluated(body, self.functions, self.names | dict(zip(parameters, given)))
        return name


# What a builder sets by the first that it is given.
SETS = {
    "about": "about",
    "after_help": "after",
    "conflicts_with": "beside",
    "default_value": "usual",
    "help": "help",
    "long": "long",
    "required_unless_present": "unless",
    "value_name": "value",
    "version": "version",
}


def method(value: Any, name: str, given: list[Any]) -> Any:
    """What a call of a builder makes of it; of others nothing is told."""
    if name in SETS:
        return replace(value, **{SETS[name]: given[0]})
    if name == "required":
        return replace(value, required=given[0] == "true")
    if name == "action":
        return replace(value, repeats=given[0] == "ArgAction::Append")
    if name == "arg":
        return replace(value, arguments=(*value.arguments, given[0]))
    if name == "subcommand":
        return replace(value, commands=(*value.commands, given[0]))
    return value


def evaluated(body: str, functions: dict[str, tuple[list[str], str]], names: dict[str, Any]) -> Any:
    tokens = []
    for found in TOKEN.finditer(body):
        kind = found.lastgroup
        if kind:
            tokens.append((kind, found[kind].replace("\\n", "\n") if kind == "text" else found[kind]))
    return Parser(tokens, functions, names).expression()


def program(top: Path) -> Command:
    """The program with all its commands."""
    functions: dict[str, tuple[list[str], str]] = {}
    names: dict[str, Any] = {}
    for path in sorted((top / "crates/bh_arguments/src").glob("*.rt")):
        text = path.read_text()
        for told in TEXT.finditer(text):
            names[told["name"]] = told["text"].replace("\\n", "\n")
        for told in PARAMETERS.finditer(text):
            parameters = [each.split(":")[0].strip() for each in told["list"].split(",") if ":" in each]
            functions[told["name"]] = (parameters, bodies(path).get(told["name"], ""))
    told = evaluated("command(alloc)", functions, names)
    if not isinstance(told, Command):
        raise SystemExit("make: bh_arguments has no function `command` that builds the program")
    return told


def option(argument: Argument) -> str:
    return f"--{argument.long} <{argument.value}>" if argument.value else f"--{argument.long}"


def table(top: Path) -> str:
    """Each command with what it does, then each option with the commands that have it."""
    rows = ["| Words | What it does |", "|-|-|"]
    told = program(top)
    commands = sorted(told.commands, key=lambda each: each.name)
    rows += [f"| `{told.name} {usage(each)}` | {each.about} |".replace(" | -", " \\| -") for each in commands]
    for text, named, argument in options(told):
        usual = f"; {argument.usual} where it is not given" if argument.usual else ""
        rows.append(f"| `{text}` | {named}: {argument.help}{usual} |")
    rows.append("| `--help`, `--version` | print what may be called, and the version with the toolchain that proved it |")
    return "\n".join(rows)


def options(told: Command) -> list[tuple[str, str, Argument]]:
    """Each option with the commands of which it is, one entry for each text of help, in the order of the commands."""
    found: dict[tuple[str, str, str], tuple[Argument, list[str]]] = {}
    for command in sorted(told.commands, key=lambda each: each.name):
        for each in command.arguments:
            if each.long:
                found.setdefault((option(each), each.help, each.usual), (each, []))[1].append(command.name)
    return [(key[0], listed(names), argument) for key, (argument, names) in found.items()]


def listed(names: list[str]) -> str:
    return ", ".join(f"`{name}`" for name in names)


def usage(command: Command) -> str:
    """How a command is called: arguments that exclude one another stand together."""
    parts, done = [], set()
    for each in command.arguments:
        if each.name in done or not each.long:
            continue
        others = [other for other in command.arguments if each.name in (other.beside, other.unless)]
        others += [other for other in command.arguments if other.name in (each.beside, each.unless) and other not in others]
        done |= {each.name, *(other.name for other in others)}
        text = " | ".join(option(one) for one in (each, *others))
        free = not each.required and not any(one.unless for one in (each, *others))
        parts.append(f"[{text}]" if free else text)
        if each.repeats:
            parts[-1] += ".."
    return " ".join([command.name, *parts, *(each.name for each in command.arguments if not each.long)])
