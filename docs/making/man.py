"""The man page: its title, synopsis, commands and options are made of the texts of `--help`, all else is by hand."""

import re
from pathlib import Path

from making.arguments import Argument, Command, options, program

BEGIN = '.\\" made by docs/make: {name}'
END = '.\\" made: end'
REGION = re.compile(r'\.\\" made by docs/make: (?P<name>[\w-]+)\n(?P<text>.*?)\.\\" made: end\n', re.S)
# What every program has that is built so.
HELP_COMMAND = "prints what a command is called with."
COMMON = (
    ".TP\n.BR \\-h \", \" \\-\\-help\nPrints what may be called.",
    ".TP\n.BR \\-V \", \" \\-\\-version\nPrints the version, and the line by which the toolchain that proved the program "
    "names itself.",
)


def escaped(text: str) -> str:
    """A text as it stands in a man page: no sign of it is taken for a hyphen or a request."""
    plain = text.replace("\\", "\\e").replace("-", "\\-")
    return "\n".join(f"\\&{line}" if line[:1] in (".", "'") else line for line in plain.split("\n"))


def bold(text: str) -> str:
    return f"\\fB{escaped(text)}\\fP"


def sentence(text: str) -> str:
    return text if text.endswith(".") else f"{text}."


def shown(argument: Argument) -> str:
    value = f" \\fI{escaped(argument.value)}\\fP" if argument.value else ""
    return f"{bold(f'--{argument.long}')}{value}" + (" .." if argument.repeats else "")


def synopsis(told: Command) -> str:
    """A line for each command, its arguments in brackets where they may be left out."""
    lines = []
    for command in told.commands:
        words = [bold(f"{told.name} {command.name}")]
        for each in command.arguments:
            words += of_synopsis(each, command)
        lines.append(" ".join(words) + "\n.br")
    return "\n".join([*lines, f"{bold(told.name)} [{bold('--help')} | {bold('--version')}]"])


def of_synopsis(argument: Argument, command: Command) -> list[str]:
    """An argument as it stands in the synopsis, beside the one that it excludes; the settings file comes last."""
    last = argument is command.arguments[-1]
    file = [f"\\fI{each.name}\\fP" for each in command.arguments if not each.long] if last else []
    if not argument.long or any(each.name == argument.beside for each in command.arguments):
        return file
    others = [each for each in command.arguments if each.beside == argument.name]
    text = " | ".join(shown(each) for each in (argument, *others))
    return [text if argument.required or argument.unless else f"[{text}]", *file]


def commands(told: Command) -> str:
    entries = []
    for command in told.commands:
        after = f"\n.IP\n{escaped(command.after)}" if command.after else ""
        entries.append(f".TP\n.B {escaped(command.name)}\n{escaped(sentence(command.about))}{after}")
    return "\n".join([*entries, f".TP\n.B help\n{HELP_COMMAND}"])


def options_text(told: Command) -> str:
    entries = []
    for _, named, argument in options(told):
        name = escaped(f"--{argument.long}")
        head = f'.BI {name} " {escaped(argument.value)}"' if argument.value else f".B {name}"
        of = re.sub(r"`(\w+)`", lambda found: bold(found[1]), named)
        usual = f" Where it is not given, {escaped(argument.usual)} holds." if argument.usual else ""
        entries.append(f".TP\n{head}\nWith {of}: {escaped(sentence(argument.help))}{usual}")
    return "\n".join([*entries, *COMMON])


def title(told: Command) -> str:
    version = told.version.split("\n")[0]
    return f'.TH {told.name.upper()} 1 "" "{told.name} {version}" "User Commands"'


def filled(page: str, top: Path) -> str:
    """The page with its made parts anew."""
    told = program(top)
    texts = {"title": title(told), "synopsis": synopsis(told), "commands": commands(told), "options": options_text(told)}

    def anew(found: re.Match[str]) -> str:
        name = found["name"]
        return f"{BEGIN.format(name=name)}\n{texts[name]}\n{END}\n" if name in texts else found.group()

    return REGION.sub(anew, page)
