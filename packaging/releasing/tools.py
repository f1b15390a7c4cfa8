"""What is run to make a release, and how what it says is kept from sight where all goes well."""

import shutil
import subprocess
from collections.abc import Mapping, Sequence
from pathlib import Path

WANTED = ("cc", "ld", "objcopy", "objdump", "strip", "ar", "dpkg-deb", "git", "make")


class ToolError(Exception):
    """A command that is wanted is not there, or has failed; the text says which, and what it said."""


def missing(names: Sequence[str] = WANTED) -> list[str]:
    """Which of the commands are not there."""
    return [name for name in names if shutil.which(name) is None]


def run(words: Sequence[object], folder: "Path | None" = None, environment: "Mapping[str, str] | None" = None) -> str:
    """Runs a command and returns its output; raises ToolError with what it said where its status is not 0."""
    try:
        done = subprocess.run(
            [str(word) for word in words],
            cwd=folder,
            env=environment,
            stdin=subprocess.DEVNULL,
            stdout=subprocess.PIPE,
            stderr=subprocess.PIPE,
            text=True,
            errors="replace",
        )
    except OSError as error:
        raise ToolError(f"{words[0]} does not start: {error.strerror}") from error
    if done.returncode:
        raise ToolError(f"{words[0]} ended with status {done.returncode}:\n{done.stdout}{done.stderr}".rstrip())
    return done.stdout
