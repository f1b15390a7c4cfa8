"""Compares what a program answers, cuts, sums up, shows and finds with the model, over settings and scripts at random.

    python3 -m model PROGRAM [-n RUNS] [-l LINES] [-s SEED]

It prints the seed, the settings and the script of the first answer that differs, and ends with the status 1 there.
"""

from __future__ import annotations

import argparse
import json
import random
import subprocess
import sys
import tempfile
from pathlib import Path
from typing import Optional

from . import layout, lines, lint, random_lines, random_settings, settings, summary

#: A run has so many seconds.
PATIENCE = 60


def _run(program: str, command: str, file: Path, data: bytes, *words: str) -> tuple[int, bytes, bytes]:
    asked = [program, command, str(file), *words]
    told = subprocess.run(asked, input=data, capture_output=True, timeout=PATIENCE, check=False)
    return told.returncode, told.stdout, told.stderr


def _end(at_fault: bool) -> tuple[int, bytes]:
    """The status that a script leaves, and what stands on standard error: whether a line ended it."""
    return (3, b"fault: line\n") if at_fault else (0, b"")


def script_differs(program: str, file: Path, text: str, data: bytes) -> Optional[str]:
    """What the program answers otherwise than the model, told of the first line where it does."""
    file.write_text(text, encoding="utf-8")
    status, out, error = _run(program, "run", file, data)
    want, at_fault = lines.run(settings.read(text), data)
    if (status, error) != _end(at_fault):
        return f"it ended with {(status, error)}, and not {_end(at_fault)}"
    if out == want:
        return None
    asked, got, right = data.split(b"\n"), out.split(b"\n"), want.split(b"\n")
    at = next((n for n, (x, y) in enumerate(zip(got, right)) if x != y), min(len(got), len(right)))
    return f"line {at + 1} {asked[at:at + 1]}: {got[at:at + 1]}, and not {right[at:at + 1]}"


def check_differs(program: str, file: Path, text: str) -> Optional[str]:
    """What the program tells of the settings otherwise than the model."""
    file.write_text(text, encoding="utf-8")
    told = _run(program, "check", file, b"")
    try:
        want = (0, settings.read(text).shown().encode(), b"")
    except settings.Refused as refused:
        want = (1, b"", f"settings refused: {refused}\n".encode())
    return None if told == want else f"{told}, and not {want}"


def lint_differs(program: str, file: Path, data: bytes, places: dict[settings.Path, lint.Place]) -> Optional[str]:
    """What the program finds in the settings otherwise than the model, whose names stand at these places."""
    file.write_bytes(data)
    status, out, error = _run(program, "lint", file, b"", "--json")
    told = [json.loads(line) for line in out.splitlines()]
    try:
        want = [each.told(str(file), places) for each in lint.findings(settings.tree_of(data.decode("utf-8-sig")))]
    except settings.Refused:
        is_told = len(told) == 1 and told[0]["message"].startswith("1 syntax")
        return None if is_told and status == 1 else f"{told} of what is no TOML"
    should = int(any(each["severity"] == "error" for each in want))
    if (status, error) != (should, b""):
        return f"it ended with {(status, error)}, and not {should}"
    for got, right in zip(told, want):
        if got["nearest"] in (right["nearest"] or [None]):
            got["nearest"] = right["nearest"]
        if got != right:
            return f"{got}, and not {right}"
    return None if len(told) == len(want) else f"{len(told)} findings, and not {len(want)}"


def look_differs(
    program: str, file: Path, data: bytes, read: settings.Settings, source: random.Random
) -> Optional[str]:
    """What the program cuts out of a script, or tells of all of it, otherwise than the model."""
    names = source.sample([*read.groups, *random_lines.COMERS], 2)
    end = _end(lines.run(read, data)[1])
    status, out, error = _run(program, "cut", file, data, *(f"--group={name}" for name in names))
    if (status, error) != end or out != lines.kept(read, data, names):
        return f"of the groups {names} other lines are kept, or it ended with {(status, error)}, and not {end}"
    status, out, error = _run(program, "summary", file, data, "--json")
    if (status, error) != end:
        return f"the summary ended with {(status, error)}, and not {end}"
    return summary.differs(out, summary.summary(read, data))


def differs(program: str, file: Path, seed: int, length: int) -> Optional[str]:
    """What the program tells otherwise of the settings and the script of the seed, with both of them."""
    source = random.Random(seed)
    text, places = layout.write(source, random_settings.lint_entries(source))
    encoding = source.choice(["utf-8", "utf-8", "utf-8-sig"])
    found = lint_differs(program, file, text.encode(encoding), places)
    if found is not None:
        return f"{found}\n--- settings, {encoding}\n{text}"
    doubtful = random_settings.doubtful_text(source)
    found = check_differs(program, file, doubtful)
    if found is not None:
        return f"{found}\n--- settings\n{doubtful}"
    text = random_settings.settings_text(source)
    data = random_lines.script(source, settings.read(text), length)
    found = script_differs(program, file, text, data)
    found = found or look_differs(program, file, data, settings.read(text), source)
    if found is not None:
        return f"{found}\n--- settings\n{text}--- script\n{data.decode(errors='replace')}"
    return None


def main() -> int:
    """The exit status: 1 where an answer of the program is another one."""
    parser = argparse.ArgumentParser(prog="model")
    parser.add_argument("program")
    parser.add_argument("-n", dest="runs", type=int, default=1000)
    parser.add_argument("-l", dest="lines", type=int, default=300)
    parser.add_argument("-s", dest="seed", type=int, default=1)
    said = parser.parse_args()
    with tempfile.TemporaryDirectory() as name:
        for seed in range(said.seed, said.seed + said.runs):
            found = differs(said.program, Path(name) / "settings.toml", seed, said.lines)
            if found is not None:
                print(f"seed {seed}: {found}")
                return 1
    print(f"{said.runs} scripts of {said.lines} lines each, and as many settings, are answered as by the model")
    return 0


if __name__ == "__main__":
    sys.exit(main())
