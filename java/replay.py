#!/usr/bin/env python3
"""Replays what the Java library recorded, and ends with a line `N agree, M differ`.

    replay.py PROGRAM FOLDER

Each record NAME.toml, NAME.jsonl and NAME.replies of the folder is given to `PROGRAM run`, which has to write the replies
byte for byte. Then the records of different groups are merged in an order by chance: the program has to answer each of the
merged lines so as the pool did alone, and `PROGRAM cut` has to give each group's own lines back.
"""

import random
import re
import subprocess
import sys
from pathlib import Path

GROUP = re.compile(r'service\.groups = \["(?P<name>.*)"\]')
# The name of a spare command; a group has none of these.
SPARE = re.compile(r"\bspare-(?=\d\d\b(?!-))")


class Record:
    """What one pool did: its settings, its steps and their replies."""

    def __init__(self, settings: Path) -> None:
        self.path = settings
        self.settings = settings.read_text()
        self.steps = settings.with_suffix(".jsonl").read_text().splitlines()
        self.replies = settings.with_suffix(".replies").read_text().splitlines()
        found = GROUP.search(self.settings)
        assert found, settings
        self.group = found["name"]

    def with_commands_of_its_own(self, number: int) -> None:
        """Renames the spare commands, as no two groups of a file may have a command of one name."""
        name = f"s{number}-"
        for texts in (self.steps, self.replies):
            texts[:] = [SPARE.sub(name, text) for text in texts]
        self.settings = SPARE.sub(name, self.settings)


def run(program: str, *words: str, lines: list[str]) -> list[str]:
    text = "".join(line + "\n" for line in lines)
    return subprocess.run([program, *words], input=text, capture_output=True, text=True, check=False).stdout.splitlines()


def merged_settings(records: list[Record]) -> str:
    """One settings file of all: keys at the top first, then the tables."""
    tops, tables = [], []
    for record in records:
        lines = record.settings.splitlines()
        at = next(index for index, line in enumerate(lines) if line.startswith("["))
        tops += [line for line in lines[:at] if not line.startswith(("service.groups", "service.auditSteps"))]
        tables += lines[at:]
    groups = ", ".join(f'"{record.group}"' for record in records)
    return "\n".join([f"service.groups = [{groups}]", *tops, *tables, ""])


def merge(program: str, records: list[Record], folder: Path) -> list[bool]:
    """Whether all agree merged, and each cut out again."""
    for number, record in enumerate(records):
        record.with_commands_of_its_own(number)
    settings = folder / "merged"
    settings.write_text(merged_settings(records))
    order = [record for record in records for _ in record.steps]
    random.Random(1).shuffle(order)
    pairs = {id(record): iter(zip(record.steps, record.replies, strict=True)) for record in records}
    merged = [next(pairs[id(record)]) for record in order]
    steps = [step for step, _ in merged]
    told = [run(program, "run", str(settings), lines=steps) == [reply for _, reply in merged]]
    for record in records:
        told.append(run(program, "cut", str(settings), "--group", record.group, lines=steps) == record.steps)
    return told


def main(program: str, folder: Path) -> int:
    records = [Record(path) for path in sorted(folder.glob("*.toml"))]
    told = []
    for record in records:
        told.append(run(program, "run", str(record.path), lines=record.steps) == record.replies)
        if not told[-1]:
            print(f"replay: {record.path.stem} differs")
    print(f"replay: {sum(told)} records of {len(records)} replay, of {sum(len(r.steps) for r in records)} steps")
    unlimited = [record for record in records if "auditSteps" not in record.settings]
    by_group = {record.group: record for record in reversed(unlimited)}
    merged = merge(program, list(by_group.values()), folder) if by_group else []
    print(f"replay: {len(by_group)} groups merged and cut: {sum(merged)} of {len(merged)} agree")
    told += merged
    print(f"{sum(told)} agree, {len(told) - sum(told)} differ")
    return 0 if all(told) else 1


if __name__ == "__main__":
    sys.exit(main(sys.argv[1], Path(sys.argv[2])))
