"""The records of DECISIONS: numbered, the newest on top, each of a theme and a date."""

import re
from dataclasses import dataclass

from making.anchors import anchor

RECORD = re.compile(
    r"^### (?P<heading>(?P<number>\d+)\. [^\n]+)\n\n(?P<text>[^\n]+) \((?P<theme>[^(),]+), (?P<date>\d{4}-\d\d-\d\d)\)$", re.M
)
HEADING = re.compile(r"^### ", re.M)
# Six lines of the width that is usual here.
MOST_LETTERS = 6 * 128


@dataclass(frozen=True)
class Record:
    number: int
    heading: str
    text: str
    theme: str
    date: str


def records(document: str) -> list[Record]:
    return [
        Record(int(found["number"]), found["heading"], found["text"], found["theme"], found["date"])
        for found in RECORD.finditer(document)
    ]


def themes_table(document: str) -> str:
    """The numbers of the records by theme, the theme with the newest record first."""
    found: dict[str, list[str]] = {}
    for each in records(document):
        found.setdefault(each.theme, []).append(f"[{each.number}](#{anchor(each.heading)})")
    rows = [f"| {theme} | {', '.join(links)} |" for theme, links in found.items()]
    return "\n".join(["| Theme | Records |", "|-|-|", *rows])


def faults_of_records(document: str) -> list[str]:
    """What of the records is not as it has to be."""
    told = records(document)
    numbers = [each.number for each in told]
    found = [f"record {each.number} is longer than six lines" for each in told if len(each.text) > MOST_LETTERS]
    if numbers != sorted(set(numbers), reverse=True):
        found.append("the numbers of the records do not fall")
    if [each.date for each in told] != sorted((each.date for each in told), reverse=True):
        found.append("a record stands above a newer one")
    if len(HEADING.findall(document)) != len(told):
        found.append("a record has no number, or does not end in its theme and date")
    return found
