"""The parts of a document that are made, between two comments that the reader of the page does not see."""

import re

BEGIN = "<!-- made by docs/make: {name} -->"
END = "<!-- made: end -->"
REGION = re.compile(r"<!-- made by docs/make: (?P<name>[\w-]+) -->\n(?P<text>.*?)<!-- made: end -->\n?", re.S)


def region(name: str, text: str) -> str:
    """A made part as it stands in a document."""
    return f"{BEGIN.format(name=name)}\n\n{text.strip()}\n\n{END}\n"


def filled(document: str, texts: dict[str, str]) -> str:
    """The document with each of its made parts anew; a part of which nothing is known stays."""

    def anew(found: re.Match[str]) -> str:
        name = found["name"]
        return region(name, texts[name]) if name in texts else found.group()

    return REGION.sub(anew, document)


def by_hand(document: str) -> str:
    """What of the document is written by hand."""
    return REGION.sub("", document)


def names_in(document: str) -> list[str]:
    return [found["name"] for found in REGION.finditer(document)]
