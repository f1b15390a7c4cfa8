"""The names by which pages link to headings."""

import re

HEADING = re.compile(r"^#+ (?P<text>.*)$", re.M)
FENCE = re.compile(r"^ *```.*?^ *```$", re.M | re.S)


def anchor(heading: str) -> str:
    """The name by which a page links to a heading, as it is made where pages are shown."""
    return re.sub(r"[^\w\- ]", "", heading.lower()).strip().replace(" ", "-")


def anchors(document: str) -> set[str]:
    """The names of all headings of a document; one that comes again has a number behind it."""
    found: set[str] = set()
    for heading in HEADING.finditer(FENCE.sub("", document)):
        name = anchor(re.sub(r"\[([^\]]*)\]\([^)]*\)", r"\1", heading["text"]))
        count = 0
        while (whole := f"{name}-{count}" if count else name) in found:
            count += 1
        found.add(whole)
    return found
