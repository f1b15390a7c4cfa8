"""How long sentences and paragraphs are: code, tables, headings and made parts aside."""

import re
from dataclasses import dataclass

from making.regions import by_hand

MOST_OF_A_SENTENCE = 40
MOST_OF_A_PARAGRAPH = 120
FENCE = re.compile(r"^ *(```|~~~).*?^ *\1[^\n]*$", re.M | re.S)
COMMENT = re.compile(r"<!--.*?-->", re.S)
LINK = re.compile(r"!?\[([^\]]*)\]\([^)]*\)")
CODE = re.compile(r"`[^`\n]+`")
ITEM = re.compile(r"^ *(?:[-*]|\d+\.) ")
# The end of a sentence: a full stop or its like, behind it no small letter.
STOP = re.compile(r"(?<=[.!?])[\"')*_]*\s+(?![a-z])")


@dataclass(frozen=True)
class Long:
    """A sentence or a paragraph that is too long."""

    what: str
    words: int
    text: str


def paragraphs(document: str) -> list[str]:
    """The paragraphs of a document, an item of a list for itself, each as one line."""
    text = COMMENT.sub("", FENCE.sub("", by_hand(document)))
    found: list[list[str]] = [[]]
    for line in text.split("\n"):
        stripped = line.strip()
        if not stripped or stripped.startswith(("|", "#", "<", ".")):
            found.append([])
        elif ITEM.match(line):
            found.append([ITEM.sub("", line)])
        else:
            found[-1].append(stripped)
    return [" ".join(lines) for lines in found if lines]


def words_in(text: str) -> int:
    return len(CODE.sub("Code", LINK.sub(r"\1", text)).split())


def sentences(paragraph: str) -> list[str]:
    plain = CODE.sub("Code", LINK.sub(r"\1", paragraph))
    return [each for each in STOP.split(plain) if each]


def too_long(document: str) -> list[Long]:
    found = []
    for paragraph in paragraphs(document):
        words = words_in(paragraph)
        if words > MOST_OF_A_PARAGRAPH:
            found.append(Long("paragraph", words, paragraph))
        for each in sentences(paragraph):
            if len(each.split()) > MOST_OF_A_SENTENCE:
                found.append(Long("sentence", len(each.split()), each))
    return found


def by_hand_count(document: str) -> int:
    """How many words are kept by hand."""
    return len(by_hand(document).split())
