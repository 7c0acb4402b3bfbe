"""Reads the texts of help: paragraphs, and lists of items under headings."""
import re
from typing import List, NamedTuple, Optional

#: An item, as its term and what is said of it, at least two blanks apart.
ITEM = re.compile(r" {0,2}(?P<term>\S+(?: \S+)*) {2,}(?P<text>\S.*)")
#: An item whose text begins in the next line, or a line that goes on.
INDENTED = re.compile(r" +\S")


class Item(NamedTuple):
    """A term, and what is said of it."""

    term: str
    text: str


class Part(NamedTuple):
    """A heading, a paragraph or an item: the others are none."""

    heading: Optional[str] = None
    paragraph: Optional[str] = None
    item: Optional[Item] = None


def parts_of(text: str) -> List[Part]:
    """The parts of a text, in order. A line at the left edge that ends with a colon is a heading."""
    parts: List[Part] = []
    goes_on = False
    for line in text.splitlines():
        found = ITEM.fullmatch(line)
        if found is not None:
            parts.append(Part(item=Item(found["term"], found["text"])))
        elif not line.strip():
            goes_on = False
            continue
        elif goes_on and (INDENTED.match(line) is not None or parts[-1].paragraph is not None):
            parts[-1] = longer(parts[-1], line.strip())
        elif line.endswith(":"):
            parts.append(Part(heading=line[:-1]))
            goes_on = False
            continue
        else:
            parts.append(Part(paragraph=line.strip()))
        goes_on = True
    return parts


def longer(part: Part, more: str) -> Part:
    """The item or the paragraph with a further line."""
    if part.item is not None:
        return Part(item=Item(part.item.term, part.item.text + " " + more))
    return Part(paragraph=f"{part.paragraph} {more}")


def first_clause(text: str) -> str:
    """What a text says before its first full stop, semicolon, colon or bracket."""
    return re.split(r"[.;:](?: |$)| \(|, as far as", text)[0]
