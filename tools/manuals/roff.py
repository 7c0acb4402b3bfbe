"""Writes manual pages, as man(7) has them."""
import re
from typing import List

from .helps import Item, Part


def escaped(text: str) -> str:
    """Text that means itself."""
    text = text.replace("\\", "\\e").replace("-", "\\-").replace("'", "\\(aq").replace("`", "\\(ga")
    return re.sub(r"^([.])", r"\\&\1", text)


def bold(text: str) -> str:
    """Text in bold."""
    return "\\fB" + escaped(text) + "\\fR"


def head(name: str, version: str) -> List[str]:
    """The first lines of a page of section 1."""
    return ['.\\" Made by tools/manual --write: change the texts that it reads.',
            f'.TH {name.upper()} 1 "" "{version}" "pnfs_osd"']


def section(name: str) -> List[str]:
    """The beginning of a section."""
    return [".SH " + escaped(name.upper())]


def paragraph(text: str) -> List[str]:
    """A paragraph."""
    return [".PP", escaped(text)]


def item(one: Item) -> List[str]:
    """A term in bold, and what is said of it, indented."""
    return [".TP", bold(one.term), escaped(one.text)]


def lines(texts: List[str]) -> List[str]:
    """Lines as they are, in bold."""
    return [".nf", *(bold(text) for text in texts), ".fi"]


def heading(text: str) -> List[str]:
    """A heading below a section's, and what a bracket after it says as a paragraph."""
    name, _, rest = text.partition(" (")
    said = rest[:1].upper() + rest[1:].rstrip(")") + "." if rest else ""
    return [".SS " + escaped(name[:1].upper() + name[1:])] + ([escaped(said)] if said else [])


def body(parts: List[Part]) -> List[str]:
    """Headings, paragraphs and items."""
    found: List[str] = []
    for part in parts:
        if part.heading is not None:
            found += heading(part.heading)
        elif part.item is not None:
            found += item(part.item)
        else:
            found += paragraph(part.paragraph or "")
    return found
