"""What all cases have in common."""

import re
from typing import List, Optional

# How many characters of a line are printed.
_SHOWN = 200

_TIMES = re.compile(r"\{([0-9]+)\*((?:[0-9a-fA-F]{2})+)\}")


class Fault(Exception):
    """What is first otherwise than a case says."""


class Case:
    """A case that can be played with a program."""

    # Whether it mostly waits, so that more of them than processors may run at once.
    waits = False

    def __init__(self, name: str, path: str) -> None:
        self.name = name
        self.path = path

    def play(self, program: str) -> None:
        """Plays it, and raises the first Fault."""
        raise NotImplementedError

    def title(self) -> str:
        """What it shows: the first comment of its file, up to the end of the first sentence or of the comment."""
        lines: List[str] = []
        with open(self.path, encoding="utf-8") as file:
            for line in file:
                if not line.startswith("#"):
                    break
                lines.append(line[1:].strip())
        text = " ".join(lines)
        return text.split(". ")[0].rstrip(".") or "(no comment says it)"


def expanded(text: str) -> str:
    """The text with each `{N*HH}` written out."""
    return _TIMES.sub(lambda found: found.group(2) * int(found.group(1)), text)


def shown(line: Optional[str]) -> str:
    """A line as it is printed."""
    if line is None:
        return "(the end)"
    return line if len(line) <= _SHOWN else "%s.. (%d characters)" % (line[:_SHOWN], len(line))


def lines_of(output: bytes) -> List[str]:
    """The lines of an output; one that lacks its newline says so."""
    text = output.decode("utf-8", "backslashreplace")
    lines = text.split("\n")
    if lines[-1] == "":
        return lines[:-1]
    return lines[:-1] + [lines[-1] + " (without a newline)"]


def compare(wanted: List[str], had: List[str], what: str = "line") -> None:
    """Raises a Fault at the first line that differs."""
    for at in range(max(len(wanted), len(had))):
        want = wanted[at] if at < len(wanted) else None
        has = had[at] if at < len(had) else None
        if want != has:
            raise Fault("%s %d has to be\n  %s\nand is\n  %s" % (what, at + 1, shown(want), shown(has)))
