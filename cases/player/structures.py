"""Cases of structures, for `show KIND` and `check KIND`."""

import os
from typing import Dict, Iterator, List, NamedTuple, Tuple

from . import processes
from .case import Case, Fault, compare, lines_of, shown

_LIMIT = 60.0

_NUMBERS = ("items", "padding", "enumerations", "bools", "lengths")

# What is put at a place to be refused there: no enumeration has it, no bool, and no length is so great.
_BAD_ENUMERATION = 8
_BAD_BOOL = 2
_BAD_LENGTH = 4097


class Structure(NamedTuple):
    """A structure: its bytes, the places of its parts by their kind, and the lines that show it."""

    line: int
    content: bytes
    places: Dict[str, List[int]]
    lines: List[str]


def read(path: str) -> Iterator[Structure]:
    """The structures of a file."""
    structure = Structure(0, b"", {}, [])
    with open(path, encoding="utf-8") as file:
        for number, line in enumerate(file.read().splitlines(), 1):
            word, _, rest = line.partition(" ")
            if not line or line.startswith("#"):
                continue
            if word == "bytes":
                structure = Structure(number, bytes.fromhex(rest), {}, [])
            elif word in _NUMBERS:
                structure.places[word] = [int(place) for place in rest.split()]
            else:
                structure.lines.append(line)
            if line == ".":
                yield structure


def _with_number(content: bytes, at: int, number: int) -> bytes:
    return content[:at] + number.to_bytes(4, "big") + content[at + 4:]


def refused(structure: Structure) -> Iterator[Tuple[bytes, str]]:
    """Bytes that are nearly the structure's, and how each is refused."""
    content, places = structure.content, structure.places
    for length in range(len(content)):
        item = max(place for place in places["items"] if place <= length)
        yield content[:length], "refused Short %d" % item
    yield content + b"\0", "refused Trailing %d" % len(content)
    for at in places["padding"]:
        yield content[:at] + b"\1" + content[at + 1:], "refused Padding %d" % at
    for at in places["enumerations"]:
        yield _with_number(content, at, _BAD_ENUMERATION), "refused BadEnum %d" % at
    for at in places["bools"]:
        yield _with_number(content, at, _BAD_BOOL), "refused BadBool %d" % at
    for at in places["lengths"]:
        yield _with_number(content, at, _BAD_LENGTH), "refused TooMany %d" % at


class StructureCase(Case):
    """The structures of a kind."""

    def _asked(self, program: str, word: str, given: List[bytes]) -> List[str]:
        kind = os.path.splitext(os.path.basename(self.path))[0]
        lines = "".join(each.hex() + "\n" for each in given)
        output, status = processes.run([program, word, kind], lines.encode(), _LIMIT)
        if status != 0:
            raise Fault("%s %s ends with status %s" % (word, kind, processes.status_name(status)))
        return lines_of(output)

    def _is_shown(self, program: str, structure: Structure) -> None:
        compare(structure.lines, self._asked(program, "show", [structure.content]), "of what is shown, line")

    def _is_checked(self, program: str, structure: Structure) -> None:
        wanted = [(structure.content, "ok " + structure.content.hex())] + list(refused(structure))
        answers = self._asked(program, "check", [content for content, _ in wanted])
        if len(answers) != len(wanted):
            raise Fault("of %d structures %d are checked" % (len(wanted), len(answers)))
        for (content, want), answer in zip(wanted, answers):
            if answer != want:
                raise Fault("%s has to be\n  %s\nand is\n  %s" % (shown(content.hex()), shown(want), shown(answer)))

    def play(self, program: str) -> None:
        """Shows and checks each structure."""
        structures = list(read(self.path))
        if not structures:
            raise Fault("it has no structure")
        for structure in structures:
            try:
                self._is_shown(program, structure)
                self._is_checked(program, structure)
            except Fault as fault:
                raise Fault("the structure of line %d: %s" % (structure.line, fault)) from None
