"""The lines below a row: what is given to a process, and what it has to say."""

import re
import shlex
from typing import Callable, Dict, List, NamedTuple, Optional, Tuple

from .case import Fault, shown

_PORT = re.compile(r"port ([A-Za-z0-9_]+)")
_TIMES = re.compile(r"([0-9]+)\*((?:[0-9a-fA-F]{2})+)")
_BRACES = re.compile(r"\{([^{}]*)\}")


class Values:
    """What the words in braces stand for."""

    def __init__(self, ports: Callable[[], int], kept: Dict[str, str]) -> None:
        self._free = ports
        self._ports: Dict[str, int] = {}
        self._kept = dict(kept)

    def port(self, name: str) -> int:
        """The port of a name."""
        if name not in self._ports:
            self._ports[name] = self._free()
        return self._ports[name]

    def keep(self, name: str, value: str) -> None:
        """Keeps a value under a name."""
        self._kept[name] = value

    def _meant(self, word: str) -> Optional[str]:
        port, times = _PORT.fullmatch(word), _TIMES.fullmatch(word)
        if port:
            return str(self.port(port.group(1)))
        if times:
            return times.group(2) * int(times.group(1))
        return self._kept.get(word)

    def put_in(self, text: str, quoted: bool = False) -> str:
        """The text with each word in braces replaced that stands for something; as plain text of a pattern where `quoted`."""

        def put(found: "re.Match[str]") -> str:
            meant = self._meant(found.group(1))
            if meant is None:
                return found.group(0)
            return re.escape(meant) if quoted else meant

        return _BRACES.sub(put, text)


class Row(NamedTuple):
    """A row of a case: the number of its line, its words, and the lines below it without their two blanks."""

    number: int
    head: str
    below: List[str]


def read(path: str) -> List[Row]:
    """The rows of a file."""
    rows: List[Row] = []
    with open(path, encoding="utf-8") as file:
        for number, line in enumerate(file.read().split("\n"), 1):
            if line.startswith("  ") and rows:
                rows[-1].below.append(line[2:])
            elif line.strip() and not line.startswith("#"):
                rows.append(Row(number, line.rstrip(), []))
    return rows


class Marks:
    """What the lines below a row say."""

    def __init__(self, below: List[str]) -> None:
        self.output: List[Tuple[str, str]] = []
        self.errors: List[str] = []
        self.silent = False
        self.status: Optional[str] = None
        self.given: Optional[str] = None
        self.within: Optional[float] = None
        self.room: Optional[int] = None
        self.words = ""
        for line in below:
            if line.strip():
                self._read(line)

    def _read(self, line: str) -> None:
        mark, _, rest = line.partition(" ")
        if mark in (">", ">~", ">*"):
            self.output.append((mark, rest))
        elif mark == "!":
            self.errors.append(rest)
        elif mark == "!!":
            self.silent = True
        elif mark == "=":
            self.status = rest.strip()
        elif mark in ("<", "<."):
            self.given = (self.given or "") + rest + ("\n" if mark == "<" else "")
        elif mark == "within":
            self.within = float(rest)
        elif mark == "room":
            self.room = int(rest)
        elif mark == "\\":
            self.words += " " + rest
        else:
            raise Fault("no line below a row begins with %s" % shown(mark))


class Command(NamedTuple):
    """The words of a command, and the files of its standard input and output."""

    words: List[str]
    stdin: Optional[str]
    stdout: Optional[str]


def command(text: str) -> Command:
    """Parts words as a shell parts them."""
    words = shlex.split(text)
    files: Dict[str, Optional[str]] = {"<": None, ">": None}
    while len(words) >= 2 and words[-2] in files:
        files[words[-2]] = words[-1]
        del words[-2:]
    return Command(words, files["<"], files[">"])


class Unlike(Exception):
    """A line that isn't the wanted one."""


def _take(values: Values, mark: str, text: str, line: str) -> None:
    """Raises Unlike unless a line is as it has to be; keeps what a pattern's groups have found."""
    if mark == ">":
        if line != values.put_in(text):
            raise Unlike(values.put_in(text))
        return
    found = re.fullmatch(values.put_in(text, quoted=True), line)
    if found is None:
        raise Unlike("(the pattern) " + values.put_in(text, quoted=True))
    for name, value in found.groupdict().items():
        values.keep(name, value or "")


def take_lines(values: Values, wanted: List[Tuple[str, str]], lines: List[str]) -> Tuple[int, bool]:
    """How many lines the wanted ones take, and whether any number may follow. Raises Unlike at the first line that differs, and
    LookupError where a line is still to come."""
    at, any_before = 0, False
    for mark, text in wanted:
        if mark == ">*":
            any_before = True
            continue
        while True:
            if at >= len(lines):
                raise LookupError(values.put_in(text))
            try:
                _take(values, mark, text, lines[at])
                break
            except Unlike as unlike:
                if not any_before:
                    has = shown(lines[at])
                    raise Unlike("line %d has to be\n  %s\nand is\n  %s" % (at + 1, shown(str(unlike)), has)) from None
                at += 1
        at, any_before = at + 1, False
    return at, any_before


def take_errors(values: Values, wanted: List[str], lines: List[str]) -> int:
    """How many lines of standard error the patterns take. Raises LookupError where one is still to come."""
    at = 0
    for pattern in wanted:
        sought = re.compile(values.put_in(pattern, quoted=True))
        while at < len(lines) and not sought.search(lines[at]):
            at += 1
        if at >= len(lines):
            raise LookupError(pattern)
        at += 1
    return at
