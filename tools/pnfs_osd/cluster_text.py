"""Reads the text of a cluster, as far as the tool needs it.

The program judges the text: each of its runs reads it whole. The tool looks up the server's address (its locks
are named after it), the drives' addresses and the files' maps. It reads the part of TOML that a cluster text
needs: comments, `[[drive]]` and `[[file]]`, and one `key = value` a line, where a value is a decimal number or a
text in single or double quotes without escapes. It refuses anything else with its line, and never guesses.
"""
import os
import re
from typing import Container, Dict, List, NamedTuple, Tuple, Union

from .ends import CLUSTER, INPUT, NOT_ASKED, End

MAX_TEXT = 67_108_864   # of a cluster text, as the program takes it
#: How many drives, clients and files a cluster has at most.
MOST_DRIVES, MOST_CLIENTS, MOST_FILES = 64, 16, 64

Value = Union[int, str]
Table = Dict[str, Tuple[int, Value]]   # of each key its line and its value

RAID_0, RAID_4, RAID_5, P_AND_Q = 1, 2, 3, 4
PARITIES = {RAID_0: 0, RAID_4: 1, RAID_5: 1, P_AND_Q: 2}

TABLE_KEYS = {
    "": {"server": str, "format": int},
    "drive": {"number": int, "address": str, "key": str, "capacity": int},
    "file": {name: int for name in ("number", "components", "unit", "width", "depth", "mirrors", "algorithm")},
}

HEADER = re.compile(r"\[\[[ \t]*(drive|file)[ \t]*\]\][ \t]*(#.*)?")
PAIR = re.compile(
    r"""(?P<key>[A-Za-z0-9_-]+)[ \t]*=[ \t]*
        (?: (?P<number>0|[1-9][0-9]*(?:_[0-9]+)*) | "(?P<basic>[^"\\]*)" | '(?P<literal>[^']*)' )
        [ \t]*(?:\#.*)?""",
    re.VERBOSE,
)


class FileMap(NamedTuple):
    """How a file is striped."""

    components: int
    unit: int
    width: int
    mirrors: int
    algorithm: int

    def stripe_bytes(self) -> int:
        """The bytes of a file that one stripe holds; 0 where the numbers make no map."""
        positions = self.components // (self.mirrors + 1)
        group = self.width or positions
        return self.unit * max(group - PARITIES.get(self.algorithm, group), 0)


class ClusterText(NamedTuple):
    """What the tool knows of a cluster: its text, and what it looked up in it."""

    text: bytes
    server: str
    drives: Dict[int, str]
    files: Dict[int, FileMap]

    def spare_file(self) -> int:
        """A file to ask for the number with: best one that doesn't exist, since a request for it never does anything."""
        return next((number for number in reversed(range(MOST_FILES)) if number not in self.files), 0)


def refused(line: int, why: str) -> End:
    """The end of a run whose cluster text has something in this line that isn't taken."""
    where = f"line {line} of the cluster text" if line else "the cluster text"
    return End(CLUSTER, f"{where}: {why}")


def tables_of(text: str) -> List[Tuple[str, int, Table]]:
    """The tables of a text in order, each with its name and its line; the first has the keys before any header."""
    tables: List[Tuple[str, int, Table]] = [("", 0, {})]
    for number, raw in enumerate(text.split("\n"), 1):
        line = raw.rstrip("\r").strip(" \t")
        if not line or line.startswith("#"):
            continue
        header = HEADER.fullmatch(line)
        if header:
            tables.append((header.group(1), number, {}))
            continue
        name, _, table = tables[-1]
        key, value = pair_of(line, number, name)
        if key in table:
            raise refused(number, f"'{key}' stands twice")
        table[key] = (number, value)
    return tables


def pair_of(line: str, number: int, table: str) -> Tuple[str, Value]:
    """The key and the value of a line."""
    pair = PAIR.fullmatch(line)
    if not pair:
        raise refused(number, "it has to be [[drive]], [[file]] or KEY = VALUE with a decimal number or a quoted text")
    key = pair.group("key")
    wanted = TABLE_KEYS[table].get(key)
    place = f"[[{table}]]" if table else "the top"
    if wanted is None:
        raise refused(number, f"'{key}' is no key of {place}: " + ", ".join(TABLE_KEYS[table]))
    value: Value
    if pair.group("number") is not None:
        value = int(pair.group("number").replace("_", ""))
    else:
        basic = pair.group("basic")
        value = basic if basic is not None else pair.group("literal")
    if not isinstance(value, wanted):
        raise refused(number, f"'{key}' has to be a {'number' if wanted is int else 'quoted text'}")
    return key, value


def value_of(table: Table, line: int, name: str, key: str) -> Tuple[int, Value]:
    """The line and the value of a key that has to be there."""
    if key not in table:
        raise refused(line, f"{f'this [[{name}]]' if name else 'the top'} lacks '{key}'")
    return table[key]


def address_of(table: Table, line: int, name: str, key: str) -> str:
    """A host and a port, as in 127.0.0.1:7000."""
    at, value = value_of(table, line, name, key)
    host, colon, port = str(value).rpartition(":")
    if not (host and colon and re.fullmatch(r"[0-9]{1,5}", port) and int(port) <= 65535):
        raise refused(at, f"'{key}' has to be a host and a port, as in 127.0.0.1:7000")
    return str(value)


def map_of(table: Table, line: int) -> FileMap:
    """The map of a file."""
    value_of(table, line, "file", "depth")
    return FileMap(**{key: int(value_of(table, line, "file", key)[1]) for key in FileMap._fields})


def numbered(table: Table, line: int, name: str, seen: Container[int]) -> int:
    """The number of a drive or a file, which none before it has."""
    at, value = value_of(table, line, name, "number")
    most = {"drive": MOST_DRIVES, "file": MOST_FILES}[name] - 1
    if int(value) > most:
        raise refused(at, f"a {name} has a number up to {most}")
    if value in seen:
        raise refused(at, f"a {name} before it has number {value} too")
    return int(value)


def read_cluster(text: bytes) -> ClusterText:
    """Reads the text of a cluster. Ends with status 9 where it isn't one that the tool reads."""
    try:
        spelled = text.decode("utf-8")
    except UnicodeDecodeError:
        raise refused(0, "it isn't UTF-8")
    drives: Dict[int, str] = {}
    files: Dict[int, FileMap] = {}
    server = ""
    for name, line, table in tables_of(spelled):
        if name == "drive":
            number, address = numbered(table, line, name, drives), address_of(table, line, name, "address")
            if address in drives.values():
                raise refused(table["address"][0], "a drive before it has this address too")
            drives[number] = address
        elif name == "file":
            files[numbered(table, line, name, files)] = map_of(table, line)
        else:
            server = address_of(table, line, name, "server")
    if not drives:
        raise refused(0, "it has no [[drive]]")
    return ClusterText(text, server, drives, files)


def text_in(path: Union[str, "os.PathLike[str]"]) -> ClusterText:
    """The cluster whose text is in that file."""
    try:
        with open(path, "rb") as text:
            return read_cluster(text.read(MAX_TEXT + 1))
    except OSError as fault:
        raise End(INPUT, f"the cluster text {os.fspath(path)} can't be read: {fault.strerror or fault}")


def refuse_file(cluster: ClusterText, file: int) -> None:
    """Ends the run where the text has no such file."""
    if file not in cluster.files:
        have = ", ".join(f"f{number}" for number in sorted(cluster.files)) or "none"
        raise End(NOT_ASKED, f"the cluster text has no file f{file} (it has {have})")
