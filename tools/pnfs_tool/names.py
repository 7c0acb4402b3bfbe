"""A table of names, which is kept in a file of the cluster: docs/use/TOOLS.md has its form.

It is there twice, and each time it is written over the older copy. So a write that stops leaves the other copy.
"""
import re
import zlib
from typing import Dict, NamedTuple, Optional

from pnfs_osd.calls import Caller
from pnfs_osd.cluster_text import MOST_FILES, FileMap
from pnfs_osd.ends import NOT_ASKED, End
from pnfs_osd.pieces import MAX_CALL, pieces, read_piece

from .copying import write_pieces

#: The bytes of a copy at most; its first line but for the count; and a line of a file.
MOST_BYTES = 65_536
HEAD = "pnfs names "
LINE = re.compile(r"f(?P<file>0|[1-9][0-9]?) (?P<size>-|0|[1-9][0-9]{0,7}) (?P<name>[^\0\n]+)")


class Entry(NamedTuple):
    """A name's file, and how many bytes of it are the name's; None while they aren't all written."""

    file: int
    size: Optional[int]


class Table(NamedTuple):
    """The names, and how often the table was written."""

    count: int
    entries: Dict[str, Entry]


def is_name(name: str) -> bool:
    """Whether a name is one of a file below a folder: names with '/' between them, none of which leads out of it."""
    return "\0" not in name and "\n" not in name and all(part not in ("", ".", "..") for part in name.split("/"))


def spelled(table: Table) -> bytes:
    """The bytes of a copy."""
    lines = [f"{HEAD}{table.count}\n"]
    lines += [f"f{entry.file} {'-' if entry.size is None else entry.size} {name}\n" for name, entry in sorted(table.entries.items())]
    text = "".join(lines).encode()
    copy = text + b"end %08x\n" % zlib.crc32(text)
    if len(copy) > MOST_BYTES:
        raise End(NOT_ASKED, f"the table of names would have {len(copy)} bytes, more than {MOST_BYTES}: nothing was done")
    return copy


def read_copy(data: bytes) -> Optional[Table]:
    """The table that a copy spells; None where it is none, or isn't whole."""
    text, end, after = data.partition(b"\nend ")
    text += b"\n"
    if not end or after[:9] != b"%08x\n" % zlib.crc32(text):
        return None
    try:
        head, *lines = text.decode().split("\n")[:-1]
    except UnicodeDecodeError:
        return None
    entries: Dict[str, Entry] = {}
    for line in lines:
        found = LINE.fullmatch(line)
        if not found or not is_name(found["name"]) or int(found["file"]) >= MOST_FILES:
            return None
        entries[found["name"]] = Entry(int(found["file"]), None if found["size"] == "-" else int(found["size"]))
    count = head[len(HEAD):]
    files = {entry.file for entry in entries.values()}
    if not head.startswith(HEAD) or not count.isdecimal() or len(files) != len(lines):
        return None
    return Table(int(count), entries)


class Kept:
    """A file of the cluster that keeps a table."""

    def __init__(self, caller: Caller, file: int, file_map: FileMap):
        self.caller, self.file, self.file_map = caller, file, file_map
        stripe = file_map.stripe_bytes() or MOST_BYTES
        self.places = 0, -(-MOST_BYTES // stripe) * stripe
        self.next_place = 0

    def load(self) -> Table:
        """The table; an empty one where the file has nothing but zeros."""
        copies = [b"".join(read_piece(self.caller, self.file, at, length) for at, length in pieces(place, MOST_BYTES, self.file_map, MAX_CALL))
                  for place in self.places]
        tables = [read_copy(copy) or Table(-1, {}) for copy in copies]
        if max(tables[0].count, tables[1].count) < 0 and any(copy.strip(b"\0") for copy in copies):
            raise End(NOT_ASKED, f"f{self.file} has no table of names, and isn't empty: nothing was done. A new one begins where "
                                 f"its first bytes are zeros")
        newer = 0 if tables[0].count >= tables[1].count else 1
        self.next_place = self.places[1 - newer] if tables[newer].count >= 0 else 0
        return tables[newer]._replace(count=max(tables[newer].count, 0))

    def store(self, table: Table) -> Table:
        """Writes a table over the older copy."""
        table = table._replace(count=table.count + 1)
        copy = spelled(table)
        write_pieces(self.caller, self.file, self.file_map, self.next_place, copy)
        self.next_place = self.places[1] if self.next_place == 0 else 0
        return table
