"""The log of each file, read off the lines, and its judge (docs/rules/WORLD.md, "The log and its judge")."""
from typing import Dict, List, NamedTuple, Optional, Set

from .drives import Bytes


class Entry:
    """A write or a read that has started, in order of start."""

    def __init__(self, at: int, client: int, file: int, grant: int, offset: int, length: int,
                 data: Optional[bytes]) -> None:
        self.at = at
        self.client = client
        self.file = file
        self.grant = grant
        self.offset = offset
        self.length = length
        self.data = data
        self.acknowledged = False
        self.taken = False
        self.answer: Optional[bytes] = None
        self.answered_at = 0

    @property
    def is_write(self) -> bool:
        """It is a write."""
        return self.data is not None

    @property
    def is_finished(self) -> bool:
        """It was acknowledged, or taken as a loss."""
        return self.acknowledged or self.taken


class Fixed(NamedTuple):
    """What an entry says at some moment."""
    entry: Entry
    acknowledged: bool
    answer: Optional[bytes]


class Pending:
    """A call that is pending, and its entry once it has started."""

    def __init__(self, write: bool, file: int, offset: int, length: int, data: Optional[bytes]) -> None:
        self.write = write
        self.file = file
        self.offset = offset
        self.length = length
        self.data = data
        self.entry: Optional[Entry] = None


class Log:
    """The entries of all files in order of start, and the entry of each WRITE by its message's number."""

    def __init__(self) -> None:
        self.pending: Dict[int, Pending] = {}
        self.entries: List[Entry] = []
        self.writes: Dict[int, Entry] = {}

    def call(self, client: int, pending: Pending) -> None:
        """A client is called; where a call of it is pending, this one is refused."""
        self.pending.setdefault(client, pending)

    def refuse(self, client: int, why: str) -> None:
        """A call was refused; where it was busy the former one is still pending."""
        if why != 'busy':
            self.pending.pop(client, None)

    def sends(self, at: int, number: int, client: int, write: bool, grant: int) -> None:
        """A client sends a READ or a WRITE: its call starts with the first of its kind."""
        p = self.pending.get(client)
        if p is None or p.write != write:
            return
        if p.entry is None:
            p.entry = Entry(at, client, p.file, grant, p.offset, p.length, p.data)
            self.entries.append(p.entry)
        if write:
            self.writes[number] = p.entry

    def ends(self, at: int, client: int, acknowledged: bool, answer: Optional[bytes]) -> None:
        """A call has ended."""
        p = self.pending.pop(client, None)
        if p is None or p.entry is None:
            return
        p.entry.answered_at = at
        if p.entry.is_write:
            p.entry.acknowledged = acknowledged
        else:
            p.entry.answer = answer

    def fixed(self) -> List[Fixed]:
        """The entries as they are now."""
        return [Fixed(e, e.acknowledged, e.answer) for e in self.entries]


class Candidates:
    """What a file may hold: for each position some values, and some sizes."""

    def __init__(self) -> None:
        self.sure = Bytes()
        self.maybe: Dict[int, Set[int]] = {}
        self.sizes: Set[int] = {0}

    def values(self, offset: int, length: int) -> List[Set[int]]:
        """The values of each position of a range."""
        sure = self.sure.padded(offset, length)
        return [self.maybe.get(offset + n) or {byte} for n, byte in enumerate(sure)]

    def settle(self, offset: int, data: bytes) -> None:
        """These bytes stand there for sure."""
        self.sure.write(offset, data)
        if len(self.maybe) < len(data):
            for position in [p for p in self.maybe if offset <= p < offset + len(data)]:
                del self.maybe[position]
            return
        for position in range(offset, offset + len(data)):
            self.maybe.pop(position, None)

    def join(self, offset: int, data: bytes) -> None:
        """These bytes may stand there."""
        sure = self.sure.padded(offset, len(data))
        if sure == data and not self.maybe:
            return
        for n, (old, new) in enumerate(zip(sure, data)):
            if old != new or offset + n in self.maybe:
                self.maybe.setdefault(offset + n, {old}).add(new)

    def write(self, offset: int, data: bytes, acknowledged: bool) -> None:
        """A write."""
        sizes = {max(size, offset + len(data)) for size in self.sizes}
        if acknowledged:
            self.settle(offset, data)
            self.sizes = sizes
        else:
            self.join(offset, data)
            self.sizes |= sizes

    def fault(self, offset: int, length: int, answer: bytes) -> Optional[str]:
        """Why a read can't have given this answer."""
        sizes = {size for size in self.sizes if max(min(offset + length, size) - offset, 0) == len(answer)}
        if not sizes:
            return 'it gives %d bytes, which no size that the file may have allows (%s)' % (
                len(answer), ', '.join(str(size) for size in sorted(self.sizes)[:8]))
        sure = self.sure.padded(offset, len(answer))
        if sure == answer and not self.maybe:
            return None
        for n, (old, given) in enumerate(zip(sure, answer)):
            values = self.maybe.get(offset + n, {old})
            if given not in values:
                return 'it gives %02x for byte %d, where %s may stand' % (
                    given, offset + n, ' or '.join('%02x' % value for value in sorted(values)))
        return None

    def read(self, offset: int, length: int, answer: bytes) -> None:
        """An answered read: its bytes and its sizes stay alone."""
        self.sizes = {size for size in self.sizes if max(min(offset + length, size) - offset, 0) == len(answer)}
        self.settle(offset, answer)


class Verdict(NamedTuple):
    """What the judge says of all files: what each may hold, or the first entry that doesn't fit, and why."""
    files: Dict[int, Candidates]
    entry: Optional[Entry]
    why: str


def judged(log: List[Fixed]) -> Verdict:
    """The judge goes through the log once."""
    files: Dict[int, Candidates] = {}
    for e, acknowledged, answer in log:
        file = files.setdefault(e.file, Candidates())
        if e.data is not None:
            file.write(e.offset, e.data, acknowledged)
        elif answer is not None:
            why = file.fault(e.offset, e.length, answer)
            if why:
                return Verdict(files, e, why)
            file.read(e.offset, e.length, answer)
    return Verdict(files, None, '')
