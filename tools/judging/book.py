"""What the metadata server keeps of a file (docs/rules/SERVER.md, "The state")."""
from typing import Dict, Iterator, List, NamedTuple, Optional, Tuple

from pnfs_osd.transcripts.striping import Map

GREATEST_TAG = 4294967295
LEASE, NO_EXPIRY = 90, (1 << 64) - 1
LARGEST_PIECE = 262144

Stripes = Tuple[int, int]


class Grant(NamedTuple):
    """A grant of a range of stripes, for reading or for reading and writing."""
    number: int
    client: int
    rw: bool
    extending: bool
    first: int
    end: int
    expiry: int

    def conflicts(self, other: 'Grant') -> bool:
        """Both can't be live."""
        overlap = max(self.first, other.first) < min(self.end, other.end)
        return self.client != other.client and (((self.rw or other.rw) and overlap)
                                                or self.extending or other.extending)


class Component(NamedTuple):
    """Where a component stands, or last stood."""
    drive: int
    object: int
    missing: bool


class Piece(NamedTuple):
    """Some columns of one stripe."""
    stripe: int
    column: int
    count: int


class Ask(NamedTuple):
    """What a command of the server asks of an object."""
    action: int
    offset: int = 0
    length: int = 0
    attribute: int = 0
    payload: bytes = b''


class Awaited(NamedTuple):
    """A command whose reply a job awaits."""
    component: int
    drive: int
    object: int
    nonce: int
    format: int
    tag: int
    ask: Ask


class Target(NamedTuple):
    """Where a rebuild makes a component anew."""
    component: int
    drive: int
    object: int


class Pieces:
    """Pieces that are still to be worked, the first of them by `head`."""

    def __init__(self, pieces: Iterator[Piece]) -> None:
        self.rest = pieces
        self.head = next(pieces, None)

    def advance(self) -> None:
        """The first piece is done."""
        self.head = next(self.rest, None)


class Job:
    """What a file's job does now, and which commands it awaits."""

    def __init__(self, kind: str) -> None:
        self.kind = kind
        self.phase = ''
        self.awaited: List[Awaited] = []
        self.heard: Dict[int, bytes] = {}
        self.todo: Pieces = Pieces(iter(()))
        self.worked: List[Stripes] = []
        self.short: List[int] = []
        self.broken = False
        self.target: Optional[Target] = None
        self.lengths: Dict[int, int] = {}
        self.bad: List[int] = []

    def lowest(self) -> int:
        """The lowest component that the job waits for."""
        return min(a.component for a in self.awaited)


class File:
    """A file as the server has it."""

    def __init__(self, number: int, m: Map, tag: int, form: int, components: List[Component]) -> None:
        self.number = number
        self.map = m
        self.tag = tag
        self.format = form
        self.size = 0
        self.high = 0
        self.components = components
        self.grants: List[Grant] = []
        self.ended: List[Grant] = []
        self.job: Optional[Job] = None
        self.ready = False
        self.is_fencing = False
        self.spent = False
        self.zoned = False

    def is_unsettled(self) -> bool:
        """An opening fences it: it has a grant, or a fence or a repair that isn't over."""
        return bool(self.grants) or self.is_fencing

    def grant_of(self, client: int) -> Optional[Grant]:
        """The grant of a client, which has at most one."""
        return next((g for g in self.grants if g.client == client), None)

    def lose(self, lost: List[int]) -> None:
        """These components become missing."""
        for k in lost:
            self.components[k] = self.components[k]._replace(missing=True)

    def pieces(self, stripes: Iterator[int]) -> Pieces:
        """The pieces of some stripes."""
        unit = self.map.unit
        return Pieces(Piece(stripe, column, min(LARGEST_PIECE, unit - column))
                      for stripe in stripes for column in range(0, unit, LARGEST_PIECE))


def replica(m: Map, components: List[Component], position: int) -> Optional[int]:
    """The first present replica of a position."""
    return next((k for k in m.replicas_of(position) if not components[k].missing), None)


def lacking(m: Map, components: List[Component], group: int) -> List[int]:
    """The positions of a group that have no present replica."""
    return [p for p in m.group_positions(group) if replica(m, components, p) is None]


def is_short(m: Map, components: List[Component], stripe: int) -> bool:
    """A position of the stripe's group has no present replica."""
    return bool(lacking(m, components, m.group_of(stripe)))


def is_beyond(m: Map, components: List[Component], group: int) -> bool:
    """More positions have none than the code brings back."""
    return len(lacking(m, components, group)) > m.parities


def merged(grants: List[Grant]) -> List[Stripes]:
    """The stripes of the grants for writing, each once, in order."""
    ranges: List[Stripes] = []
    for first, end in sorted((g.first, g.end) for g in grants if g.rw):
        if ranges and first <= ranges[-1][1]:
            ranges[-1] = (ranges[-1][0], max(end, ranges[-1][1]))
        else:
            ranges.append((first, end))
    return ranges


def differing(have: bytes, want: bytes) -> Optional[Stripes]:
    """From the first to behind the last place in which two rows differ."""
    if have == want:
        return None
    places = [n for n, (a, b) in enumerate(zip(have, want)) if a != b]
    return places[0], places[-1] + 1
