"""What a client keeps of a grant and of a call, and what it takes of a layout (docs/rules/CLIENT.md, "The state")."""
from typing import Dict, List, NamedTuple, Optional, Set, Tuple

from pnfs_osd.transcripts import commands, structures
from pnfs_osd.transcripts.commands import Capability
from pnfs_osd.transcripts.envelopes import IOMODE_RW, Answer, Granted
from pnfs_osd.transcripts.spelling import Unreadable
from pnfs_osd.transcripts.striping import Map
from pnfs_osd.transcripts.structures import IoError, Layout, ObjectId

from .plans import Asked, Outs, Pieces, Span

FILE_END = 16777216
MOST_COMPONENTS, MOST_DRIVES = 64, 64

# the error that a report names for a verdict; any other is an I/O error
ERRNOS: Dict[str, int] = {
    'nospace': structures.NO_SPACE, 'nokey': structures.BAD_CRED, 'checkvalue': structures.BAD_CRED,
    'expired': structures.NO_ACCESS, 'rights': structures.NO_ACCESS, 'wrongobject': structures.NO_ACCESS,
    'range': structures.NO_ACCESS, 'noobject': structures.NOT_FOUND, 'limit': structures.RESOURCE,
    'lanefull': structures.RESOURCE}


class Listed(NamedTuple):
    """A component as a layout lists it; one without capability is missing."""
    object: ObjectId
    key: bytes
    capability: Optional[Capability]
    capability_bytes: bytes


class Held:
    """A grant that a client holds."""

    def __init__(self, file: int, number: int, size: int, m: Map, components: List[Listed]) -> None:
        self.file = file
        self.number = number
        self.size = size
        self.map = m
        self.components = components
        self.rw = self.extending = False
        self.first = self.end = 0
        self.count = 0

    def missing(self) -> Set[int]:
        """The components that the layout lists as missing."""
        return {k for k, listed in enumerate(self.components) if listed.capability is None}

    def clipped(self, span: Span) -> Span:
        """A range as far as it lies below the size."""
        return Span(span.offset, max(min(span.end, self.size) - span.offset, 0))

    def contains(self, span: Span) -> bool:
        """The range is inside the grant's bytes."""
        return self.first <= span.offset and span.end <= self.end

    def is_for(self, op: 'Op') -> bool:
        """A grant for these bytes, at this size, is for the call."""
        if op.write:
            return self.rw and self.contains(op.span) and (self.extending or op.span.end <= self.size)
        clipped = self.clipped(op.span)
        return clipped.length == 0 or self.contains(clipped)


class Op(NamedTuple):
    """What a call asks."""
    write: bool
    file: int
    span: Span
    data: bytes

    @property
    def asked(self) -> Span:
        """What its LAYOUTGET asks."""
        return Span(min(self.span.offset, FILE_END - 1), max(self.span.length, 1))


class Awaited(NamedTuple):
    """A command whose reply a call awaits."""
    write: bool
    ask: Asked
    drive: int
    nonce: int
    data: bytes


class TimedOut(NamedTuple):
    """A component that timed out, and the first command of it that was awaited."""
    write: bool
    ask: Asked


class Need(NamedTuple):
    """What a call needs of the server."""
    kind: str
    tries: int = 0
    outcome: str = ''
    report: Tuple[IoError, ...] = ()


class Call:
    """A pending call and its phase."""

    def __init__(self, op: Op) -> None:
        self.op = op
        self.phase = 'Starts'
        self.need = Need('Get')
        self.awaited: List[Awaited] = []
        self.got: Optional[Pieces] = None
        self.timed: List[TimedOut] = []
        self.queue: List[Tuple[Asked, bytes]] = []


def error_at(held: Held, write: bool, ask: Asked, errno: int) -> IoError:
    """An error names the object, and the range of the command concerned."""
    return IoError(held.components[ask.component].object, ask.offset, ask.length, write, errno)


def report_of(held: Held, timed: List[TimedOut]) -> Tuple[IoError, ...]:
    """Each component that timed out wasn't reached."""
    return tuple(error_at(held, t.write, t.ask, structures.UNREACHABLE) for t in timed)


def take_layout(a: Answer, op: Op):
    """The grant that a client takes from an answer, or the word for why it takes none."""
    if not isinstance(a.result, Granted) or len(a.result.layouts) != 1:
        return 'Unreadable'
    segment = a.result.layouts[0]
    layout = structures.maybe(structures.layout_in, segment.body)
    if layout is None:
        return 'Unreadable'
    held = Held(op.file, a.result.state.grant, a.size, layout.map, [])
    held.rw = segment.iomode == IOMODE_RW
    held.extending = held.rw and op.asked.end > a.size
    held.first, held.end = segment.offset, min(segment.offset + segment.length, FILE_END)
    why = fault_of(held, layout, op)
    if why:
        return why
    listed = [listed_of(c) for c in layout.components]
    if any(c is None for c in listed):
        return 'Credential'
    held.components = listed
    outs = Outs(held.map, held.missing())
    granted = Span(held.first, max(held.end - held.first, 0))
    if (op.write or held.rw) and (outs.is_unwritable(op.asked) or outs.is_unwritable(granted)):
        return 'Credential'
    return held


def fault_of(held: Held, layout: Layout, op: Op) -> Optional[str]:
    """What stands against a layout, but for its credentials."""
    if not held.is_for(op):
        return 'Unreadable'
    if layout.first != 0:
        return 'Index'
    if len(layout.components) != layout.map.components:
        return 'Partial'
    if any(c.security == structures.SSV for c in layout.components):
        return 'Ssv'
    return 'Map' if layout.map.fault(MOST_COMPONENTS) else None


def listed_of(c: structures.Credential) -> Optional[Listed]:
    """A component as the client keeps it, if its credential can be used."""
    if c.version == structures.MISSING:
        return Listed(c.object, b'', None, b'')
    if c.version != structures.VERSION_2 or c.object.device >= MOST_DRIVES:
        return None
    try:
        capability = commands.read_capability(c.capability)
    except Unreadable:
        return None
    return Listed(c.object, c.key, capability, c.capability) if len(c.key) == commands.CHECK_SIZES[capability.format] else None
