"""What a client's call asks of the components, and what it makes of the bytes (docs/rules/CLIENT.md, "Reads", "Writes")."""
from typing import Dict, Iterable, Iterator, List, NamedTuple, Optional, Set, Tuple

from pnfs_osd.transcripts.striping import POWERS, Map, added, decoded, parity_of, times

Interval = Tuple[int, int]


class Span(NamedTuple):
    """A range of bytes of a file."""
    offset: int
    length: int

    @property
    def end(self) -> int:
        """Behind its last byte."""
        return self.offset + self.length

    def stripes(self, m: Map) -> range:
        """The stripes that it touches."""
        if self.length == 0:
            return range(0)
        return range(self.offset // m.stripe_bytes, (self.end - 1) // m.stripe_bytes + 1)


class Asked(NamedTuple):
    """Bytes of a component that a plan asks to read or to write."""
    stripe: int
    position: int
    component: int
    offset: int
    length: int


class Outs:
    """The components that are out in a call, and the positions that are out with them."""

    def __init__(self, m: Map, components: Set[int]) -> None:
        self.map = m
        self.components = components

    def source(self, position: int) -> Optional[int]:
        """The first replica of a position that isn't out."""
        return next((k for k in self.map.replicas_of(position) if k not in self.components), None)

    def is_out(self, position: int) -> bool:
        """All replicas of the position are out."""
        return bool(self.components) and self.source(position) is None

    def positions(self, group: int) -> List[int]:
        """The positions of a group that are out."""
        if not self.components:
            return []
        return [p for p in self.map.group_positions(group) if self.source(p) is None]

    def is_short(self, stripe: int) -> bool:
        """The stripe's group has more positions out than parity."""
        return len(self.positions(self.map.group_of(stripe))) > self.map.parities

    def is_degraded(self, stripe: int) -> bool:
        """Some position of the stripe's group is out."""
        return bool(self.positions(self.map.group_of(stripe)))

    def is_hit(self, span: Span, stripe: int) -> bool:
        """A touched data position of the stripe is out."""
        m = self.map
        return bool(self.components) and any(own(m, span, stripe, c) and self.is_out(m.position_of(stripe, c))
                                             for c in range(m.data_units))

    def unreadable(self, span: Span) -> Optional[List[int]]:
        """The positions out in the first stripe that can't be read."""
        for stripe in span.stripes(self.map):
            if self.components and self.is_hit(span, stripe) and self.is_short(stripe):
                return self.positions(self.map.group_of(stripe))
        return None

    def is_unwritable(self, span: Span) -> bool:
        """A touched stripe lacks more positions than its parity brings back."""
        return bool(self.components) and any(self.is_short(stripe) for stripe in span.stripes(self.map))


def own(m: Map, span: Span, stripe: int, c: int) -> Optional[Interval]:
    """The columns of the range's own bytes in a data unit of a stripe."""
    start = stripe * m.stripe_bytes + c * m.unit
    first, end = max(span.offset, start) - start, min(span.end, start + m.unit) - start
    return (first, end) if first < end else None


def columns(m: Map, span: Span, stripe: int) -> List[Interval]:
    """The touched columns of a stripe, as one or two rising intervals that don't meet."""
    start = stripe * m.stripe_bytes
    low, high = max(span.offset, start) - start, min(span.end, start + m.stripe_bytes) - start
    if high - low >= m.unit:
        return [(0, m.unit)]
    first, end = low % m.unit, (high - 1) % m.unit + 1
    return [(first, end)] if first < end else [(0, end), (first, m.unit)]


def is_whole(m: Map, span: Span, stripe: int) -> bool:
    """All data bytes of the stripe are in the range."""
    return span.offset <= stripe * m.stripe_bytes and (stripe + 1) * m.stripe_bytes <= span.end


def changed(m: Map, span: Span, stripe: int, c: int) -> List[Interval]:
    """What a write changes of a unit: its own columns, or the touched ones of parity."""
    if c >= m.data_units:
        return columns(m, span, stripe)
    mine = own(m, span, stripe, c)
    return [mine] if mine else []


def needed(aim: str, m: Map, span: Span, outs: Outs, stripe: int) -> Iterator[List[Interval]]:
    """The columns of each unit of a stripe that a plan needs."""
    hit = aim == 'read' and outs.is_hit(span, stripe)
    degraded = aim == 'gather' and outs.is_degraded(stripe)
    leaves = aim == 'gather' and is_whole(m, span, stripe)
    for c in range(m.group_width):
        if leaves:
            yield []
        elif hit or degraded:
            yield columns(m, span, stripe)
        elif aim == 'read' and c >= m.data_units:
            yield []
        else:
            yield changed(m, span, stripe, c)


def without(intervals: List[Interval], had: Iterable[Interval]) -> List[Interval]:
    """The parts of intervals that aren't had."""
    for first, end in had:
        intervals = [part for a, b in intervals for part in ((a, min(b, first)), (max(a, end), b)) if part[0] < part[1]]
    return intervals


class Pieces:
    """Bytes of positions, by the row in which they stand; of several pieces of one byte the first counts."""

    def __init__(self, m: Map) -> None:
        self.unit = m.unit
        self.rows: Dict[Tuple[int, int], List[Tuple[int, bytes]]] = {}

    def add(self, position: int, offset: int, data: bytes) -> None:
        """A piece more."""
        self.rows.setdefault((position, offset // self.unit), []).append((offset, data))

    def intervals(self, position: int, offset: int) -> List[Interval]:
        """Which bytes of the row of an offset there are."""
        pieces = self.rows.get((position, offset // self.unit), ())
        return [(first, first + len(data)) for first, data in pieces]

    def read(self, position: int, offset: int, length: int) -> bytes:
        """Bytes of a row; those of no piece are 0."""
        row = bytearray(length)
        for first, data in reversed(self.rows.get((position, offset // self.unit), ())):
            low, high = max(first, offset), min(first + len(data), offset + length)
            if low < high:
                row[low - offset:high - offset] = data[low - first:high - first]
        return bytes(row)


def asks(aim: str, m: Map, span: Span, outs: Outs, had: Dict[Tuple[int, int], List[Interval]]) -> List[Asked]:
    """What a plan still asks, stripe by stripe, position by position; a write asks all replicas, a read one."""
    found: List[Asked] = []
    for stripe in span.stripes(m):
        start = m.row_of(stripe) * m.unit
        by_position = sorted(zip(m.units_of(stripe), needed(aim, m, span, outs, stripe)))
        for position, intervals in by_position:
            rows = [(start + a, start + b) for a, b in intervals]
            rest = without(rows, had.get((position, start // m.unit), ()))
            for k in sources(aim, m, outs, position):
                found += [Asked(stripe, position, k, first, end - first) for first, end in rest]
    return found


def sources(aim: str, m: Map, outs: Outs, position: int) -> List[int]:
    """The components that a plan asks for a position."""
    if aim == 'write':
        return [k for k in m.replicas_of(position) if k not in outs.components]
    source = outs.source(position)
    return [] if source is None else [source]


def stripe_rows(m: Map, outs: Outs, got: Pieces, stripe: int, part: Interval) -> List[Optional[bytes]]:
    """The bytes of some columns of all units of a stripe, none of those that are out."""
    offset, length = m.row_of(stripe) * m.unit + part[0], part[1] - part[0]
    return [None if outs.is_out(position) else got.read(position, offset, length) for position in m.units_of(stripe)]


def answer(m: Map, span: Span, outs: Outs, got: Pieces) -> bytes:
    """The bytes that a read gives."""
    parts = []
    for stripe in span.stripes(m):
        for c in range(m.data_units):
            part = own(m, span, stripe, c)
            if part is None:
                continue
            position = m.position_of(stripe, c)
            if outs.is_out(position):
                rows = decoded(m, stripe_rows(m, outs, got, stripe, part))
                parts.append(rows[c] if rows else b'')
            else:
                parts.append(got.read(position, m.row_of(stripe) * m.unit + part[0], part[1] - part[0]))
    return b''.join(parts)


def overlap(part: Interval, mine: Optional[Interval]) -> Optional[Interval]:
    """What two intervals have in common."""
    if mine is None:
        return None
    first, end = max(part[0], mine[0]), min(part[1], mine[1])
    return (first, end) if first < end else None


def new_bytes(m: Map, span: Span, data: bytes, stripe: int, c: int, part: Interval) -> bytes:
    """The call's bytes in some columns of a data unit."""
    start = stripe * m.stripe_bytes + c * m.unit - span.offset
    return data[start + part[0]:start + part[1]]


def laid(row: bytes, at: int, data: bytes) -> bytes:
    """Bytes over those of a row."""
    return row[:at] + data + row[at + len(data):]


def new_parity(m: Map, span: Span, data: bytes, outs: Outs, got: Pieces, stripe: int, part: Interval) -> List[bytes]:
    """The parity that a write gives some columns of a stripe."""
    size = part[1] - part[0]
    common = [overlap(part, own(m, span, stripe, c)) for c in range(m.data_units)]
    if is_whole(m, span, stripe):
        rows = [bytes(size)] * m.data_units
    elif outs.is_degraded(stripe):
        rows = (decoded(m, stripe_rows(m, outs, got, stripe, part)) or [])[:m.data_units]
    else:
        return parity_by_difference(m, span, data, got, stripe, part, common)
    for c, mine in enumerate(common):
        if mine:
            rows[c] = laid(rows[c], mine[0] - part[0], new_bytes(m, span, data, stripe, c, mine))
    return parity_of(m, rows)


def parity_by_difference(m: Map, span: Span, data: bytes, got: Pieces, stripe: int, part: Interval,
                         common: List[Optional[Interval]]) -> List[bytes]:
    """The old parity, changed by the differences of the old and the new data."""
    start, size = m.row_of(stripe) * m.unit, part[1] - part[0]
    positions = m.units_of(stripe)
    rows = [got.read(p, start + part[0], size) for p in positions[m.data_units:]]
    for c, mine in enumerate(common):
        if not mine:
            continue
        old = got.read(positions[c], start + mine[0], mine[1] - mine[0])
        difference = laid(bytes(size), mine[0] - part[0], added(old, new_bytes(m, span, data, stripe, c, mine)))
        rows[0] = added(rows[0], difference)
        if m.parities == 2:
            rows[1] = added(rows[1], times(POWERS[c], difference))
    return rows


def written(m: Map, span: Span, data: bytes, outs: Outs, got: Pieces) -> Pieces:
    """What a write puts into each position."""
    result = Pieces(m)
    for stripe in span.stripes(m):
        start, positions = m.row_of(stripe) * m.unit, m.units_of(stripe)
        for c in range(m.data_units):
            mine = own(m, span, stripe, c)
            if mine:
                result.add(positions[c], start + mine[0], new_bytes(m, span, data, stripe, c, mine))
        if m.parities == 0:
            continue
        for part in columns(m, span, stripe):
            parity = new_parity(m, span, data, outs, got, stripe, part)
            for position, row in zip(positions[m.data_units:], parity):
                result.add(position, start + part[0], row)
    return result
