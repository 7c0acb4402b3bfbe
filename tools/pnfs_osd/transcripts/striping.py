"""Where the bytes of a file stand on its components, and what parity they have (docs/rules/STRUCTURES.md)."""
from typing import Dict, List, NamedTuple, Optional, Sequence, Tuple

RAID_0, RAID_4, RAID_5, RAID_PQ = 1, 2, 3, 4
PARITIES = {RAID_0: 0, RAID_4: 1, RAID_5: 1, RAID_PQ: 2}
LARGEST_UNIT, LARGEST_WIDTH, LARGEST_DEPTH = 1048576, 64, 1048576


class Map(NamedTuple):
    """A data map."""
    components: int
    unit: int
    width: int
    depth: int
    mirrors: int
    algorithm: int

    @property
    def replicas(self) -> int:
        """How many components hold the same bytes."""
        return self.mirrors + 1

    @property
    def positions(self) -> int:
        """How many positions the components make, each with its replicas."""
        return self.components // self.replicas

    @property
    def group_width(self) -> int:
        """How many positions a group has."""
        return self.width or self.positions

    @property
    def groups(self) -> int:
        """How many groups the positions make."""
        return self.positions // self.group_width

    @property
    def parities(self) -> int:
        """How many positions of a group hold parity."""
        return PARITIES[self.algorithm]

    @property
    def data_units(self) -> int:
        """How many units of data a stripe has."""
        return self.group_width - self.parities

    @property
    def stripe_bytes(self) -> int:
        """How many bytes of the file a stripe has."""
        return self.data_units * self.unit

    def group_of(self, stripe: int) -> int:
        """The group in which a stripe stands."""
        return (stripe // self.depth) % self.groups if self.width else 0

    def row_of(self, stripe: int) -> int:
        """The row that a stripe has in its group."""
        if not self.width:
            return stripe
        return stripe // (self.depth * self.groups) * self.depth + stripe % self.depth

    def stripe_at(self, group: int, row: int) -> int:
        """The stripe of a row of a group."""
        if not self.width:
            return row
        return (row // self.depth * self.groups + group) * self.depth + row % self.depth

    def position_of(self, stripe: int, unit: int) -> int:
        """The position of a unit of a stripe: the data units, then P, then Q."""
        if self.algorithm == RAID_5:
            unit = (unit + self.group_width - stripe % self.group_width) % self.group_width
        return unit + self.group_of(stripe) * self.group_width

    def units_of(self, stripe: int) -> List[int]:
        """The positions of a stripe's units: the data units, then P, then Q."""
        return [self.position_of(stripe, unit) for unit in range(self.group_width)]

    def position_with(self, component: int) -> int:
        """The position of a component."""
        return component // self.replicas

    def group_with(self, component: int) -> int:
        """The group of a component."""
        return self.position_with(component) // self.group_width

    def group_positions(self, group: int) -> range:
        """The positions of a group."""
        return range(group * self.group_width, (group + 1) * self.group_width)

    def replicas_of(self, position: int) -> range:
        """The components of a position."""
        return range(position * self.replicas, (position + 1) * self.replicas)

    def rows_below(self, group: int, stripe: int) -> int:
        """How many stripes below this one a group has."""
        if not self.width:
            return stripe
        turn = self.depth * self.groups
        return stripe // turn * self.depth + min(max(stripe % turn - group * self.depth, 0), self.depth)

    def fault(self, most: int) -> Optional[str]:
        """Why a map can't be used, by the first check that it fails."""
        if not 0 < self.unit <= LARGEST_UNIT:
            return 'Unit'
        if self.components > most:
            return 'TooMany'
        if self.components == 0:
            return 'TooFew'
        if self.components % self.replicas:
            return 'Multiple'
        width = self.group_width
        if width > LARGEST_WIDTH or self.positions % width or width < self.parities + 1:
            return 'Width'
        deep = self.depth == 0 if self.width == 0 else 0 < self.depth <= LARGEST_DEPTH
        return None if deep else 'Depth'


def times_two(byte: int) -> int:
    """Twice a byte in the field of 256 elements that is reduced by 0x11d."""
    doubled = byte << 1
    return doubled ^ 0x11d if doubled & 0x100 else doubled


def tables() -> Tuple[List[int], Dict[int, int]]:
    """The powers of 2, twice over, and their exponents."""
    powers, value = [], 1
    for _ in range(255):
        powers.append(value)
        value = times_two(value)
    return powers + powers, {power: n for n, power in enumerate(powers)}


POWERS, EXPONENTS = tables()


def product_table(factor: int) -> bytes:
    """What each byte becomes when it is multiplied by a factor."""
    if factor == 0:
        return bytes(256)
    return bytes([0] + [POWERS[EXPONENTS[factor] + EXPONENTS[byte]] for byte in range(1, 256)])


PRODUCTS: Dict[int, bytes] = {}


def times(factor: int, row: bytes) -> bytes:
    """Each byte of a row multiplied by a factor."""
    if factor not in PRODUCTS:
        PRODUCTS[factor] = product_table(factor)
    return row.translate(PRODUCTS[factor])


def inverse(factor: int) -> int:
    """The factor by which a product is undone."""
    return POWERS[(255 - EXPONENTS[factor]) % 255]


def added(one: bytes, other: bytes) -> bytes:
    """The sum of two rows of the same length, byte by byte."""
    return (int.from_bytes(one, 'big') ^ int.from_bytes(other, 'big')).to_bytes(len(one), 'big')


def sum_p(units: Sequence[bytes]) -> bytes:
    """The parity P of the data units of a stripe."""
    total = bytes(len(units[0]))
    for unit in units:
        total = added(total, unit)
    return total


def sum_q(units: Sequence[bytes]) -> bytes:
    """The parity Q of the data units of a stripe."""
    total = bytes(len(units[0]))
    for n, unit in enumerate(units):
        total = added(total, times(POWERS[n % 255], unit))
    return total


def parity_of(m: Map, data: Sequence[bytes]) -> List[bytes]:
    """The rows of parity that data units have."""
    return ([sum_p(data)] if m.parities else []) + ([sum_q(data)] if m.parities == 2 else [])


def pair_of(data: List[Optional[bytes]], lost: List[int], p: bytes, q: bytes) -> None:
    """Two lost data units are worked out from P and Q."""
    x, y = lost
    size = len(p)
    known = [row if row is not None else bytes(size) for row in data]
    without_p, without_q = added(p, sum_p(known)), added(q, sum_q(known))
    ratio = POWERS[(y - x) % 255]
    below = inverse(ratio ^ 1)
    factor_p, factor_q = times(ratio, bytes([below]))[0], times(POWERS[-x % 255], bytes([below]))[0]
    data[x] = added(times(factor_p, without_p), times(factor_q, without_q))
    data[y] = added(without_p, data[x])


def decoded(m: Map, units: Sequence[Optional[bytes]]) -> Optional[List[bytes]]:
    """All rows of a stripe, by data units, P and Q, of which some are lost; none where too many are."""
    if sum(row is None for row in units) > m.parities:
        return None
    size = next((len(row) for row in units if row is not None), 0)
    data = list(units[:m.data_units])
    lost = [n for n, row in enumerate(data) if row is None]
    p = units[m.data_units] if m.parities else None
    if len(lost) == 2:
        pair_of(data, lost, p, units[m.data_units + 1])
    elif lost and p is not None:
        data[lost[0]] = sum_p([row for row in data if row is not None] + [p])
    elif lost:
        known = [row if row is not None else bytes(size) for row in data]
        rest = added(units[m.data_units + 1], sum_q(known))
        data[lost[0]] = times(POWERS[-lost[0] % 255], rest)
    return data + parity_of(m, data)
