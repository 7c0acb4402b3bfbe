"""What the drives hold: each stripe that isn't disturbed is whole (docs/rules/WORLD.md, "Whole stripes")."""
from typing import Dict, List, Optional, Set

from pnfs_osd.transcripts.striping import Map, decoded

from .book import File
from .files import Candidates


def row_of(world, f: File, k: int, stripe: int) -> Optional[bytes]:
    """A component's row of a stripe; none where the component is lost or its object isn't there."""
    at = f.components[k]
    drive = world.drives[at.drive]
    if at.missing or drive.failed:
        return None
    there = drive.objects.get(at.object)
    return there.data.padded(f.map.row_of(stripe) * f.map.unit, f.map.unit) if there else None


def stripe_fault(world, f: File, stripe: int, candidates: Candidates) -> Optional[str]:
    """Why a stripe isn't whole."""
    m = f.map
    units: List[Optional[bytes]] = []
    for position in m.units_of(stripe):
        rows = {k: row_of(world, f, k, stripe) for k in m.replicas_of(position)}
        held = [row for row in rows.values() if row is not None]
        if any(row != held[0] for row in held):
            return 'the replicas of position %d differ' % position
        units.append(held[0] if held else None)
    whole = decoded(m, units)
    if whole is None:
        return None
    for c, (row, wanted) in enumerate(zip(units, whole)):
        if row is not None and row != wanted:
            return 'unit %d isn\'t that of a codeword' % c
    return data_fault(m, stripe, whole, candidates)


def data_fault(m: Map, stripe: int, rows: List[bytes], candidates: Candidates) -> Optional[str]:
    """Why the data of a stripe aren't among what the judge says that the file may hold."""
    for c in range(m.data_units):
        start = stripe * m.stripe_bytes + c * m.unit
        row = rows[c]
        if row == candidates.sure.padded(start, m.unit) and not candidates.maybe:
            continue
        for n, values in enumerate(candidates.values(start, m.unit)):
            if row[n] not in values:
                return 'byte %d of the file is %02x, where %s may stand' % (
                    start + n, row[n], ' or '.join('%02x' % value for value in sorted(values)))
    return None


def unwhole(world, files: Dict[int, Candidates]) -> Optional[str]:
    """A stripe that isn't disturbed and isn't whole, in a calm and unguessed run."""
    for number, f in world.server.files.items():
        disturbed: Set[int] = world.moments.disturbed(number)
        for stripe in sorted(world.moments.touched.get(number, ())):
            if stripe in disturbed:
                continue
            why = stripe_fault(world, f, stripe, files.get(number, Candidates()))
            if why:
                return 'at the end stripe %d of f%d isn\'t whole, though no unfinished write disturbed it: %s' % (
                    stripe, number, why)
    return None
