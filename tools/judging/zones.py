"""Zones of drives, and files that are spread over them (docs/rules/SERVER.md, "Zones")."""
from typing import Dict, Iterable, List, NamedTuple, Optional, Sequence

from pnfs_osd.transcripts.striping import Map

from .book import Component


class Spread(NamedTuple):
    """What a map asks of zones: its groups, the components of each, and how many of these may be in one zone."""
    groups: int
    size: int
    most: int

    def group_with(self, component: int) -> int:
        """The group of a component."""
        return component // self.size


def spread_of(m: Map) -> Spread:
    """What a map asks."""
    return Spread(m.groups, m.group_width * m.replicas, (m.parities + 1) * m.replicas - 1)


def by_zone(drives: Iterable[int], zones: Dict[int, int]) -> List[List[int]]:
    """Drives zone by zone: zones in rising order, and in each the drives in rising order."""
    found: Dict[int, List[int]] = {}
    for drive in sorted(drives):
        found.setdefault(zones[drive], []).append(drive)
    return [found[zone] for zone in sorted(found)]


def cut_to(s: Spread, drives: Iterable[int], zones: Dict[int, int]) -> List[int]:
    """The same one after another, but of each zone no more than all groups may have there."""
    return [drive for rest in by_zone(drives, zones) for drive in rest[:s.groups * s.most]]


def has_room(s: Spread, drives: Iterable[int], zones: Dict[int, int]) -> bool:
    """These drives, each of which has a zone, suffice for the components of a file."""
    return len(cut_to(s, drives, zones)) >= s.groups * s.size


def dealt(s: Spread, drives: Iterable[int], zones: Dict[int, int]) -> List[int]:
    """Drives for the components of a file in their order: they are dealt to the groups by turns."""
    taken = cut_to(s, drives, zones)[:s.groups * s.size]
    return [drive for group in range(s.groups) for drive in taken[group::s.groups]]


def takes(s: Spread, components: Sequence[Component], k: int, zone: int, zones: Dict[int, int]) -> bool:
    """A zone has room for component k beside the other components of its group, present or missing."""
    others = [at for j, at in enumerate(components) if j != k and s.group_with(j) == s.group_with(k)]
    return sum(zones[at.drive] == zone for at in others) < s.most


def crowded(m: Map, components: Sequence[Component], zones: Dict[int, int]) -> Optional[str]:
    """How the components of a zoned file aren't spread; nothing where they are."""
    s = spread_of(m)
    counts: Dict[tuple, int] = {}
    for k, at in enumerate(components):
        if at.drive not in zones:
            return 'component %d stands on d%d, which has no zone' % (k, at.drive)
        place = (s.group_with(k), zones[at.drive])
        counts[place] = counts.get(place, 0) + 1
        if counts[place] > s.most:
            return '%d components of group %d stand in zone %d, where %d may' % ((counts[place],) + place + (s.most,))
    return None
