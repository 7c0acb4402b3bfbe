"""Whether a run is calm: at no moment is a stripe with parity torn and short; docs/rules/WORLD.md, "What is read off the lines"."""
from typing import Dict, List, Optional, Set, Tuple

from pnfs_osd.transcripts.commands import WRITE, Command

from .book import Component
from .files import Entry, Log
from .jobs import Mended
from .server import Server


class Moments:
    """The stripes that unfinished writes have marked, and what is short at each moment."""

    def __init__(self, server: Server, log: Log) -> None:
        self.server = server
        self.log = log
        self.standing: Dict[int, List[Component]] = {}
        self.failed: Set[int] = set()
        self.stopped: Set[int] = set()
        self.marks: Dict[Entry, Set[Tuple[int, int]]] = {}
        self.touched: Dict[int, Set[int]] = {}
        self.calm = True
        self.why = ''

    # ---- marks

    def component_at(self, drive: int, number: int) -> Optional[Tuple[int, int]]:
        """The file and the present component that stands on a drive in that object."""
        for file, components in self.standing.items():
            for k, at in enumerate(components):
                if at.drive == drive and at.object == number and not at.missing:
                    return file, k
        return None

    def performed(self, drive: int, command: Optional[Command], entry: Optional[Entry]) -> None:
        """A drive performed a command, which was sent for an entry of the log or for none."""
        if command is None or command.action != WRITE:
            return
        found = self.component_at(drive, command.object)
        if found is None:
            return
        file, k = found
        m = self.server.files[file].map
        stripe = m.stripe_at(m.group_with(k), command.offset // m.unit)
        self.touched.setdefault(file, set()).add(stripe)
        if entry is not None and not entry.is_finished:
            self.marks.setdefault(entry, set()).add((file, stripe))

    def repaired(self, mended: Mended) -> None:
        """A repair takes away the marks of the stripes that it counted and didn't leave short."""
        parities = self.server.files[mended.file].map.parities
        for marks in self.marks.values():
            for file, stripe in list(marks):
                worked = file == mended.file and any(first <= stripe < end for first, end in mended.worked)
                if worked and (parities == 0 or stripe not in mended.short):
                    marks.discard((file, stripe))

    # ---- moments

    def is_short(self, file: int, stripe: int) -> bool:
        """All replicas of one of the stripe's positions are lost."""
        m, components = self.server.files[file].map, self.standing[file]
        lost = [at.missing or at.drive in self.failed for at in components]
        return any(all(lost[k] for k in m.replicas_of(p)) for p in m.group_positions(m.group_of(stripe)))

    def is_left(self, entry: Entry) -> bool:
        """The write's grant has ended, or its client was stopped."""
        f = self.server.files[entry.file]
        return entry.client in self.stopped or all(g.number != entry.grant for g in f.grants)

    def look(self, at: int) -> None:
        """A moment: is a stripe with parity torn and short?"""
        if not self.calm or not self.marks:
            return
        for entry, marks in list(self.marks.items()):
            if entry.is_finished or not marks:
                del self.marks[entry]
            elif self.is_left(entry):
                for file, stripe in marks:
                    if self.server.files[file].map.parities and self.is_short(file, stripe):
                        self.calm = False
                        self.why = 'at line %d stripe %d of f%d is short, and torn by the write of c%d of line %d' % (
                            at, stripe, file, entry.client, entry.at)
                        return

    def disturbed(self, file: int) -> Set[int]:
        """The stripes of a file in which an unfinished write was performed since their last repair."""
        return {stripe for entry, marks in self.marks.items() if not entry.is_finished
                for f, stripe in marks if f == file}

    def noted(self, at: int, file: int, words: Tuple[str, ...], mended: List[Mended]) -> None:
        """A note is a moment, with what it makes missing or present and the marks that a repair takes away."""
        components = self.standing.get(file)
        if components is None:
            return
        if words[0] in ('nospace', 'reported'):
            k = int(words[1])
            components[k] = components[k]._replace(missing=True)
        elif words[0] == 'rebuilt':
            k = int(words[1])
            components[k] = components[k]._replace(drive=int(words[2][1:]), missing=False)
        elif words[0] == 'repaired':
            for found in [m for m in mended if m.file == file][:1]:
                self.repaired(found)
        self.look(at)

    def after_step(self) -> None:
        """Behind a step of the server its components stand as it has them."""
        for file, f in self.server.files.items():
            self.standing[file] = list(f.components)
