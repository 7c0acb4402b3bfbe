"""The jobs of the metadata server: making, fence, repair, rebuild and audit (docs/rules/SERVER.md, "Jobs")."""
from typing import Callable, Dict, Iterable, List, NamedTuple, Optional

from pnfs_osd.transcripts.commands import CREATE, GET_ATTR, READ, SET_TAG, WRITE
from pnfs_osd.transcripts.spelling import big
from pnfs_osd.transcripts.striping import decoded, parity_of
from pnfs_osd.transcripts.structures import map_bytes

from .book import (GREATEST_TAG, Ask, Awaited, Component, File, Job, Piece, Stripes, Target, differing, is_beyond, is_short,
                   lacking, merged, replica)

LENGTH_ATTRIBUTE, LONGEST_OBJECT = 1, 17825792
PERFORMED, EXISTS, OTHER_TAG, NO_SPACE, OLD_FORMAT = 0, 8, 9, 11, 17


class Mended(NamedTuple):
    """A repair that is over: the stripes that it counted, and those that it left short."""
    file: int
    worked: List[Stripes]
    short: List[int]


class Counters:
    """The next numbers of the server."""

    def __init__(self) -> None:
        self.grant = 1
        self.object = 65536
        self.nonce = 1
        self.recall = 1
        self.format = 1


class Step:
    """What the server does in one step."""

    def __init__(self) -> None:
        self.commands: List[Awaited] = []
        self.notes: List[tuple] = []
        self.mended: List[Mended] = []


class Worker:
    """A file whose job goes on in a step."""

    def __init__(self, f: File, counters: Counters, step: Step,
                 place: Callable[[File, int], Optional[int]]) -> None:
        self.file = f
        self.counters = counters
        self.step = step
        self.place = place

    def note(self, text: str) -> None:
        """A note on the file."""
        self.step.notes.append((self.file.number, text))

    # ---- commands

    def awaited(self, k: int, at: Component, ask: Ask) -> Awaited:
        """A command with the next nonce."""
        nonce = self.counters.nonce
        self.counters.nonce += 1
        return Awaited(k, at.drive, at.object, nonce, self.file.format, self.file.tag, ask)

    def rests(self, phase: str, targets: List[tuple]) -> bool:
        """The job sends these commands and awaits their replies; it can't where there are none."""
        if not targets:
            return False
        job = self.file.job
        assert job is not None
        job.phase, job.heard = phase, {}
        job.awaited = [self.awaited(k, at, ask) for k, at, ask in targets]
        self.step.commands += job.awaited
        return True

    def to_present(self, ask: Ask, group: Optional[int] = None) -> List[tuple]:
        """The same to each present component, of a group or of all."""
        f = self.file
        return [(k, at, ask) for k, at in enumerate(f.components)
                if not at.missing and (group is None or f.map.group_with(k) == group)]

    def reading(self, p: Piece) -> Ask:
        """The READ of a piece."""
        m = self.file.map
        return Ask(READ, m.row_of(p.stripe) * m.unit + p.column, p.count)

    def writing(self, p: Piece, row: bytes, part: Stripes) -> Ask:
        """The WRITE of a part of a piece's row."""
        m = self.file.map
        data = row[part[0]:part[1]]
        return Ask(WRITE, m.row_of(p.stripe) * m.unit + p.column + part[0], len(data), 0, data)

    # ---- making and fence

    def make(self) -> None:
        """The objects of a new file are made."""
        f = self.file
        f.job = Job('make')
        targets = [(k, at, Ask(CREATE, payload=self.label(k))) for k, at in enumerate(f.components) if not at.missing]
        if not self.rests('Creates', targets):
            self.made()

    def label(self, k: int) -> bytes:
        """The label of a component: file, component and map."""
        return big(self.file.number, 4) + big(k, 4) + map_bytes(self.file.map)

    def made(self) -> None:
        """Each object was made, or its component is missing."""
        self.note('ready')
        self.file.ready = True
        self.file.job = None

    def fence(self, kind: str) -> None:
        """A fence begins: every grant ends, and each present component is sent the next tag."""
        f = self.file
        f.format = max(f.format, self.counters.format)
        f.ended += f.grants
        f.grants = []
        f.is_fencing = True
        f.job = Job(kind)
        if not self.rests('Fences', self.to_present(Ask(SET_TAG))):
            self.fenced()

    def fenced(self) -> None:
        """The fence is over, and the repair begins."""
        f = self.file
        f.tag += 1
        self.note('fenced %d' % f.tag)
        f.job.worked = merged(f.ended)
        f.job.short = []
        f.job.todo = f.pieces(stripe for first, end in f.job.worked for stripe in range(first, end))
        self.repair()

    # ---- an opening of the server

    def opens(self) -> None:
        """The file of a server that is opened: it is fenced, or refused a fence, or made."""
        f = self.file
        if f.is_unsettled():
            if f.tag == GREATEST_TAG:
                f.spent = True
                self.note('spent')
            else:
                self.fence('revoke')
        elif not f.ready:
            self.make()

    # ---- repair

    def marks_short(self, p: Piece) -> None:
        """The stripe of a piece counts as short where it is."""
        f = self.file
        if is_short(f.map, f.components, p.stripe) and f.job.short[-1:] != [p.stripe]:
            f.job.short.append(p.stripe)

    def is_left(self, p: Piece) -> bool:
        """Nothing of the piece is read."""
        m = self.file.map
        return is_short(m, self.file.components, p.stripe) if m.parities else m.mirrors == 0

    def repair(self) -> None:
        """The repair goes on with its first piece."""
        f, job = self.file, self.file.job
        while job.todo.head is not None:
            p = job.todo.head
            self.marks_short(p)
            if not self.is_left(p) and self.rests('Fetches', self.to_present(self.reading(p), f.map.group_of(p.stripe))):
                return
            job.todo.advance()
        count = sum(end - first for first, end in job.worked)
        self.note('repaired %d %d' % (count, len(job.short)))
        self.step.mended.append(Mended(f.number, job.worked, job.short))
        f.ended = []
        f.is_fencing = False
        if job.kind == 'rebuild':
            self.rebuild(0)
        elif job.kind == 'audit':
            self.audit()
        else:
            f.job = None

    def unit_rows(self, p: Piece) -> List[Optional[bytes]]:
        """The rows of a piece in order of its units, each from the first present replica of its position."""
        f, heard = self.file, self.file.job.heard
        sources = (replica(f.map, f.components, position) for position in f.map.units_of(p.stripe))
        return [None if k is None else row_from(heard, k, p.count) for k in sources]

    def stores(self, p: Piece) -> List[tuple]:
        """What has to be written so that the piece is a codeword with equal replicas."""
        f = self.file
        data = [row or bytes(p.count) for row in self.unit_rows(p)[:f.map.data_units]]
        wanted = dict(zip(f.map.units_of(p.stripe), data + parity_of(f.map, data)))
        found = []
        for k, at, _ in self.to_present(Ask(READ), f.map.group_of(p.stripe)):
            want = wanted[f.map.position_with(k)]
            part = differing(row_from(f.job.heard, k, p.count), want)
            if part:
                found.append((k, at, self.writing(p, want, part)))
        return found

    def fetched(self) -> None:
        """The READs of a repair's piece are answered."""
        job = self.file.job
        job.broken = False
        if not self.rests('Stores', self.stores(job.todo.head)):
            job.todo.advance()
            self.repair()

    def stored(self) -> None:
        """Its WRITEs are answered; the piece begins again where a component became missing meanwhile."""
        job = self.file.job
        if not job.broken:
            job.todo.advance()
        self.repair()

    # ---- rebuild

    def rebuild(self, first: int) -> None:
        """The missing components from this one on are made anew."""
        f = self.file
        for k in range(first, len(f.components)):
            if not f.components[k].missing:
                continue
            drive = self.place(f, k)
            if drive is None:
                self.note('nodrive %d' % k)
                continue
            target = Target(k, drive, self.counters.object)
            self.counters.object += 1
            f.job.target = target
            self.rests('Targets', [(k, Component(drive, target.object, False), Ask(CREATE, payload=self.label(k)))])
            return
        f.job = None

    def goes_past(self, text: str) -> None:
        """The rebuild of a component ended so."""
        k = self.file.job.target.component
        self.note(text)
        self.file.job.target = None
        self.rebuild(k + 1)

    def fills_all(self) -> None:
        """The target's object is made, and its pieces come."""
        f = self.file
        group = f.map.group_with(f.job.target.component)
        f.job.todo = f.pieces(stripe for stripe in range(f.high) if f.map.group_of(stripe) == group)
        self.fills()

    def sources(self, p: Piece) -> List[tuple]:
        """The READs from which a piece of the target is made; none where it is lost."""
        f, k = self.file, self.file.job.target.component
        own, group = replica(f.map, f.components, f.map.position_with(k)), f.map.group_with(k)
        if own is None and is_beyond(f.map, f.components, group):
            return []
        if own is not None:
            return [(own, f.components[own], self.reading(p))]
        firsts = (replica(f.map, f.components, position) for position in f.map.group_positions(group))
        return [(j, f.components[j], self.reading(p)) for j in firsts if j is not None]

    def fills(self) -> None:
        """The rebuild of a component goes on with its first piece."""
        f, job = self.file, self.file.job
        target = job.target
        if job.todo.head is None:
            f.components[target.component] = Component(target.drive, target.object, False)
            self.goes_past('rebuilt %d d%d' % (target.component, target.drive))
        elif not self.rests('Gathers', self.sources(job.todo.head)):
            lost = lacking(f.map, f.components, f.map.group_with(target.component))
            self.goes_past('lost %d %s' % (target.component, ','.join(str(p) for p in lost)))

    def made_row(self, p: Piece) -> bytes:
        """The bytes of a piece of the target, from its sources."""
        f, k = self.file, self.file.job.target.component
        own = replica(f.map, f.components, f.map.position_with(k))
        if own is not None:
            return row_from(f.job.heard, own, p.count)
        units = f.map.units_of(p.stripe)
        return decoded(f.map, self.unit_rows(p))[units.index(f.map.position_with(k))]

    def gathered(self) -> None:
        """The sources of a piece are read."""
        job = self.file.job
        row = self.made_row(job.todo.head)
        part = differing(bytes(len(row)), row)
        if part:
            target = job.target
            ask = self.writing(job.todo.head, row, part)
            self.rests('Fills', [(target.component, Component(target.drive, target.object, False), ask)])
        else:
            self.filled()

    def filled(self) -> None:
        """A piece of the target is done."""
        self.file.job.todo.advance()
        self.fills()

    # ---- audit

    def audit(self) -> None:
        """An audit begins with the lengths."""
        if not self.rests('Lengths', self.to_present(Ask(GET_ATTR, attribute=LENGTH_ATTRIBUTE))):
            self.measured()

    def measured(self) -> None:
        """The lengths are read, and the stripes come."""
        f, job = self.file, self.file.job
        heard = job.heard if job.phase == 'Lengths' else {}
        job.lengths = {k: length_in(payload) for k, payload in heard.items()}
        job.short, job.bad = [], []
        job.todo = f.pieces(iter(range(f.high)))
        self.checks()

    def checks(self) -> None:
        """The audit goes on with its first piece."""
        f, job = self.file, self.file.job
        while job.todo.head is not None:
            p = job.todo.head
            self.marks_short(p)
            if self.rests('Checks', self.to_present(self.reading(p), f.map.group_of(p.stripe))):
                return
            job.todo.advance()
        bad = [stripe for stripe in job.bad if stripe not in job.short]
        total = sum(length for k, length in job.lengths.items() if not f.components[k].missing)
        self.note('audit %d %d %d %d' % (f.high, len(job.short), len(bad), total))
        f.job = None

    def checked(self) -> None:
        """The rows of an audit's piece are read."""
        f, job = self.file, self.file.job
        p = job.todo.head
        if not is_short(f.map, f.components, p.stripe) and self.stores(p) and p.stripe not in job.bad[-1:]:
            job.bad.append(p.stripe)
        job.todo.advance()
        self.checks()

    # ---- what comes to a job

    def goes_on(self) -> None:
        """Nothing is awaited any more."""
        {'Creates': self.made, 'Fences': self.fenced, 'Fetches': self.fetched, 'Stores': self.stored,
         'Targets': self.fills_all, 'Gathers': self.gathered, 'Fills': self.filled, 'Lengths': self.measured,
         'Checks': self.checked}[self.file.job.phase]()

    def waits_for(self, rest: List[Awaited]) -> None:
        """The job waits for these that are left, or goes on."""
        self.file.job.awaited = rest
        if not rest:
            self.goes_on()

    def loses(self, rest: List[Awaited], target_gone: bool) -> None:
        """A component became missing, or the target's drive was declared."""
        job = self.file.job
        if target_gone:
            self.goes_past('nodrive %d' % job.target.component)
        elif job.phase == 'Fetches':
            self.repair()
        elif job.phase in ('Gathers', 'Fills'):
            self.fills()
        elif job.phase == 'Checks':
            self.checks()
        elif job.phase != 'Targets':
            job.broken = True
            self.waits_for(rest)

    def declared(self, drive: int) -> None:
        """A drive is declared."""
        f, job = self.file, self.file.job
        gone = job is not None and job.target is not None and job.target.drive == drive
        if not gone and not any(at.drive == drive and not at.missing for at in f.components):
            return
        f.lose([k for k, at in enumerate(f.components) if at.drive == drive])
        if job is not None:
            self.loses([a for a in job.awaited if a.drive != drive], gone)

    def hears(self, a: Awaited, verdict: int, detail: int, payload: bytes) -> None:
        """The reply to an awaited command."""
        f, job = self.file, self.file.job
        rest = [b for b in job.awaited if b.nonce != a.nonce]
        if verdict == OLD_FORMAT:
            f.format = 2
            again = a._replace(nonce=self.counters.nonce, format=2)
            self.counters.nonce += 1
            self.step.commands.append(again)
            job.awaited = [again if b.nonce == a.nonce else b for b in job.awaited]
        elif a.ask.action == WRITE and verdict == NO_SPACE:
            self.is_full(a, rest)
        elif (verdict == PERFORMED or (a.ask.action == CREATE and verdict == EXISTS)
              or (a.ask.action == SET_TAG and verdict == OTHER_TAG and detail == f.tag + 1)):
            job.heard[a.component] = payload
            self.waits_for(rest)

    def is_full(self, a: Awaited, rest: List[Awaited]) -> None:
        """A drive has no room for a WRITE."""
        if self.file.job.target is not None:
            self.goes_past('nospace %d' % a.component)
            return
        self.file.lose([a.component])
        self.note('nospace %d' % a.component)
        self.loses(rest, False)


def row_from(heard: Dict[int, bytes], k: int, count: int) -> bytes:
    """What component k answered to a READ; bytes that the reply doesn't carry are 0."""
    return heard.get(k, b'')[:count].ljust(count, b'\0')


def length_in(payload: bytes) -> int:
    """The length that a reply tells, 0 where it can't be one."""
    length = int.from_bytes(payload, 'big')
    return length if len(payload) == 8 and length <= LONGEST_OBJECT else 0


def least_loaded(drives: Iterable[int], load: Dict[int, int]) -> List[int]:
    """Drives in the order in which components go to them: the fewest present components, then the lowest number."""
    return sorted(drives, key=lambda d: (load.get(d, 0), d))
