"""The metadata server (docs/rules/SERVER.md): requests, replies of drives, orders, files that are made."""
from typing import Dict, List, NamedTuple, Optional, Tuple

from pnfs_osd.transcripts import commands, structures
from pnfs_osd.transcripts.commands import Capability, Reply
from pnfs_osd.transcripts.envelopes import (BADIOMODE, BADLAYOUT, COMMIT, GET, GREATEST, INVAL, IOMODE_ANY, IOMODE_READ,
                                   IOMODE_RW, MISORDERED, NOENT, NOTHING_IN_PARTICULAR, OK, RECALLCONFLICT, TRYLATER,
                                   UNAVAILABLE, Answer, CommitArgs, GetArgs, Granted, Recall, RecallArgs, Request,
                                   Segment, answer_bytes, recall_bytes, state_of)
from pnfs_osd.transcripts.spelling import big
from pnfs_osd.transcripts.striping import Map
from pnfs_osd.transcripts.structures import Credential, Layout, ObjectId

from . import zones
from .book import GREATEST_TAG, LEASE, NO_EXPIRY, Awaited, Component, File, Grant, is_beyond
from .jobs import Counters, Mended, Step, Worker, least_loaded

MOST_COMPONENTS, FILE_END, GREATEST_GRANT = 64, 16777216, 4294967295
LOSS_TAKEN = 1
KEY_VERSION = 1

Told = Tuple[int, int, Optional[Grant]]


class KnownDrive:
    """A drive as the server knows it."""

    def __init__(self, key: bytes) -> None:
        self.key = key
        self.online = True


class Did(NamedTuple):
    """What the server did in a step: its notes, its messages, the repairs that ended, and whether it took a loss."""
    notes: List[Tuple[int, str]]
    sends: List[Tuple[str, bytes]]
    mended: List[Mended]
    took_loss: bool


NOTHING = Did([], [], [], False)


class Server:
    """The metadata server and all that it keeps."""

    def __init__(self) -> None:
        self.files: Dict[int, File] = {}
        self.drives: Dict[int, KnownDrive] = {}
        self.zones: Dict[int, int] = {}
        self.slots: Dict[int, Tuple[int, bytes]] = {}
        self.counters = Counters()
        self.clock = 0
        self.down = False
        self.step = Step()
        self.recalled: List[Grant] = []

    # ---- steps

    def begin(self) -> None:
        """A step begins."""
        self.step = Step()
        self.recalled = []

    def worker(self, f: File) -> Worker:
        """A file in the middle of a step."""
        return Worker(f, self.counters, self.step, self.place)

    def did(self, file: int = 0, answer: Optional[Tuple[int, bytes]] = None, took_loss: bool = False) -> Did:
        """What the step comes to: commands, then recalls, then the answer."""
        sends = [('d%d' % a.drive, self.sealed(a)) for a in self.step.commands]
        for g in self.recalled:
            number = self.counters.recall % (1 << 32)
            self.counters.recall += 1
            args = RecallArgs(IOMODE_ANY, False, big(file, 4), 0, GREATEST, state_of(g.number))
            sends.append(('c%d' % g.client, recall_bytes(Recall(g.client, number, file, args))))
        if answer is not None:
            sends.append(('c%d' % answer[0], answer[1]))
        return Did(self.step.notes, sends, self.step.mended, took_loss)

    def sealed(self, a: Awaited) -> bytes:
        """The bytes of a command of the server."""
        partition = commands.PARTITION_BASE + a.drive
        capability = commands.capability_bytes(Capability(
            a.format, KEY_VERSION, commands.ALL_RIGHTS, NO_EXPIRY, 0, commands.SERVER_HOLDER, a.tag, partition,
            a.object, 0, GREATEST))
        key = commands.capability_key(self.drives[a.drive].key, capability)
        return commands.write_command(a.ask.action, partition, (a.object, a.ask.offset), a.ask.length, a.nonce,
                                      a.ask.attribute, capability, key, a.ask.payload)

    # ---- drives and files

    def load(self) -> Dict[int, int]:
        """How many present components stand on each drive."""
        counts: Dict[int, int] = {}
        for f in self.files.values():
            for at in f.components:
                if not at.missing:
                    counts[at.drive] = counts.get(at.drive, 0) + 1
        return counts

    def online(self) -> List[int]:
        """The drives that weren't declared."""
        return [number for number, drive in self.drives.items() if drive.online]

    def online_for(self, zoned: bool) -> List[int]:
        """Those on which a file may be made: of a zoned one the drive has a zone."""
        return [d for d in self.online() if d in self.zones or not zoned]

    def place(self, f: File, k: int) -> Optional[int]:
        """The drive on which component k of a file is made anew."""
        taken = [at.drive for at in f.components]
        free = [d for d in self.online_for(f.zoned) if d not in taken]
        if f.zoned:
            spread = zones.spread_of(f.map)
            free = [d for d in free if zones.takes(spread, f.components, k, self.zones[d], self.zones)]
        return least_loaded(free, self.load())[0] if free else None

    def add_drive(self, number: int, key: bytes) -> None:
        """There is a further drive."""
        self.drives[number] = KnownDrive(key)

    def refusal(self, number: int, m: Map, zoned: bool) -> Optional[str]:
        """Why a file isn't made."""
        if number in self.files:
            return 'exists'
        fault = m.fault(MOST_COMPONENTS)
        if fault:
            return 'badmap %s' % fault
        online = self.online_for(zoned)
        if len(online) < m.components:
            return 'toofew %d' % len(online)
        if zoned and not zones.has_room(zones.spread_of(m), online, self.zones):
            return 'nospread %d' % len(online)
        return None

    def placed(self, m: Map, zoned: bool) -> List[int]:
        """The drives of a new file, in the order of its components."""
        online = self.online_for(zoned)
        if zoned:
            return zones.dealt(zones.spread_of(m), online, self.zones)
        return least_loaded(online, self.load())[:m.components]

    def make_file(self, number: int, m: Map, tag: int, zoned: bool = False) -> Did:
        """A file is made, or a note says why not."""
        self.begin()
        refused = self.refusal(number, m, zoned)
        if refused:
            return Did([(number, 'refused %s' % refused)], [], [], False)
        drives = self.placed(m, zoned)
        first = self.counters.object
        self.counters.object += m.components
        components = [Component(d, first + k, False) for k, d in enumerate(drives)]
        f = File(number, m, tag, self.counters.format, components)
        f.zoned = zoned
        self.files[number] = f
        self.files = dict(sorted(self.files.items()))
        self.worker(f).make()
        return self.did()

    def crowded(self, number: int) -> Optional[str]:
        """How the components of a zoned file aren't spread over zones; nothing where they are."""
        f = self.files.get(number)
        return None if f is None or not f.zoned else zones.crowded(f.map, f.components, self.zones)

    # ---- orders

    def recall(self, number: int) -> Did:
        """Each grant of the file is recalled."""
        self.begin()
        self.recalled = list(self.files[number].grants)
        return self.did(number)

    def start(self, number: int, kind: str) -> Did:
        """Revoke, rebuild or audit."""
        self.begin()
        f = self.files[number]
        if f.job is not None:
            self.step.notes.append((number, 'busy %d' % f.job.lowest()))
        elif f.tag == GREATEST_TAG:
            self.step.notes.append((number, 'spent'))
        else:
            self.worker(f).fence(kind)
        return self.did()

    def declare(self, drive: int) -> Did:
        """A drive is taken out."""
        self.begin()
        self.drives[drive].online = False
        for f in self.files.values():
            self.worker(f).declared(drive)
        return self.did()

    def resend(self) -> Did:
        """What jobs wait for is sent once more."""
        self.begin()
        for f in self.files.values():
            self.step.commands += f.job.awaited if f.job else []
        return self.did()

    def raise_format(self, form: int) -> None:
        """The server's format only rises."""
        self.counters.format = max(self.counters.format, form)

    # ---- crashes and openings

    def crash(self) -> None:
        """The server is down: its jobs are gone, and that a fence was refused."""
        self.down = True
        for f in self.files.values():
            f.job = None
            f.spent = False

    def opens(self) -> Did:
        """It is opened again: each file in order."""
        self.down = False
        self.begin()
        for f in self.files.values():
            self.worker(f).opens()
        return self.did()

    # ---- replies

    def on_reply(self, drive: int, r: Reply) -> Did:
        """A reply of a drive, at the file whose job awaits it."""
        self.begin()
        for f in self.files.values():
            awaited = f.job.awaited if f.job else []
            found = next((a for a in awaited if a.nonce == r.nonce and a.drive == drive), None)
            if found is not None:
                self.worker(f).hears(found, r.verdict, r.detail, r.payload)
                return self.did()
        return NOTHING

    # ---- requests

    def on_request(self, q: Request) -> Did:
        """A client's request, over its slot."""
        report = None
        if isinstance(q.args, CommitArgs):
            if structures.maybe(structures.update_in, q.args.body) is None:
                return NOTHING
        elif not isinstance(q.args, GetArgs):
            report = structures.maybe(structures.errors_in, q.args.body)
            if report is None:
                return NOTHING
        self.begin()
        last, kept = self.slots.get(q.client, (0, b''))
        if q.sequence == last and kept:
            return self.did(q.file, (q.client, kept))
        expected = min(last + 1, NOTHING_IN_PARTICULAR)
        if q.sequence != last + 1:
            return self.did(q.file, (q.client, self.answer(q, (MISORDERED, expected, None))))
        told = self.carry_out(q, report)
        answer = self.answer(q, told)
        self.slots[q.client] = (q.sequence, answer)
        took_loss = report is not None and told[:2] == (OK, LOSS_TAKEN)
        return self.did(q.file, (q.client, answer), took_loss)

    def answer(self, q: Request, told: Told) -> bytes:
        """The bytes of the answer to a request."""
        status, detail, grant = told
        f = self.files.get(q.file)
        result = None if grant is None or f is None else self.granted(f, grant)
        return answer_bytes(Answer(q.client, q.sequence, q.file, q.operation, detail, f.size if f else 0, status,
                                   result))

    def carry_out(self, q: Request, report: Optional[List[structures.IoError]]) -> Told:
        """A new request; the status of its answer, its detail, and the grant that is given."""
        f = self.files.get(q.file)
        if f is None:
            return {GET: NOENT, COMMIT: BADLAYOUT}.get(q.operation, OK), 0, None
        if isinstance(q.args, GetArgs):
            return self.get(f, q.client, q.args)
        if isinstance(q.args, CommitArgs):
            return self.commit(f, q.client, q.args.last_offset)
        return self.take_back(f, q.client, report or [])

    def get(self, f: File, client: int, a: GetArgs) -> Told:
        """LAYOUTGET: the first row that applies."""
        if a.iomode not in (IOMODE_READ, IOMODE_RW):
            return BADIOMODE, 0, None
        if a.length == 0 or a.offset + a.length > FILE_END:
            return INVAL, 0, None
        if f.spent:
            return UNAVAILABLE, NOTHING_IN_PARTICULAR, None
        if f.job is not None:
            return RECALLCONFLICT, f.job.lowest(), None
        asked = self.asked(f, client, a)
        against = [g for g in f.grants if asked.conflicts(g)]
        if f.grant_of(client) is not None or any(g.expiry < self.clock for g in against):
            if f.tag == GREATEST_TAG:
                self.step.notes.append((f.number, 'spent'))
                return UNAVAILABLE, NOTHING_IN_PARTICULAR, None
            self.worker(f).fence('revoke')
            if f.job is not None:
                return RECALLCONFLICT, f.job.lowest(), None
        return self.give(f, asked)

    def asked(self, f: File, client: int, a: GetArgs) -> Grant:
        """The grant that a LAYOUTGET asks: whole stripes, for 90 seconds."""
        rw, end, stripe = a.iomode == IOMODE_RW, a.offset + a.length, f.map.stripe_bytes
        return Grant(self.counters.grant, client, rw, rw and end > f.size, a.offset // stripe, -(-end // stripe),
                     min(self.clock + LEASE, NO_EXPIRY))

    def give(self, f: File, asked: Grant) -> Told:
        """The later rows of LAYOUTGET."""
        if self.counters.grant > GREATEST_GRANT:
            return UNAVAILABLE, NOTHING_IN_PARTICULAR, None
        lacked = self.lacked(f, asked)
        if lacked is not None:
            return UNAVAILABLE, lacked, None
        against = [g for g in f.grants if asked.conflicts(g)]
        if against:
            self.recalled = against
            return TRYLATER, against[0].client, None
        self.counters.grant += 1
        f.grants.append(asked)
        if asked.rw:
            f.high = max(f.high, asked.end)
        return OK, 0, asked

    @staticmethod
    def lacked(f: File, asked: Grant) -> Optional[int]:
        """The component that a writer of these stripes would lack."""
        if not asked.rw:
            return None
        for k, at in enumerate(f.components):
            group = f.map.group_with(k)
            stands = f.map.rows_below(group, asked.first) < f.map.rows_below(group, asked.end)
            if at.missing and stands and is_beyond(f.map, f.components, group):
                return k
        return None

    @staticmethod
    def commit(f: File, client: int, last: Optional[int]) -> Told:
        """LAYOUTCOMMIT: the last offset written makes the size."""
        g, stripe = f.grant_of(client), f.map.stripe_bytes
        if g is None:
            return BADLAYOUT, 0, None
        if last is None or not g.extending or not g.first * stripe <= last < min(g.end * stripe, FILE_END):
            return INVAL, 0, None
        f.size = max(f.size, last + 1)
        return OK, 0, None

    def take_back(self, f: File, client: int, report: List[structures.IoError]) -> Told:
        """LAYOUTRETURN: clean, taken as a loss, or with a fence."""
        g = f.grant_of(client)
        if g is None:
            return OK, 0, None
        lost = self.loss(f, g, report)
        if report and lost is None:
            if f.tag == GREATEST_TAG:
                self.step.notes.append((f.number, 'spent'))
                return UNAVAILABLE, NOTHING_IN_PARTICULAR, None
            self.worker(f).fence('revoke')
            return OK, 0, None
        f.grants.remove(g)
        if not report or lost is None:
            return OK, 0, None
        f.lose(lost)
        self.step.notes += [(f.number, 'reported %d' % k) for k in lost]
        return OK, LOSS_TAKEN, None

    @staticmethod
    def loss(f: File, g: Grant, report: List[structures.IoError]) -> Optional[List[int]]:
        """The components that a report takes out, or none where it isn't taken as a loss."""
        if not g.rw or f.grants != [g]:
            return None
        names = {ObjectId(at.drive, commands.PARTITION_BASE + at.drive, at.object): k
                 for k, at in reversed(list(enumerate(f.components)))}
        if any(e.errno != structures.UNREACHABLE or e.component not in names for e in report):
            return None
        lost = sorted({names[e.component] for e in report})
        after = [at._replace(missing=at.missing or k in lost) for k, at in enumerate(f.components)]
        if any(is_beyond(f.map, after, f.map.group_with(k)) for k in lost):
            return None
        return lost

    # ---- layouts

    def granted(self, f: File, g: Grant) -> Granted:
        """The result that carries a grant's layout."""
        stripe = f.map.stripe_bytes
        credentials = [self.credential(f, g, k, at) for k, at in enumerate(f.components)]
        body = structures.layout_bytes(Layout(f.map, 0, credentials))
        segment = Segment(g.first * stripe, (g.end - g.first) * stripe, IOMODE_RW if g.rw else IOMODE_READ, body)
        return Granted(False, state_of(g.number), [segment])

    def credential(self, f: File, g: Grant, k: int, at: Component) -> Credential:
        """The credential of a component under a grant."""
        partition = commands.PARTITION_BASE + at.drive
        named = ObjectId(at.drive, partition, at.object)
        if at.missing:
            return Credential(named, structures.MISSING, structures.NO_SECURITY, b'', b'')
        group = f.map.group_with(k)
        first, end = f.map.rows_below(group, g.first), f.map.rows_below(group, g.end)
        start, length = (first * f.map.unit, (end - first) * f.map.unit) if first < end else (0, 0)
        rights = commands.RIGHTS[commands.READ] | (commands.RIGHTS[commands.WRITE] if g.rw else 0)
        capability = commands.capability_bytes(Capability(
            f.format, KEY_VERSION, rights, g.expiry, g.number, g.client, f.tag, partition, at.object, start, length))
        key = commands.capability_key(self.drives[at.drive].key, capability)
        return Credential(named, structures.VERSION_2, structures.NO_SECURITY, key, capability)
