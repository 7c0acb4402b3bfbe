"""Random scenarios. Each seed gives one, the same on every machine."""
from random import Random
from typing import Callable, Dict, List, NamedTuple, Set, Tuple

from pnfs_osd.transcripts import commands
from pnfs_osd.transcripts.spelling import in_hex
from pnfs_osd.transcripts.striping import Map

from .guide import Guide

MOST_MESSAGES, MOST_EVENTS = 420, 70
MOST_DRIVES, MOST_FILES = 16, 64
# how often a failed drive is declared behind an event, and one of those that are down is opened
DECLARED, OPENED = 0.2, 0.12
# how often a drive is stored
STORED = 0.5
# how often the drives of a storm have zones, how often a drive then has none, and how often a file is zoned there
ZONES, ZONELESS, ZONED = 0.35, 0.1, 0.7


class Shape(NamedTuple):
    """A file's map: components, unit, width, depth, mirrors, algorithm."""
    components: int
    unit: int
    width: int
    depth: int
    mirrors: int
    algorithm: int


# how often each kind of event comes, by the kind of weather
WEATHERS: Dict[str, Dict[str, int]] = {
    'prompt': {'do': 30, 'fail': 3, 'stop': 1, 'job': 6, 'declare': 6, 'recall': 2, 'leave': 2, 'settle': 2, 'clock': 1,
               'client': 1, 'file': 1, 'crash': 2},
    'late': {'do': 5, 'call': 16, 'deliver': 60, 'drop': 5, 'repeat': 12, 'settle': 3, 'timeout': 6, 'resend': 8,
             'stop': 2, 'job': 3, 'recall': 3, 'leave': 1, 'fail': 1, 'declare': 2, 'clock': 1, 'crash': 2},
    'torn': {'do': 10, 'call': 24, 'deliver': 50, 'stop': 6, 'job': 6, 'fail': 5, 'declare': 3, 'repeat': 5, 'settle': 3,
             'client': 3, 'timeout': 2, 'resend': 2},
    'restarting': {'do': 10, 'call': 16, 'deliver': 60, 'repeat': 5, 'crash': 10, 'job': 10, 'resend': 5, 'settle': 4,
                   'stop': 2, 'fail': 2, 'declare': 1, 'timeout': 2, 'file': 3, 'clock': 1, 'recall': 1, 'leave': 1,
                   'inject': 2, 'format': 1},
    'stranger': {'do': 20, 'call': 8, 'deliver': 20, 'inject': 20, 'repeat': 6, 'job': 3, 'settle': 3, 'stop': 1,
                 'fail': 1, 'declare': 1, 'format': 1, 'least': 1, 'clock': 1},
    'formats': {'do': 20, 'call': 5, 'deliver': 12, 'job': 6, 'format': 4, 'least': 5, 'settle': 3, 'fail': 1,
                'declare': 2, 'inject': 3, 'resend': 2, 'clock': 3},
    'burning': {'do': 26, 'burn': 8, 'fail': 2, 'declare': 6, 'rebuild': 8, 'job': 3, 'settle': 4, 'zone': 3, 'drive': 2,
                'file': 4, 'call': 4, 'deliver': 10, 'crash': 2, 'leave': 1, 'stop': 1},
}


class Weather:
    """One storm: a guide, a seed's random numbers, and what kind of weather it is."""

    def __init__(self, seed: int) -> None:
        self.random = Random('storm %d' % seed)
        self.guide = Guide()
        self.kind = self.random.choice(sorted(WEATHERS))
        self.has_zones = self.kind == 'burning' or self.random.random() < ZONES
        self.key = self.some_bytes(20)
        self.files: Dict[int, Shape] = {}
        self.far: Set[int] = set()

    def pick(self, numbers: List[int]) -> int:
        """One of some numbers."""
        return self.random.choice(numbers)

    def some_bytes(self, length: int) -> bytes:
        """Random bytes."""
        return bytes(self.random.randrange(256) for _ in range(length))

    # ---- the parties

    def parties(self) -> None:
        """Drives, clients and files."""
        r = self.random
        for _ in range(r.randint(7, 14) if self.has_zones else r.randint(4, 9)):
            self.drive()
        if self.has_zones:
            self.zones()
        if r.random() < 0.15:
            self.guide.goes('format s 2')
        for n in range(r.randint(2, 4)):
            self.guide.goes('client c%d' % n)
        for _ in range(r.randint(1, 2)):
            self.file()
        while not self.files:
            self.file()

    def drive(self) -> None:
        """A further drive."""
        r = self.random
        capacity = r.randint(8, 90) if r.random() < 0.06 else 20000000
        word = 'disk' if r.random() < STORED else 'drive'
        own = self.key if r.random() < 0.5 else self.some_bytes(20)
        number = len(self.guide.drives)
        if number < MOST_DRIVES:
            self.guide.goes('%s d%d %s %d' % (word, number, own.hex(), capacity))

    def zones(self) -> None:
        """Most drives get a zone."""
        count = self.random.randint(3, 5) if self.kind == 'burning' else self.random.randint(2, 5)
        for n in self.guide.zoneless():
            if self.random.random() >= ZONELESS:
                self.guide.goes('zone d%d %d' % (n, self.random.randrange(count)))

    def zone(self) -> None:
        """A drive that has no zone gets one, a new one or one that others are in."""
        zoneless = self.guide.zoneless()
        if zoneless:
            zone = self.random.choice(sorted(self.guide.server.zones.values()) + [7])
            self.guide.goes('zone d%d %d' % (self.pick(zoneless), zone))

    def shape(self) -> Shape:
        """A map that the drives suffice for."""
        r = self.random
        drives = len(self.guide.standing())
        unit = r.choice([1, 2, 3, 4, 5, 8, 8, 16])
        while True:
            algorithm, mirrors = r.randint(1, 4), r.choice([0, 0, 0, 0, 1, 1, 2])
            positions = r.randint(1, 5)
            width = r.choice([0, 0, 0, 1, 2, 3])
            depth = r.randint(1, 3) if width else 0
            shape = Shape(positions * (mirrors + 1), unit, width, depth, mirrors, algorithm)
            group = width or positions
            fine = positions % group == 0 and group > {1: 0, 2: 1, 3: 1, 4: 2}[algorithm]
            if (fine and shape.components <= drives) or drives < 3:
                return shape

    def spread_shape(self) -> Shape:
        """A map for a zoned file, most often one for which the zones have room; where it burns, a wide one."""
        shape = self.shape()
        for _ in range(60):
            has_room = self.guide.server.refusal(MOST_FILES, Map(*shape), True) is None
            if has_room and (self.kind != 'burning' or shape.components > 3):
                break
            shape = self.shape()
        return shape

    def file(self) -> None:
        """A file, now and then one that is refused."""
        number = self.random.randrange(4)
        zoned = self.has_zones and self.random.random() < ZONED
        shape = self.spread_shape() if zoned and self.random.random() < 0.8 else self.shape()
        tag = 4294967294 if self.random.random() < 0.03 else self.random.randint(1, 9)
        fresh = number not in self.files
        self.guide.goes('%s f%d %d %d %d %d %d %d %d' % (('zfile' if zoned else 'file', number) + shape + (tag,)))
        if fresh and number in self.guide.server.files:
            self.files[number] = shape

    # ---- calls

    def call_text(self, word: str) -> str:
        """A call of a client that lives."""
        r = self.random
        living = self.guide.living()
        idle = [n for n in living if self.guide.clients[n].call is None]
        client = self.pick(idle if idle and r.random() < 0.9 else living)
        file = r.choice(sorted(self.files) + [MOST_FILES - 1] * (r.random() < 0.02))
        shape = self.files.get(file, Shape(1, 4, 0, 0, 0, 1))
        reach = shape.unit * max(shape.components, 2) * 3
        offset = r.randrange(reach)
        if r.random() < 0.02:
            offset = r.choice([262143, 16777210])
            self.far.add(file)
        length = r.choice([0, 1, shape.unit, r.randrange(1, shape.unit * 3 + 2), r.randrange(1, reach + 1)])
        if r.random() < 0.55:
            return '%s c%d write f%d %d %s' % (word, client, file, offset, in_hex(self.some_bytes(length)))
        return '%s c%d read f%d %d %d' % (word, client, file, offset, length if length else reach)

    def do(self) -> None:
        """A call with prompt delivery."""
        self.guide.goes(self.call_text('do'))

    def call(self) -> None:
        """A call whose messages wait."""
        self.guide.goes(self.call_text('call'))

    # ---- the network

    def deliver(self) -> None:
        """A message that waits, most often one of the first."""
        waiting = self.guide.waiting()
        if waiting:
            few = waiting[:self.random.choice([1, 1, 2, 4, len(waiting)])]
            self.guide.goes('deliver %d' % self.pick(few))

    def repeat(self) -> None:
        """Any message, most often one that was delivered before."""
        if self.guide.messages:
            self.guide.goes('deliver %d' % self.random.randrange(len(self.guide.messages)))

    def drop(self) -> None:
        """A message that waits is lost."""
        waiting = self.guide.waiting()
        if waiting:
            self.guide.goes('drop %d' % self.pick(waiting))

    def settle(self) -> None:
        """All that waits is delivered."""
        self.guide.goes('settle')

    def resend(self) -> None:
        """A client or the server sends again."""
        who = self.random.choice(['s'] + ['c%d' % n for n in self.guide.living()])
        self.guide.goes('resend %s' % who)

    def timeout(self) -> None:
        """A client gives up to wait for a component."""
        calling = [n for n in self.guide.living() if self.guide.clients[n].awaits_drive() is not None]
        if calling and self.random.random() < 0.9:
            client = self.pick(calling)
            self.guide.goes('timeout c%d %d' % (client, self.guide.clients[client].awaits_drive()))
        else:
            self.guide.goes('timeout c%d %d' % (self.pick(self.guide.living()), self.random.randrange(4)))

    def inject(self) -> None:
        """A stranger's bytes: a copy of a message, an altered one, or any."""
        r, guide = self.random, self.guide
        sent = guide.to_drives()
        if not sent or not guide.standing():
            return
        message = guide.messages[self.pick(sent[-40:])].line
        drive = message.receiver if r.random() < 0.85 else 'd%d' % self.pick(guide.standing())
        data = message.data
        chance = r.random()
        if chance < 0.25:
            at = r.randrange(len(data))
            data = data[:at] + bytes([data[at] ^ (1 << r.randrange(8))]) + data[at + 1:]
        elif chance < 0.32:
            data = self.some_bytes(r.randrange(300))
        elif chance < 0.35:
            data = self.forged_copy(message.receiver, data)
        guide.goes('inject %s %s' % (drive, in_hex(data)))

    def forged_copy(self, drive: str, data: bytes) -> bytes:
        """A command that was never sent, under the drive's own key."""
        c = commands.maybe_command(data)
        key = self.guide.drives[int(drive[1:])].keys[1]
        if c is None or c.action not in (commands.READ, commands.WRITE):
            return data
        own = commands.capability_key(key, c.capability_bytes)
        payload = self.some_bytes(len(c.payload))
        return commands.write_command(c.action, c.partition, (c.object, c.offset), c.length,
                                      c.nonce + self.random.randint(0, 3), 0, c.capability_bytes, own, payload)

    # ---- orders and failures

    def order_for(self, file: int) -> str:
        """Revoke, rebuild or audit; the last two go through all stripes, so not of a file that was written far out."""
        kind = self.random.choice(['revoke', 'revoke', 'rebuild', 'audit'])
        return '%s f%d' % ('revoke' if file in self.far else kind, file)

    def job(self) -> None:
        """A job of a file."""
        self.guide.goes(self.order_for(self.pick(sorted(self.files))))
        if self.kind not in ('late', 'torn') and self.random.random() < 0.8:
            self.guide.goes('settle')

    def recall(self) -> None:
        """A recall of every grant of a file."""
        self.guide.goes('recall f%d' % self.pick(sorted(self.files)))

    def leave(self) -> None:
        """A client returns its grants."""
        self.guide.goes('leave c%d' % self.pick(self.guide.living()))

    def stop(self) -> None:
        """A client is stopped, if others live."""
        living = self.guide.living()
        if len(living) > 1:
            self.guide.goes('stop c%d' % self.pick(living))

    def fail(self) -> None:
        """A drive fails, seldom a third one."""
        standing = self.guide.standing()
        failed = len(self.guide.drives) - len(standing)
        if len(standing) > 2 and (failed < 2 or self.random.random() < 0.2):
            self.guide.goes('fail d%d' % self.pick(standing))

    def burn(self) -> None:
        """All drives of a zone fail, if others are left; seldom those of a second zone."""
        guide = self.guide
        standing = guide.standing()
        zones = sorted({guide.server.zones[n] for n in standing if n in guide.server.zones})
        if not zones or (len(standing) < len(guide.drives) and self.random.random() < 0.7):
            return
        zone = self.pick(zones)
        burning = [n for n in standing if guide.server.zones.get(n) == zone]
        if len(standing) - len(burning) > 2:
            for n in burning:
                guide.goes('fail d%d' % n)

    def rebuild(self) -> None:
        """All failed drives are declared, and a file is rebuilt."""
        for drive in self.guide.fallen():
            self.guide.goes('declare d%d' % drive)
        near = [file for file in sorted(self.files) if file not in self.far]
        if near:
            self.guide.goes('rebuild f%d' % self.pick(near))
            self.guide.goes('settle')

    def declare(self) -> None:
        """A failed drive is taken out."""
        fallen = self.guide.fallen()
        if fallen:
            self.guide.goes('declare d%d' % self.pick(fallen))

    def crash(self) -> None:
        """The server or a stored drive goes down."""
        crashing = self.guide.crashing()
        if crashing:
            self.guide.goes('crash %s' % (crashing[0] if self.random.random() < 0.5 else self.random.choice(crashing)))

    def reopen(self) -> None:
        """One of those that are down is opened."""
        down = self.guide.down()
        if down:
            self.guide.goes('reopen %s' % self.random.choice(down))

    def client(self) -> None:
        """A further client."""
        number = len(self.guide.clients)
        if number < 7:
            self.guide.goes('client c%d' % number)

    def format(self) -> None:
        """The server's format rises."""
        self.guide.goes('format s %d' % self.random.randint(1, 2))

    def least(self) -> None:
        """A drive's least format rises."""
        if self.guide.standing():
            self.guide.goes('least d%d %d' % (self.pick(self.guide.standing()), self.random.choice([1, 2, 2])))

    def clock(self) -> None:
        """A clock is set."""
        r = self.random
        time = self.guide.server.clock + r.choice([1, 40, 91, 200])
        if r.random() < 0.6 or not self.guide.standing():
            self.guide.goes('clock s %d' % time)
        else:
            self.guide.goes('clock d%d %d' % (self.pick(self.guide.standing()), time))

    # ---- the whole

    def ending(self) -> None:
        """All is delivered, failed drives are declared, and a living client reads each file."""
        guide = self.guide
        for party in guide.down():
            if self.random.random() < 0.9:
                guide.goes('reopen %s' % party)
        if self.random.random() < 0.8:
            guide.goes('settle')
        if self.kind == 'burning':
            self.burn()
            self.do()
            self.rebuild()
        for drive in guide.fallen():
            if self.random.random() < 0.8:
                guide.goes('declare d%d' % drive)
        guide.goes('client c15')
        for file, shape in sorted(self.files.items()):
            if self.random.random() < 0.7:
                guide.goes(self.order_for(file))
                guide.goes('settle')
            guide.goes('do c15 read f%d 0 %d' % (file, shape.unit * shape.components * 8))

    def blow(self) -> List[str]:
        """The events of the storm."""
        self.parties()
        weights = WEATHERS[self.kind]
        kinds, chances = list(weights), list(weights.values())
        events = self.random.randint(12, MOST_EVENTS) + len(self.guide.server.zones)
        while self.files and len(self.guide.scenario) < events and len(self.guide.messages) < MOST_MESSAGES:
            before = len(self.guide.scenario)
            act: Callable[[], None] = getattr(self, self.random.choices(kinds, chances)[0])
            act()
            if self.guide.fallen() and self.random.random() < DECLARED:
                self.declare()
            if self.guide.down() and self.random.random() < OPENED:
                self.reopen()
            events -= len(self.guide.scenario) == before
        self.ending()
        return self.guide.scenario

    def refused_event(self) -> Tuple[str, str]:
        """An event that the world refuses, and the word for why."""
        guide, r = self.guide, self.random
        choices = ['client c15', 'deliver %d' % len(guide.messages), 'drive d0 %s 1' % ('0b' * 20), 'revoke f62',
                   'do c14 read f0 0 1', 'stop c14', 'fail d63', 'declare d62', 'clock d61 1', 'zone d60 1', 'crash d60',
                   'disk d0 %s 1' % ('0b' * 20)]
        choices += ['zone d%d %d' % zone for zone in guide.server.zones.items()]
        choices += ['zone d%d 1' % n for n, drive in guide.drives.items() if drive.failed]
        choices += ['reopen %s' % party for party in guide.crashing()]
        choices += ['crash d%d' % n for n, drive in guide.drives.items() if not drive.stored]
        for party in guide.down():
            choices += ['crash %s' % party] + (['inject %s -' % party, 'least %s 2' % party] if party != 's' else [])
        if guide.server.down:
            choices += ['clock s 1', 'resend s', 'format s 1', 'file f61 1 4 0 0 0 1 1', 'zfile f61 1 4 0 0 0 1 1',
                        'drive d59 %s 1' % ('0b' * 20)]
            choices += ['zone d%d 1' % n for n in guide.zoneless()]
            choices += ['recall f%d' % n for n in guide.server.files]
        choices += ['declare d%d' % n for n in guide.standing()[:1]]
        choices += ['leave c%d' % n for n, client in guide.clients.items() if client.stopped]
        choices += ['fail d%d' % n for n, drive in guide.drives.items() if drive.failed]
        text = r.choice(choices)
        refused = guide.goes(text)
        assert refused is not None
        return text, refused[0]
