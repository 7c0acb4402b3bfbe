"""A cluster for the storms over TCP, as a seed gives it: its drives and files, what its processes are told, and its weather."""
import json
from random import Random
from typing import Dict, List, NamedTuple, Tuple

from pnfs_osd.transcripts.spelling import in_hex

from .weather import Shape

# how often something happens to an exchange of a client or the server with a drive, and how often to one with the server
AT_DRIVES = ('lose', 'unanswer', 'late', 'twice', 'again', 'kill', 'fall', 'inject')
AT_SERVER = ('lose', 'unanswer', 'late', 'twice', 'again', 'kill', 'fall')
RATES: Dict[str, Tuple[Dict[str, float], Dict[str, float]]] = {
    'fair': ({}, {}),
    'repeating': ({'twice': 0.08, 'again': 0.08, 'inject': 0.02}, {'twice': 0.1, 'again': 0.1}),
    'losing': ({'lose': 0.02, 'unanswer': 0.02, 'late': 0.03, 'again': 0.02}, {'lose': 0.02, 'unanswer': 0.02, 'late': 0.02}),
    'falling': ({'fall': 0.03, 'again': 0.02}, {}),
    'crashing': ({'again': 0.02}, {'fall': 0.06, 'again': 0.03}),
    'stopping': ({'kill': 0.02, 'late': 0.02, 'again': 0.03}, {'kill': 0.04, 'again': 0.02}),
    'storm': ({'lose': 0.01, 'unanswer': 0.01, 'late': 0.02, 'twice': 0.03, 'again': 0.03, 'kill': 0.01, 'fall': 0.01,
               'inject': 0.02},
              {'lose': 0.01, 'unanswer': 0.01, 'late': 0.02, 'twice': 0.03, 'again': 0.03, 'kill': 0.02, 'fall': 0.03})}
CAPACITY = 20_000_000
# clients have the numbers below this; it gives the orders itself
ORDERS = 15
# the number of the client that reads all files at the end
LAST = 14


class Drive(NamedTuple):
    """A drive of a cluster text."""

    number: int
    key: str
    capacity: int


class File(NamedTuple):
    """A file of a cluster text."""

    number: int
    shape: Shape


class Text(NamedTuple):
    """What a cluster text says, but for addresses."""

    format: int
    drives: List[Drive]
    files: List[File]

    def spelled(self) -> str:
        """For the file of the steps."""
        return json.dumps([self.format, [list(d) for d in self.drives], [[f.number, list(f.shape)] for f in self.files]])

    def toml(self, server: str, addresses: Dict[int, str]) -> str:
        """For a process."""
        parts = ['server = "%s"\nformat = %d\n' % (server, self.format)]
        for d in self.drives:
            parts.append('[[drive]]\nnumber = %d\naddress = "%s"\nkey = "%s"\ncapacity = %d\n' % (
                d.number, addresses[d.number], d.key, d.capacity))
        for f in self.files:
            rows = ''.join('%s = %d\n' % pair for pair in zip(Shape._fields, f.shape))
            parts.append('[[file]]\nnumber = %d\n%s' % (f.number, rows))
        return '\n'.join(parts)


def read_text(spelled: str) -> Text:
    """What a cluster text says, out of a step."""
    form, drives, files = json.loads(spelled)
    return Text(form, [Drive(*d) for d in drives], [File(number, Shape(*shape)) for number, shape in files])


class Town:
    """A cluster and its weather, as a seed gives them."""

    def __init__(self, seed: int) -> None:
        r = self.random = Random('cluster %d' % seed)
        self.kind = r.choice(sorted(RATES))
        self.drive_rates, self.server_rates = RATES[self.kind]
        self.keeps_server = self.kind in ('crashing', 'storm') or r.random() < 0.5
        count = r.randint(4, 6)
        self.keeps = [self.kind in ('falling', 'storm') or r.random() < 0.6 for _ in range(count)]
        drives = [Drive(n, bytes(r.randrange(256) for _ in range(20)).hex(), CAPACITY) for n in range(count)]
        files = [File(n, self.shape(count - 1)) for n in range(r.randint(1, 2))]
        self.text = Text(2 if r.random() < 0.2 else 1, drives, files)
        # what the server is given when it is started again
        self.later = self.text
        if self.keeps_server and r.random() < 0.5:
            self.later = Text(2, drives, files + [File(5, self.shape(count - 1))])
        self.users = r.randint(2, 3)
        self.calls = r.randint(4, 7)
        self.orders = r.randint(1, 3)
        # a drive that is killed in the midst of the run, and never comes back
        self.doomed = r.randrange(count) if self.kind in ('losing', 'storm', 'fair') and r.random() < 0.5 else None

    def shape(self, drives: int) -> Shape:
        """A map that leaves a drive to spare."""
        r = self.random
        unit = r.choice([1, 2, 4, 8, 16, 100, 1024])
        while True:
            algorithm, mirrors = r.choice([1, 2, 3, 3, 4]), r.choice([0, 0, 0, 1])
            positions, width = r.randint(1, 5), r.choice([0, 0, 0, 2])
            depth = r.randint(1, 2) if width else 0
            shape = Shape(positions * (mirrors + 1), unit, width, depth, mirrors, algorithm)
            group = width or positions
            if positions % group == 0 and group > {1: 0, 2: 1, 3: 1, 4: 2}[algorithm] and shape.components <= drives:
                return shape

    def call_text(self, r: Random, files: List[File]) -> str:
        """A call, in a scenario's words."""
        file = r.choice(files)
        reach = file.shape.unit * max(file.shape.components, 2) * 3
        offset = r.randrange(reach)
        length = r.choice([0, 1, file.shape.unit, r.randrange(1, reach + 1), r.randrange(1, reach + 1)])
        if r.random() < 0.6:
            data = bytes(r.randrange(256) for _ in range(length))
            return 'write f%d %d %s' % (file.number, offset, in_hex(data))
        return 'read f%d %d %d' % (file.number, offset, length or reach)

    def order_text(self, r: Random) -> str:
        """An order, in a scenario's words."""
        return '%s f%d' % (r.choice(['recall', 'revoke', 'revoke', 'rebuild', 'audit']), r.choice(self.text.files).number)
