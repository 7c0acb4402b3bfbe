"""What is drawn of a run: rows, arrows, bars and words, read off the lines of its transcript."""
from typing import Dict, List, NamedTuple, Optional, Tuple

from pnfs_osd.transcripts import commands, envelopes
from pnfs_osd.transcripts.lines import (Delivered, Ended, Error, Event, Judged, Last, Line, Note, Refused, Sent, TimedOut)

from .labels import label, verdict_label

LONGEST_WORD, LONGEST_OUTCOME = 16, 24
PARTY_ORDER = {'c': 0, 's': 1, 'd': 2}


class Arrow(NamedTuple):
    """A message from where it was sent to where it was delivered, if it was."""
    number: int
    sender: str
    receiver: str
    sent: int
    delivered: Optional[int]
    style: str
    words: str
    verdict: str


class Bar(NamedTuple):
    """What lasts for some rows at a party."""
    party: str
    first: int
    last: Optional[int]
    style: str
    words: str


class Words(NamedTuple):
    """Words at a party in a row."""
    party: str
    row: int
    style: str
    words: str


class Chart:
    """All that is drawn of a run."""

    def __init__(self) -> None:
        self.rows = 0
        self.parties: Dict[str, int] = {'s': 0}
        self.zones: Dict[str, int] = {}
        self.events: List[Tuple[int, str]] = []
        self.arrows: List[Arrow] = []
        self.bars: List[Bar] = []
        self.words: List[Words] = []
        self.last = ''

    def columns(self) -> List[str]:
        """The parties from left to right: clients, the server, drives."""
        return sorted(self.parties, key=lambda p: (PARTY_ORDER[p[0]], int(p[1:] or 0)))


class Posted:
    """A message on its way."""

    def __init__(self, line: Sent, row: int) -> None:
        self.line = line
        self.row = row
        self.dropped = False
        self.deliveries: List[Tuple[int, str]] = []


class Reader:
    """Goes through the lines once, and makes a chart of them."""

    def __init__(self) -> None:
        self.chart = Chart()
        self.row = -1
        self.is_fresh = False
        self.posted: Dict[int, Posted] = {}
        self.files: Dict[Tuple[str, int], str] = {}
        self.open: Dict[Tuple[str, str], Tuple[int, str]] = {}
        self.grants: Dict[Tuple[str, str], Tuple[int, int, str]] = {}
        self.down: Dict[str, int] = {}

    # ---- rows

    def step(self, merges: bool) -> int:
        """The row of a line; one that merges shares the row of its event."""
        if not (merges and self.is_fresh):
            self.row += 1
        self.is_fresh = False
        return self.row

    def say(self, party: str, style: str, words: str) -> None:
        """Words at a party, in a row of their own."""
        self.chart.words.append(Words(party, self.step(False), style, words))

    def begin(self, key: Tuple[str, str], words: str) -> None:
        """Something begins to last."""
        self.open.setdefault(key, (self.row, words))

    def end(self, key: Tuple[str, str], words: str = '') -> None:
        """It is over."""
        if key in self.open:
            first, begun = self.open.pop(key)
            self.chart.bars.append(Bar('s', first, self.row, key[0], words or begun))

    # ---- lines

    def event(self, e: Event) -> None:
        """An event has a row."""
        row = self.step(False)
        self.is_fresh = e.kind in ('deliver', 'settle', 'inject', 'timeout')
        words = [word if len(word) <= LONGEST_WORD else word[:LONGEST_WORD] + '..' for word in e.text.split(' ')]
        self.chart.events.append((row, ' '.join(words)))
        if e.kind in ('drive', 'disk', 'client'):
            self.chart.parties[e.args[0]] = row
        elif e.kind == 'zone':
            self.chart.zones[e.args[0]] = e.args[1]
        elif e.kind in ('stop', 'fail'):
            words = 'stopped: deaf from now on' if e.kind == 'stop' else 'failed: all is lost'
            self.chart.bars.append(Bar(e.args[0], row, None, 'dead', words))
        elif e.kind == 'crash':
            self.crashed(e.args[0])
        elif e.kind == 'reopen':
            self.opened(e.args[0])
        elif e.kind == 'drop' and e.args[0] in self.posted:
            self.posted[e.args[0]].dropped = True

    def crashed(self, party: str) -> None:
        """A party is down; with the server its jobs are gone."""
        self.down.setdefault(party, self.row)
        if party == 's':
            for kind, file in list(self.open):
                if kind in ('fence', 'repair'):
                    self.end((kind, file))
            self.open.clear()

    def opened(self, party: str) -> None:
        """It is up again, or the run is over."""
        if party in self.down:
            self.chart.bars.append(Bar(party, self.down.pop(party), self.row, 'down', 'down'))

    def sent(self, m: Sent) -> None:
        """A message leaves in the row of its step."""
        self.is_fresh = False
        self.posted[m.number] = Posted(m, self.row)
        if m.sender == 's' and m.receiver[0] == 'd':
            self.server_command(m)
        elif m.sender[0] == 'c' and m.receiver == 's':
            e = envelopes.maybe_envelope(m.data)
            if isinstance(e, envelopes.Request) and e.operation == envelopes.RETURN:
                self.end_grant(m.sender, 'f%d' % e.file)

    def server_command(self, m: Sent) -> None:
        """A CREATE tells whose an object is, and a SET TAG that a fence runs."""
        c = commands.maybe_command(m.data)
        if c is None:
            return
        if c.action == commands.CREATE and len(c.payload) >= 4:
            self.files[(m.receiver, c.object)] = 'f%d' % int.from_bytes(c.payload[:4], 'big')
        elif c.action == commands.SET_TAG:
            file = self.files.get((m.receiver, c.object), '?')
            self.begin(('fence', file), 'fence %s' % file)
            self.end_grants(file)

    def delivered(self, d: Delivered) -> None:
        """A message comes to its receiver."""
        row = self.step(True)
        posted = self.posted.get(d.number)
        if posted is None:
            return
        posted.deliveries.append((row, d.result))
        e = envelopes.maybe_envelope(posted.line.data) if posted.line.sender == 's' else None
        is_grant = isinstance(e, envelopes.Answer) and isinstance(e.result, envelopes.Granted) and d.result == 'taken'
        if is_grant and e.result.layouts:
            segment = e.result.layouts[0]
            key = (posted.line.receiver, 'f%d' % e.file)
            if len(posted.deliveries) == 1 and key not in self.grants:
                mode = 'write' if segment.iomode == envelopes.IOMODE_RW else 'read'
                self.grants[key] = (row, e.result.state.grant, mode)

    def end_grant(self, client: str, file: str) -> None:
        """A grant goes back, or a fence ended it."""
        if (client, file) in self.grants:
            first, number, mode = self.grants.pop((client, file))
            self.chart.bars.append(Bar(client, first, self.row, 'grant ' + mode, 'grant %d' % number))

    def end_grants(self, file: str) -> None:
        """A fence ends every grant of a file."""
        for client, of in [key for key in self.grants if key[1] == file]:
            self.end_grant(client, of)

    def note(self, n: Note) -> None:
        """A note stands at the server; some begin or end what lasts."""
        kind, file = n.words[0], n.file
        self.say('s', 'note', '%s %s' % (file, ' '.join(n.words)))
        if kind == 'fenced':
            self.begin(('fence', file), 'fence %s' % file)
            self.end(('fence', file))
            self.end_grants(file)
            self.begin(('repair', file), 'repair %s' % file)
        elif kind == 'repaired':
            self.end(('repair', file))
            self.open[('rebuild', file)] = (self.row, 'rebuild %s' % file)
            self.open[('audit', file)] = (self.row, 'audit %s' % file)
        elif kind in ('rebuilt', 'nodrive', 'lost'):
            self.end(('rebuild', file))
            self.open[('rebuild', file)] = (self.row, 'rebuild %s' % file)
        elif kind == 'audit':
            self.end(('audit', file))

    def ended(self, o: Ended) -> None:
        """How a call ended."""
        shown = [value.hex() or '-' if isinstance(value, bytes) else
                 ','.join(str(p) for p in value) if isinstance(value, tuple) else str(value) for value in o.args]
        text = ' '.join([o.word, o.kind] + shown)
        style = 'good' if o.kind == 'ok' else 'note' if o.kind == 'pending' else 'bad'
        self.say(o.client, style, text if len(text) <= LONGEST_OUTCOME else text[:LONGEST_OUTCOME] + '..')

    def read(self, line: Line) -> None:
        """A line more."""
        if isinstance(line, Event):
            self.event(line)
        elif isinstance(line, Sent):
            self.sent(line)
        elif isinstance(line, Delivered):
            self.delivered(line)
        elif isinstance(line, Judged):
            self.chart.arrows.append(Arrow(-1, '', line.drive, self.step(True), self.row, 'injected',
                                           'injected', line.verdict))
        elif isinstance(line, TimedOut):
            self.chart.words.append(Words(line.client, self.step(True), 'bad', 'component %d times out' % line.component))
        elif isinstance(line, Note):
            self.note(line)
        elif isinstance(line, Ended):
            self.ended(line)
        elif isinstance(line, Refused):
            self.say(line.client, 'bad', 'refused: %s' % line.why)
        elif isinstance(line, Last):
            self.chart.last = 'calm %s, unguessed %s' % tuple('yes' if x else 'no' for x in line[1:])
        elif isinstance(line, Error):
            self.chart.last = 'error in line %d: %s' % (line.line, line.reason)

    # ---- the end

    def arrows_of(self, posted: Posted) -> List[Arrow]:
        """An arrow for each delivery, or one that ends nowhere."""
        m, words = posted.line, label(posted.line)
        if not posted.deliveries:
            style = 'lost' if posted.dropped else 'waiting'
            return [Arrow(m.number, m.sender, m.receiver, posted.row, None, style, words, '')]
        arrows = []
        for n, (row, result) in enumerate(posted.deliveries):
            style = 'repeated' if n else 'deaf' if result == 'deaf' else 'once'
            verdict = '' if result == 'taken' else verdict_label(m, result)
            arrows.append(Arrow(m.number, m.sender, m.receiver, posted.row, row, style, words, verdict))
        return arrows

    def place_strangers(self) -> None:
        """Who was never made, in a transcript that isn't sound, has a column too."""
        named = {p for a in self.chart.arrows for p in (a.sender, a.receiver)}
        named |= {w.party for w in self.chart.words} | {b.party for b in self.chart.bars}
        for party in named - {''}:
            self.chart.parties.setdefault(party, 0)

    def finish(self) -> Chart:
        """The chart of all lines."""
        for posted in self.posted.values():
            self.chart.arrows += self.arrows_of(posted)
        for client, file in list(self.grants):
            self.end_grant(client, file)
        for kind, file in list(self.open):
            if kind in ('fence', 'repair'):
                self.end((kind, file))
        for party in list(self.down):
            self.opened(party)
        self.chart.rows = self.row + 1
        self.place_strangers()
        return self.chart


def chart_of(lines: List[Line]) -> Chart:
    """The chart of a transcript's lines."""
    reader = Reader()
    for line in lines:
        reader.read(line)
    return reader.finish()
