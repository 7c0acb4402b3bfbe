"""Draws a chart as SVG."""
from html import escape
from typing import Dict, List, Tuple

from .runs import Arrow, Bar, Chart, Words

ROW, COLUMN, EVENTS, MARGIN, TOP, BOTTOM = 19, 176, 292, 16, 106, 34
LETTER, BAR = 5.5, 11
BESIDE = 10
FONT = 'font-family="DejaVu Sans, Verdana, Helvetica, sans-serif"'
INK, SOFT, PAPER, BAND = '#22303c', '#7b8794', '#fdfdfb', '#f3f5f4'
GOOD, BAD = '#1b7f4b', '#c0262d'

# the colour, the dash and the width of an arrow
ARROWS: Dict[str, Tuple[str, str, float]] = {
    'once': ('#3f6fb0', '', 1.3), 'repeated': ('#d9730d', '6 3', 1.5), 'deaf': ('#9aa5b1', '2 3', 1.2),
    'lost': (BAD, '4 3', 1.3), 'waiting': ('#9aa5b1', '4 3', 1.2), 'injected': ('#8e44ad', '6 3', 1.5)}
NAMED = {'once': 'message', 'repeated': 'delivered again', 'deaf': 'comes to a deaf party', 'lost': 'lost',
         'waiting': 'never delivered', 'injected': 'injected by a stranger'}
BARS: Dict[str, str] = {'fence': '#f2a33a', 'repair': '#4c9ed9', 'rebuild': '#8d6cc4', 'audit': '#35a79c',
                        'dead': '#b9414a', 'down': '#5c6670', 'grant write': '#8ccf9f', 'grant read': '#a8d3ee'}
BAR_NAMES = {'fence': 'fence', 'repair': 'repair', 'rebuild': 'rebuild', 'audit': 'audit', 'dead': 'stopped or failed',
             'down': 'down', 'grant write': 'grant to write', 'grant read': 'grant to read'}


def words_of(a: Arrow) -> str:
    """The words at an arrow's end."""
    words = a.words if a.style == 'injected' else '%d %s' % (a.number, a.words)
    return words if a.verdict in ('', 'perform') else '%s: %s' % (words, a.verdict)


class Page:
    """The parts of a picture, from the back to the front."""

    def __init__(self, chart: Chart) -> None:
        self.chart = chart
        self.columns = chart.columns()
        self.places = {party: MARGIN + EVENTS + COLUMN * (n + 0.5) for n, party in enumerate(self.columns)}
        self.width = int(max([MARGIN + EVENTS + COLUMN * len(self.columns)] + self.ends_of_words())) + MARGIN
        self.height = TOP + ROW * chart.rows + BOTTOM
        self.back: List[str] = []
        self.middle: List[str] = []
        self.front: List[str] = []

    def ends_of_words(self) -> List[float]:
        """Where the words to the right of the last party end."""
        last = self.columns[-1]
        words = [w.words for w in self.chart.words if w.party == last]
        words += [words_of(a) for a in self.chart.arrows if a.receiver == last and a.delivered is not None]
        return [self.places[last] + BESIDE + len(text) * LETTER * 1.12 + 8 for text in words]

    def y(self, row: int) -> float:
        """The middle of a row."""
        return TOP + ROW * (row + 0.5)

    # ---- parts

    def text(self, x: float, y: float, words: str, colour: str = INK, anchor: str = 'start', size: float = 10,
             weight: str = 'normal') -> str:
        """Words."""
        return '<text x="%.1f" y="%.1f" fill="%s" font-size="%g" text-anchor="%s" font-weight="%s">%s</text>' % (
            x, y + size * 0.35, colour, size, anchor, weight, escape(words))

    def chip(self, x: float, y: float, words: str, colour: str, anchor: str, weight: str = 'normal') -> str:
        """Words on a light ground, so that lines behind them don't cross them."""
        width = len(words) * LETTER * (1.08 if weight == 'bold' else 1) + 6
        left = x - 3 if anchor == 'start' else x - width + 3
        return ('<rect x="%.1f" y="%.1f" width="%.1f" height="13" rx="3" fill="%s" fill-opacity="0.88"/>'
                % (left, y - 6.5, width, PAPER)) + self.text(x, y, words, colour, anchor, 9.5, weight)

    def line(self, a: Tuple[float, float], b: Tuple[float, float], colour: str, dash: str, width: float,
             head: str = '') -> str:
        """A line, with a head at its end where it has one."""
        dashes = ' stroke-dasharray="%s"' % dash if dash else ''
        end = ' marker-end="url(#%s)"' % head if head else ''
        return '<line x1="%.1f" y1="%.1f" x2="%.1f" y2="%.1f" stroke="%s" stroke-width="%g"%s%s/>' % (
            a + b + (colour, width, dashes, end))

    # ---- the ground

    def ground(self) -> None:
        """Bands and words of events, and the line of each party."""
        starts = [row for row, _ in self.chart.events] + [self.chart.rows]
        for n, (row, words) in enumerate(self.chart.events):
            if n % 2 == 0:
                self.back.append('<rect x="0" y="%.1f" width="%d" height="%.1f" fill="%s"/>' % (
                    self.y(row) - ROW / 2, self.width, ROW * (starts[n + 1] - row), BAND))
            self.front.append(self.text(MARGIN, self.y(row), words, INK, size=10))
        for party in self.columns:
            x, first = self.places[party], self.chart.parties[party]
            self.back.append(self.line((x, self.y(first)), (x, self.height - BOTTOM), '#c3ccd4', '', 1.5))
            self.header(party, x)
        self.front.append(self.text(self.width / 2, self.height - BOTTOM / 2, self.chart.last, INK, 'middle', 11, 'bold'))

    def header(self, party: str, x: float) -> None:
        """The name of a party, above its line, and the zone of a drive that has one."""
        kind = {'c': ('client', '#e4f3e8'), 's': ('server', '#fdf0dc'), 'd': ('drive', '#e3edf8')}[party[0]]
        words = kind[0] if party == 's' else '%s %s' % (kind[0], party)
        self.front.append('<rect x="%.1f" y="%d" width="92" height="22" rx="6" fill="%s" stroke="#c3ccd4"/>'
                          % (x - 46, TOP - 30, kind[1]))
        self.front.append(self.text(x, TOP - 19, words, INK, 'middle', 11, 'bold'))
        if party in self.chart.zones:
            self.front.append(self.text(x, TOP - 2, 'zone %d' % self.chart.zones[party], INK, 'middle', 8.5))

    # ---- bars and words

    def bar(self, b: Bar) -> None:
        """What lasts for some rows."""
        x = self.places[b.party]
        last = self.chart.rows - 1 if b.last is None else b.last
        top, bottom = self.y(b.first) - 4, self.y(last) + 4
        is_deaf = b.style in ('dead', 'down')
        opacity = 0.45 if is_deaf else 1
        self.middle.append('<rect x="%.1f" y="%.1f" width="%d" height="%.1f" rx="4" fill="%s" fill-opacity="%g"/>' % (
            x - BAR / 2, top, BAR, bottom - top, BARS[b.style], opacity))
        if is_deaf:
            self.front.append(self.chip(x + BESIDE, self.y(b.first), b.words, BAD, 'start', 'bold'))
        elif bottom - top > len(b.words) * LETTER + 8:
            ink = '#ffffff' if b.style in ('repair', 'rebuild', 'audit') else INK
            self.front.append('<text transform="translate(%.1f %.1f) rotate(-90)" fill="%s" font-size="8.5" '
                              'text-anchor="middle">%s</text>' % (x + 3, (top + bottom) / 2, ink, escape(b.words)))

    def say(self, w: Words) -> None:
        """Words at a party."""
        colour = {'good': GOOD, 'bad': BAD, 'note': '#8a5a00'}[w.style]
        self.front.append('<circle cx="%.1f" cy="%.1f" r="3.2" fill="%s"/>' % (
            self.places[w.party], self.y(w.row), colour))
        self.front.append(self.chip(self.places[w.party] + BESIDE, self.y(w.row), w.words, colour, 'start', 'bold'))

    # ---- arrows

    def arrow(self, a: Arrow) -> None:
        """A message."""
        colour, dash, width = ARROWS[a.style]
        if a.style == 'injected':
            x = self.places[a.receiver]
            start = (x - COLUMN * 0.42, self.y(a.sent))
        else:
            start = (self.places[a.sender], self.y(a.sent))
        to = self.places[a.receiver]
        side = 1 if to >= start[0] else -1
        if a.delivered is None:
            self.stub(a, start, side)
            return
        end = (to - side * 3, self.y(a.delivered))
        self.middle.append(self.line(start, end, colour, dash, width, 'head-' + a.style))
        self.mark(a, to, side)

    def stub(self, a: Arrow, start: Tuple[float, float], side: int) -> None:
        """A message that comes to nobody ends with a cross, or with a ring where it still waits."""
        colour, dash, width = ARROWS[a.style]
        x, y = start[0] + side * COLUMN * 0.3, start[1] + 7
        self.middle.append(self.line(start, (x, y), colour, dash, width))
        if a.style == 'lost':
            self.middle.append('<path d="M %.1f %.1f l 8 8 m 0 -8 l -8 8" stroke="%s" stroke-width="2"/>' % (
                x - 4, y - 4, colour))
        else:
            self.middle.append('<circle cx="%.1f" cy="%.1f" r="3.5" fill="%s" stroke="%s"/>' % (x, y, PAPER, colour))
        words = '%d %s' % (a.number, a.words)
        self.front.append(self.chip(x + side * 8, y, words, colour, 'start' if side > 0 else 'end'))

    def mark(self, a: Arrow, x: float, side: int) -> None:
        """The words at an arrow's end: its number, what it is, and the verdict."""
        y = self.y(a.delivered or 0)
        anchor = 'start' if side > 0 else 'end'
        words = words_of(a)
        bad = a.verdict not in ('', 'perform', 'again', 'deaf')
        colour = ARROWS[a.style][0] if a.style != 'once' else INK
        at = x + side * BESIDE
        if not a.verdict or a.verdict == 'perform':
            if a.verdict:
                self.front.append('<circle cx="%.1f" cy="%.1f" r="2.6" fill="%s"/>' % (x, y, GOOD))
            self.front.append(self.chip(at, y, words, colour, anchor))
            return
        self.front.append(self.chip(at, y, words, BAD if bad else colour, anchor,
                                    'bold' if bad else 'normal'))
        if bad:
            self.front.append('<path d="M %.1f %.1f l 7 7 m 0 -7 l -7 7" stroke="%s" stroke-width="2.2"/>' % (
                x - 3.5, y - 3.5, BAD))

    # ---- the legend

    def legend(self) -> None:
        """What colours and dashes mean."""
        x, y = float(MARGIN), 16.0
        used = {a.style for a in self.chart.arrows} | {'once'}
        for style in [s for s in ARROWS if s in used]:
            colour, dash, width = ARROWS[style]
            self.front.append(self.line((x, y), (x + 30, y), colour, dash, width + 0.4, 'head-' + style))
            self.front.append(self.text(x + 38, y, NAMED[style], INK, size=10))
            x += 50 + len(NAMED[style]) * 6.2
        x, y = float(MARGIN), 38.0
        kinds = {b.style for b in self.chart.bars}
        for style in [s for s in BARS if s in kinds]:
            self.front.append('<rect x="%.1f" y="%.1f" width="7" height="14" rx="3" fill="%s"/>' % (x, y - 7, BARS[style]))
            self.front.append(self.text(x + 13, y, BAR_NAMES[style], INK, size=10))
            x += 32 + len(BAR_NAMES[style]) * 6.2
        self.front.append('<circle cx="%.1f" cy="%.1f" r="2.6" fill="%s"/>' % (x + 4, y, GOOD))
        self.front.append(self.text(x + 12, y, 'performed', INK, size=10))
        x += 82
        self.front.append('<path d="M %.1f %.1f l 7 7 m 0 -7 l -7 7" stroke="%s" stroke-width="2.2"/>' % (x, y - 3.5, BAD))
        self.front.append(self.text(x + 13, y, 'refused, and why', INK, size=10))

    def picture(self) -> str:
        """The whole picture."""
        self.ground()
        self.legend()
        for b in self.chart.bars:
            self.bar(b)
        for a in self.chart.arrows:
            self.arrow(a)
        for w in self.chart.words:
            self.say(w)
        heads = ''.join(
            '<marker id="head-%s" viewBox="0 0 8 8" refX="7" refY="4" markerWidth="7" markerHeight="7" '
            'markerUnits="userSpaceOnUse" orient="auto"><path d="M 0 0.5 L 8 4 L 0 7.5 z" fill="%s"/></marker>'
            % (style, ARROWS[style][0]) for style in ARROWS)
        body = '\n'.join(self.back + self.middle + self.front)
        return ('<svg xmlns="http://www.w3.org/2000/svg" width="%d" height="%d" viewBox="0 0 %d %d" %s>\n<defs>%s</defs>\n'
                '<rect width="100%%" height="100%%" fill="%s"/>\n%s\n</svg>\n' % (
                    self.width, self.height, self.width, self.height, FONT, heads, PAPER, body))
