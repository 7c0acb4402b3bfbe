"""The lines of a transcript, as docs/rules/SCENARIO.md tells them."""
import re
from typing import Dict, Iterable, Iterator, List, NamedTuple, Tuple, Union

from .commands import VERDICTS
from .spelling import U32, U64, Unreadable, decimal, hexadecimal

NAME = re.compile(r'([dcf])(0|[1-9][0-9]*)\Z', re.ASCII)
DRIVES, CLIENTS, FILES = 64, 16, 64
NAME_BOUNDS = {'d': DRIVES, 'c': CLIENTS, 'f': FILES}
SERVER = 's'

# the verdicts behind which a number stands
NUMBERED_VERDICTS = ('tag', 'nospace', 'stale')

# what stands in the places of an event: a name of that kind, a number below a bound, or bytes
PLACES = {'D': 'd', 'C': 'c', 'F': 'f'}
BOUNDS = {'u32': U32, 'u64': U64}
FILE_PLACES = 'F u32 u64 u32 u32 u32 alg tag'
EVENTS: Dict[str, str] = {
    'drive': 'D key u64', 'client': 'C', 'file': FILE_PLACES, 'least': 'D format', 'leave': 'C', 'timeout': 'C u32',
    'deliver': 'u64', 'drop': 'u64', 'settle': '', 'inject': 'D hex', 'recall': 'F', 'revoke': 'F', 'rebuild': 'F',
    'audit': 'F', 'declare': 'D', 'stop': 'C', 'fail': 'D', 'disk': 'D key u64', 'zone': 'D u32', 'zfile': FILE_PLACES,
    'clock': 'machine u64', 'format': 'server format', 'resend': 'sender', 'crash': 'machine', 'reopen': 'machine'}


class Event(NamedTuple):
    """`= EVENT`: an event, its words and what they spell."""
    at: int
    kind: str
    args: Tuple
    text: str


class Sent(NamedTuple):
    """`m N FROM TO HEX`: a message was sent."""
    at: int
    number: int
    sender: str
    receiver: str
    data: bytes


class Delivered(NamedTuple):
    """`d N RESULT`: a message was delivered; the result is `taken`, `deaf` or a verdict in its words."""
    at: int
    number: int
    result: str


class Judged(NamedTuple):
    """`j D VERDICT`: an injected message was judged."""
    at: int
    drive: str
    verdict: str


class TimedOut(NamedTuple):
    """`t C K`: a component timed out at a client."""
    at: int
    client: str
    component: int


class Ended(NamedTuple):
    """`o C WORD OUTCOME`: a call ended, or is left pending."""
    at: int
    client: str
    word: str
    kind: str
    args: Tuple


class Refused(NamedTuple):
    """`x C WHY`: a call was refused."""
    at: int
    client: str
    why: str


class Note(NamedTuple):
    """`f F NOTE`: a note of the server on a file."""
    at: int
    file: str
    words: Tuple[str, ...]


class Last(NamedTuple):
    """`calm YES unguessed YES`, the last line of a run that ended with its input."""
    at: int
    calm: bool
    unguessed: bool


class Error(NamedTuple):
    """`error LINE REASON`, the last line of a run that was stopped."""
    at: int
    line: int
    reason: str


Line = Union[Event, Sent, Delivered, Judged, TimedOut, Ended, Refused, Note, Last, Error]


class NoTranscript(Exception):
    """The text is no transcript: the number of the line, and why."""

    def __init__(self, at: int, why: str) -> None:
        super().__init__('line %d: %s' % (at, why))
        self.at = at
        self.why = why


def check(holds: bool, why: str) -> None:
    """The words aren't those of a line unless this holds."""
    if not holds:
        raise Unreadable(why)


def name(word: str, kinds: str) -> str:
    """A name of a drive, client or file, or of the server where `s` is among the kinds."""
    if word == SERVER and SERVER in kinds:
        return word
    match = NAME.match(word)
    if not match or match.group(1) not in kinds or int(match.group(2)) >= NAME_BOUNDS[match.group(1)]:
        raise Unreadable('"%s" is no name that may stand here' % word[:30])
    return word


def number_of(party: str) -> int:
    """The number in a name."""
    return int(party[1:])


def place(kind: str, word: str) -> Union[str, int, bytes]:
    """What a word spells in a place of that kind."""
    if kind in PLACES:
        return name(word, PLACES[kind])
    if kind in BOUNDS:
        return decimal(word, BOUNDS[kind])
    if kind in ('hex', 'key'):
        data = hexadecimal(word)
        check(kind == 'hex' or len(data) == 20, 'a key has 20 bytes')
        return data
    if kind in ('machine', 'sender', 'server'):
        return name(word, {'machine': 'ds', 'sender': 'cs', 'server': 's'}[kind])
    value = decimal(word, U32)
    allowed = {'alg': range(1, 5), 'tag': range(1, U32), 'format': range(1, 3)}[kind]
    check(value in allowed, '%d is out of range here' % value)
    return value


def places(kinds: str, words: List[str]) -> Tuple:
    """What words spell in their places, which they fill."""
    wanted = kinds.split()
    check(len(wanted) == len(words), '%d words stand in %d places' % (len(words), len(wanted)))
    return tuple(place(kind, word) for kind, word in zip(wanted, words))


def read_event(at: int, words: List[str]) -> Event:
    """The event of the words behind `=`."""
    check(bool(words), 'an event is lacking')
    kind, rest = words[0], words[1:]
    if kind in ('do', 'call'):
        check(len(rest) > 1 and rest[1] in ('write', 'read'), 'a call is a write or a read')
        kinds = 'C word F u64 hex' if rest[1] == 'write' else 'C word F u64 u64'
        args = places(kinds.replace('word ', ''), rest[:1] + rest[2:])
        return Event(at, kind, (args[0], rest[1]) + args[1:], ' '.join(words))
    check(kind in EVENTS, '"%s" is no event' % kind[:30])
    return Event(at, kind, places(EVENTS[kind], rest), ' '.join(words))


def verdict(words: List[str]) -> str:
    """A verdict in its words."""
    check(bool(words) and words[0] in VERDICTS, 'a verdict is lacking')
    numbered = words[0] in NUMBERED_VERDICTS
    check(len(words) == 1 + numbered, 'that is no verdict')
    if numbered:
        decimal(words[1], U64)
    return ' '.join(words)


def read_sent(at: int, words: List[str]) -> Sent:
    """An `m` line."""
    check(len(words) == 4, 'a message has a number, a sender, a receiver and bytes')
    return Sent(at, decimal(words[0], U64), name(words[1], 'dcs'), name(words[2], 'dcs'), hexadecimal(words[3]))


def read_delivered(at: int, words: List[str]) -> Delivered:
    """A `d` line."""
    check(len(words) > 1, 'a delivery has a number and a result')
    result = words[1] if words[1:] in (['taken'], ['deaf']) else verdict(words[1:])
    return Delivered(at, decimal(words[0], U64), result)


def positions(word: str) -> Tuple[int, ...]:
    """Positions with commas between them, in rising order."""
    found = tuple(decimal(part, U32) for part in word.split(','))
    check(list(found) == sorted(set(found)), 'positions stand in rising order')
    return found


BAD_LAYOUTS = ('Unreadable', 'Index', 'Partial', 'Ssv', 'Map', 'Credential')


def outcome(word: str, kind: str, rest: List[str]) -> Tuple:
    """What stands behind an outcome's word."""
    if kind == 'ok':
        check(len(rest) == 1, 'an answer has a length or bytes')
        return (decimal(rest[0], U64) if word == 'write' else hexadecimal(rest[0]),)
    if kind == 'held':
        check(len(rest) == 1, 'a holder is lacking')
        return (name(rest[0], 'c'),)
    if kind in ('fencing', 'degraded', 'silent'):
        return places('u32', rest)
    if kind == 'status':
        return places('u32 u32', rest)
    if kind == 'refused':
        check(len(rest) > 1, 'a drive and its verdict are lacking')
        return (name(rest[0], 'd'), verdict(rest[1:]))
    if kind == 'lost':
        check(len(rest) == 1, 'positions are lacking')
        return (positions(rest[0]),)
    if kind == 'badlayout':
        check(len(rest) == 1 and rest[0] in BAD_LAYOUTS, 'that is no reason')
        return (rest[0],)
    check(kind in ('nofile', 'spent', 'pending') and not rest, 'that is no outcome')
    return ()


def read_ended(at: int, words: List[str]) -> Ended:
    """An `o` line."""
    check(len(words) > 2 and words[1] in ('write', 'read'), 'a call is a write or a read')
    return Ended(at, name(words[0], 'c'), words[1], words[2], outcome(words[1], words[2], words[3:]))


NOTES: Dict[str, str] = {
    'ready': '', 'fenced': 'u32', 'repaired': 'u64 u64', 'rebuilt': 'u32 D', 'nodrive': 'u32', 'nospace': 'u32',
    'reported': 'u32', 'audit': 'u64 u64 u64 u64', 'busy': 'u32', 'spent': ''}
MAP_FAULTS = ('Unit', 'TooMany', 'TooFew', 'Multiple', 'Width', 'Depth')


def read_note(at: int, words: List[str]) -> Note:
    """An `f` line."""
    check(len(words) > 1, 'a note is lacking')
    kind, rest = words[1], words[2:]
    if kind == 'lost':
        check(len(rest) == 2, 'a component and positions are lacking')
        decimal(rest[0], U32)
        positions(rest[1])
    elif kind == 'refused':
        fine = rest == ['exists'] or (len(rest) == 2 and rest[0] == 'badmap' and rest[1] in MAP_FAULTS)
        check(fine or (len(rest) == 2 and rest[0] in ('toofew', 'nospread')), 'that is no refusal')
    else:
        check(kind in NOTES, '"%s" is no note' % kind[:30])
        places(NOTES[kind], rest)
    return Note(at, name(words[0], 'f'), tuple(words[1:]))


def read_last(at: int, words: List[str]) -> Last:
    """The last line of a run that ended with its input."""
    fine = len(words) == 3 and words[1] == 'unguessed' and words[0] in ('yes', 'no') and words[2] in ('yes', 'no')
    check(fine, 'the last line is "calm", "unguessed", each with yes or no')
    return Last(at, words[0] == 'yes', words[2] == 'yes')


STOPS = ('UnknownWord', 'BadName', 'BadNumber', 'BadHex', 'Missing', 'Extra', 'NoName', 'Taken', 'Dead',
         'Alive', 'NotKept', 'Down', 'Running', 'NoMessage', 'read', 'memory', 'full input', 'full line', 'full kept')


def read_error(at: int, words: List[str]) -> Error:
    """The last line of a run that was stopped."""
    check(len(words) > 1 and ' '.join(words[1:]) in STOPS, 'that is no reason')
    return Error(at, decimal(words[0], U64), ' '.join(words[1:]))


def read_judged(at: int, words: List[str]) -> Judged:
    """A `j` line."""
    check(len(words) > 1, 'a drive and its verdict are lacking')
    return Judged(at, name(words[0], 'd'), verdict(words[1:]))


def read_timed_out(at: int, words: List[str]) -> TimedOut:
    """A `t` line."""
    return TimedOut(at, *places('C u32', words))


def read_refused(at: int, words: List[str]) -> Refused:
    """An `x` line."""
    check(len(words) == 2 and words[1] in ('busy', 'badrange', 'slotspent'), 'that is no refusal of a call')
    return Refused(at, name(words[0], 'c'), words[1])


READERS = {'=': read_event, 'm': read_sent, 'd': read_delivered, 'j': read_judged, 't': read_timed_out,
           'o': read_ended, 'x': read_refused, 'f': read_note, 'calm': read_last, 'error': read_error}


def read_line(at: int, text: str) -> Line:
    """The line that a text spells, or `NoTranscript`."""
    words = text.split(' ')
    reader = READERS.get(words[0])
    if reader is None:
        raise NoTranscript(at, 'no line of a transcript begins with "%s"' % words[0][:30])
    try:
        return reader(at, words[1:])
    except Unreadable as fault:
        raise NoTranscript(at, str(fault)) from fault


def read_lines(text: Iterable[str]) -> Iterator[Line]:
    """The lines of a transcript, one after another; nothing stands behind the last line."""
    ended = False
    for at, line in enumerate(text, 1):
        if ended:
            raise NoTranscript(at, 'a line follows the last line')
        read = read_line(at, line)
        ended = isinstance(read, (Last, Error))
        yield read


def text_lines(data: bytes) -> List[str]:
    """The lines of a transcript's bytes, each of which ends with a newline."""
    if not data:
        raise NoTranscript(1, 'the text is empty')
    if not data.endswith(b'\n'):
        raise NoTranscript(data.count(b'\n') + 1, 'the last line has no newline')
    try:
        return data.decode('ascii')[:-1].split('\n')
    except UnicodeDecodeError as fault:
        raise NoTranscript(data[:fault.start].count(b'\n') + 1, 'a byte there is no ASCII character') from fault


def read_transcript(data: bytes) -> List[Line]:
    """All lines of a transcript."""
    return list(read_lines(text_lines(data)))
