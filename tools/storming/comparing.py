"""Compares the program's own replay of a scenario with what was seen of the run that it was made of, byte for byte."""
from typing import Dict, List, NamedTuple, Optional, Tuple

from judging.faults import Fault
from judging.judge import judge_transcript
from pnfs_osd.transcripts import commands, envelopes
from pnfs_osd.transcripts.commands import VERDICTS
from pnfs_osd.transcripts.lines import NoTranscript, read_transcript, text_lines
from pnfs_osd.transcripts.spelling import Unreadable, in_hex

from .mapping import Mapping
from .sides import Told

NUMBERED = ('tag', 'nospace', 'stale')


class Line(NamedTuple):
    """A line of a transcript: its place, its words, and the number of its event."""

    at: int
    words: List[str]
    event: int


class Unequal(Exception):
    """What was seen isn't what the transcript says: the line, what stands there, and what was seen."""

    def __init__(self, at: int, why: str, stands: str, seen: str) -> None:
        super().__init__('line %d: %s\n  replay: %s\n  seen:   %s' % (at, why, stands[:300], seen[:300]))
        self.at = at


def lines_of(transcript: bytes) -> List[Line]:
    """The lines of a transcript."""
    read_transcript(transcript)
    found, event = [], -1
    for at, text in enumerate(text_lines(transcript), 1):
        event += text.startswith('= ')
        found.append(Line(at, text.split(' '), event))
    return found


def events_are(lines: List[Line], scenario: str) -> None:
    """The transcript has the events of the scenario, and its last line says that it was read to its end."""
    wanted, had = scenario.split('\n')[:-1], [line for line in lines if line.words[0] == '=']
    for event, line in zip(wanted, had):
        if ' '.join(line.words[1:]) != event:
            raise Unequal(line.at, 'this isn\'t the event of the scenario', ' '.join(line.words), event)
    if len(wanted) != len(had) or lines[-1].words[0] != 'calm':
        raise Unequal(lines[-1].at, 'the replay doesn\'t come to its end', ' '.join(lines[-1].words), 'calm ..')


def messages_are(lines: List[Line], mapping: Mapping) -> int:
    """Each message is what went over the wire, and what didn't is known to be lost; how many were compared."""
    sent: Dict[int, Line] = {int(line.words[1]): line for line in lines if line.words[0] == 'm'}
    seen = set(mapping.unseen)
    for number, data, where in mapping.wire:
        if number not in sent:
            raise Unequal(lines[-1].at, 'there is no message %d' % number, '', '%s: %s' % (where, in_hex(data)))
        if sent[number].words[4] != in_hex(data):
            raise Unequal(sent[number].at, where, ' '.join(sent[number].words), in_hex(data))
        seen.add(number)
    for number, line in sent.items():
        if number not in seen:
            raise Unequal(line.at, 'this message was never seen', ' '.join(line.words), 'nothing')
    return len(mapping.wire)


def spans(lines: List[Line], who: str) -> List[List[Line]]:
    """What a client tells, for each of its calls."""
    found: List[List[Line]] = []
    for line in lines:
        if line.words[:3] == ['=', 'call', who]:
            found.append([])
        elif line.words[0] in ('t', 'o', 'x') and line.words[1] == who:
            found[-1].append(line)
    return found


def lives(lines: List[Line]) -> List[List[Line]]:
    """What the server notes, for each of its processes."""
    found: List[List[Line]] = [[]]
    for line in lines:
        if line.words == ['=', 'reopen', 's']:
            found.append([])
        elif line.words[0] == 'f':
            found[-1].append(line)
    return found


def is_told(told: Told, lines: List[Line], end: int) -> int:
    """A process printed these lines; one that was killed may lack the last ones. How many were compared."""
    printed = [line for line in told.lines if line.split(' ')[0] in ('t', 'o', 'x', 'f')]
    for line, seen in zip(lines, printed):
        if ' '.join(line.words) != seen:
            raise Unequal(line.at, '%s printed something else' % told.who, ' '.join(line.words), seen)
    if len(printed) > len(lines):
        raise Unequal(end, '%s printed more' % told.who, '', printed[len(lines)])
    lacks = lines[len(printed):]
    if lacks and (not told.killed or (told.who == 's' and lacks[0].event != lacks[-1].event)):
        raise Unequal(lacks[0].at, '%s didn\'t print this' % told.who, ' '.join(lacks[0].words), 'nothing')
    return len(printed)


def requests_in(lines: List[Line], who: str, event: int) -> int:
    """How many requests a client sent up to an event."""
    sent = [line for line in lines if line.words[0] == 'm' and line.words[2:4] == [who, 's'] and line.event < event]
    return sum(isinstance(envelopes.maybe_envelope(bytes.fromhex(line.words[4])), envelopes.Request) for line in sent)


def printed_is(lines: List[Line], mapping: Mapping) -> int:
    """What processes printed is what the transcript tells; how many lines were compared."""
    found, turn = 0, {}
    for told in mapping.printed:
        n = turn[told.who] = turn.get(told.who, -1) + 1
        parts = lives(lines) if told.who == 's' else spans(lines, told.who)
        found += is_told(told, parts[n] if n < len(parts) else [], lines[-1].at)
        if told.who != 's' and told.lines and told.lines[-1].startswith('next '):
            calls = [line.event for line in lines if line.words[:3] == ['=', 'call', told.who]] + [lines[-1].event + 1]
            wanted = 'next %d' % (1 + requests_in(lines, told.who, calls[n + 1]))
            if told.lines[-1] != wanted:
                raise Unequal(lines[-1].at, 'the number of the next request of %s' % told.who, wanted, told.lines[-1])
            found += 1
    return found


def verdict_of(reply: bytes) -> Tuple[int, Optional[int]]:
    """The number of a reply's verdict, and its detail where the verdict has one."""
    try:
        read = commands.read_reply(reply)
    except Unreadable:
        return -1, None
    return read.verdict, read.detail if commands.VERDICT_WORDS[read.verdict] in NUMBERED else None


def verdicts_are(lines: List[Line], mapping: Mapping) -> int:
    """The drives' verdicts on strangers' bytes; how many."""
    judged = [line for line in lines if line.words[0] == 'j']
    for line, (drive, reply) in zip(judged, mapping.verdicts):
        word, rest = line.words[2], line.words[3:]
        wanted = (VERDICTS['perform' if word == 'again' else word], int(rest[0]) if rest else None)
        if line.words[1] != drive or (reply and verdict_of(reply) != wanted):
            raise Unequal(line.at, 'the verdict of %s' % drive, ' '.join(line.words), in_hex(reply))
    return len(judged)


def compare(transcript: bytes, mapping: Mapping) -> str:
    """Compares all, and has the transcript judged. What was compared, in some words; `Unequal` at the first difference."""
    try:
        lines = lines_of(transcript)
    except NoTranscript as why:
        raise Unequal(0, 'no transcript: %s' % why, '', '') from None
    events_are(lines, mapping.scenario())
    counts = (len(lines), messages_are(lines, mapping), printed_is(lines, mapping), verdicts_are(lines, mapping))
    try:
        found = judge_transcript(transcript)
    except Fault as fault:
        raise Unequal(fault.at, 'the judge: %s' % fault.why, '', '') from None
    return '%d lines, %d messages, %d printed lines, %d verdicts; %d answered reads; calm %s unguessed %s' % (
        counts + (found.answered, 'yes' if found.calm else 'no', 'yes' if found.unguessed else 'no'))
