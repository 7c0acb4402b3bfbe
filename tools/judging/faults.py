"""Faults of a transcript, in plain sentences."""
from typing import Optional

from pnfs_osd.transcripts.commands import ACTIONS, Command
from pnfs_osd.transcripts.lines import (Delivered, Ended, Event, Judged, Last, Line, Note, Refused, Sent, TimedOut)
from pnfs_osd.transcripts.messages import fields_of

from .drives import Verdict

LONGEST_SHOWN = 90


class Fault(Exception):
    """A line that isn't as the rules say, and why."""

    def __init__(self, at: int, why: str) -> None:
        super().__init__('line %d: %s' % (at, why))
        self.at = at
        self.why = why


class Cut(Exception):
    """The lines end before the event does."""


def cut(text: str) -> str:
    """A text, its end left out where it is long."""
    return text if len(text) <= LONGEST_SHOWN else text[:LONGEST_SHOWN] + '..'


def outcome_text(line: Ended) -> str:
    """The outcome in a line's words."""
    words = [line.kind]
    for value in line.args:
        if isinstance(value, bytes):
            words.append(value.hex() or '-')
        elif isinstance(value, tuple):
            words.append(','.join(str(n) for n in value))
        else:
            words.append(str(value))
    return ' '.join(words)


def text_of(line: Line) -> str:
    """The words of a line, its bytes cut."""
    if isinstance(line, Event):
        return '= ' + line.text
    if isinstance(line, Sent):
        return 'm %d %s %s %s' % (line.number, line.sender, line.receiver, line.data.hex() or '-')
    if isinstance(line, Delivered):
        return 'd %d %s' % (line.number, line.result)
    if isinstance(line, Judged):
        return 'j %s %s' % (line.drive, line.verdict)
    if isinstance(line, TimedOut):
        return 't %s %d' % (line.client, line.component)
    if isinstance(line, Ended):
        return 'o %s %s %s' % (line.client, line.word, outcome_text(line))
    if isinstance(line, Refused):
        return 'x %s %s' % (line.client, line.why)
    if isinstance(line, Note):
        return 'f %s %s' % (line.file, ' '.join(line.words))
    if isinstance(line, Last):
        return 'calm %s unguessed %s' % ('yes' if line.calm else 'no', 'yes' if line.unguessed else 'no')
    return 'error %d %s' % (line.line, line.reason)


def quoted(line: Optional[Line]) -> str:
    """A line in quotes, its end left out where it is long."""
    return 'the lines end' if line is None else 'the line is "%s"' % cut(text_of(line))


def title(message: Sent) -> str:
    """What a message is, in some words."""
    kind, what = fields_of(message)[0]
    return 'message that can\'t be read' if kind == 'unreadable' else '%s %s' % (what, kind)


def difference(wanted: Sent, found: Sent) -> str:
    """The first field in which two messages differ."""
    for (key, value), (other_key, other) in zip(fields_of(wanted), fields_of(found)):
        if key != other_key:
            break
        if value != other:
            return '%s is "%s", and by the rules it is "%s"' % (key, cut(other), cut(value))
    at = next((n for n, (a, b) in enumerate(zip(wanted.data, found.data)) if a != b),
              min(len(wanted.data), len(found.data)))
    return 'the bytes differ at %d from those that the rules give, a %s' % (at, title(wanted))


def verdict_text(drive: str, verdict: Verdict, command: Optional[Command]) -> str:
    """Which verdict a drive had to give, and why."""
    what = ACTIONS[command.action] if command else 'message'
    return 'the verdict of %s on this %s is "%s", since %s' % (drive, what, verdict.text, verdict.why)


def due_text(wanted: Line) -> str:
    """Which line was due, where one of another kind stands."""
    if isinstance(wanted, Sent):
        return '%s had to send %s a %s, message %d' % (wanted.sender, wanted.receiver, title(wanted), wanted.number)
    if isinstance(wanted, Delivered):
        return 'message %d had to be delivered here' % wanted.number
    if isinstance(wanted, Ended):
        return 'the %s of %s had to end here, with "%s"' % (wanted.word, wanted.client, cut(outcome_text(wanted)))
    if isinstance(wanted, Note):
        return 'the server had to write the note "%s"' % text_of(wanted)
    return 'the line "%s" was due' % cut(text_of(wanted))


def unlike(wanted: Line, found: Line) -> str:
    """How a line differs from the one of its kind that was due."""
    if not isinstance(wanted, Sent) or not isinstance(found, Sent):
        return '%s, and %s' % (due_text(wanted), quoted(found))
    if found.number != wanted.number:
        return 'messages are numbered in order, and this one is %d, not %d' % (wanted.number, found.number)
    if (found.sender, found.receiver) != (wanted.sender, wanted.receiver):
        return '%s, and the line has a message from %s to %s' % (due_text(wanted), found.sender, found.receiver)
    return 'message %d of %s to %s isn\'t what the rules give: %s' % (
        found.number, found.sender, found.receiver, difference(wanted, found))
