"""The judge of a transcript: its lines, the log of each file, what the drives hold, and the last line."""
from typing import List, NamedTuple

from pnfs_osd.transcripts.lines import Error, Event, Last, Line, read_transcript

from .faults import Cut, Fault
from .files import judged
from .whole import unwhole
from .world import World


class Found(NamedTuple):
    """What the judge found of a transcript without fault."""
    lines: int
    events: int
    messages: int
    performed: int
    calls: int
    answered: int
    calm: bool
    unguessed: bool
    ending: str
    why: str

    def text(self) -> str:
        """In some words."""
        return ('%d lines, %d messages, %d commands performed, %d calls in the logs, %d reads answered; '
                'calm %s unguessed %s; %s' % (self.lines, self.messages, self.performed, self.calls, self.answered,
                                              'yes' if self.calm else 'no', 'yes' if self.unguessed else 'no',
                                              self.ending))


def judge_files(world: World) -> None:
    """The judge of each file's log, as far as the run was calm and unguessed."""
    log = world.log.fixed() if world.before_break is None else world.before_break
    verdict = judged(log)
    if verdict.entry is not None:
        e = verdict.entry
        raise Fault(e.answered_at, 'the read of c%d on f%d from byte %d on isn\'t one that the writes before it allow: %s' % (
            e.client, e.file, e.offset, verdict.why))
    if world.before_break is None:
        why = unwhole(world, verdict.files)
        if why:
            raise Fault(len(world.lines), why)


def judge_last(world: World) -> str:
    """The last line says whether the run was calm and unguessed."""
    last = world.peek()
    if isinstance(last, Last):
        for word, said, found, why in (('calm', last.calm, world.moments.calm, world.moments.why),
                                       ('unguessed', last.unguessed, world.unguessed, world.guess)):
            if said and not found:
                raise Fault(last.at, 'the run isn\'t %s: %s' % (word, why or 'a drive\'s key opens injected bytes'))
            if found and not said:
                raise Fault(last.at, 'the run is %s, and the last line denies it' % word)
        return 'whole'
    if isinstance(last, Error):
        return 'stopped by "error %d %s"' % (last.line, last.reason)
    return 'cut: the last line is lacking'


def judge_lines(lines: List[Line]) -> Found:
    """What the judge finds of the lines of a transcript, or a `Fault`."""
    world = World(lines)
    try:
        world.go()
    except Cut:
        pass
    judge_files(world)
    ending = judge_last(world)
    entries = world.log.entries
    return Found(len(lines), sum(isinstance(line, Event) for line in lines), len(world.messages), world.performed,
                 len(entries), sum(e.answer is not None for e in entries), world.moments.calm, world.unguessed,
                 ending, world.moments.why)


def judge_transcript(data: bytes) -> Found:
    """What the judge finds of a transcript's bytes; `Fault` or `NoTranscript`."""
    return judge_lines(read_transcript(data))
