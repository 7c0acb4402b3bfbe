#!/usr/bin/env python3
"""Tests of the tools that read, draw and judge transcripts.

    tools/test_tools.py

The judge has to find each of many alterations, and to find nothing in what wasn't altered. The last line is
`tools: N passed, M failed`.
"""
import os
import sys
import unittest
from random import Random
from typing import Callable, Iterator, List, Tuple
from xml.etree import ElementTree

HERE = os.path.dirname(os.path.abspath(__file__))
sys.path.insert(0, HERE)

from charting.drawing import Page  # noqa: E402
from charting.runs import chart_of  # noqa: E402
from judging.faults import Fault, text_of  # noqa: E402
from judging.files import Entry, Fixed, judged  # noqa: E402
from judging.judge import judge_transcript  # noqa: E402
from judging.whole import unwhole  # noqa: E402
from storming.guide import Guide  # noqa: E402
from storming.weather import Weather  # noqa: E402
from pnfs_osd.transcripts import commands, envelopes, striping, structures  # noqa: E402
from pnfs_osd.transcripts.lines import NoTranscript, Sent, read_transcript  # noqa: E402
from pnfs_osd.transcripts.messages import fields_of  # noqa: E402

TOP = os.path.dirname(HERE)
SCENARIOS = os.path.join(TOP, 'scenarios')
KEY = '0b' * 20


def transcripts() -> List[str]:
    """The paths of all transcripts of the repository."""
    found = []
    for folder in (SCENARIOS, os.path.join(TOP, 'cases')):
        for path, _, names in sorted(os.walk(folder)):
            found += [os.path.join(path, name) for name in sorted(names) if name.endswith('.transcript')]
    return found


def read_file(path: str) -> bytes:
    """The bytes of a file."""
    with open(path, 'rb') as file:
        return file.read()


def golden(name: str) -> bytes:
    """A transcript of scenarios/."""
    return read_file(os.path.join(SCENARIOS, name + '.transcript'))


def fault_in(data: bytes) -> str:
    """What the judge says against a transcript; nothing where it is sound."""
    try:
        found = judge_transcript(data)
    except Fault as fault:
        return str(fault)
    except NoTranscript as why:
        return 'no transcript: %s' % why
    return found.ending if found.ending.startswith('cut') else ''


def changed(data: bytes, at: int, line: bytes) -> bytes:
    """A transcript with another line in that place."""
    lines = data.split(b'\n')
    lines[at] = line
    return b'\n'.join(lines)


def replaced(data: bytes, old: bytes, new: bytes) -> bytes:
    """A transcript with other bytes in one place, which it has once."""
    assert data.count(old) == 1, (old, data.count(old))
    return data.replace(old, new)


def guided(events: List[str]) -> Guide:
    """The world after some events."""
    guide = Guide()
    for event in events:
        assert guide.goes(event) is None, event
    return guide


PARTIES = ['drive d%d %s 20000000' % (n, KEY) for n in range(4)] + ['client c0', 'client c1', 'file f0 3 4 0 0 0 3 1']
TORN = PARTIES + ['do c0 write f0 0 6162636465666768', 'call c0 write f0 0 41424344', 'deliver 16', 'deliver 17', 'deliver 18',
                  'deliver 19', 'deliver 20', 'stop c0', 'fail d1', 'do c1 read f0 0 8']


ONE = ['disk d0 %s 20000000' % KEY, 'client c0', 'client c1', 'file f0 1 4 0 0 0 1 1']
# runs with crashes and openings, each of which something comes of
RESTARTS = {
    'fencing_cut_off': ONE + ['do c0 write f0 0 41', 'revoke f0', 'deliver 8', 'crash s', 'deliver 9', 'reopen s', 'settle'],
    'deaf_while_down': ONE + ['call c0 write f0 0 41', 'deliver 2', 'deliver 3', 'crash d0', 'deliver 4', 'reopen d0', 'settle',
                              'deliver 4', 'settle'],
    'making_cut_off': ['disk d0 %s 20000000' % KEY, 'disk d1 %s 20000000' % KEY, 'client c0', 'crash d1', 'file f0 2 4 0 0 0 1 1',
                       'crash s', 'do c0 read f0 0 1', 'reopen d1', 'reopen s', 'settle'],
    'rebuild_cut_off': PARTIES + ['do c0 write f0 0 6162636465666768', 'leave c0', 'settle', 'fail d1', 'declare d1', 'rebuild f0']
    + ['deliver %d' % n for n in range(18, 27)] + ['crash s', 'deliver 27', 'reopen s', 'rebuild f0', 'settle'],
    'spent_at_the_opening': ONE[:3] + ['file f0 1 4 0 0 0 1 4294967295', 'do c0 write f0 0 41', 'crash s', 'do c1 read f0 0 1',
                                       'reopen s', 'resend c1', 'settle', 'crash s', 'do c0 read f0 0 1', 'do c1 read f0 0 1',
                                       'reopen s']}


def forged(guide: Guide, number: int, payload: bytes) -> bytes:
    """The command of a message with another payload, under the drive's key."""
    message = guide.messages[number].line
    c = commands.read_command(message.data)
    key = commands.capability_key(guide.drives[int(message.receiver[1:])].keys[1], c.capability_bytes)
    return commands.write_command(c.action, c.partition, (c.object, c.offset), c.length, c.nonce + 9, 0,
                                  c.capability_bytes, key, payload)


class Sound(unittest.TestCase):
    """What wasn't altered is sound."""

    def test_each_transcript_of_the_repository(self) -> None:
        """Scenarios and cases."""
        for path in transcripts():
            with self.subTest(path=os.path.relpath(path, TOP)):
                self.assertEqual(fault_in(read_file(path)), '')

    def test_the_guide_writes_the_golden_transcripts(self) -> None:
        """The judge's parties, let alone, do what the program does."""
        for name in ('striped', 'late_acknowledgement', 'lost_drive', 'stopped_writer', 'crash_in_fence', 'crash_in_repair',
                     'burning_rack'):
            lines = read_file(os.path.join(SCENARIOS, name + '.txt')).decode().split('\n')
            guide = guided([line for line in lines if line and not line.startswith('#')])
            self.assertEqual(guide.transcript(), golden(name))

    def test_storms_of_the_guide(self) -> None:
        """What the guide does in a storm is sound."""
        for seed in range(8):
            weather = Weather(seed)
            weather.blow()
            self.assertEqual(fault_in(weather.guide.transcript()), '', seed)


class Altered(unittest.TestCase):
    """Each alteration is found."""

    def refuses(self, data: bytes, what: object) -> None:
        """The judge says something against it."""
        self.assertNotEqual(fault_in(data), '', what)

    def test_each_line_left_out(self) -> None:
        """A line that is lost, whichever it is."""
        for name in ('stopped_writer', 'late_acknowledgement', 'crash_in_fence'):
            lines = golden(name).split(b'\n')
            for n in range(len(lines) - 1):
                self.refuses(b'\n'.join(lines[:n] + lines[n + 1:]), (name, n + 1))

    def test_each_line_twice(self) -> None:
        """A line that stands twice, whichever it is."""
        lines = golden('stopped_writer').split(b'\n')
        for n, line in enumerate(lines[:-1]):
            if line not in (b'= settle', b'= revoke f0'):
                self.refuses(b'\n'.join(lines[:n] + [line] + lines[n:]), n + 1)

    def test_lines_of_storms_left_out(self) -> None:
        """A line that isn't an event, out of storms of every kind."""
        random = Random('storms')
        for seed in range(20, 28):
            weather = Weather(seed)
            weather.blow()
            lines = weather.guide.transcript().split(b'\n')
            told = [n for n, line in enumerate(lines[:-2]) if not line.startswith(b'= ')]
            for n in random.sample(told, 8):
                self.refuses(b'\n'.join(lines[:n] + lines[n + 1:]), (seed, n + 1))

    def test_a_byte_of_each_message(self) -> None:
        """A message in which one byte is another."""
        random = Random('bytes')
        for name in ('stopped_writer', 'lost_drive'):
            data = golden(name)
            for n, line in enumerate(data.split(b'\n')):
                if line.startswith(b'm '):
                    at = len(line) - 1 - random.randrange(len(line.split(b' ')[4]))
                    other = b'0123456789abcdef'[(int(line[at:at + 1], 16) + 1) % 16]
                    self.refuses(changed(data, n, line[:at] + bytes([other]) + line[at + 1:]), (name, n + 1))

    def test_each_verdict(self) -> None:
        """A delivery with another result."""
        data = golden('stopped_writer')
        for n, line in enumerate(data.split(b'\n')):
            if line.startswith(b'd '):
                head = b' '.join(line.split(b' ')[:2])
                for result in (b'perform', b'taken', b'deaf', b'tag 2', b'tag 1', b'again', b'range', b'stale 4294967297'):
                    if head + b' ' + result != line:
                        self.refuses(changed(data, n, head + b' ' + result), (n + 1, result))

    def test_single_words(self) -> None:
        """Answers, notes, outcomes, flags, numbers and events."""
        for name, old, new in (
                ('stopped_writer', b'read ok 4142434465666768', b'read ok 4546474865666768'),
                ('stopped_writer', b'read ok 4142434465666768', b'read ok 41424344656667'),
                ('stopped_writer', b'write ok 8', b'write ok 7'), ('stopped_writer', b'write ok 8', b'write silent 0'),
                ('stopped_writer', b'calm yes', b'calm no'), ('stopped_writer', b'unguessed yes', b'unguessed no'),
                ('stopped_writer', b'fenced 2', b'fenced 3'), ('stopped_writer', b'repaired 1 0', b'repaired 1 1'),
                ('stopped_writer', b'repaired 1 0', b'repaired 2 0'), ('stopped_writer', b't c1 1', b't c1 0'),
                ('stopped_writer', b'f f0 ready', b'f f1 ready'), ('stopped_writer', b'm 44 d2 c1', b'm 44 d2 c0'),
                ('stopped_writer', b'm 44 d2', b'm 45 d2'), ('stopped_writer', b'= stop c0', b'= stop c1'),
                ('lost_drive', b'rebuilt 1 d3', b'rebuilt 1 d2'), ('lost_drive', b'audit 2 0 0 16', b'audit 2 0 1 16'),
                ('lost_drive', b'audit 2 0 0 16', b'audit 2 0 0 15'), ('lost_drive', b'= declare d1', b'= declare d0'),
                ('crash_in_fence', b'd 22 deaf', b'd 22 taken'), ('crash_in_fence', b'd 26 tag 2', b'd 26 perform'),
                ('crash_in_fence', b'fenced 2', b'fenced 3'), ('crash_in_fence', b'read pending', b'read ok 6162'),
                ('crash_in_fence', b'= crash s', b'= settle'), ('crash_in_fence', b'= reopen s', b'= revoke f0'),
                ('crash_in_fence', b'read ok 6162636445464748', b'read ok 6162636465666768'),
                ('crash_in_repair', b'd 46 perform', b'd 46 tag 3'), ('crash_in_repair', b'd 47 tag 3', b'd 47 perform'),
                ('crash_in_repair', b'fenced 3', b'fenced 2'), ('crash_in_repair', b'repaired 1 0', b'repaired 0 0'),
                ('crash_in_repair', b'= reopen s', b'= resend s'),
                ('striped', b'= client c0', b'= client c1'), ('refused_event', b'error 9 Alive', b'error 9 Sleepy')):
            self.refuses(replaced(golden(name), old, new), (name, old, new))

    def test_a_command_that_is_delivered_twice(self) -> None:
        """Again is the verdict on a repeat, and nobody delivers what isn't asked."""
        data = golden('late_acknowledgement')
        self.refuses(replaced(data, b'd 6 again', b'd 6 perform'), 'again')
        lines = golden('stopped_writer').split(b'\n')
        at = lines.index(b'd 20 perform')
        self.refuses(b'\n'.join(lines[:at + 2] + [b'd 20 again'] + lines[at + 2:]), 'nobody asked')

    def test_calm_that_is_said_and_isn_t(self) -> None:
        """A stripe that is torn and short."""
        guide = guided(TORN)
        data = guide.transcript()
        self.assertTrue(data.endswith(b'calm no unguessed yes\n'))
        self.assertEqual(fault_in(data), '')
        self.assertIn('short', fault_in(replaced(data, b'calm no', b'calm yes')))

    def test_a_guess_that_isn_t_said(self) -> None:
        """Bytes that nobody sent, under a drive's own key."""
        guide = guided(PARTIES + ['do c0 write f0 0 6162636465666768'])
        guide.goes('inject d0 %s' % forged(guide, 8, b'zzzz').hex())
        data = guide.transcript()
        self.assertTrue(data.endswith(b'calm yes unguessed no\n'))
        self.assertEqual(fault_in(data), '')
        self.assertIn('guess', fault_in(replaced(data, b'unguessed no', b'unguessed yes')))

    def test_crashes_and_openings_left_out(self) -> None:
        """A crash that is denied shows where something comes to the party."""
        for name in ('fencing_cut_off', 'deaf_while_down', 'making_cut_off', 'rebuild_cut_off', 'spent_at_the_opening'):
            data = guided(RESTARTS[name]).transcript()
            self.assertEqual(fault_in(data), '', name)
            lines = data.split(b'\n')
            for n, line in enumerate(lines):
                if line.startswith((b'= crash', b'= reopen')):
                    self.refuses(b'\n'.join(lines[:n] + lines[n + 1:]), (name, line))
                if line.endswith(b' deaf'):
                    for result in (b'taken', b'perform', b'again'):
                        self.refuses(changed(data, n, line[:-4] + result), (name, line, result))

    def test_no_transcripts(self) -> None:
        """Texts that are none."""
        data = golden('striped')
        for other in (b'', data[:-1], data + b'= client c5\n', b'hello\n', data.replace(b'0b', b'0B', 1), data + b'\n',
                      data.replace(b'm 0 ', b'm 00 ', 1), data.replace(b'= client c0', b'= client  c0'),
                      b'\xff\n', data.replace(b'd 0 perform', b'd 0 performed')):
            self.assertRaises(NoTranscript, judge_transcript, other)


class Restarts(unittest.TestCase):
    """Disks, crashes and openings."""

    def test_causes_in_their_order(self) -> None:
        """Why an event is refused, of several causes the first."""
        drive, disk, made = 'drive d0 %s 9' % KEY, 'disk d0 %s 9' % KEY, 'file f0 1 4 0 0 0 1 1'
        for events, event, cause in (
                ([], 'crash d0', 'NoName'), ([], 'reopen d0', 'NoName'), ([], 'reopen s', 'Running'),
                ([drive], 'crash d0', 'NotKept'), ([drive], 'reopen d0', 'NotKept'), ([drive, 'fail d0'], 'crash d0', 'Dead'),
                ([disk], 'reopen d0', 'Running'), ([disk, 'crash d0'], 'crash d0', 'Down'),
                ([disk, 'crash d0'], 'inject d0 -', 'Down'), ([disk, 'crash d0'], 'least d0 2', 'Down'),
                ([disk, 'crash d0'], 'declare d0', 'Alive'), ([disk, 'crash d0', 'fail d0'], 'reopen d0', 'Dead'),
                (['crash s'], 'crash s', 'Down'), (['crash s'], 'clock s 1', 'Down'), (['crash s'], 'format s 2', 'Down'),
                (['crash s'], 'resend s', 'Down'), (['crash s'], drive, 'Down'), (['crash s'], disk, 'Down'),
                (['crash s'], made, 'Down'), ([drive, 'crash s'], disk, 'Taken'), (['crash s'], 'revoke f0', 'NoName'),
                ([drive, made, 'crash s'], 'revoke f0', 'Down'), ([drive, made, 'crash s'], 'recall f0', 'Down'),
                ([drive, 'crash s'], 'declare d0', 'Alive'), ([drive, 'crash s', 'fail d0'], 'declare d0', 'Down'),
                (['crash s'], 'deliver 0', 'NoMessage'), ([], 'zone d0 1', 'NoName'), (['crash s'], 'zone d0 1', 'NoName'),
                ([drive, 'zone d0 1'], 'zone d0 1', 'Taken'), ([drive, 'zone d0 1'], 'zone d0 2', 'Taken'),
                ([drive, 'zone d0 1', 'fail d0'], 'zone d0 1', 'Taken'), ([drive, 'fail d0'], 'zone d0 1', 'Dead'),
                ([drive, 'zone d0 1', 'crash s'], 'zone d0 1', 'Taken'), ([drive, 'crash s', 'fail d0'], 'zone d0 1', 'Dead'),
                ([drive, 'crash s'], 'zone d0 1', 'Down'), (['crash s'], 'z' + made, 'Down'),
                ([drive, made, 'crash s'], 'z' + made, 'Down')):
            refused = guided(events).goes(event)
            self.assertEqual(refused and refused[0], cause, (events, event))

    def test_what_goes_on_while_a_party_is_down(self) -> None:
        """Clocks of drives, failures, deliveries and clients."""
        guided(['disk d0 %s 9' % KEY, 'client c0', 'file f0 1 4 0 0 0 1 1', 'crash s', 'crash d0', 'client c1', 'clock d0 9',
                'do c0 read f0 0 1', 'deliver 0', 'drop 1', 'settle', 'stop c1', 'fail d0', 'reopen s', 'declare d0'])

    def test_notes_of_openings(self) -> None:
        """What an opening tells at once, and what it comes to."""
        for name, notes in (
                ('fencing_cut_off', ['f0 ready', 'f0 fenced 2', 'f0 repaired 1 0']),
                ('making_cut_off', ['f0 ready']), ('deaf_while_down', ['f0 ready']),
                ('rebuild_cut_off', ['f0 ready', 'f0 fenced 2', 'f0 repaired 0 0', 'f0 fenced 3', 'f0 repaired 0 0',
                                     'f0 rebuilt 1 d3']),
                ('spent_at_the_opening', ['f0 ready', 'f0 spent', 'f0 spent'])):
            lines = guided(RESTARTS[name]).transcript().decode().split('\n')
            self.assertEqual([line[2:] for line in lines if line.startswith('f ')], notes, name)


class Files(unittest.TestCase):
    """The judge of a file's log, by itself."""

    def verdict(self, log: List[Tuple]) -> bool:
        """Whether the judge accepts: writes (offset, bytes, acknowledged), reads (offset, length, answer)."""
        fixed = []
        for offset, what, end in log:
            write = isinstance(what, bytes)
            e = Entry(1, 0, 0, 1, offset, len(what) if write else what, what if write else None)
            fixed.append(Fixed(e, bool(write and end), None if write else end))
        return judged(fixed).entry is None

    def test_logs(self) -> None:
        """What reads may and may not give."""
        full, half = (0, b'abcd', True), (0, b'AB', False)
        for log, fine in (
                ([full, (0, 4, b'abcd')], True), ([full, (0, 4, b'abcx')], False), ([full, (0, 9, b'abcd')], True),
                ([full, (0, 4, b'abc')], False), ([full, (4, 4, b'')], True), ([(0, 4, b'')], True),
                ([full, half, (0, 4, b'AbCd'[:4])], False), ([full, half, (0, 4, b'Abcd')], True),
                ([full, half, (0, 4, b'ABcd'), (0, 4, b'Abcd')], False), ([full, half, (0, 2, b'ab'), (0, 2, b'AB')], False),
                ([full, half, (0, 1, b'A'), (0, 2, b'Ab')], True), ([full, half, (0, b'xy', True), (0, 2, b'AB')], False),
                ([full, (4, b'zz', False), (0, 9, b'abcd')], True), ([full, (4, b'zz', False), (0, 9, b'abcdzz')], True),
                ([full, (4, b'zz', False), (0, 9, b'abcdz')], False),
                ([full, (4, b'zz', False), (0, 9, b'abcd'), (0, 9, b'abcdzz')], False),
                ([(8, b'q', True), (0, 9, bytes(8) + b'q')], True), ([(0, 4, None), full], True)):
            self.assertEqual(self.verdict(log), fine, log)

    def test_stripes_that_aren_t_whole(self) -> None:
        """A byte on a drive that fits neither its stripe nor the log."""
        guide = guided(PARTIES + ['do c0 write f0 0 6162636465666768'])
        files = judged(guide.log.fixed()).files
        self.assertIsNone(unwhole(guide, files))
        f = guide.server.files[0]
        for k in range(3):
            at = f.components[k]
            data = guide.drives[at.drive].objects[at.object].data
            before = data.read(0, 1)
            data.write(0, bytes([before[0] ^ 1]))
            self.assertIsNotNone(unwhole(guide, files))
            data.write(0, before)
        self.assertIsNone(unwhole(guide, files))


class Reading(unittest.TestCase):
    """The reader of transcripts."""

    def test_lines_have_one_spelling(self) -> None:
        """What is read is written as it was."""
        for path in transcripts():
            data = read_file(path)
            self.assertEqual(''.join(text_of(line) + '\n' for line in read_transcript(data)).encode(), data, path)

    def messages(self) -> Iterator[Sent]:
        """All messages of the scenarios."""
        for path in transcripts():
            if path.startswith(SCENARIOS):
                yield from (line for line in read_transcript(read_file(path)) if isinstance(line, Sent))

    def test_messages_can_be_read(self) -> None:
        """Each message has fields, and its fields spell it again."""
        for message in self.messages():
            self.assertNotEqual(fields_of(message)[0][0], 'unreadable', message.number)
            self.assertEqual(self.again(message), message.data)

    @staticmethod
    def again(message: Sent) -> bytes:
        """The bytes of a message, made from its fields."""
        if message.sender[0] == 'd':
            return commands.reply_bytes(commands.read_reply(message.data))
        if message.receiver[0] == 'd':
            c = commands.read_command(message.data)
            key = commands.capability_key(bytes.fromhex(KEY), c.capability_bytes)
            return commands.write_command(c.action, c.partition, (c.object, c.offset), c.length, c.nonce, c.attribute,
                                          commands.capability_bytes(c.capability), key, c.payload)
        e = envelopes.read_envelope(message.data)
        spelled: Callable = {envelopes.Request: envelopes.request_bytes, envelopes.Answer: envelopes.answer_bytes,
                             envelopes.Recall: envelopes.recall_bytes,
                             envelopes.RecallAnswer: envelopes.recall_answer_bytes}[type(e)]
        return spelled(e)

    def test_cut_messages_are_unreadable(self) -> None:
        """No front of a message is a message."""
        for message in list(self.messages())[:60]:
            for size in range(0, len(message.data), 7):
                cut = message._replace(data=message.data[:size])
                if not (message.receiver[0] == 'd' and size >= commands.COMMAND_BLOCK):
                    self.assertEqual(fields_of(cut)[0][0], 'unreadable', (message.number, size))


class Striping(unittest.TestCase):
    """Where bytes stand, and what parity they have."""

    def test_positions_turn(self) -> None:
        """RAID 5 with four positions: the position of P goes down by one a stripe."""
        m = striping.Map(4, 4, 0, 0, 0, striping.RAID_5)
        self.assertEqual([m.units_of(s)[3] for s in range(5)], [3, 2, 1, 0, 3])
        self.assertEqual(m.units_of(1), [3, 0, 1, 2])

    def test_rows_of_groups(self) -> None:
        """Rows and stripes of groups name each other, and rows are counted."""
        m = striping.Map(12, 4, 3, 2, 1, striping.RAID_4)
        for stripe in range(40):
            group, row = m.group_of(stripe), m.row_of(stripe)
            self.assertEqual(m.stripe_at(group, row), stripe)
            self.assertEqual(m.rows_below(group, stripe), row)

    def test_what_is_lost_is_decoded(self) -> None:
        """Each one and each two of six units."""
        random = Random('units')
        for algorithm in (striping.RAID_4, striping.RAID_PQ):
            m = striping.Map(6, 8, 0, 0, 0, algorithm)
            data = [bytes(random.randrange(256) for _ in range(8)) for _ in range(m.data_units)]
            units = data + striping.parity_of(m, data)
            for a in range(6):
                for b in range(6):
                    lost = [None if n in (a, b) else unit for n, unit in enumerate(units)]
                    fine = a == b or algorithm == striping.RAID_PQ
                    self.assertEqual(striping.decoded(m, lost), units if fine else None)

    def test_a_vector(self) -> None:
        """P and Q of three bytes, by the products of 0x11d."""
        self.assertEqual(striping.sum_p([b'\x01', b'\x02', b'\x80']), b'\x83')
        self.assertEqual(striping.sum_q([b'\x01', b'\x02', b'\x80']), bytes([0x01 ^ 0x04 ^ 0x3a]))

    def test_maps_are_written(self) -> None:
        """A map's bytes and its fields."""
        data = bytes.fromhex('00000004000000000001000000000000000000000000000000000003')
        m = structures.whole(structures.map_in, data)
        self.assertEqual(m, striping.Map(4, 65536, 0, 0, 0, 3))
        self.assertEqual(structures.map_bytes(m), data)


class Charting(unittest.TestCase):
    """The pictures of runs."""

    def test_pictures_are_svg(self) -> None:
        """Each scenario has one, with an arrow for each message that was delivered."""
        for name in ('striped', 'late_acknowledgement', 'lost_drive', 'stopped_writer', 'refused_event', 'crash_in_fence',
                     'crash_in_repair', 'burning_rack'):
            chart = chart_of(read_transcript(golden(name)))
            picture = Page(chart).picture()
            self.assertTrue(ElementTree.fromstring(picture).tag.endswith('svg'))
            delivered = sum(line.startswith(b'd ') for line in golden(name).split(b'\n'))
            self.assertEqual(sum(a.delivered is not None for a in chart.arrows), delivered)

    def test_pictures_of_the_documents(self) -> None:
        """They are those of the scenarios."""
        for name in ('stopped_writer', 'lost_drive', 'crash_in_fence'):
            picture = Page(chart_of(read_transcript(golden(name)))).picture()
            self.assertEqual(read_file(os.path.join(TOP, 'docs', 'pictures', name + '.svg')).decode(), picture)

    def test_the_refused_write_is_told(self) -> None:
        """The late WRITE of the stopped writer, and the fence that ended its grant."""
        chart = chart_of(read_transcript(golden('stopped_writer')))
        late = next(a for a in chart.arrows if a.number == 21)
        self.assertEqual(late.verdict, 'tag 2, it names 1')
        fence = next(b for b in chart.bars if b.style == 'fence')
        self.assertLess(fence.first, late.delivered)

    def test_parties_that_are_down(self) -> None:
        """A bar from the crash to the opening, or to the end of the run."""
        chart = chart_of(read_transcript(golden('crash_in_fence')))
        bar = next(b for b in chart.bars if b.style == 'down')
        rows = {words: row for row, words in chart.events}
        self.assertEqual((bar.party, bar.first, bar.last), ('s', rows['crash s'], rows['reopen s']))
        self.assertEqual(len([b for b in chart.bars if b.style == 'fence']), 2)
        data = guided(['disk d0 %s 9' % KEY, 'crash d0', 'client c0']).transcript()
        bar = next(b for b in chart_of(read_transcript(data)).bars if b.style == 'down')
        self.assertEqual((bar.party, bar.first, bar.last), ('d0', 1, 2))

    def test_pictures_of_storms(self) -> None:
        """Storms have pictures too."""
        for seed in range(6):
            weather = Weather(seed)
            weather.blow()
            ElementTree.fromstring(Page(chart_of(read_transcript(weather.guide.transcript()))).picture())


def main(module: str) -> int:
    """Runs all tests of a module, and counts them."""
    suite = unittest.defaultTestLoader.loadTestsFromModule(sys.modules[module])
    result = unittest.TextTestRunner(stream=sys.stdout, verbosity=1).run(suite)
    failed = len({str(case).split(' (path')[0] for case, _ in result.failures + result.errors})
    print('tools: %d passed, %d failed' % (result.testsRun - failed, failed))
    return 1 if failed else 0


if __name__ == '__main__':
    sys.exit(main(__name__))
