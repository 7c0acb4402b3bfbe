#!/usr/bin/env python3
"""Tests of the judge where drives have zones (docs/rules/SERVER.md, "Zones").

    tools/test_zones.py

The last line is `tools: N passed, M failed`.
"""
import sys
import unittest
from typing import List

from charting.runs import chart_of
from test_tools import KEY, fault_in, golden, guided, main, replaced
from pnfs_osd.transcripts.lines import read_transcript


def in_zones(*zones: str) -> List[str]:
    """Drives with these zones in order, `-` for none, and a client."""
    made = ['drive d%d %s 20000000' % (n, KEY) for n in range(len(zones))]
    return made + ['zone d%d %s' % (n, zone) for n, zone in enumerate(zones) if zone != '-'] + ['client c0']


class Zones(unittest.TestCase):
    """Zones of drives, and files that are spread over them."""

    def notes(self, events: List[str]) -> List[str]:
        """The notes of a run."""
        lines = guided(events).transcript().decode().split('\n')
        return [line[2:] for line in lines if line.startswith('f ')]

    def drives(self, zones: str, file: str) -> List[int]:
        """Where the components of a zoned file are put."""
        guide = guided(in_zones(*zones) + ['zfile f0 %s 1' % file])
        f = guide.server.files.get(0)
        return [at.drive for at in f.components] if f else []

    def test_where_components_are_put(self) -> None:
        """Zone by zone, each cut, and dealt to the groups."""
        for zones, file, drives in (
                ('001122', '6 4 0 0 0 4', [0, 1, 2, 3, 4, 5]), ('210210', '6 4 0 0 0 4', [2, 5, 1, 4, 0, 3]),
                ('001122', '6 4 3 1 0 3', [0, 2, 4, 1, 3, 5]), ('000111', '6 4 0 0 0 4', []),
                ('000112', '4 4 0 0 0 4', [0, 1, 3, 4]), ('-0-122', '3 4 0 0 0 3', [1, 3, 4]),
                ('01', '2 4 0 0 1 1', [0, 1]), ('00', '2 4 0 0 1 1', []), ('000111', '4 4 0 0 1 3', [0, 1, 2, 3]),
                ('000011', '6 4 0 0 2 1', []), ('000112', '6 4 1 2 2 1', [0, 2, 4, 1, 3, 5])):
            self.assertEqual(self.drives(zones, file), drives, (zones, file))

    def test_causes_in_their_order(self) -> None:
        """Why a zoned file isn't made, of several causes the first."""
        for zones, file, note in (
                ('------', '6 4 0 0 0 4', 'toofew 0'), ('00112-', '6 4 0 0 0 4', 'toofew 5'), ('000111', '6 4 0 0 0 4', 'nospread 6'),
                ('000112-', '6 4 3 1 0 3', 'nospread 6'), ('000111', '6 0 0 0 0 4', 'badmap Unit'), ('0123', '4 4 0 0 0 1', 'nospread 4'),
                ('0123', '5 4 0 0 0 1', 'toofew 4'), ('0000', '2 4 0 0 0 4', 'badmap Width'), ('000', '3 4 0 0 0 4', 'nospread 3')):
            self.assertEqual(self.notes(in_zones(*zones) + ['zfile f0 %s 1' % file]), ['f0 refused ' + note], (zones, file))
        twice = in_zones('0', '1') + ['zfile f0 2 4 0 0 1 1 1', 'zfile f0 9 0 0 0 1 1 1', 'file f0 9 0 0 0 1 1 1']
        self.assertEqual(self.notes(twice), ['f0 ready', 'f0 refused exists', 'f0 refused exists'])
        fallen = in_zones(*'001122') + ['fail d5', 'declare d5', 'zfile f0 6 4 0 0 0 4 1']
        self.assertEqual(self.notes(fallen), ['f0 refused toofew 5'])

    def test_where_components_are_made_anew(self) -> None:
        """Where their group has room in a zone; a missing one counts where it last stood."""
        made = ['zfile f0 3 4 0 0 0 3 1', 'fail d2', 'declare d2', 'rebuild f0', 'settle']
        for zones, notes in (
                ('012012', ['rebuilt 2 d5']), ('012', ['nodrive 2']), ('0120', ['nodrive 2']), ('0120-', ['nodrive 2']),
                ('01203', ['rebuilt 2 d4']), ('0122', ['rebuilt 2 d3'])):
            found = self.notes(in_zones(*zones) + made)[3:]
            self.assertEqual(found, ['f0 ' + note for note in notes], zones)
        loaded = in_zones(*'01234') + ['file f1 1 4 0 0 0 1 1', 'file f2 4 4 0 0 0 1 1', 'zfile f0 2 4 0 0 1 1 1', 'fail d1',
                                       'declare d1', 'rebuild f0', 'settle']
        self.assertEqual(self.notes(loaded)[-1], 'f0 rebuilt 1 d2')
        two = in_zones(*'0123') + ['zfile f0 2 4 0 0 1 1 1', 'fail d1', 'declare d1', 'rebuild f0', 'settle']
        self.assertEqual(self.notes(two)[-1], 'f0 rebuilt 1 d2')

    def test_altered_zones_are_found(self) -> None:
        """A zone or a zoned file that is denied, where something comes of it."""
        data = guided(in_zones(*'01201') + ['zfile f0 3 4 0 0 0 3 1', 'do c0 write f0 0 6162636465', 'fail d2', 'declare d2',
                                            'rebuild f0', 'settle']).transcript()
        self.assertEqual(fault_in(data), '')
        lines = data.split(b'\n')
        for old, new in ((b'= zfile', b'= file'), (b'= zone d0 0', b'= zone d0 1'), (b'= zone d1 1', b'= zone d1 0'),
                         (b'= zone d3 0', b'= zone d3 2'), (b'= zone d4 1', b'= zone d4 3'), (b'nodrive 2', b'rebuilt 2 d3')):
            self.assertNotEqual(fault_in(replaced(data, old, new)), '', (old, new))
        for n, line in enumerate(lines):
            if line.startswith(b'= zone') and not line.startswith((b'= zone d3', b'= zone d4')):
                self.assertNotEqual(fault_in(b'\n'.join(lines[:n] + lines[n + 1:])), '', line)
            if line.startswith(b'= zone'):
                self.assertNotEqual(fault_in(b'\n'.join(lines[:n] + [line] + lines[n:])), '', line)

    def test_components_that_aren_t_spread(self) -> None:
        """The look at zones, by itself."""
        guide = guided(in_zones(*'01201') + ['zfile f0 3 4 0 0 0 3 1'])
        server = guide.server
        self.assertIsNone(server.crowded(0))
        at = server.files[0].components
        for k, drive in ((0, 4), (1, 3), (2, 3), (2, 4)):
            was, at[k] = at[k], at[k]._replace(drive=drive, missing=True)
            self.assertIsNotNone(server.crowded(0), (k, drive))
            at[k] = was
        self.assertIsNone(server.crowded(0))

    def test_zones_are_drawn(self) -> None:
        """A picture names the zone of each drive."""
        zones = chart_of(read_transcript(golden('burning_rack'))).zones
        self.assertEqual(zones, {'d%d' % n: n // 2 + 1 for n in range(12)})

    def test_a_zone_burns(self) -> None:
        """Where all drives of one zone fail, each file that is spread can be read."""
        for zones, file in (('001122', '6 4 0 0 0 4'), ('001122', '6 4 3 1 0 3'), ('000112', '6 4 1 2 2 1'), ('000111', '4 4 0 0 1 3')):
            for zone in sorted(set(zones)):
                burn = ['fail d%d' % n for n, its in enumerate(zones) if its == zone]
                guide = guided(in_zones(*zones) + ['zfile f0 %s 1' % file, 'do c0 write f0 0 ' + '6162' * 20] + burn
                               + ['do c0 read f0 0 99'])
                self.assertIn(('o c0 read ok ' + '6162' * 20).encode(), guide.transcript(), (zones, file, zone))


if __name__ == '__main__':
    sys.exit(main(__name__))
