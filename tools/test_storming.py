#!/usr/bin/env python3
"""Tests of the storms over TCP: of the mapping of steps to a scenario, of the comparison, and of the runs themselves.

    tools/test_storming.py

`storming/recorded.steps` is what was seen of a run of the program. What is altered in it has to be found. The last line is
`tools: N passed, M failed`.
"""
import os
import sys
import tempfile
import unittest
from typing import Callable, List

from storming import clusters
from storming.guide import Guide
from storming.mapping import Mapping
from storming.seen import Seen, read, written
from storming.sides import Choices, Difference
from storming.town import Town, read_text
from test_tools import HERE, main, read_file

FAKE = os.path.join(HERE, 'fake_cluster.py')


def recorded() -> List[Seen]:
    """What was seen of a run."""
    return read(read_file(os.path.join(HERE, 'storming', 'recorded.steps')).decode())


def replay(scenario: str) -> bytes:
    """The transcript of a scenario, by the judge's world."""
    guide = Guide()
    for event in scenario.split('\n')[:-1]:
        guide.goes(event)
    return guide.transcript()


def fault_of(steps: List[Seen], by: Callable[[str], bytes] = replay) -> str:
    """What is found against some steps."""
    return clusters.examined(steps, by).fault


def flipped(data: bytes) -> bytes:
    """Bytes of which one, the last, is another."""
    return data[:-1] + bytes([data[-1] ^ 1])


class Recorded(unittest.TestCase):
    """A run that was seen before."""

    def test_it_is_as_its_replay_says(self) -> None:
        """Nothing is found in what wasn't altered; there are kills, repeats and orders in it, and something was left open."""
        steps = recorded()
        found = clusters.examined(steps, replay)
        self.assertEqual(found.fault, '')
        kinds = {step.kind for step in steps}
        self.assertLessEqual({'orders', 'takes', 'puts', 'says', 'notes'}, kinds)
        self.assertIn('\ncrash s\n', found.scenario)

    def test_its_file_is_read_back(self) -> None:
        """Steps as lines, and back."""
        steps = recorded()
        self.assertEqual(read(written(steps)), steps)

    def test_another_byte_is_found(self) -> None:
        """In every fifth record that a party sent."""
        steps = recorded()
        for at, step in list(enumerate(steps))[::5]:
            if step.kind in ('asks', 'puts') and step.record and step.who != 'c15':
                self.assertNotEqual(fault_of(steps[:at] + [step._replace(record=flipped(step.record))] + steps[at + 1:]), '', at)
            if step.kind == 'takes' and step.reply:
                self.assertNotEqual(fault_of(steps[:at] + [step._replace(reply=flipped(step.reply))] + steps[at + 1:]), '', at)

    def test_a_lost_step_is_found(self) -> None:
        """An exchange, a taking, an answer or a process that is left out, every fifth one. (A record that a drive refuses or had
        before leaves no trace if nobody was given its reply, and neither does the end of a connection.)"""
        steps = recorded()
        handed = {step.other for step in steps if step.kind == 'gets'}
        for at, step in list(enumerate(steps))[1::5]:
            leaves_trace = step.kind in ('asks', 'hears', 'puts', 'says', 'calls', 'notes')
            if leaves_trace or (step.kind == 'takes' and step.number in handed):
                self.assertNotEqual(fault_of(steps[:at] + steps[at + 1:]), '', '%d %s' % (at, step.title()))

    def test_another_line_is_found(self) -> None:
        """Each line that a process printed, altered or left out, in turn."""
        steps, turn = recorded(), 0
        for at, step in enumerate(steps):
            for n, line in enumerate(step.lines if step.number >= 0 and line_counts(steps, at) else ()):
                turn += 1
                lines = step.lines[:n] + ((line + '1',) if turn % 2 else ()) + step.lines[n + 1:]
                self.assertNotEqual(fault_of(steps[:at] + [step._replace(lines=lines)] + steps[at + 1:]), '', (at, line))

    def test_another_replay_is_found(self) -> None:
        """A replay that has another line, or one less."""
        steps = recorded()
        whole = clusters.examined(steps, replay).transcript.split(b'\n')[:-1]
        for at in range(0, len(whole), 11):
            less, other = list(whole), list(whole)
            del less[at]
            other[at] = other[at][:-1] + (b'1' if other[at][-1:] != b'1' else b'2')
            for lines in (less, other):
                self.assertNotEqual(fault_of(steps, lambda _, lines=lines: b'\n'.join(lines) + b'\n'), '', whole[at][:60])


def line_counts(steps: List[Seen], at: int) -> bool:
    """The lines of a step count: it isn't of a process that was killed."""
    if steps[at].kind == 'notes':
        return steps[at + 1].text == 'over'
    return steps[at].kind == 'says'


class Open(unittest.TestCase):
    """What was left open."""

    def test_each_way_is_tried_once(self) -> None:
        """Two things with two ways, of which the second comes up in one way of the first alone."""
        tried, taken = [], []
        while taken is not None:
            choices = Choices(taken)
            first = choices.choose(2)
            tried.append((first, choices.choose(3) if first == 0 else 0))
            taken = choices.next()
        self.assertEqual(tried, [(0, 0), (0, 1), (0, 2), (1, 0)])

    def test_what_a_killed_drive_took_is_left_open(self) -> None:
        """A drive was killed while it had a record. What came later fits only one of the ways."""
        steps = recorded()
        self.assertEqual(sum(step.kind == 'takes' and step.reply is None for step in steps), 1)
        fits, taken = [], []
        while taken is not None:
            choices = Choices(taken)
            try:
                Mapping(steps, choices).go()
                fits.append(True)
            except Difference:
                fits.append(False)
            taken = choices.next()
        self.assertIn(False, fits)
        self.assertIn(True, fits)

    def test_texts_are_read_back(self) -> None:
        """What a town's processes are told."""
        for seed in range(20):
            town = Town(seed)
            self.assertEqual(read_text(town.later.spelled()), town.later)


class Runs(unittest.TestCase):
    """Runs of a false program, which is right or does something wrong on purpose."""

    def blown(self, seed: int, fault: str) -> clusters.Blown:
        """What becomes of a seed."""
        os.environ['FAULT'] = fault
        try:
            with tempfile.TemporaryDirectory() as keep:
                return clusters.blow(clusters.Task(seed, FAKE, keep))
        finally:
            del os.environ['FAULT']

    def test_a_wrong_byte_is_found(self) -> None:
        """A drive's replies to READs have another byte."""
        self.assertIn('by the rules', self.blown(3, 'byte').fault)


if __name__ == '__main__':
    sys.exit(main(__name__))
