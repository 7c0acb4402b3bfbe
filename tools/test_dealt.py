#!/usr/bin/env python3
"""Tests of `tools/dealt`, over journals that are spelled here by docs/use/STORES.md.

    tools/test_dealt.py
"""
import fcntl
import os
import subprocess
import sys
import tempfile
import unittest
import zlib
from typing import Tuple

DEALT = os.path.join(os.path.dirname(os.path.abspath(__file__)), 'dealt')
HEADER = b'OSDJ\0\0\0\1' + bytes(16)


def record(*fields: Tuple[int, int]) -> bytes:
    """An open gate, and a record of numbers, each with its width."""
    body = b''.join(value.to_bytes(width, 'big') for value, width in fields)
    size = len(body)
    return b'\xff' + (2 ** 32 - 1 - size).to_bytes(4, 'big') + size.to_bytes(4, 'big') + body + zlib.crc32(body).to_bytes(4, 'big')


def noted(file: int, kind: int, *fields: Tuple[int, int]) -> bytes:
    """A record that tells of a note, or with kind 0 that the notes of a file are dealt with."""
    return record((2 ** 32 - 2, 4), (file, 4), (kind, 4), *fields)


ENTRIES = record((0, 4))
REPAIRED = noted(0, 1, (3, 8), (1, 8))
LOST = noted(2, 3, (1, 4), (2, 4), (0, 4), (1, 4))
NOTES = ENTRIES + REPAIRED + noted(2, 2, (3, 4)) + LOST + noted(0, 4, (2, 8), (0, 8), (1, 8), (1536, 8))
TEXTS = ['f0 repaired 3 1', 'f2 nodrive 3', 'f2 lost 1 0,1', 'f0 audit 2 0 1 1536']


class Dealt(unittest.TestCase):
    """Each test has a journal of its own."""

    def dealt(self, before: bytes, *words: str, locked: bool = False):
        """What the tool ends with and says, and what the journal is then."""
        with tempfile.TemporaryDirectory() as folder:
            path = os.path.join(folder, 's.journal')
            with open(path, 'wb') as journal:
                journal.write(before)
                journal.flush()
                if locked:
                    fcntl.flock(journal, fcntl.LOCK_EX)
                done = subprocess.run([sys.executable, DEALT, path, *words], capture_output=True, text=True)
            with open(path, 'rb') as journal:
                return done.returncode, done.stdout + done.stderr, journal.read()

    def refused(self, before: bytes, says: str, *words: str, locked: bool = False):
        status, said, after = self.dealt(before, *words, locked=locked)
        self.assertEqual((status, after), (2, before))
        self.assertIn(says, said)

    def told(self, before: bytes, *texts: str):
        status, said, after = self.dealt(before)
        self.assertEqual((status, said.splitlines(), after), (0, list(texts), before))

    def test_tells_the_notes_that_are_kept(self):
        self.told(HEADER + NOTES + b'\0', *TEXTS)
        self.told(HEADER + NOTES + noted(0, 0) + b'\0', *TEXTS[1:3])
        self.told(HEADER + NOTES + noted(0, 0) + REPAIRED + b'\0', *TEXTS[1:3], TEXTS[0])
        self.told(HEADER + b'\0')

    def test_takes_those_of_a_file_away(self):
        status, said, after = self.dealt(HEADER + NOTES + b'\0left by a crash', 'f2')
        self.assertEqual((status, said.splitlines()), (0, [text + ': dealt with' for text in TEXTS[1:3]]))
        longer = HEADER + NOTES + noted(2, 0) + b'\0'
        self.assertEqual(after[:len(longer)], longer)
        self.told(after, TEXTS[0], TEXTS[3])

    def test_a_file_without_notes(self):
        self.refused(HEADER + NOTES + b'\0', 'it keeps no note of f1', 'f1')
        self.refused(HEADER + NOTES + noted(2, 0) + b'\0', 'it keeps no note of f2', 'f2')

    def test_what_is_no_journal_is_left(self):
        for bad in (b'', b'OSDS' + HEADER[4:] + b'\0', HEADER, HEADER + NOTES, HEADER + NOTES[:-1] + b'\0'):
            self.refused(bad, 'no journal', 'f0')

    def test_a_running_server_keeps_its_journal(self):
        self.refused(HEADER + NOTES + b'\0', 'the server has it open', 'f0', locked=True)

    def test_words(self):
        for words in (('0',), ('f64',), ('f0', 'f2'), ('f-1',)):
            self.refused(HEADER + NOTES + b'\0', 'tools/dealt JOURNAL fN', *words)


def main():
    """Runs the tests. The last line has how many passed and failed."""
    result = unittest.main(exit=False).result
    failed = len(result.failures) + len(result.errors)
    sys.stderr.flush()
    print('tests: %d passed, %d failed' % (result.testsRun - failed, failed))
    return 1 if failed or not result.testsRun else 0


if __name__ == '__main__':
    sys.exit(main())
