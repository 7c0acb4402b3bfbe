#!/usr/bin/env python3
"""Tests of `tools/own`, over journals that are spelled here by docs/use/STORES.md.

    tools/test_own.py
"""
import fcntl
import os
import subprocess
import sys
import tempfile
import unittest
import zlib

OWN = os.path.join(os.path.dirname(os.path.abspath(__file__)), 'own')
HEADER = b'OSDJ\0\0\0\1' + bytes(16)
EARLIER = b'\1\0\0\0\4\0\0\0\0'


def record(body: bytes) -> bytes:
    """An open gate and a record with its checksum."""
    size = len(body)
    return b'\xff' + (2 ** 32 - 1 - size).to_bytes(4, 'big') + size.to_bytes(4, 'big') + body + zlib.crc32(body).to_bytes(4, 'big')


ENTRY = EARLIER + record(bytes(4))
TOLD = record(b'\xff\xff\xff\xff\0\0\0\7\0\0\0\0\0\1\0\2')


class Own(unittest.TestCase):
    """Each test has a journal of its own."""

    def own(self, before: bytes, *words: str, locked: bool = False):
        """What the tool ends with and says, and what the journal is then."""
        with tempfile.TemporaryDirectory() as folder:
            path = os.path.join(folder, 's.journal')
            with open(path, 'wb') as journal:
                journal.write(before)
                journal.flush()
                if locked:
                    fcntl.flock(journal, fcntl.LOCK_EX)
                done = subprocess.run([sys.executable, OWN, path, *words], capture_output=True, text=True)
            with open(path, 'rb') as journal:
                return done.returncode, done.stdout + done.stderr, journal.read()

    def refused(self, before: bytes, says: str, *words: str, locked: bool = False):
        status, said, after = self.own(before, *words, locked=locked)
        self.assertEqual((status, after), (2, before))
        self.assertIn(says, said)

    def test_adds_a_record_behind_the_others(self):
        for rest in (b'', bytes(262144), b'left by a crash'):
            status, said, after = self.own(HEADER + ENTRY + b'\0' + rest, 'd7', '65538')
            self.assertEqual(status, 0, said)
            self.assertEqual(after[:24 + len(ENTRY + TOLD) + 1], HEADER + ENTRY + TOLD + b'\0')
            self.assertEqual(after[24 + len(ENTRY + TOLD) + 1:], rest[len(TOLD):])

    def test_an_object_is_told_of_once(self):
        self.refused(HEADER + TOLD + b'\0', 'already', 'd7', '65538')

    def test_what_is_no_journal_is_left(self):
        for bad in (b'', b'OSDS' + HEADER[4:] + b'\0', HEADER, HEADER + ENTRY, HEADER + b'\1\0\0\0\0\0',
                    HEADER + ENTRY[:-1] + b'\0', HEADER + EARLIER[:-1] + b'\0', HEADER + b'\1\0\4\x93\xe1' + bytes(300_002)):
            self.refused(bad, 'no journal', 'd7', '65538')

    def test_a_bit_that_turned_is_seen(self):
        for at in range(24, 24 + len(TOLD)):
            turned = bytearray(HEADER + TOLD + b'\0')
            turned[at] ^= 16
            if at == 24:
                self.refused(bytes(turned), 'already', 'd7', '65538')
            else:
                self.refused(bytes(turned), 'no journal from byte 24', 'd7', '65538')

    def test_a_running_server_keeps_its_journal(self):
        self.refused(HEADER + b'\0', 'the server has it open', 'd7', '65538', locked=True)

    def test_words(self):
        for words in ((), ('d7',), ('7', '65538'), ('d64', '65538'), ('d7', '-1'), ('d7', str(2 ** 64)), ('d7', '1', '2')):
            self.refused(HEADER + b'\0', 'tools/own JOURNAL dN OBJECT', *words)


def main():
    """Runs the tests. The last line has how many passed and failed."""
    result = unittest.main(exit=False).result
    failed = len(result.failures) + len(result.errors)
    sys.stderr.flush()
    print('tests: %d passed, %d failed' % (result.testsRun - failed, failed))
    return 1 if failed or not result.testsRun else 0


if __name__ == '__main__':
    sys.exit(main())
