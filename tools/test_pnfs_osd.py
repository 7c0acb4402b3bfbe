#!/usr/bin/env python3
"""Tests of the Python package pnfs_osd with a program and a server that stand for the real ones: python3 tools/test_pnfs_osd.py"""
import doctest
import io
import os
import shutil
import subprocess
import sys
import unittest
from unittest import mock

sys.dont_write_bytecode = True
HERE = os.path.dirname(os.path.abspath(__file__))
TOP = os.path.dirname(HERE)
sys.path.insert(0, HERE)

import pnfs_osd  # noqa: E402
import test_pnfs  # noqa: E402
import test_seeing  # noqa: E402
from pnfs_osd import Cluster, ClusterError, NoTranscript, Transcript, files, pieces, transcript  # noqa: E402
from pnfs_osd.transcripts import envelopes, lines  # noqa: E402
from pnfs_osd.transcripts.envelopes import Answer  # noqa: E402

PAGE = os.path.join(TOP, "docs", "use", "TOOLS.md")
SERVER = "127.0.0.1:7100"


class Package(test_pnfs.Tool):
    """A cluster of stand-ins, in the folder of which the test runs: the program keeps the files, and the server tells their sizes."""

    def setUp(self):
        super().setUp()
        server = test_seeing.Peer(self.size_told)
        self.addCleanup(server.close)
        with open(self.text) as text:
            told = text.read().replace(SERVER, f"127.0.0.1:{server.port}")
        for name in ("c.toml", "cluster.toml"):
            with open(os.path.join(self.folder.name, name), "w") as text:
                text.write(told)
        former = os.getcwd()
        self.addCleanup(os.chdir, former)
        os.chdir(self.folder.name)
        names = {"PNFS_FAKE": self.state, "PNFS_LOCKS": os.path.join(self.folder.name, "locks"),
                 "PNFS_OSD": os.path.join(HERE, "fake_program.py")}
        for patch in mock.patch.dict(os.environ, names), test_pnfs.runs_here(self.state):
            patch.start()
            self.addCleanup(patch.stop)

    def size_told(self, record):
        """The refusal of a number that no request has: it tells the number that is expected, and the size."""
        request = envelopes.read_envelope(record)
        self.assertEqual(request.sequence, 0)
        data = bytes.fromhex(self.now()["files"].get(f"f{request.file}", ""))
        return envelopes.answer_bytes(Answer(*request[:4], 17, len(data), envelopes.MISORDERED, None))

    def cluster(self, **more):
        """The cluster, with little patience."""
        return Cluster("c.toml", patience=5, **more)

    def calls(self):
        """The calls that were made of f0."""
        return [run[2] for run in self.now()["runs"] if " f0 " in run[2]]


class Files(Package):
    """Files of a cluster."""

    def test_a_file_is_written_and_read(self):
        data = bytes(range(256)) * 2000
        with self.cluster().open("f0") as file:
            self.assertEqual(file.write(data), len(data))
            self.assertEqual((file.tell(), file.size(), file.read()), (len(data), len(data), b""))
            self.assertEqual(file.seek(0), 0)
            self.assertEqual(file.read(), data)
        self.assertEqual(self.data(), data)
        self.assertEqual(len(self.calls()), 5)
        self.assertEqual(self.calls()[-2:], ["read f0 0 258048", "read f0 258048 258048"])

    def test_parts(self):
        self.begin(data=b"0123456789")
        with self.cluster().open("f0", "r") as file:
            self.assertEqual((file.read(3), file.read(3), file.tell()), (b"012", b"345", 6))
            self.assertEqual((file.seek(-1, io.SEEK_END), file.read(9), file.tell()), (9, b"9", 10))
            self.assertEqual((file.seek(-4, io.SEEK_CUR), file.readall()), (6, b"6789"))
            self.assertEqual((file.seek(1_000_000), file.read(1), file.tell()), (1_000_000, b"", 1_000_000))
            buffer = bytearray(4)
            file.seek(8)
            self.assertEqual((file.readinto(buffer), bytes(buffer)), (2, b"89\0\0"))

    def test_a_hole_reads_as_zeros(self):
        with self.cluster().open("f0") as file:
            file.seek(3)
            file.write(memoryview(b"ab"))
            file.seek(0)
            self.assertEqual(file.read(), b"\0\0\0ab")

    def test_the_end_of_all_files(self):
        with self.cluster().open("f0") as file:
            file.seek(pieces.MAX_FILE)
            self.assertEqual((file.read(), file.write(b"")), (b"", 0))
            with self.assertRaisesRegex(ClusterError, "a file has at most 16777216 bytes") as caught:
                file.write(b"x")
            self.assertEqual((caught.exception.status, file.tell()), (20, pieces.MAX_FILE))

    def test_with_the_standard_library(self):
        self.begin(data=b"one\ntwo\nthree")
        with self.cluster().open("f0") as file:
            self.assertEqual(io.BufferedReader(file, 65536).readlines(), [b"one\n", b"two\n", b"three"])
        with self.cluster().open("f0") as file, open("back", "wb") as back:
            shutil.copyfileobj(file, back)
        with open("back", "rb") as back:
            self.assertEqual(back.read(), b"one\ntwo\nthree")

    def test_what_stops_in_the_middle(self):
        self.begin([None, "spent"])
        with self.cluster().open("f0") as file:
            with self.assertRaisesRegex(ClusterError, "spent") as caught:
                file.write(b"x" * 300_000)
            self.assertEqual((caught.exception.status, file.tell()), (10, 258_048))
        self.assertEqual(len(self.data()), 258_048)

    def test_tried_again_and_told(self):
        told = []
        self.begin(["held c3", None], b"abc")
        with self.cluster(tell=told.append).open("f0") as file:
            self.assertEqual(file.read(), b"abc")
        self.assertEqual(len(told), 1)
        self.assertIn("client 3 has a grant on these bytes", told[0])

    def test_what_is_refused(self):
        for name in ("f1", "f00", "g0", "f", "f-1", "f\u0661", "f64"):
            with self.assertRaises(ClusterError) as caught:
                self.cluster().open(name)
            self.assertEqual(caught.exception.status, 20, name)
        for mode in ("w", "a", "rb", ""):
            self.assertRaises(ValueError, self.cluster().open, "f0", mode)
        with self.assertRaises(ClusterError) as caught:
            Cluster("nowhere.toml")
        self.assertEqual(caught.exception.status, 4)
        with self.cluster().open("f0", "r") as file:
            self.assertFalse(file.writable())
            self.assertRaises(io.UnsupportedOperation, file.write, b"x")
            self.assertRaises(io.UnsupportedOperation, file.truncate, 0)
            self.assertRaises(ValueError, file.seek, -1)
            self.assertRaises(ValueError, file.seek, 0, 7)
        for do in (file.read, file.tell, file.size, lambda: file.write(b"x"), lambda: file.seek(0)):
            self.assertRaises(ValueError, do)
        self.assertEqual(self.calls(), [])

    def test_a_server_that_is_down(self):
        with self.cluster().open("f0") as file, mock.patch("pnfs_osd.asking.exchange", lambda *_: test_seeing.wire.Reply(None, 0.0, "gone", True)):
            with self.assertRaisesRegex(ClusterError, "the server at .* didn't answer: gone") as caught:
                file.size()
        self.assertEqual(caught.exception.status, 8)

    def test_the_number_is_held_as_long_as_a_file_is_open(self):
        cluster = self.cluster(client=2)
        with cluster.open("f0") as first:
            second = cluster.open("f0", "r")
            first.close()
            with self.assertRaisesRegex(ClusterError, "client number 2 is in use"):
                Cluster("c.toml", client=2, patience=0).open("f0")
            Cluster("c.toml", client=3, patience=0).open("f0").close()
            second.close()
            second.close()
        Cluster("c.toml", client=2, patience=0).open("f0").close()
        self.assertEqual(cluster.files(), ["f0"])


class Transcripts(unittest.TestCase):
    """Transcripts."""

    def test_lines_and_messages(self):
        path = os.path.join(TOP, "scenarios", "striped.transcript")
        with open(path, "rb") as file:
            data = file.read()
        found = Transcript.of(path)
        self.assertEqual((len(found), found[:]), (data.count(b"\n"), lines.read_transcript(data)))
        messages = list(found.messages())
        self.assertEqual(len(messages), data.count(b"\nm "))
        read = subprocess.run([sys.executable, os.path.join(HERE, "read")], input=data, stdout=subprocess.PIPE, check=True).stdout.decode()
        told = [f"{name}: {value}" for message in messages for name, value in message.fields]
        self.assertEqual(told, [line[1:] for line in read.splitlines() if line.startswith("\t")])
        self.assertEqual([last.calm for last in found.of_kind(lines.Last)], [True])

    def test_what_is_none(self):
        self.assertRaises(NoTranscript, Transcript, b"hello\n")


class Examples(Package):
    """The examples in the page and in the modules are tried."""

    def tried(self, text, module):
        """Tries the examples in a text with the names of a module, and gives how many there are."""
        test = doctest.DocTestParser().get_doctest(text, dict(vars(module)), "example", None, 0)
        said = io.StringIO()
        failed, count = doctest.DocTestRunner(optionflags=doctest.ELLIPSIS).run(test, out=said.write)
        self.assertEqual(failed, 0, said.getvalue())
        return count

    def test_of_the_page(self):
        with open(PAGE) as page:
            self.assertGreater(self.tried(page.read(), pnfs_osd), 1)

    def test_of_the_modules(self):
        shutil.copy(os.path.join(TOP, "scenarios", "lost_drive.transcript"), self.folder.name)
        for module, name in ((files, "Cluster"), (files, "ClusterFile"), (transcript, "Transcript")):
            self.begin()
            self.assertGreater(self.tried(getattr(module, name).__doc__, module), 1, name)

    def test_every_public_name_has_a_word_of_its_own(self):
        for name in pnfs_osd.__all__:
            thing = getattr(pnfs_osd, name)
            members = [vars(thing)[member] for member in vars(thing) if not member.startswith("_") and callable(vars(thing)[member])]
            for one in [thing] + members:
                self.assertTrue(one.__doc__, one)


def main():
    """Runs the tests that are named, or all. The last line has how many passed and failed."""
    result = unittest.main(exit=False).result
    failed = len(result.failures) + len(result.errors)
    sys.stderr.flush()
    print(f"tests: {result.testsRun - failed} passed, {failed} failed")
    return 1 if failed or not result.testsRun else 0


if __name__ == "__main__":
    sys.exit(main())
