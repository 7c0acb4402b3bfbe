#!/usr/bin/env python3
"""Tests of `tools/pnfs cp` with a program that stands for the real one: python3 tools/test_copies.py"""
import contextlib
import io
import json
import os
import re
import sys
import unittest
from unittest import mock

sys.dont_write_bytecode = True
HERE = os.path.dirname(os.path.abspath(__file__))
sys.path.insert(0, HERE)

import test_pnfs  # noqa: E402
from pnfs_osd.ends import End  # noqa: E402
from pnfs_tool import names  # noqa: E402
from pnfs_tool.main import main as main_of_tool  # noqa: E402
from pnfs_tool.names import Entry, Table  # noqa: E402
from pnfs_tool.words import words_of  # noqa: E402

FILES = 4
PAGE = os.path.join(os.path.dirname(HERE), "docs", "use", "TOOLS.md")
#: The second copy of a table: the first whole stripe of 12,288 bytes from byte 65,536 on.
SECOND = 73_728


class Copies(test_pnfs.Tool):
    """A cluster of four files, and two folders."""

    def setUp(self):
        super().setUp()
        with open(self.text) as text:
            head, _, file = text.read().partition("[[file]]")
        with open(self.text, "w") as text:
            text.write(head + "".join("[[file]]" + file.replace("number = 0", f"number = {number}") for number in range(FILES)))
        self.begin()
        self.source, self.target = (os.path.join(self.folder.name, name) for name in ("source", "target"))
        os.mkdir(self.source)

    def run_tool(self, *words, status=0):
        """Runs the tool in this process."""
        said = io.StringIO()
        environment = mock.patch.dict(os.environ, {"PNFS_LOCKS": os.path.join(self.folder.name, "locks")})
        with environment, test_pnfs.runs_here(self.state), contextlib.redirect_stderr(said):
            ended = main_of_tool(["-c", self.text, "--program", "none", "--patience", "20", *words])
        self.messages = said.getvalue()
        self.assertEqual(ended, status, self.messages)

    def begin(self, script=(), data=b"", **more):
        files = {f"f{number}": "" for number in range(FILES)}
        super().begin(script, data, files={**files, **more.pop("files", {})}, **more)

    def local(self, **files):
        """Writes files into the source: underscores stand for what parts a name."""
        for name, data in files.items():
            path = os.path.join(self.source, name.replace("__", "/").replace("_", "."))
            os.makedirs(os.path.dirname(path), exist_ok=True)
            with open(path, "wb") as file:
                file.write(data)

    def found(self):
        """The files of the target."""
        whole = {}
        for path, _, files in os.walk(self.target):
            for name in files:
                with open(os.path.join(path, name), "rb") as file:
                    whole[os.path.relpath(os.path.join(path, name), self.target)] = file.read()
        return whole

    def kept(self, file):
        """What the cluster has."""
        return bytes.fromhex(self.now()["files"][file])

    def writes(self):
        """The places that were written."""
        return [re.match("write (f[0-9] [0-9]+)", run[2])[1] for run in self.now()["runs"] if run[2].startswith("write")]

    def script(self, *events):
        """What is to happen in the next calls."""
        state = self.now()
        state["script"], state["runs"] = list(events), []
        with open(self.state, "w") as text:
            json.dump(state, text)


class Lists(Copies):
    """Names that are told."""

    def test_there_and_back(self):
        self.local(a_txt=b"first", deep__b=b"second")
        self.run_tool("cp", self.source, ":", "a.txt=f2", "deep/b=f0")
        self.assertEqual((self.kept("f2"), self.kept("f0")), (b"first", b"second"))
        self.run_tool("cp", ":", self.target, "a.txt=f2", "other/c=f0")
        self.assertEqual(self.found(), {"a.txt": b"first", "other/c": b"second"})

    def test_a_shorter_one_is_refused(self):
        self.begin(files={"f1": b"longer".hex()})
        self.local(a=b"short")
        self.run_tool("cp", self.source, ":", "a=f1", status=20)
        self.assertEqual(self.kept("f1"), b"longer")

    def test_what_is_lacking(self):
        self.run_tool("cp", self.source, ":", "a=f1", status=4)
        self.run_tool("cp", ":", self.target, "a=f9", status=20)
        self.run_tool("cp", ":", "/dev/null", "a=f1", status=5)
        self.assertEqual(self.writes(), [])

    def test_resume_in(self):
        data = bytes(300_000)
        self.local(a=data)
        self.script(None, None, "spent")
        self.run_tool("cp", self.source, ":", "a=f1", status=10)
        self.assertIn("it stops behind 258048 bytes: the same 'cp' with --resume goes on", self.messages)
        self.script()
        self.run_tool("cp", "--resume", self.source, ":", "a=f1")
        self.assertEqual((self.kept("f1"), self.writes()), (data, ["f1 258048"]))

    def test_resume_out(self):
        data = bytes(range(256)) * 2000
        self.begin(files={"f1": data.hex(), "f2": "6162"})
        self.script(None, "spent")
        self.run_tool("cp", ":", self.target, "a=f1", status=10)
        self.assertEqual(self.found(), {"a.part": data[:258_048]})
        self.script()
        self.run_tool("cp", "--resume", ":", self.target, "a=f1", "b=f2")
        self.assertEqual(self.found(), {"a": data, "b": b"ab"})
        self.assertEqual(self.now()["runs"][0][2][:14], "read f1 258048")
        self.script()
        self.run_tool("cp", "--resume", ":", self.target, "a=f1", "b=f2")
        self.assertEqual(self.now()["runs"], [])

    def test_words(self):
        for words in (["a", "b", "x=f0"], [":", ":", "x=f0"], [":", "a"], [":", "a", "x=f0", "--table", "f1"], ["a", ":", "x=f0", "x=f1"],
                      ["a", ":", "x=f0", "y=f0"], ["a", ":", "../x=f0"], ["a", ":", "/x=f0"], ["a", ":", "x"], ["a", ":", "x=g0"]):
            with self.assertRaises(SystemExit) as caught, contextlib.redirect_stderr(io.StringIO()):
                words_of(["-c", self.text, "cp"] + words)
            self.assertEqual(caught.exception.code, 2, words)


class Tables(Copies):
    """Names in a table."""

    def in_and_out(self, *more):
        """Copies the source in, and out again."""
        self.run_tool("cp", self.source, ":", "--table", "f0", *more)
        self.run_tool("cp", ":", self.target, "--table", "f0", *more)
        return self.found()

    def test_there_and_back(self):
        self.local(b=b"second", a__a_txt=b"first", empty=b"")
        self.assertEqual(self.in_and_out(), {"a/a.txt": b"first", "b": b"second", "empty": b""})
        self.assertEqual([self.kept(file) for file in ("f1", "f2", "f3")], [b"first", b"second", b""])
        self.assertEqual(names.read_copy(self.kept("f0")),
                         Table(1, {"a/a.txt": Entry(1, None), "b": Entry(2, None), "empty": Entry(3, None)}))
        self.assertEqual(self.kept("f0")[SECOND:], b"pnfs names 2\nf1 5 a/a.txt\nf2 6 b\nf3 0 empty\nend 4f11716e\n")

    def test_a_name_keeps_its_file_and_may_get_shorter(self):
        self.local(a=b"a long one", b=b"other")
        self.in_and_out()
        self.local(a=b"short", c=b"new")
        self.assertEqual(self.in_and_out(), {"a": b"short", "b": b"other", "c": b"new"})
        self.assertEqual(self.kept("f1"), b"short" + b"g one")
        self.assertEqual(names.read_copy(self.kept("f0")[SECOND:]).count, 4)

    def test_what_isnt_whole_is_left_out(self):
        self.local(a=b"first", b=b"x" * 300_000)
        self.script(*[None] * 7, "spent")
        self.run_tool("cp", self.source, ":", "--table", "f0", status=10)
        self.run_tool("cp", ":", self.target, "--table", "f0", status=23)
        self.assertEqual((self.found(), self.messages.count("it isn't whole")), ({}, 2))
        self.script()
        self.assertEqual(self.in_and_out("--resume"), {"a": b"first", "b": b"x" * 300_000})
        self.assertEqual([place for place in self.writes() if not place.startswith("f0")], ["f2 258048"])

    def test_a_table_that_was_cut_leaves_the_one_before(self):
        self.local(a=b"first")
        self.in_and_out()
        table = self.kept("f0")
        self.begin(files={"f0": (table[:SECOND + 20] + bytes(30)).hex(), "f1": b"first".hex()})
        self.run_tool("cp", ":", self.target, "--table", "f0", status=23)
        self.local(b=b"second")
        self.assertEqual(self.in_and_out(), {"a": b"first", "b": b"second"})

    def test_too_many(self):
        self.local(a=b"1", b=b"2", c=b"3", d=b"4")
        self.run_tool("cp", self.source, ":", "--table", "f0", status=20)
        self.assertIn("no file of the cluster text is free for 'd'", self.messages)
        self.begin(files={"f1": "00", "f3": "00"})
        self.run_tool("cp", self.source, ":", "--table", "f0", status=20)
        self.assertIn("for 'b'", self.messages)
        self.assertEqual(self.writes(), [])

    def test_a_file_without_a_table(self):
        self.local(a=b"1")
        self.begin(files={"f0": b"no table".hex()})
        for words in (self.source, ":"), (":", self.target):
            self.run_tool("cp", *words, "--table", "f0", status=20)
            self.assertIn("f0 has no table of names", self.messages)
        self.begin(files={"f0": bytes(99).hex()})
        self.assertEqual(self.in_and_out(), {"a": b"1"})

    def test_what_is_no_plain_file(self):
        self.local(a=b"1")
        os.symlink("a", os.path.join(self.source, "b"))
        self.run_tool("cp", self.source, ":", "--table", "f0", status=20)
        self.assertEqual(self.now()["runs"], [])

    def test_a_file_that_is_shorter_than_its_size(self):
        copy = names.spelled(Table(1, {"a": Entry(1, 9)}))
        self.begin(files={"f0": copy.hex(), "f1": "6162"})
        self.run_tool("cp", ":", self.target, "--table", "f0", status=23)
        self.assertEqual(self.found(), {"a.part": b"ab"})


class Spelling(unittest.TestCase):
    """The form of a table."""

    def test_what_is_none(self):
        whole = names.spelled(Table(3, {"a": Entry(1, 5), "b/c": Entry(2, None)}))
        self.assertEqual(names.read_copy(whole + b"more"), Table(3, {"a": Entry(1, 5), "b/c": Entry(2, None)}))
        for length in range(len(whole)):
            self.assertIsNone(names.read_copy(whole[:length]))
        for at in range(len(whole)):
            self.assertIsNone(names.read_copy(whole[:at] + bytes([whole[at] ^ 1]) + whole[at + 1:]))

    def test_the_page_shows_one(self):
        with open(PAGE, encoding="utf-8") as page:
            shown = re.search(r"(?:^    .*\n)+", page.read().partition("## Tables of names")[2], re.MULTILINE)
        copy = "".join(line[4:] + "\n" for line in shown[0].splitlines()).encode()
        self.assertEqual(names.read_copy(copy), Table(7, {"notes/a.txt": Entry(1, 1077), "b.txt": Entry(2, None)}))

    def test_names_that_lead_elsewhere(self):
        for name in ("/etc/passwd", "../a", "a/../../b", "a//b", ".", ""):
            copy = names.spelled(Table(1, {name: Entry(1, 5)}))
            self.assertIsNone(names.read_copy(copy), name)
        two = names.spelled(Table(1, {"a": Entry(1, 5), "b": Entry(1, 5)}))
        self.assertIsNone(names.read_copy(two))

    def test_a_table_that_is_too_long(self):
        self.assertRaises(End, names.spelled, Table(1, {"a" * 2000 + str(number): Entry(number, 0) for number in range(40)}))


def main():
    """Runs the tests that are named, or all. The last line has how many passed and failed."""
    result = unittest.main(exit=False).result
    failed = len(result.failures) + len(result.errors)
    sys.stderr.flush()
    print(f"tests: {result.testsRun - failed} passed, {failed} failed")
    return 1 if failed or not result.testsRun else 0


if __name__ == "__main__":
    sys.exit(main())
