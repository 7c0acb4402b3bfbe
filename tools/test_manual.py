#!/usr/bin/env python3
"""Tests of the manual pages and of the completions of tools/pnfs: python3 tools/test_manual.py"""
import os
import shutil
import subprocess
import sys
import tempfile
import unittest
from typing import List

sys.dont_write_bytecode = True
HERE = os.path.dirname(os.path.abspath(__file__))
TOP = os.path.dirname(HERE)
sys.path.insert(0, HERE)

from manuals.helps import Item, Part, parts_of  # noqa: E402
from manuals.pages import program_page, texts, tool_page  # noqa: E402
from manuals.table import table  # noqa: E402

BASH = os.path.join(HERE, "completions", "pnfs.bash")
ZSH = os.path.join(HERE, "completions", "_pnfs")
CLUSTER = os.path.join(TOP, "scenarios", "cluster.toml")


def ran(words: List[str]) -> str:
    """What a command puts out; nothing may be on its standard error."""
    done = subprocess.run(words, stdin=subprocess.DEVNULL, stdout=subprocess.PIPE, stderr=subprocess.STDOUT, check=False)
    return done.stdout.decode() if done.returncode == 0 else f"status {done.returncode}: {done.stdout.decode()}"


class Made(unittest.TestCase):
    """What is made is as it would be made now."""

    def test_all_is_current(self):
        self.assertEqual(ran([sys.executable, os.path.join(HERE, "manual")]), "")

    def test_every_command_is_in_the_help(self):
        page = tool_page()
        for command in table().commands:
            self.assertTrue(command.told, command.name)
            self.assertIn(f"\\fB{command.name} ".replace("-", "\\-"), page.replace("\\fR", " "))

    def test_every_command_of_the_program_has_its_part(self):
        page, told = program_page(), texts()
        commands = [name for name in told if name not in ("VERSION", "PROGRAM")]
        self.assertGreater(len(commands), 8)
        for name in commands:
            self.assertIn("\n.SS " + name.lower().replace("_", "\\-") + "\n", page)
        self.assertIn("\n\\fB12\\fR\n", page)

    def test_parts(self):
        text = "calls (some):\n  put F  puts it\n         whole. And\n\nA long\nline\n\nend:\n  8    no answer\nOther\n"
        self.assertEqual(parts_of(text), [
            Part(heading="calls (some)"), Part(item=Item("put F", "puts it whole. And")), Part(paragraph="A long line"),
            Part(heading="end"), Part(item=Item("8", "no answer")), Part(paragraph="Other")])

    @unittest.skipIf(shutil.which("groff") is None, "no groff")
    def test_pages_can_be_set(self):
        for page in ("pnfs.1", "pnfs_osd.1"):
            done = subprocess.run(["groff", "-man", "-Tascii", os.path.join(TOP, "docs", "man", page)],
                                  stdout=subprocess.PIPE, stderr=subprocess.PIPE, check=True)
            self.assertGreater(len(done.stdout), 2000)
            self.assertNotRegex(done.stdout.decode(), r"(?m)^\s*\.[A-Z]{2}|\\[fe(]")


@unittest.skipIf(shutil.which("bash") is None, "no bash")
class Completions(unittest.TestCase):
    """What bash completes."""

    def completed(self, *words: str) -> List[str]:
        """What the last of these words, after the tool's name, can become."""
        script = '. "$1"; shift; COMP_WORDS=("$@"); COMP_CWORD=$(($# - 1)); _pnfs; printf "%s\\n" "${COMPREPLY[@]}"'
        return ran(["bash", "-uc", script, "bash", BASH, "pnfs", *words]).split()

    def test_commands_and_options(self):
        self.assertEqual(self.completed("re"), ["recall", "revoke", "rebuild", "read"])
        self.assertIn("--patience", self.completed("-c", CLUSTER, "-"))
        commands = [command.name for command in table().commands]
        self.assertEqual([word for word in self.completed("") if not word.startswith("-")], commands)

    def test_options_of_commands(self):
        for command in table().commands:
            names = [name for option in command.options for name in option.names]
            self.assertEqual(self.completed("-c", CLUSTER, command.name, "-"), names, command.name)

    def test_names_of_the_cluster_text(self):
        self.assertEqual(self.completed("-c", CLUSTER, "get", ""), ["f0"])
        self.assertEqual(self.completed("-q", "-c", CLUSTER, "rebuild", "--wait", "f"), ["f0"])
        self.assertEqual(self.completed("-c", CLUSTER, "declare", ""), ["d0", "d1", "d2", "d3"])
        self.assertEqual(self.completed("--cluster", CLUSTER, "wait", "d0", ""), ["server", "drives", "d0", "d1", "d2", "d3"])
        self.assertEqual(self.completed("get", ""), [])

    def test_values(self):
        self.assertEqual(self.completed("--client", "1"), ["1", "10", "11", "12", "13", "14", "15"])
        self.assertEqual(self.completed("--patience", ""), [])
        self.assertEqual(self.completed("-c", CLUSTER, "get", "f0", ""), [])
        with tempfile.TemporaryDirectory() as folder:
            with open(os.path.join(folder, "a.toml"), "w"):
                pass
            self.assertEqual(self.completed("-c", os.path.join(folder, "a")), [os.path.join(folder, "a.toml")])

    @unittest.skipIf(shutil.which("zsh") is None, "no zsh")
    def test_zsh_reads_its_own(self):
        self.assertEqual(ran(["zsh", "-n", ZSH]), "")


def main():
    """Runs the tests. The last line has how many passed and failed."""
    result = unittest.main(exit=False).result
    failed = len(result.failures) + len(result.errors)
    sys.stderr.flush()
    print(f"tests: {result.testsRun - failed} passed, {failed} failed")
    return 1 if failed or not result.testsRun else 0


if __name__ == "__main__":
    sys.exit(main())
