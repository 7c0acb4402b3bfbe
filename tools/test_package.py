#!/usr/bin/env python3
"""Tests of what debian/ says: python3 tools/test_package.py

The package itself is built, installed and tried by `bench/package`, which needs root and the network.
"""
import os
import re
import subprocess
import sys
import unittest
from typing import Dict, List

sys.dont_write_bytecode = True
HERE = os.path.dirname(os.path.abspath(__file__))
TOP = os.path.dirname(HERE)
sys.path.insert(0, HERE)

from manuals.pages import texts, version  # noqa: E402
from pnfs_tool.words import words_of  # noqa: E402

DRIVE, SERVER = "debian/pnfs-osd.pnfs-drive@.service", "debian/pnfs-osd.pnfs-server.service"
#: What the program ends with where a start once more helps nothing, by docs/use/OPERATIONS.md: words, text, file, no such file;
#: and where a server is refused by its drives.
HOPELESS = {DRIVE: ["2", "9", "11", "12"], SERVER: ["2", "8", "9", "11", "12"]}


def text_of(path: str) -> str:
    """The text of a file."""
    with open(os.path.join(TOP, path), encoding="utf-8") as file:
        return file.read()


def lines_of(unit: str) -> Dict[str, str]:
    """The lines of a unit, by their keys."""
    return dict(line.split("=", 1) for line in text_of(unit).splitlines() if "=" in line)


def commands_of(unit: str) -> List[List[str]]:
    """The commands of a unit's lines Exec.., with the words that systemd puts in."""
    found = [line.split("=", 1)[1] for line in text_of(unit).splitlines() if line.startswith("Exec")]
    return [line.lstrip("-").replace("%i", "3").replace("$MAINPID", "17").split() for line in found]


class Package(unittest.TestCase):
    """The package's files."""

    def test_version(self):
        self.assertEqual(text_of("debian/changelog").split(" ", 1)[1].split(")")[0], "(" + version().split()[-1])

    def test_licence(self):
        told = re.sub(r"^ \.?", "", text_of("debian/copyright").split("License: Expat\n")[-1], flags=re.MULTILINE)
        self.assertEqual(told.split(), text_of("LICENSE").split("\n", 4)[4].split())

    def test_what_is_installed_is_there(self):
        for name in ("install", "links", "manpages", "docs", "examples"):
            for line in text_of("debian/pnfs-osd." + name).splitlines():
                path = line.split()[0]
                if name == "links":
                    self.assertIn(os.path.basename(path), text_of("debian/pnfs-osd.install"))
                else:
                    self.assertTrue(os.path.exists(os.path.join(TOP, path)), path)

    def test_the_tools_find_all_they_import(self):
        installed = re.findall(r"^tools/(\w+) ", text_of("debian/pnfs-osd.install"), re.MULTILINE)
        for name in installed:
            path = os.path.join(HERE, name)
            files = [os.path.join(path, file) for file in os.listdir(path) if file.endswith(".py")] if os.path.isdir(path) else [path]
            for file in files:
                for package in re.findall(r"^from ([a-z]\w*)[. ]", text_of(file), re.MULTILINE):
                    if os.path.isdir(os.path.join(HERE, package)):
                        self.assertIn(package, installed, file)


class Units(unittest.TestCase):
    """The units of systemd."""

    def test_commands(self):
        usage = {name.lower().replace("_", "-"): text for name, text in texts().items()}
        for unit in (DRIVE, SERVER):
            for program, *words in commands_of(unit):
                if program == "/usr/bin/pnfs":
                    self.assertEqual(words_of(words).command, "wait")
                    continue
                self.assertEqual(program, "/usr/bin/pnfs_osd")
                options = re.findall(r"--[a-z]+", usage[words[0]].splitlines()[0])
                self.assertEqual(words[1::2], options)
                self.assertNotIn("", words)

    def test_what_an_operator_relies_on(self):
        for unit, statuses in HOPELESS.items():
            lines = lines_of(unit)
            self.assertEqual(lines["RestartPreventExitStatus"].split(), statuses)
            self.assertEqual((lines["Restart"], lines["UMask"], lines["User"]), ("on-failure", "0077", "pnfs"))
            self.assertTrue(lines["ExecStartPost"].endswith("--process $MAINPID"))
            told = f"`RestartPreventExitStatus={' '.join(statuses)}`"
            self.assertTrue(told in text_of("docs/use/OPERATIONS.md"), f"the page doesn't tell of {told}")

    def test_the_units_differ_in_what_they_have_to(self):
        drive, server = lines_of(DRIVE), lines_of(SERVER)
        differing = {key for key in set(drive) | set(server) if drive.get(key) != server.get(key)}
        self.assertEqual(differing, {"Description", "Before", "ExecStartPre", "ExecStart", "ExecStartPost", "RestartPreventExitStatus"})


class Installed(unittest.TestCase):
    """The package in a Debian."""

    @unittest.skipUnless(os.environ.get("PNFS_PACKAGE"), "left out: it needs root and the network (PNFS_PACKAGE=1 asks for it)")
    def test_first_hour(self):
        subprocess.run([os.path.join(TOP, "bench", "package")], check=True)


def main():
    """Runs the tests. The last line has how many passed and failed; those left out are told of before."""
    result = unittest.main(exit=False).result
    failed = len(result.failures) + len(result.errors)
    sys.stderr.flush()
    for test, why in result.skipped:
        print(f"tests: {test.id().split('.')[-1]} {why}")
    print(f"tests: {result.testsRun - failed - len(result.skipped)} passed, {failed} failed")
    return 1 if failed or not result.testsRun else 0


if __name__ == "__main__":
    sys.exit(main())
