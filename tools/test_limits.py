#!/usr/bin/env python3
"""Compares the numbers of docs/LIMITS.md with the sources and the tools: python3 tools/test_limits.py"""
import ast
import glob
import os
import re
import sys
import unittest
from typing import Dict, Iterator, List, NamedTuple, Optional

sys.dont_write_bytecode = True
TOP = os.path.dirname(os.path.dirname(os.path.abspath(__file__)))
PAGE = os.path.join(TOP, "docs", "LIMITS.md")

COLUMNS = 5
PLACE = re.compile(r"`(?P<where>[A-Za-z0-9_./]+): (?P<name>[A-Z][A-Z0-9_]*)(?: \+ (?P<more>[0-9]+))?`")
CONSTANT = re.compile(r"^\s*(?:pub )?const (?P<name>[A-Z][A-Z0-9_]*): [a-z0-9]+ = (?P<value>[0-9_]+|0x[0-9a-fA-F_]+|[0-9]+ << [0-9]+);", re.MULTILINE)
#: Names that bound something. A constant of the sources with such a name has to be in the page.
BOUND = re.compile(r"MAX_[A-Z_]+|GREATEST_[A-Z_]+")
#: Bounds that are the range of a type, or of a system call, and so no limits of this project.
OF_A_TYPE = {"MAX_U32", "MAX_U64", "MAX_SIZE"}


class Limit(NamedTuple):
    """A row of the page."""

    name: str
    value: int
    places: List[re.Match]


def limits() -> Iterator[Limit]:
    """The rows of the page's tables."""
    with open(PAGE) as page:
        for line in page:
            cells = [cell.strip() for cell in line.strip().strip("|").split("|")]
            if line.startswith("|") and len(cells) == COLUMNS and cells[1].isdecimal():
                yield Limit(cells[0], int(cells[1]), list(PLACE.finditer(cells[2] + cells[3])))


def constants_of(crate: str) -> Dict[str, List[int]]:
    """The constants of a crate's sources, each with its values: two modules may have one name."""
    found: Dict[str, List[int]] = {}
    for path in glob.glob(os.path.join(TOP, "crates", crate, "src", "**", "*.rt"), recursive=True):
        with open(path) as source:
            for constant in CONSTANT.finditer(source.read()):
                found.setdefault(constant["name"], []).append(number(constant["value"]))
    return found


def number(word: str) -> int:
    """The value of a literal, or of one that is shifted."""
    left, _, right = word.partition(" << ")
    value = int(left.replace("_", ""), 0)
    return value << int(right) if right else value


def value_in_tool(path: str, name: str) -> Optional[int]:
    """The value that a tool gives to a name at its top."""
    with open(os.path.join(TOP, path)) as tool:
        for statement in ast.parse(tool.read()).body:
            if not isinstance(statement, ast.Assign):
                continue
            target, value = statement.targets[0], statement.value
            pairs = zip(target.elts, value.elts) if isinstance(target, ast.Tuple) and isinstance(value, ast.Tuple) else [(target, value)]
            for one, worth in pairs:
                if isinstance(one, ast.Name) and one.id == name:
                    return int(eval(compile(ast.Expression(worth), path, "eval"), {"__builtins__": {}}))
    return None


class Limits(unittest.TestCase):
    """The page, the sources and the tools agree."""

    def test_each_place_has_the_number(self):
        for limit in limits():
            self.assertTrue(limit.places, f"{limit.name}: no place is named")
            for place in limit.places:
                with self.subTest(limit=limit.name, place=place[0]):
                    self.assertEqual([limit.value - int(place["more"] or 0)], self.values(place))

    def values(self, place):
        """The values that the sources, or a tool, have under a name."""
        if place["where"].startswith("tools/"):
            return [value_in_tool(place["where"], place["name"])]
        return sorted(set(constants_of(place["where"]).get(place["name"], [])))

    def test_each_bound_is_in_the_page(self):
        named = {(place["where"], place["name"]) for limit in limits() for place in limit.places}
        for folder in sorted(glob.glob(os.path.join(TOP, "crates", "*"))):
            crate = os.path.basename(folder)
            for name in constants_of(crate):
                if BOUND.fullmatch(name) and name not in OF_A_TYPE:
                    self.assertIn((crate, name), named, f"docs/LIMITS.md lacks `{crate}: {name}`")

    def test_the_page_is_read(self):
        self.assertGreater(len(list(limits())), 40)

    def test_seconds(self):
        values = {limit.name: limit.value for limit in limits()}
        self.assertLess(4 * values["silence of a drive, for a client"], values["seconds of a grant"])
        waits = ["silence of a drive, for the server", "silence of who connected to the server, or to a drive within a record", "a whole record of it",
                 "silence of a drive, for a client", "silence of the server, for a client"]
        self.assertEqual([values[name] for name in waits], sorted(values[name] for name in waits))


def main():
    """Runs the tests that are named, or all. The last line has how many passed and failed."""
    result = unittest.main(exit=False).result
    failed = len(result.failures) + len(result.errors)
    sys.stderr.flush()
    print(f"tests: {result.testsRun - failed} passed, {failed} failed")
    return 1 if failed or not result.testsRun else 0


if __name__ == "__main__":
    sys.exit(main())
