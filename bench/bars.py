"""Bars of the benchmarks: a figure, what it may be, and whether it is."""
import sys
from typing import List, NamedTuple


class Bar(NamedTuple):
    """A figure with its unit, and the most or the least that it may be."""

    name: str
    value: float
    unit: str
    bound: float
    at_least: bool = False

    def holds(self) -> bool:
        """Whether the figure keeps to its bar."""
        return self.value >= self.bound if self.at_least else self.value <= self.bound

    def line(self) -> str:
        """What is printed of it."""
        word = "at least" if self.at_least else "at most"
        return f"{self.name:62} {self.value:10.4g} {self.unit:5} {word} {self.bound:.4g}: {'holds' if self.holds() else 'fails'}"


class Bars:
    """The bars of a run; each is printed as it comes."""

    def __init__(self, script: str) -> None:
        self.script = script
        self.failed: List[str] = []

    def judge(self, bar: Bar) -> None:
        """Prints a bar, and keeps whether it fails."""
        print(bar.line(), flush=True)
        if not bar.holds():
            self.failed.append(bar.name)

    def refuse(self, name: str, why: str) -> None:
        """A bar fails whose figure there isn't."""
        print(f"{name:62} fails: {why}", flush=True)
        self.failed.append(name)

    def leave_out(self, name: str, why: str) -> None:
        """A bar isn't tried."""
        print(f"{name:62} not tried: {why}", flush=True)

    def end(self) -> None:
        """Ends the run: with status 1 if a bar fails."""
        if self.failed:
            sys.exit(f"{self.script}: {len(self.failed)} of the bars fail")
