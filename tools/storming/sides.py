"""The parties of a run that is mapped: what each has to do next, what was left open, and what processes printed."""
from collections import deque
from typing import Deque, Dict, List, NamedTuple, Optional, Set, Tuple

from .seen import Seen


class Difference(Exception):
    """What was seen isn't what the rules give: where, and why."""

    def __init__(self, at: int, why: str) -> None:
        super().__init__(why)
        self.at, self.why = at, why


class Told(NamedTuple):
    """What a process printed: that of a call, or the notes of a server. `killed`: it may have done more than it printed."""

    who: str
    lines: Tuple[str, ...]
    killed: bool


class Choices:
    """What was left open, in the order in which it came up, and what is taken."""

    def __init__(self, taken: List[int]) -> None:
        self.taken = taken
        self.ways: List[int] = []

    def choose(self, ways: int) -> int:
        """One of so many ways."""
        self.ways.append(ways)
        if len(self.taken) < len(self.ways):
            self.taken.append(0)
        return self.taken[len(self.ways) - 1]

    def next(self) -> Optional[List[int]]:
        """The next choices that differ in one that was asked for; none if all were tried."""
        for n in range(len(self.ways) - 1, -1, -1):
            if self.taken[n] + 1 < self.ways[n]:
                return self.taken[:n] + [self.taken[n] + 1]
        return None


class ClientSide:
    """A client of the run: what its process has to send, in order."""

    def __init__(self) -> None:
        self.queue: Deque[int] = deque()
        self.asked: Dict[int, int] = {}
        # the commands that were sent once more, since no record came of the first exchange
        self.again: Set[int] = set()
        self.has_left = True
        self.is_over = False
        self.runs = False
        # the order that it hands over, and what it was answered
        self.order: Optional[str] = None
        self.has_ordered = False
        self.result = ''


class ServerSide:
    """The server of the run: what its process has to send, in order, and what it has to take then."""

    def __init__(self) -> None:
        self.is_up = False
        self.is_known = False
        self.has_told = False
        self.queue: Deque[int] = deque()
        self.making: List[Tuple[str, ...]] = []
        self.heard: Deque[Seen] = deque()
        # the connection that is served, who is answered there, and what he has to get
        self.sender = ''
        self.due: Deque[Tuple[int, str]] = deque()
        # its exchange that is under way, and the drives that gave it no answer in time: for a while it leaves them alone
        self.asking: Optional[int] = None
        self.late: Set[str] = set()
