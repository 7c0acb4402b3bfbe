"""Cases that are scenarios: given to `replay`, with what has to come of them beside them."""

import os
import re
from typing import List, Optional

from . import drives, processes
from .case import Case, Fault, compare, expanded, lines_of, shown

# How many seconds a replay may take.
_LIMIT = 120.0

# How the lines begin that `.shows` may leave out.
_MAY_BE_LEFT = ("= ", "m ", "d ")


def told(line: str) -> str:
    """A message's line without its bytes, and any other line whole."""
    return line.rpartition(" ")[0] if line.startswith("m ") else line


def show_in_order(transcript: List[str], wanted: List[str]) -> None:
    """Raises a Fault unless the transcript shows these lines and no others, in order."""
    at = 0
    for number, line in enumerate(transcript, 1):
        if at < len(wanted) and told(line) == wanted[at]:
            at += 1
        elif not line.startswith(_MAY_BE_LEFT):
            want = wanted[at] if at < len(wanted) else None
            raise Fault("line %d has to be\n  %s\nand is\n  %s" % (number, shown(want), shown(line)))
    if at < len(wanted):
        raise Fault("this line doesn't show:\n  %s" % shown(wanted[at]))


def show_none(transcript: List[str], patterns: List[str]) -> None:
    """Raises a Fault if a line of the transcript has one of these patterns."""
    for pattern in patterns:
        sought = re.compile(pattern)
        for number, line in enumerate(transcript, 1):
            if sought.search(line):
                raise Fault("line %d may not have %s, and is\n  %s" % (number, pattern, shown(line)))


def commands_of(transcript: List[str]) -> List[str]:
    """Each READ and WRITE that is sent, by its sender, drive, range and bytes, and each line that tells how a call ended."""
    told = (line if line.startswith("o ") else drives.transfer_in(line) for line in transcript)
    return [line for line in told if line]


class ScenarioCase(Case):
    """A scenario and what has to come of it."""

    def _beside(self, ending: str) -> Optional[bytes]:
        path = os.path.splitext(self.path)[0] + ending
        if not os.path.exists(path):
            return None
        with open(path, "rb") as file:
            return file.read()

    def play(self, program: str) -> None:
        """Replays it, and compares."""
        with open(self.path, "rb") as file:
            scenario = expanded(file.read().decode("latin-1")).encode("latin-1")
        output, status = processes.run([program, "replay"], scenario, _LIMIT)
        had = lines_of(output)
        transcript, shows, end = (self._beside(ending) for ending in (".transcript", ".shows", ".status"))
        if transcript is not None:
            compare(lines_of(transcript), had)
        if shows is not None:
            show_in_order(had, expanded(shows.decode("utf-8")).splitlines())
        sent = self._beside(".commands")
        if sent is not None:
            compare(expanded(sent.decode("utf-8")).splitlines(), commands_of(had), "of the commands and outcomes, line")
        lacks = self._beside(".lacks")
        if lacks is not None:
            show_none(had, lacks.decode("utf-8").splitlines())
        wanted = ["0"] if end is None else lines_of(end)
        compare(wanted[1:], had[-1:] if end is not None else [], "of the last lines, line")
        if processes.status_name(status) != wanted[0]:
            raise Fault("the exit status has to be %s and is %s" % (wanted[0], processes.status_name(status)))
