"""Replays of texts that are cut, into files that fill up, and with outputs too long to be kept."""

import collections
import os
import re
from typing import Deque, List

from . import processes
from .case import Fault, compare, lines_of

# How many seconds one of them may take.
_LIMIT = 120.0

_REFUSED = re.compile(r"error ([0-9]+) [A-Za-z]+")


def _is_event(line: bytes) -> bool:
    return bool(line.strip()) and not line.startswith(b"#")


def _whole(program: str, scenario: bytes) -> bytes:
    """The transcript of a scenario, which has to be read to its end."""
    output, status = processes.run([program, "replay"], scenario, _LIMIT)
    if status != 0:
        raise Fault("the whole text ends with status %s" % processes.status_name(status))
    return output


def _of_events(transcript: List[str]) -> List[List[str]]:
    """The lines of each event, without the last line of all."""
    found: List[List[str]] = []
    for line in transcript[:-1]:
        if line.startswith("= "):
            found.append([])
        found[-1].append(line)
    return found


def _of_prefix(program: str, prefix: bytes, events: List[List[str]]) -> None:
    """Raises a Fault unless a prefix ends as its last line lets it, behind what the lines before it gave in the whole."""
    lines = prefix.split(b"\n")
    before: List[str] = sum(events[:sum(map(_is_event, lines[:-1]))], [])
    output, status = processes.run([program, "replay"], prefix, _LIMIT)
    had = lines_of(output)
    compare(before, had[:len(before)])
    end = had[len(before):]
    refused = _REFUSED.fullmatch(end[0]) if len(end) == 1 else None
    is_refused = status == 3 and refused is not None and int(refused.group(1)) == len(lines)
    is_done = status == 0 and end[-1:] != [] and end[-1].startswith("calm ")
    if not is_refused and not is_done:
        raise Fault("it ends with status %s and the line\n  %s" % (processes.status_name(status), had[-1] if had else "(none)"))


def prefixes(program: str, scenario: bytes) -> None:
    """Replays each prefix of a scenario. Raises a Fault at the first that goes otherwise than its last line lets it."""
    events = _of_events(lines_of(_whole(program, scenario)))
    for length in range(len(scenario) + 1):
        try:
            _of_prefix(program, scenario[:length], events)
        except Fault as fault:
            raise Fault("of the prefix of %d bytes: %s" % (length, fault)) from None


def _into(program: str, scenario: str, folder: str, room: int) -> int:
    """The exit status of a replay into a file that has so much room."""
    with open(scenario, "rb") as given, open(os.path.join(folder, ".filled"), "wb") as output:
        process = processes.start([program, "replay"], given, output, folder, None, room)
    try:
        process.communicate(timeout=_LIMIT)
        return process.returncode
    finally:
        processes.end(process)


def fills(program: str, scenario: str, folder: str) -> None:
    """Replays a scenario into files that get full at the beginning and in the middle of each line of its transcript. Raises a
    Fault unless each has what it has room for, and the status says that no more could be written."""
    with open(scenario, "rb") as file:
        whole = _whole(program, file.read())
    begin, places = 0, []
    for line in whole.splitlines(keepends=True):
        places += [begin, begin + len(line) // 2]
        begin += len(line)
    for room in places + [begin]:
        status = _into(program, scenario, folder, room)
        with open(os.path.join(folder, ".filled"), "rb") as file:
            had = file.read()
        if had != whole[:room]:
            raise Fault("a file with room for %d bytes has %d others" % (room, len(had)))
        if status != (0 if room == begin else 5):
            raise Fault("with room for %d bytes it ends with status %s" % (room, processes.status_name(status)))


class Last:
    """The last lines of a process, whose others aren't kept."""

    def __init__(self, words: List[str], scenario: str, count: int) -> None:
        with open(scenario, "rb") as given:
            process = processes.start(words, given, processes.PIPE)
        kept: Deque[bytes] = collections.deque(maxlen=count)
        try:
            assert process.stdout is not None
            for line in process.stdout:
                kept.append(line)
            self.status = processes.status_name(process.wait(_LIMIT))
        finally:
            processes.end(process)
        self.lines = lines_of(b"".join(kept))
