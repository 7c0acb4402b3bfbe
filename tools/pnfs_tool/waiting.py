"""Waits until parties answer, and until the job of an order has ended, as far as that shows from outside.

A party that was started takes connections before it is ready, and answers the first after it has said `listening`. A file that a
job works on refuses requests for layouts. So the job has ended when a layout is granted again, and the layout tells which
components are missing then.
"""
import os
import time
from typing import Callable, List, Optional, Set

from pnfs_osd.cluster_text import ClusterText
from pnfs_osd.ends import DONE, FILE_LOST, LACKS_DRIVE, NOT_ENDED, NOT_WELL, End

from .seeing import BUSY, HELD, LOST, MISSING, UNKNOWN, UP, WHOLE, FileSeen, Onlooker, see_drive, see_server
from .words import SERVER

FIRST_PAUSE, LONGEST_PAUSE = 0.05, 2.0


def wait_for_end(onlooker: Onlooker, file: int, patience: float, tell: Callable[[str], None]) -> FileSeen:
    """Asks again and again until no job of the file runs. Ends the run where it doesn't come to that in time."""
    until = time.monotonic() + patience
    pause, told = FIRST_PAUSE, set()  # type: float, Set[str]
    while True:
        seen = onlooker.see_file(file)
        if seen.state not in (BUSY, HELD, UNKNOWN):
            return seen
        why = why_not(seen)
        if time.monotonic() >= until:
            raise End(NOT_ENDED, f"f{file}: {why}; given up after {patience} seconds. The order stays given: ask again with 'status'")
        if why not in told:
            told.add(why)
            tell(f"f{file}: {why}; waiting")
        time.sleep(min(pause, max(until - time.monotonic(), 0.01)))
        pause = min(pause * 2, LONGEST_PAUSE)


def why_not(seen: FileSeen) -> str:
    """Why it isn't known yet how the file is."""
    if seen.state == BUSY:
        return f"a job of it waits for component {seen.waits_for} (if its drive is lost: 'declare')"
    if seen.state == HELD:
        return f"client {seen.holder} has a grant on it"
    return f"the server didn't answer ({seen.why})"


def rebuilt(seen: FileSeen) -> int:
    """The exit status after a rebuild; it ends the run where components are missing still."""
    if seen.state == WHOLE:
        return DONE
    names = ", ".join(str(number) for number in seen.missing())
    if seen.state == LOST:
        raise End(FILE_LOST, f"f{seen.number} is lost: its components {names} are missing, more than its parity brings back. "
                             "Its number can't be written again: put its copy under another number, as docs/use/OPERATIONS.md says")
    if seen.state == MISSING:
        raise End(LACKS_DRIVE, f"f{seen.number} lacks its components {names} still: no drive was free for them. Add a spare drive to "
                               "the cluster text, start a stored server again with it, and rebuild once more")
    raise End(NOT_ENDED, f"f{seen.number} is {seen.state}: nothing was rebuilt")


def has_ended(process: Optional[int]) -> bool:
    """Whether there is such a process no more."""
    if process is None:
        return False
    try:
        os.kill(process, 0)
    except ProcessLookupError:
        return True
    except PermissionError:
        pass
    return False


def is_up(cluster: ClusterText, party: str, onlooker: Onlooker, file: int) -> bool:
    """Whether a party answers now."""
    if party == SERVER:
        return see_server(cluster.server, onlooker, file).state == UP
    drive = int(party[1:])
    return see_drive(drive, cluster.drives[drive]).state == UP


def wait_for_parties(parties: List[str], asks: Callable[[str], bool], process: Optional[int], patience: float) -> None:
    """Asks these parties, one after the other, until each has answered. Ends the run where that takes longer than the patience, or
    the process has ended before."""
    until = time.monotonic() + patience
    for party in parties:
        pause = FIRST_PAUSE
        while not asks(party):
            if has_ended(process):
                raise End(NOT_WELL, f"process {process} has ended, and {party} doesn't answer")
            if time.monotonic() >= until:
                raise End(NOT_WELL, f"{party} doesn't answer; given up after {patience} seconds")
            time.sleep(pause)
            pause = min(pause * 2, LONGEST_PAUSE)
    if has_ended(process):
        raise End(NOT_WELL, f"process {process} has ended, and another one answers in its place")
