"""Plays many cases at once."""

import os
import sys
import threading
from concurrent.futures import Future, ThreadPoolExecutor
from typing import List, Optional, Tuple

from .case import Case, Fault

_PRINTING = threading.Lock()

# How many cases that mostly wait run at once, for each that works.
_WAITING = 3


def _tell(case: Case, program: str, fault: str) -> None:
    with _PRINTING:
        print("%s, with %s:" % (case.name, os.path.relpath(program)))
        for line in fault.split("\n"):
            print("  " + line)
        sys.stdout.flush()


def _played(case: Case, program: str) -> bool:
    """Plays a case, and tells its fault. Whether it passed."""
    fault: Optional[str] = None
    try:
        case.play(program)
    except Fault as found:
        fault = str(found)
    except Exception as error:  # A case that can't be read is a failed case.
        fault = "%s: %s" % (type(error).__name__, error)
    if fault is not None:
        _tell(case, program, fault)
    return fault is None


def play(cases: List[Case], programs: List[str], jobs: int) -> Tuple[int, int]:
    """Plays each case with each program. How many passed, and how many failed."""
    with ThreadPoolExecutor(jobs) as working, ThreadPoolExecutor(jobs * _WAITING) as waiting:
        results: List["Future[bool]"] = []
        for program in programs:
            for case in cases:
                pool = waiting if case.waits else working
                results.append(pool.submit(_played, case, program))
        passed = sum(result.result() for result in results)
    return passed, len(results) - passed
