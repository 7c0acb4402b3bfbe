"""Processes of cases: each in a group of its own, so that what it starts ends with it."""

import contextlib
import os
import resource
import signal
import subprocess
import threading
from typing import IO, Callable, Dict, List, Optional, Tuple, Union

from .case import Fault

_LOCK = threading.Lock()
_RUNNING: Dict[int, "subprocess.Popen[bytes]"] = {}

Stream = Union[int, IO[bytes], None]

PIPE = subprocess.PIPE


def _leave_room(size: int) -> Callable[[], None]:
    """Has a write past a file's first bytes, so many, fail as one for which a disk has no room."""

    def leave() -> None:
        signal.signal(signal.SIGXFSZ, signal.SIG_IGN)
        resource.setrlimit(resource.RLIMIT_FSIZE, (size, size))

    return leave


def start(
    words: List[str], stdin: Stream, stdout: Stream, folder: Optional[str] = None, environment: Optional[Dict[str, str]] = None,
    room: Optional[int] = None,
) -> "subprocess.Popen[bytes]":
    """Starts a process whose standard error is a pipe, and whose files may have `room` bytes each."""
    before = None if room is None else _leave_room(room)
    with _LOCK:
        process = subprocess.Popen(
            words, stdin=stdin, stdout=stdout, stderr=subprocess.PIPE, cwd=folder, env=environment, start_new_session=True,
            preexec_fn=before,
        )
        _RUNNING[process.pid] = process
    return process


def end(process: "subprocess.Popen[bytes]") -> None:
    """Ends a process with all that it started, and waits for it."""
    with contextlib.suppress(ProcessLookupError, PermissionError):
        os.killpg(process.pid, signal.SIGKILL)
    process.wait()
    with _LOCK:
        _RUNNING.pop(process.pid, None)


def end_all() -> None:
    """Ends each process that was started and not ended."""
    for pid in list(_RUNNING):
        with contextlib.suppress(ProcessLookupError, PermissionError):
            os.killpg(pid, signal.SIGKILL)


def run(words: List[str], given: bytes, seconds: float) -> Tuple[bytes, int]:
    """Runs a process to its end. Its standard output, and its exit status."""
    process = start(words, subprocess.PIPE, subprocess.PIPE)
    try:
        output, _ = process.communicate(given, timeout=seconds)
        return output, process.returncode
    except subprocess.TimeoutExpired:
        raise Fault("it doesn't end within %d seconds" % seconds) from None
    finally:
        end(process)
        for stream in (process.stdin, process.stdout, process.stderr):
            with contextlib.suppress(OSError, ValueError):
                if stream is not None:
                    stream.close()


def status_name(status: int) -> str:
    """An exit status, or the name of the signal that ended a process."""
    if status >= 0:
        return str(status)
    try:
        return signal.Signals(-status).name
    except ValueError:
        return "signal %d" % -status
