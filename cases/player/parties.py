"""Processes in the background, and what they say."""

import contextlib
import os
import signal
import subprocess
import threading
import time
from typing import IO, Dict, List, Optional

from . import processes
from .case import Fault, lines_of, shown
from .marks import Command, Marks, Unlike, Values, take_errors, take_lines

# How often what was said is looked at, in seconds.
_LOOK = 0.2


class Heard:
    """The lines that come out of a pipe."""

    def __init__(self, pipe: Optional[IO[bytes]], news: threading.Condition) -> None:
        self.lines: List[str] = []
        self.taken = 0
        self.is_over = pipe is None
        self._news = news
        self._pipe = pipe
        if pipe is not None:
            threading.Thread(target=self._hear, args=(pipe,), daemon=True).start()

    def _hear(self, pipe: IO[bytes]) -> None:
        with contextlib.suppress(OSError, ValueError):
            for line in pipe:
                with self._news:
                    self.lines.extend(lines_of(line))
                    self._news.notify_all()
        with self._news:
            self.is_over = True
            self._news.notify_all()
        with contextlib.suppress(OSError, ValueError):
            pipe.close()

    def left(self) -> List[str]:
        """The lines that weren't taken yet."""
        return self.lines[self.taken:]


class Party:
    """A process of a case."""

    def __init__(
        self, words: List[str], command: Command, marks: Marks, given: Optional[str], folder: str, environment: Dict[str, str]
    ) -> None:
        self._news = threading.Condition()
        self.any_status = False
        with contextlib.ExitStack() as files:
            stdin = self._stdin(files, command, given, folder)
            stdout = subprocess.PIPE
            if command.stdout is not None:
                stdout = files.enter_context(open(os.path.join(folder, command.stdout), "wb"))  # type: ignore[assignment]
            self.process = processes.start(words, stdin, stdout, folder, environment, marks.room)
        self.output = Heard(self.process.stdout, self._news)
        self.errors = Heard(self.process.stderr, self._news)

    @staticmethod
    def _stdin(files: contextlib.ExitStack, command: Command, given: Optional[str], folder: str) -> processes.Stream:
        if command.stdin is not None:
            return files.enter_context(open(os.path.join(folder, command.stdin), "rb"))
        if given is None:
            return subprocess.DEVNULL
        path = os.path.join(folder, ".stdin")
        with open(path, "wb") as file:
            file.write(given.encode())
        return files.enter_context(open(path, "rb"))

    def says(self, values: Values, marks: Marks, seconds: float) -> None:
        """Waits until it has said what it has to say next."""
        until = time.monotonic() + seconds
        with self._news:
            while not self._said(values, marks):
                if time.monotonic() >= until:
                    raise Fault("it says nothing more within %d seconds%s" % (seconds, self._told()))
                self._news.wait(_LOOK)
            if marks.silent and self.errors.left():
                raise Fault("standard error isn't empty:\n  %s" % shown(self.errors.left()[0]))

    def _said(self, values: Values, marks: Marks) -> bool:
        """Whether it has said that, and if so takes it."""
        try:
            taken, _ = take_lines(values, marks.output, self.output.left())
            told = take_errors(values, marks.errors, self.errors.left())
        except Unlike as unlike:
            raise Fault(str(unlike) + self._told()) from None
        except LookupError as lacking:
            if self.output.is_over and self.errors.is_over:
                raise Fault("it never says\n  %s%s" % (shown(str(lacking.args[0])), self._told())) from None
            return False
        self.output.taken += taken
        self.errors.taken += told
        return True

    def _told(self) -> str:
        """What it has said on standard error, for a fault."""
        lines = self.errors.lines[-3:]
        return "".join("\n  (on standard error) " + shown(line) for line in lines)

    def _wait(self, seconds: float) -> None:
        """Waits until it has ended and all that it said was heard."""
        until = time.monotonic() + seconds
        try:
            self.process.wait(seconds)
        except subprocess.TimeoutExpired:
            raise Fault("it doesn't end within %d seconds%s" % (seconds, self._told())) from None
        with self._news:
            while not (self.output.is_over and self.errors.is_over):
                if time.monotonic() >= until:
                    raise Fault("what it started holds its output for %d seconds" % seconds)
                self._news.wait(_LOOK)

    def is_ended(self, seconds: float) -> None:
        """Waits until it has ended behind a signal; its status may be any then."""
        self._wait(seconds)
        self.any_status = True

    def ends(self, values: Values, marks: Marks, seconds: float) -> None:
        """Waits until it ends, and compares the rest of what it said."""
        self._wait(seconds)
        self.says(values, marks, 1)
        any_may_follow = bool(marks.output) and marks.output[-1][0] == ">*"
        if self.output.left() and not any_may_follow:
            raise Fault("it also says\n  %s%s" % (shown(self.output.left()[0]), self._told()))
        wanted = marks.status or (None if self.any_status else "0")
        had = processes.status_name(self.process.returncode)
        if wanted is not None and wanted != had:
            raise Fault("the exit status has to be %s and is %s%s" % (wanted, had, self._told()))

    def tell(self, number: "signal.Signals", whole_group: bool = False) -> None:
        """Sends it a signal, and to all that it started where `whole_group`."""
        with contextlib.suppress(ProcessLookupError):
            if whole_group:
                os.killpg(self.process.pid, number)
            elif self.process.poll() is None:
                os.kill(self.process.pid, number)

    def close(self) -> None:
        """Ends it with all that it started."""
        processes.end(self.process)
