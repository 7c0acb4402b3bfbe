"""Writes and reads of any length, in calls that the program takes."""
import sys
import time
from typing import BinaryIO, Callable, Optional

from pnfs_osd.calls import Call, Caller
from pnfs_osd.cluster_text import FileMap
from pnfs_osd.ends import NOT_ASKED, OUTPUT, End
from pnfs_osd.pieces import MAX_CALL, MAX_FILE, pieces, read_piece, refuse_end

PROGRESS_SECONDS = 2.0


class Progress:
    """Tells how far a copy has come, and in the end what it took."""

    def __init__(self, what: str, whole: Optional[int], quiet: bool, verbose: bool, caller: Caller):
        self.what = what
        self.whole = whole
        self.quiet = quiet
        self.caller = caller
        self.on_terminal = sys.stderr.isatty()
        self.shows = (verbose or self.on_terminal) and not quiet
        self.begin = time.monotonic()
        self.last = self.begin - PROGRESS_SECONDS   # so the first call shows at once
        self.done = 0
        self.line_open = False
        self.way_on: Callable[[int], str] = lambda done: ""   # how to go on after a stop
        caller.tell = self.tell

    def __enter__(self) -> "Progress":
        return self

    def __exit__(self, _: object, fault: Optional[BaseException], __: object) -> None:
        """What it took; or how far it came, where it stopped."""
        if fault is None:
            self.tell(self.summary())
        elif isinstance(fault, (End, KeyboardInterrupt)) and self.done:
            self.tell(f"{self.what}: it stops behind {counted(self.done, 'byte')}{self.way_on(self.done)}", always=True)

    def add(self, count: int) -> None:
        """So many bytes more are done."""
        self.done += count
        moment = time.monotonic()
        if self.shows and moment - self.last >= PROGRESS_SECONDS / (10 if self.on_terminal else 1):
            self.last = moment
            of_whole = f" of {self.whole}" if self.whole is not None else ""
            sys.stderr.write(f"{self.what}: {self.done}{of_whole} bytes" + ("\r" if self.on_terminal else "\n"))
            sys.stderr.flush()
            self.line_open = self.on_terminal

    def tell(self, line: str, always: bool = False) -> None:
        """A line for a person, beside the progress."""
        if always or not self.quiet:
            sys.stderr.write(("\n" if self.line_open else "") + f"pnfs: {line}\n")
            sys.stderr.flush()
            self.line_open = False

    def summary(self) -> str:
        """What was done, and what it took."""
        parts = [f"{self.what}: {counted(self.done, 'byte')} in {counted(self.caller.calls, 'call')}"]
        if self.caller.again:
            parts.append(f"{self.caller.again} of them tried again")
        if self.caller.timed_out:
            parts.append(f"a component timed out {counted(self.caller.timed_out, 'time')}")
        return ", ".join(parts + [f"{time.monotonic() - self.begin:.1f} s"])


def counted(count: int, what: str) -> str:
    """So many of something."""
    return f"{count} {what}" if count == 1 else f"{count} {what}s"


def write_all(caller: Caller, file: int, file_map: FileMap, offset: int, data: bytes, progress: Progress) -> None:
    """Writes these bytes from that offset on."""
    write_pieces(caller, file, file_map, offset, data, progress.add)


def write_pieces(caller: Caller, file: int, file_map: FileMap, offset: int, data: bytes,
                 add: Callable[[int], None] = lambda count: None) -> None:
    """Writes these bytes from that offset on, and tells how many are written after each call."""
    refuse_end(offset, len(data))
    for at, length in pieces(offset, len(data), file_map, MAX_CALL):
        begin = at - offset
        caller.carry_out(Call(file, at, length, data[begin:begin + length]))
        add(length)


def put(caller: Caller, file: int, file_map: FileMap, data: bytes, progress: Progress) -> None:
    """Writes these bytes as the whole file.

    A file doesn't get shorter: so one that has bytes behind these is refused before anything is written.
    """
    refuse_longer(caller, file, data)
    write_all(caller, file, file_map, 0, data, progress)


def refuse_longer(caller: Caller, file: int, data: bytes) -> None:
    """Ends the run where a file can't have these bytes alone."""
    refuse_end(0, len(data))
    if len(data) < MAX_FILE and read_piece(caller, file, len(data), 1):
        raise End(NOT_ASKED, f"f{file} has bytes behind byte {len(data)}, and a file doesn't get shorter: nothing was written. "
                             f"To write over its beginning: 'write f{file} 0'")


def resume(caller: Caller, file: int, file_map: FileMap, data: bytes, progress: Progress) -> None:
    """Goes on with a put that stopped: leaves the bytes at the front that the file has already, and writes the rest."""
    refuse_longer(caller, file, data)
    begin = same_front(caller, file, file_map, data)
    progress.add(begin)
    for at, length in pieces(0, len(data), file_map, MAX_CALL):
        if at + length > begin:
            first = max(at, begin)
            caller.carry_out(Call(file, first, at + length - first, data[first:at + length]))
            progress.add(at + length - first)


def same_front(caller: Caller, file: int, file_map: FileMap, data: bytes) -> int:
    """How many whole pieces at the front of the file are those of these bytes; the count of their bytes."""
    for at, length in pieces(0, len(data), file_map, MAX_CALL):
        read = read_piece(caller, file, at, length)
        if read != data[at:at + length]:
            return at
    return len(data)


def read_all(caller: Caller, file: int, file_map: FileMap, offset: int, length: int, sink: BinaryIO,
             progress: Progress) -> int:
    """Reads a range into the sink, and tells how many bytes it gave: fewer where the file ends."""
    total = 0
    for at, count in pieces(offset, length, file_map, MAX_CALL):
        read = read_piece(caller, file, at, count)
        put_out(sink, read)
        total += len(read)
        progress.add(len(read))
        if len(read) < count:
            break
    return total


def put_out(sink: BinaryIO, data: bytes) -> None:
    """Hands bytes on at once, so that a sink that fails shows."""
    try:
        sink.write(data)
        sink.flush()
    except OSError as fault:
        raise End(OUTPUT, f"standard output failed: {fault.strerror or fault}")
