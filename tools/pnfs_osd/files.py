"""Files of a cluster as file objects."""
import contextlib
import io
import logging
import os
from typing import Callable, Iterator, List, Optional, Union

from .client import Client
from .cluster_text import FileMap, refuse_file, text_in
from .ends import NOT_ASKED, End
from .pieces import MAX_CALL, MAX_FILE, pieces, refuse_end
from .program import program_path

Readable = Union[bytes, bytearray, memoryview]
PATIENCE_SECONDS = 120.0
MODES = "r", "r+"


class ClusterError(OSError):
    """What was asked of a cluster wasn't done; `status` is what `tools/pnfs` ends with then (tools/pnfs --help)."""

    def __init__(self, end: End):
        super().__init__(end.message)
        self.status = end.status


@contextlib.contextmanager
def told_as_errors() -> Iterator[None]:
    """An end in here is a `ClusterError`."""
    try:
        yield
    except End as end:
        raise ClusterError(end) from None


class Cluster:
    """A cluster, by its text. While a file of it is open, it holds the number of one client on this machine.

    >>> cluster = Cluster("cluster.toml", client=3)
    >>> cluster.files()
    ['f0']
    >>> with cluster.open("f0") as file:
    ...     file.write(b"Hello, cluster!")
    ...     file.seek(7)
    ...     file.read(7)
    ...     file.size()
    15
    7
    b'cluster'
    15
    """

    def __init__(self, path: Union[str, "os.PathLike[str]"], client: int = 0, program: Optional[str] = None,
                 patience: float = PATIENCE_SECONDS, tell: Callable[[str], None] = logging.getLogger("pnfs_osd").info):
        """The cluster whose text is in the file at `path`, as a client with that number: 0 to 15, and no one else's meanwhile.

        `program` is found as tools/pnfs finds it, where none is named. A call is tried again for `patience` seconds, and what is
        in its way is told by `tell`.
        """
        with told_as_errors():
            self._text = text_in(path)
            self._program = program_path(program)
        self._number = client
        self._patience = patience
        self._tell = tell
        self._client: Optional[Client] = None
        self._open = 0

    def files(self) -> List[str]:
        """The names of its files, in the order of their numbers."""
        return [f"f{number}" for number in sorted(self._text.files)]

    def open(self, name: str, mode: str = "r+") -> "ClusterFile":
        """Opens a file of the text, as f0: to read it ("r"), or to read and write it ("r+"). Its bytes stay what they are."""
        if mode not in MODES:
            raise ValueError(f"the mode is {' or '.join(MODES)}, and not {mode!r}: files don't get shorter")
        with told_as_errors():
            number = self._number_of(name)
            if self._client is None:
                self._client = Client(self._text, self._number, self._program, self._patience, self._tell)
            self._open += 1
            return ClusterFile(name, number, self._text.files[number], mode, self._client, self._closed_one)

    def _number_of(self, name: str) -> int:
        """The number of a file that the text has."""
        if not (name[:1] == "f" and name[1:].isdecimal() and name == f"f{int(name[1:])}"):
            raise End(NOT_ASKED, f"{name!r} is no file: its name is as f0")
        refuse_file(self._text, int(name[1:]))
        return int(name[1:])

    def _closed_one(self) -> None:
        """A file was closed; after the last one the client's number is free."""
        self._open -= 1
        if not self._open and self._client is not None:
            self._client.close()
            self._client = None


class ClusterFile(io.RawIOBase):
    """A file of a cluster. It isn't buffered: each `read` and `write` is carried out at once, in as few calls as it takes, and has
    its bytes on the drives, or raises `ClusterError`, when it returns. If one of the calls of a long one fails, those before it
    are done, and `tell` is where it stopped.

    A file has at most 16,777,216 bytes and doesn't get shorter. Bytes that nobody wrote, before its end, are zeros. For many
    small reads there is io.BufferedReader:

    >>> import io
    >>> with Cluster("cluster.toml").open("f0", "r+") as file:
    ...     _ = file.write(b"one\\ntwo\\n" + bytes(7))
    ...     _ = file.seek(0)
    ...     next(io.BufferedReader(file, 65536))
    b'one\\n'
    """

    def __init__(self, name: str, number: int, file_map: FileMap, mode: str, client: Client, closed: Callable[[], None]):
        super().__init__()
        self.name = name
        self.mode = mode
        self._number = number
        self._map = file_map
        self._client = client
        self._closed = closed
        self._at = 0

    def readable(self) -> bool:
        """Yes."""
        return True

    def writable(self) -> bool:
        """Whether it was opened for that."""
        return self.mode == "r+"

    def seekable(self) -> bool:
        """Yes."""
        return True

    def read(self, size: Optional[int] = -1) -> bytes:
        """So many bytes from here on, or all; fewer only where the file ends."""
        self._check_open()
        room = max(MAX_FILE - self._at, 0)
        length = room if size is None or size < 0 else min(size, room)
        parts = []
        with told_as_errors():
            for at, count in pieces(self._at, length, self._map, MAX_CALL):
                parts.append(self._client.read(self._number, at, count))
                self._at += len(parts[-1])
                if len(parts[-1]) < count:
                    break
        return b"".join(parts)

    def readall(self) -> bytes:
        """All bytes from here on."""
        return self.read()

    def readinto(self, buffer: Union[bytearray, memoryview]) -> int:  # type: ignore[override]
        """Reads into a buffer, and gives how many bytes: fewer than it has room for only where the file ends."""
        room = memoryview(buffer).cast("B")
        data = self.read(len(room))
        room[:len(data)] = data
        return len(data)

    def write(self, data: Readable) -> int:  # type: ignore[override]
        """Writes all these bytes from here on, and gives how many they are."""
        self._check_open()
        if not self.writable():
            raise io.UnsupportedOperation("the file was opened to be read")
        given = bytes(data)
        begin = self._at
        with told_as_errors():
            refuse_end(begin, len(given))
            for at, count in pieces(begin, len(given), self._map, MAX_CALL):
                self._client.write(self._number, at, given[at - begin:at - begin + count])
                self._at = at + count
        return len(given)

    def seek(self, offset: int, whence: int = io.SEEK_SET) -> int:
        """Goes to a byte, counted from the beginning, from here or from the end, and gives its place."""
        self._check_open()
        begins = {io.SEEK_SET: lambda: 0, io.SEEK_CUR: lambda: self._at, io.SEEK_END: self.size}
        if whence not in begins:
            raise ValueError(f"there is no whence {whence}")
        place = begins[whence]() + offset
        if place < 0:
            raise ValueError(f"there is no byte {place}")
        self._at = place
        return place

    def tell(self) -> int:
        """Where it is."""
        self._check_open()
        return self._at

    def size(self) -> int:
        """How many bytes the file has, which the server is asked."""
        self._check_open()
        with told_as_errors():
            return self._client.size(self._number)

    def truncate(self, size: Optional[int] = None) -> int:
        """Isn't supported: files don't get shorter."""
        raise io.UnsupportedOperation("files of a cluster don't get shorter")

    def close(self) -> None:
        """Closes it. It may be closed again."""
        if not self.closed:
            super().close()
            self._closed()

    def _check_open(self) -> None:
        if self.closed:
            raise ValueError("the file is closed")
