"""The way to a cluster, as one of its clients."""
from types import TracebackType
from typing import Callable, Optional, Type

from .asking import Asker
from .calls import Call, Caller
from .cluster_text import ClusterText
from .lock import hold, release
from .pieces import read_piece
from .program import Program


class Client:
    """One client of a cluster, which holds its number on this machine until it is closed. Each call is a run of the program.

    Whoever carries out calls in another way, as over a connection that is kept, gives a class with the same `read`, `write`,
    `size` and `close`. Each of them ends with `End` where what it is asked can't be done.
    """

    def __init__(self, text: ClusterText, number: int, program: str, patience: float, tell: Callable[[str], None],
                 is_lost: Callable[[int], bool] = lambda file: False):
        self._lock, self._lock_file = hold(text.server, number, patience, tell)
        self._asker = Asker(text.server, number)
        self.caller = Caller(Program(program, text.text, number, self._lock), patience, tell, is_lost)

    def read(self, file: int, offset: int, length: int) -> bytes:
        """The bytes of one call, at most `MAX_CALL` of them: fewer than asked only where the file ends."""
        return read_piece(self.caller, file, offset, length)

    def write(self, file: int, offset: int, data: bytes) -> None:
        """Writes the bytes of one call, at most `MAX_CALL` of them: all of them, or it ends."""
        self.caller.carry_out(Call(file, offset, len(data), data))

    def size(self, file: int) -> int:
        """The size of a file, in bytes."""
        return self._asker.size_of(file)

    def close(self) -> None:
        """Gives the number free."""
        release(self._lock, self._lock_file)

    def __enter__(self) -> "Client":
        return self

    def __exit__(self, kind: Optional[Type[BaseException]], fault: Optional[BaseException], trace: Optional[TracebackType]) -> None:
        self.close()
