"""Proxies that cut some connections of many."""

import contextlib
import socket
import threading

from .case import Fault
from .network import CLOSING, HOST, listening, record_of

# Where a connection is cut: before anything of its record is handed on, in the middle of that, before anything of the answer is
# handed back, and in the middle of that.
PLACES = ("unheard", "half", "unanswered", "halfway")


class Cutter:
    """Hands each connection on from one port to another with its one record and the answer, but cuts those of these numbers."""

    def __init__(self, port: int, to: int, numbers: range, place: str) -> None:
        if place not in PLACES:
            raise Fault("a connection is cut %s, and not %s" % (", ".join(PLACES), place))
        self._to, self._numbers, self._place = to, numbers, place
        self._listener = listening(port)
        self._thread = threading.Thread(target=self._accept, daemon=True)
        self._thread.start()

    def _accept(self) -> None:
        count = 0
        with contextlib.suppress(OSError):
            while True:
                connection, _ = self._listener.accept()
                count += 1
                with connection, contextlib.suppress(OSError):
                    self._hand_on(connection, self._place if count in self._numbers else "")

    def _hand_on(self, connection: socket.socket, place: str) -> None:
        """Hands the record on and the answer back, as far as the place."""
        if place == "unheard":
            return
        record = record_of(connection)
        if record is None:
            return
        with socket.create_connection((HOST, self._to)) as onward:
            onward.sendall(record[:len(record) // 2] if place == "half" else record)
            onward.shutdown(socket.SHUT_WR)
            answer = b""
            while True:
                part = onward.recv(65_536)
                if not part:
                    break
                answer += part
        if place == "halfway":
            connection.sendall(answer[:len(answer) // 2])
        elif not place:
            connection.sendall(answer)

    def close(self) -> None:
        """Ends it."""
        with contextlib.suppress(OSError):
            self._listener.shutdown(socket.SHUT_RDWR)
        self._listener.close()
        # The port is free once nobody waits at it.
        self._thread.join(CLOSING)
