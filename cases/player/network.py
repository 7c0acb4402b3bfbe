"""Ports of the loopback, connections of strangers, and proxies that keep messages back."""

import contextlib
import random
import socket
import struct
import threading
from typing import List, Optional, Set

from .case import Fault

HOST = "127.0.0.1"

# Below the ports that systems give to outgoing connections.
_FIRST, _LAST = 10_000, 31_999

_TRIES = 1_000

# How many seconds what listens has to end.
CLOSING = 5

ACTIONS = {"create": 1, "read": 2, "write": 3, "getattr": 4, "setattr": 5, "settag": 6}

_LOCK = threading.Lock()
_GIVEN: Set[int] = set()


def free_port() -> int:
    """A port at which nobody listens, and that nobody was given before."""
    for _ in range(_TRIES):
        port = random.randint(_FIRST, _LAST)
        with _LOCK:
            if port in _GIVEN:
                continue
            _GIVEN.add(port)
        with socket.socket() as tried:
            try:
                tried.bind((HOST, port))
                return port
            except OSError:
                continue
    raise Fault("no port of the loopback is free")


def listening(port: int) -> socket.socket:
    """What listens at a port."""
    listener = socket.socket()
    listener.setsockopt(socket.SOL_SOCKET, socket.SO_REUSEADDR, 1)
    listener.bind((HOST, port))
    listener.listen()
    return listener


def ask(port: int, sent: bytes, seconds: float) -> bytes:
    """Sends bytes, ends its side, and gives all that comes back."""
    with socket.create_connection((HOST, port), timeout=seconds) as connection:
        # Who ends the connection in the middle of what is sent is judged by what came back.
        with contextlib.suppress(ConnectionError):
            connection.sendall(sent)
        with contextlib.suppress(OSError):
            connection.shutdown(socket.SHUT_WR)
        got = b""
        try:
            while True:
                part = connection.recv(65_536)
                if not part:
                    return got
                got += part
        except socket.timeout:
            raise Fault("the answer doesn't end within %d seconds" % seconds) from None
        except ConnectionError:
            return got


def drip(port: int, sent: bytes, pause: float, seconds: float) -> None:
    """Sends a byte each so many seconds. Raises a Fault unless the other side ends the connection before all are sent."""
    with socket.create_connection((HOST, port), timeout=seconds) as connection:
        connection.settimeout(pause)
        for at in range(len(sent)):
            try:
                connection.sendall(sent[at:at + 1])
                if not connection.recv(1):
                    return
                raise Fault("something comes back behind %d bytes" % (at + 1))
            except socket.timeout:
                continue
            except ConnectionError:
                return
    raise Fault("all %d bytes could be sent" % len(sent))


class Connection:
    """A stranger's connection that stays open."""

    def __init__(self, port: int, sent: bytes, seconds: float) -> None:
        self._socket = socket.create_connection((HOST, port), timeout=seconds)
        self._socket.sendall(sent)

    def close(self) -> None:
        """Ends it."""
        self._socket.close()


def _receive(connection: socket.socket, count: int) -> Optional[bytes]:
    got = b""
    while len(got) < count:
        part = connection.recv(count - len(got))
        if not part:
            return None
        got += part
    return got


def record_of(connection: socket.socket) -> Optional[bytes]:
    """The next record, with the four bytes before it."""
    head = _receive(connection, 4)
    if head is None:
        return None
    body = _receive(connection, struct.unpack(">I", head)[0] & 0x7FFF_FFFF)
    return None if body is None else head + body


class Proxy:
    """Hands connections on from one port to another, but keeps back commands of an action."""

    def __init__(self, port: int, to: int, action: str, drops: bool) -> None:
        if action != "all" and action not in ACTIONS:
            raise Fault("there is no action %s" % action)
        self._to, self._action, self._drops = to, ACTIONS.get(action), drops
        self._open: List[socket.socket] = []
        self._is_over = False
        self._kept = 0
        self._news = threading.Condition()
        self._listener = listening(port)
        threading.Thread(target=self._accept, daemon=True).start()

    def _accept(self) -> None:
        with contextlib.suppress(OSError):
            while not self._is_over:
                connection, _ = self._listener.accept()
                self._open.append(connection)
                threading.Thread(target=self._serve, args=(connection,), daemon=True).start()

    def _keeps_back(self, record: bytes) -> bool:
        is_command = record[4:8] == b"OSD2"
        return self._action is None or (is_command and struct.unpack(">H", record[8:10])[0] == self._action)

    def _serve(self, connection: socket.socket) -> None:
        """Hands on the records of a connection, until one is kept back."""
        with contextlib.suppress(OSError):
            onward: Optional[socket.socket] = None
            while True:
                record = record_of(connection)
                if record is not None and self._keeps_back(record):
                    with self._news:
                        self._kept += 1
                        self._news.notify_all()
                    if self._drops:
                        break
                    return
                if onward is None:
                    onward = socket.create_connection((HOST, self._to))
                    self._open.append(onward)
                    threading.Thread(target=self._answer, args=(onward, connection), daemon=True).start()
                if record is None:
                    onward.shutdown(socket.SHUT_WR)
                    return
                onward.sendall(record)
        with contextlib.suppress(OSError):
            connection.shutdown(socket.SHUT_RDWR)
            connection.close()

    def wait_for(self, count: int, seconds: float) -> None:
        """Waits until so many commands were kept back."""
        with self._news:
            if not self._news.wait_for(lambda: self._kept >= count, seconds):
                raise Fault("it has kept back %d commands within %d seconds" % (self._kept, seconds))

    @staticmethod
    def _answer(onward: socket.socket, connection: socket.socket) -> None:
        """Hands back what comes, to its end."""
        with contextlib.suppress(OSError):
            while True:
                part = onward.recv(65_536)
                if not part:
                    break
                connection.sendall(part)
            connection.shutdown(socket.SHUT_WR)

    def close(self) -> None:
        """Ends it with its connections."""
        self._is_over = True
        for each in [self._listener] + self._open:
            with contextlib.suppress(OSError):
                each.shutdown(socket.SHUT_RDWR)
            with contextlib.suppress(OSError):
                each.close()


class Impostor:
    """Listens in a party's place, and answers the records that come with these bytes in turn, with the last from then on."""

    def __init__(self, port: int, answers: List[bytes]) -> None:
        self._answers = answers
        self._heard: List[bytes] = []
        self._listener = listening(port)
        self._thread = threading.Thread(target=self._accept, daemon=True)
        self._thread.start()

    def _accept(self) -> None:
        with contextlib.suppress(OSError):
            while True:
                connection, _ = self._listener.accept()
                with connection, contextlib.suppress(OSError):
                    while True:
                        record = record_of(connection)
                        if record is None:
                            break
                        self._heard.append(record)
                        answer = self._answers[min(len(self._heard), len(self._answers)) - 1]
                        if not answer:
                            break
                        connection.sendall(answer)

    def heard(self) -> List[bytes]:
        """The records that came."""
        return list(self._heard)

    def close(self) -> None:
        """Ends it."""
        with contextlib.suppress(OSError):
            self._listener.shutdown(socket.SHUT_RDWR)
        self._listener.close()
        # The port is free once nobody waits at it.
        self._thread.join(CLOSING)
