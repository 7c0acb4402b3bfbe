"""Exchanges of records with a drive or the server, as the program makes them: one record out, one record in."""
import socket
import time
from typing import NamedTuple, Optional

#: RFC 5531, section 11: the bit of a record's last fragment.
LAST_FRAGMENT = 0x80000000
MAX_RECORD = 300_000


class Reply(NamedTuple):
    """What came of an exchange: the record, or why there is none; and how long it took."""

    record: Optional[bytes]
    seconds: float
    why: str
    connected: bool


def place_of(address: str) -> tuple:
    """The first place of a host and a port, and its family."""
    host, _, port = address.rpartition(":")
    family, kind, protocol, _, place = socket.getaddrinfo(host.strip("[]"), int(port), type=socket.SOCK_STREAM)[0]
    return family, kind, protocol, place


def taken(connection: socket.socket, count: int, until: float) -> bytes:
    """So many bytes of a connection, before a moment."""
    data = b""
    while len(data) < count:
        connection.settimeout(max(until - time.monotonic(), 0.001))
        piece = connection.recv(count - len(data))
        if not piece:
            raise OSError("it hung up")
        data += piece
    return data


def record_of(connection: socket.socket, until: float) -> bytes:
    """The next record of a connection."""
    record, last = b"", False
    while not last:
        header = int.from_bytes(taken(connection, 4, until), "big")
        last = bool(header & LAST_FRAGMENT)
        length = header & ~LAST_FRAGMENT
        if len(record) + length > MAX_RECORD:
            raise OSError("its record is too long")
        record += taken(connection, length, until)
    return record


def exchange(address: str, record: bytes, patience: float) -> Reply:
    """Connects, sends a record, takes one, and hangs up."""
    begin = time.monotonic()
    connected = False
    try:
        family, kind, protocol, place = place_of(address)
        with socket.socket(family, kind, protocol) as connection:
            connection.settimeout(patience)
            connection.connect(place)
            connected = True
            connection.sendall((LAST_FRAGMENT | len(record)).to_bytes(4, "big") + record)
            answer = record_of(connection, begin + patience)
    except OSError as fault:
        return Reply(None, time.monotonic() - begin, fault.strerror or str(fault), connected)
    return Reply(answer, time.monotonic() - begin, "", True)
