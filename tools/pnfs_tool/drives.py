"""Asks a drive whether it is alive."""
import socket
from typing import NamedTuple

#: A record without bytes, as RFC 5531 (section 11) marks it. A drive answers any record, this one with `Format`.
EMPTY_RECORD = b"\x80\x00\x00\x00"
PATIENCE_SECONDS = 6.0   # a drive that another peer keeps busy with its silence is free behind 5


class Life(NamedTuple):
    """What came of asking a drive."""

    may_live: bool
    why: str


def ask_drive(address: str, patience: float = PATIENCE_SECONDS) -> Life:
    """Connects to a drive and sends it a record that asks nothing of it."""
    host, _, port = address.rpartition(":")
    try:
        places = socket.getaddrinfo(host.strip("[]"), int(port), type=socket.SOCK_STREAM)
    except OSError as fault:
        return Life(True, f"the name of its address {address} can't be found: {fault.strerror or fault}")
    why = "it has no address"
    for family, kind, protocol, _, place in places:
        with socket.socket(family, kind, protocol) as connection:
            connection.settimeout(patience)
            try:
                connection.connect(place)
            except OSError as fault:
                why = fault.strerror or str(fault)
                continue
            return Life(True, answer_of(connection, address))
    return Life(False, f"nobody answers at {address}: {why}")


def answer_of(connection: socket.socket, address: str) -> str:
    """What a drive that took the connection does with a record."""
    try:
        connection.sendall(EMPTY_RECORD)
        if connection.recv(1):
            return f"it answers at {address}"
    except OSError:
        pass
    return f"at {address} a process takes connections and doesn't answer: it hangs, or is busy with another peer"
