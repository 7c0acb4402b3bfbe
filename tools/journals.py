"""The records of a server's journal, and how one is added (docs/use/STORES.md)."""
import fcntl
import os
import sys
import zlib
from typing import BinaryIO, Callable, Iterator, Tuple

HEADER = b'OSDJ' + (1).to_bytes(4, 'big')
HEADER_SIZE = 24
MAX_BODY = 300_000
ALL_ONES = 4_294_967_295
OPEN_GATE = b'\xff'


class Refused(Exception):
    """Why the journal is left as it is."""


def record(data: bytes, at: int) -> Tuple[bytes, int]:
    """The body behind the gate at a place, and the place of the next gate."""
    first, second = (int.from_bytes(data[at + 1 + 4 * i:at + 5 + 4 * i], 'big') for i in range(2))
    head, size, tail = (4, first, 0) if first <= MAX_BODY else (8, second, 4)
    begin = at + 1 + head
    body, checksum = data[begin:begin + size], data[begin + size:begin + size + tail]
    is_whole = 0 < size <= MAX_BODY and begin + size + tail < len(data)
    if not is_whole or head == 8 and (first != ALL_ONES - size or checksum != zlib.crc32(body).to_bytes(4, 'big')):
        raise Refused('no journal from byte %d on' % at)
    return body, begin + size + tail


def records(data: bytes) -> Iterator[Tuple[int, bytes]]:
    """The place of each open gate with the body behind it, and last the closed gate with no body."""
    if data[:len(HEADER)] != HEADER:
        raise Refused('no journal of a server')
    at = HEADER_SIZE
    while data[at:at + 1] not in (b'', b'\0'):
        body, after = record(data, at)
        yield at, body
        at = after
    if at >= len(data):
        raise Refused('no journal from byte %d on' % at)
    yield at, b''


def add(journal: BinaryIO, gate: int, body: bytes) -> None:
    """Adds a record as the program does: the record behind the closed gate, a sync, the gate, a sync."""
    size = len(body)
    head = (ALL_ONES - size).to_bytes(4, 'big') + size.to_bytes(4, 'big')
    for at, piece in ((gate + 1, head + body + zlib.crc32(body).to_bytes(4, 'big') + b'\0'), (gate, OPEN_GATE)):
        journal.seek(at)
        journal.write(piece)
        journal.flush()
        os.fsync(journal.fileno())


def change(tool: str, path: str, does: Callable[[BinaryIO], None]) -> bool:
    """Does that to a journal that no server has open. Where it isn't done, standard error has why, and the journal is left as it is."""
    try:
        with open(path, 'r+b', buffering=0) as journal:
            fcntl.flock(journal, fcntl.LOCK_EX | fcntl.LOCK_NB)
            does(journal)
    except BlockingIOError:
        print('%s: %s: the server has it open: end it first' % (tool, path), file=sys.stderr)
        return False
    except (OSError, Refused) as fault:
        print('%s: %s: %s' % (tool, path, getattr(fault, 'strerror', None) or fault), file=sys.stderr)
        return False
    return True
