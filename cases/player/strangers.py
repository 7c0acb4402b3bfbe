"""Strangers that come in crowds, or with bytes that mean nothing."""

import random
import resource
from concurrent.futures import ThreadPoolExecutor
from typing import Iterator, List

from . import drives, network

# How many bytes a stranger sends at most.
_MOST = 2_000

_FRAME = 0x8000_0000

# How many files and connections this process may need beside a crowd's.
_BESIDE = 4_000


def _allow(count: int) -> None:
    """Has the system let this process have so many files and connections open, as far as it may."""
    soft, hard = resource.getrlimit(resource.RLIMIT_NOFILE)
    wanted = count if hard == resource.RLIM_INFINITY else min(count, hard)
    if soft != resource.RLIM_INFINITY and soft < wanted:
        resource.setrlimit(resource.RLIMIT_NOFILE, (wanted, hard))


def crowd(port: int, count: int, sent: bytes, seconds: float) -> List[bytes]:
    """What comes back to each of so many that connect at once, send these bytes and end their sides."""
    _allow(count + _BESIDE)
    with ThreadPoolExecutor(count) as strangers:
        return list(strangers.map(lambda _: network.ask(port, sent, seconds), range(count)))


def _noise(seed: int) -> bytes:
    """Random bytes: of three one has them as they are, one as records, and one as records that begin as commands do."""
    source = random.Random(seed)
    records: List[bytes] = []
    for _ in range(source.randint(1, 4)):
        records.append(source.getrandbits(8 * _MOST).to_bytes(_MOST, "big")[:source.randint(0, _MOST)])
    if seed % 3 == 0:
        return b"".join(records)
    begin = drives.COMMAND_BEGINS if seed % 3 == 2 else b""
    return b"".join((_FRAME + len(begin + each)).to_bytes(4, "big") + begin + each for each in records)


def noise(port: int, count: int, seed: int, seconds: float) -> Iterator[bytes]:
    """The records that come back to so many strangers, one after another, who send random bytes."""
    for each in range(seed, seed + count):
        yield from drives.records_in(network.ask(port, _noise(each), seconds))
