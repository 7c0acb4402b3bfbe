"""Ranges of bytes in pieces, each of which is one call that the program takes."""
from typing import Iterator, Tuple

from .answers import bytes_read
from .calls import Call, Caller
from .cluster_text import FileMap
from .ends import NOT_ASKED, End

MAX_FILE = 16_777_216      # no call may end above it
MAX_CALL = 262_144         # the bytes of one call


def cut_length(stripe: int, most: int) -> int:
    """The bytes between two cuts, at most `most`, such that no piece has a part of one stripe and of another.

    Where a stripe fits, as many whole stripes as fit; else equal parts of a stripe.
    """
    if stripe <= 0:
        return most
    if stripe <= most:
        return most // stripe * stripe
    parts = -(-stripe // most)
    return -(-stripe // parts)


def next_cut(offset: int, stripe: int, most: int) -> int:
    """The first cut behind this byte of the file."""
    length = cut_length(stripe, most)
    if stripe <= most:
        return (offset // length + 1) * length
    begin = offset - offset % stripe
    return min(begin + ((offset - begin) // length + 1) * length, begin + stripe)


def pieces(offset: int, length: int, file_map: FileMap, most: int) -> Iterator[Tuple[int, int]]:
    """The pieces of a range, each with its offset and its length."""
    end = offset + length
    while offset < end:
        cut = min(next_cut(offset, file_map.stripe_bytes(), most), end)
        yield offset, cut - offset
        offset = cut


def refuse_end(offset: int, length: int) -> None:
    """Ends the run where a file can't have these bytes."""
    if offset + length > MAX_FILE:
        raise End(NOT_ASKED, f"a file has at most {MAX_FILE} bytes, and these end at byte {offset + length}: nothing was done")


def read_piece(caller: Caller, file: int, offset: int, length: int) -> bytes:
    """The bytes of one call: fewer than asked only where the file ends."""
    answer = caller.carry_out(Call(file, offset, length))
    read = bytes_read(answer, length)
    assert read is not None
    return read
