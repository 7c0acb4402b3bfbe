"""Numbers, hexadecimal digits and items of XDR (RFC 4506), each with its one spelling."""
import re
from typing import Callable, List, Optional, TypeVar

U16, U32, U64 = 1 << 16, 1 << 32, 1 << 64

Item = TypeVar('Item')

DECIMAL = re.compile(r'(?:0|[1-9][0-9]*)\Z', re.ASCII)
LOWER_HEX = re.compile(r'(?:[0-9a-f]{2})+\Z', re.ASCII)


class Unreadable(Exception):
    """The bytes, or the words, aren't spelled as the documents say."""


def decimal(word: str, bound: int) -> int:
    """The number below `bound` that a word spells, without leading zeros."""
    if not DECIMAL.match(word) or len(word) > 20:
        raise Unreadable('"%s" is no number' % word[:30])
    number = int(word)
    if number >= bound:
        raise Unreadable('%d is too large here' % number)
    return number


def hexadecimal(word: str) -> bytes:
    """The bytes that a word spells in lower-case digits, `-` for none."""
    if word == '-':
        return b''
    if not LOWER_HEX.match(word):
        raise Unreadable('"%s" isn\'t in lower-case hexadecimal digits' % word[:30])
    return bytes.fromhex(word)


def in_hex(data: bytes) -> str:
    """Bytes in lower-case digits, `-` where there are none."""
    return data.hex() or '-'


def big(number: int, size: int) -> bytes:
    """A number in `size` bytes, the highest first."""
    return number.to_bytes(size, 'big')


class Items:
    """Items of XDR, taken one after another from bytes."""

    def __init__(self, data: bytes) -> None:
        self.data = data
        self.at = 0

    def take(self, size: int) -> bytes:
        """The next `size` bytes."""
        if self.at + size > len(self.data):
            raise Unreadable('the bytes end at %d, in the middle of an item' % len(self.data))
        part = self.data[self.at:self.at + size]
        self.at += size
        return part

    def u32(self) -> int:
        """A number of 32 bits."""
        return int.from_bytes(self.take(4), 'big')

    def u64(self) -> int:
        """A number of 64 bits."""
        return int.from_bytes(self.take(8), 'big')

    def i64(self) -> int:
        """A number of 64 bits with a sign."""
        return int.from_bytes(self.take(8), 'big', signed=True)

    def yes(self) -> bool:
        """A bool, which is 0 or 1."""
        value = self.u32()
        if value > 1:
            raise Unreadable('%d is no bool' % value)
        return value == 1

    def among(self, values: range, what: str) -> int:
        """A member of an enumeration."""
        value = self.u32()
        if value not in values:
            raise Unreadable('%d is no %s' % (value, what))
        return value

    def fixed(self, size: int) -> bytes:
        """So many bytes, and zeros up to a multiple of four."""
        data = self.take(size)
        if any(self.take(-size % 4)):
            raise Unreadable('the filling of an item isn\'t 0')
        return data

    def opaque(self, most: int) -> bytes:
        """A length, at most `most`, and so many bytes."""
        size = self.u32()
        if size > most:
            raise Unreadable('an item of %d bytes, of which at most %d are allowed' % (size, most))
        return self.fixed(size)

    def listed(self, most: int, member: Callable[['Items'], Item]) -> List[Item]:
        """A count, at most `most`, and so many members."""
        count = self.u32()
        if count > most:
            raise Unreadable('a list of %d members, of which at most %d are allowed' % (count, most))
        return [member(self) for _ in range(count)]

    def optional(self, value: Callable[['Items'], Item]) -> Optional[Item]:
        """A bool, and the value where it is 1."""
        return value(self) if self.yes() else None

    def end(self) -> None:
        """Nothing may follow."""
        if self.at != len(self.data):
            raise Unreadable('%d bytes follow the message' % (len(self.data) - self.at))


def xdr_opaque(data: bytes) -> bytes:
    """A variable opaque of these bytes."""
    return big(len(data), 4) + data + bytes(-len(data) % 4)
