"""Stores and journals as earlier versions wrote them (docs/use/STORES.md)."""

_HEADER = 24


def earlier(content: bytes) -> bytes:
    """The same log with records that have no checksum, behind gates that were opened with 1."""
    at, log = _HEADER, content[:_HEADER]
    while content[at]:
        size = int.from_bytes(content[at + 5:at + 9], "big")
        log += b"\1" + content[at + 5:at + 9 + size]
        at += 13 + size
    return log + b"\0"
