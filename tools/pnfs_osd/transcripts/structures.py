"""The structures of RFC 5664 that stand inside the messages of clients and server (docs/rules/STRUCTURES.md)."""
from typing import List, NamedTuple, Optional, Sequence

from .spelling import Items, Unreadable, big, xdr_opaque
from .striping import Map

LARGEST_OPAQUE, LARGEST_LIST = 4096, 1024
MISSING, VERSION_1, VERSION_2 = 0, 1, 2
NO_SECURITY, SSV = 0, 1
EIO, NOT_FOUND, NO_SPACE, BAD_CRED, NO_ACCESS, UNREACHABLE, RESOURCE = range(1, 8)


class ObjectId(NamedTuple):
    """An object of a drive."""
    device: int
    partition: int
    object: int


class Credential(NamedTuple):
    """An object, and what opens it."""
    object: ObjectId
    version: int
    security: int
    key: bytes
    capability: bytes


class Layout(NamedTuple):
    """A layout: its map, and the credential of each component."""
    map: Map
    first: int
    components: List[Credential]


class Update(NamedTuple):
    """What a client commits."""
    delta: Optional[int]
    has_errors: bool


class IoError(NamedTuple):
    """An error that a client reports."""
    component: ObjectId
    offset: int
    length: int
    is_write: bool
    errno: int


def object_in(items: Items) -> ObjectId:
    """An object."""
    return ObjectId(int.from_bytes(items.fixed(16), 'big'), items.u64(), items.u64())


def credential_in(items: Items) -> Credential:
    """An object and its credential."""
    return Credential(object_in(items), items.among(range(3), 'version'), items.among(range(2), 'key security'),
                      items.opaque(LARGEST_OPAQUE), items.opaque(LARGEST_OPAQUE))


def map_in(items: Items) -> Map:
    """A data map."""
    return Map(items.u32(), items.u64(), items.u32(), items.u32(), items.u32(), items.among(range(1, 5), 'algorithm'))


def layout_in(items: Items) -> Layout:
    """A layout."""
    return Layout(map_in(items), items.u32(), items.listed(LARGEST_LIST, credential_in))


def update_in(items: Items) -> Update:
    """What a client commits."""
    return Update(items.optional(Items.i64), items.yes())


def error_in(items: Items) -> IoError:
    """An error that a client reports."""
    return IoError(object_in(items), items.u64(), items.u64(), items.yes(), items.among(range(1, 8), 'error'))


def errors_in(items: Items) -> List[IoError]:
    """A client's report."""
    return items.listed(LARGEST_LIST, error_in)


def whole(part, data: bytes):
    """The structure that bytes spell, with nothing behind it."""
    items = Items(data)
    value = part(items)
    items.end()
    return value


def maybe(part, data: bytes):
    """The structure that bytes spell, or none."""
    try:
        return whole(part, data)
    except Unreadable:
        return None


def object_bytes(o: ObjectId) -> bytes:
    """The bytes of an object."""
    return big(o.device, 16) + big(o.partition, 8) + big(o.object, 8)


def credential_bytes(c: Credential) -> bytes:
    """The bytes of a credential."""
    return (object_bytes(c.object) + big(c.version, 4) + big(c.security, 4) + xdr_opaque(c.key)
            + xdr_opaque(c.capability))


def map_bytes(m: Map) -> bytes:
    """The bytes of a data map."""
    return (big(m.components, 4) + big(m.unit, 8) + big(m.width, 4) + big(m.depth, 4) + big(m.mirrors, 4)
            + big(m.algorithm, 4))


def layout_bytes(layout: Layout) -> bytes:
    """The bytes of a layout."""
    return (map_bytes(layout.map) + big(layout.first, 4) + big(len(layout.components), 4)
            + b''.join(credential_bytes(c) for c in layout.components))


def errors_bytes(report: Sequence[IoError]) -> bytes:
    """The bytes of a client's report."""
    return big(len(report), 4) + b''.join(
        object_bytes(e.component) + big(e.offset, 8) + big(e.length, 8) + big(e.is_write, 4) + big(e.errno, 4)
        for e in report)
