"""Capabilities, commands and replies of the object drives: their bytes and their check values."""
import hashlib
import hmac
from typing import Dict, NamedTuple, Optional, Tuple

from .spelling import Unreadable, big

CREATE, READ, WRITE, GET_ATTR, SET_ATTR, SET_TAG = range(1, 7)
ACTIONS = {CREATE: 'CREATE', READ: 'READ', WRITE: 'WRITE', GET_ATTR: 'GET ATTR', SET_ATTR: 'SET ATTR', SET_TAG: 'SET TAG'}
RIGHTS = {CREATE: 1, READ: 2, WRITE: 4, GET_ATTR: 8, SET_ATTR: 16, SET_TAG: 32}
ALL_RIGHTS = 63
CHANGES = (CREATE, WRITE, SET_ATTR, SET_TAG)

SHA1_FORMAT, SHA256_FORMAT = 1, 2
CHECK_SIZES = {SHA1_FORMAT: 20, SHA256_FORMAT: 32}
HASHES = {SHA1_FORMAT: hashlib.sha1, SHA256_FORMAT: hashlib.sha256}

COMMAND_MAGIC, REPLY_MAGIC = b'OSD2', b'OSDr'
COMMAND_BLOCK, REPLY_BLOCK, CAPABILITY_SIZE = 256, 40, 96
CAPABILITY_AT, CAPABILITY_END = 64, 160
PARTITION_BASE = 65536
SERVER_HOLDER = 0xffffffff

# the numbers of verdicts in replies, by their words in transcripts
VERDICTS = {'perform': 0, 'nokey': 1, 'checkvalue': 2, 'expired': 3, 'rights': 4, 'wrongobject': 5, 'range': 6,
            'noobject': 7, 'exists': 8, 'tag': 9, 'limit': 10, 'nospace': 11, 'lanefull': 12, 'stale': 13,
            'attrfull': 14, 'again': 15, 'format': 16, 'oldformat': 17}
VERDICT_WORDS: Dict[int, str] = {number: word for word, number in VERDICTS.items()}
LAST_VERDICT, AGAIN = 17, 15


class Capability(NamedTuple):
    """What a holder may do: with which object of which drive, in which bytes, under which tag, until when."""
    format: int
    key_version: int
    rights: int
    expiry: int
    grant: int
    holder: int
    tag: int
    partition: int
    object: int
    range_start: int
    range_length: int


class Command(NamedTuple):
    """A command to a drive. `text` is what the check value is made of."""
    action: int
    partition: int
    object: int
    offset: int
    length: int
    nonce: int
    attribute: int
    capability: Capability
    capability_bytes: bytes
    check: bytes
    payload: bytes
    text: bytes


class Reply(NamedTuple):
    """What a drive answers."""
    action: int
    verdict: int
    object: int
    nonce: int
    detail: int
    payload: bytes


def number_at(data: bytes, at: int, size: int) -> int:
    """The number that stands there."""
    return int.from_bytes(data[at:at + size], 'big')


def must_be_zero(data: bytes, first: int, end: int) -> None:
    """Bytes that no field has are 0."""
    if any(data[first:end]):
        raise Unreadable('a byte from %d to %d that no field has isn\'t 0' % (first, end))


def read_capability(data: bytes) -> Capability:
    """The capability that 96 bytes spell."""
    if len(data) != CAPABILITY_SIZE:
        raise Unreadable('a capability has %d bytes, not %d' % (CAPABILITY_SIZE, len(data)))
    if data[0] not in CHECK_SIZES:
        raise Unreadable('there is no capability format %d' % data[0])
    must_be_zero(data, 1, 2)
    must_be_zero(data, 28, 32)
    must_be_zero(data, 64, CAPABILITY_SIZE)
    return Capability(data[0], number_at(data, 2, 2), number_at(data, 4, 4), number_at(data, 8, 8),
                      number_at(data, 16, 4), number_at(data, 20, 4), number_at(data, 24, 4), number_at(data, 32, 8),
                      number_at(data, 40, 8), number_at(data, 48, 8), number_at(data, 56, 8))


def capability_bytes(c: Capability) -> bytes:
    """The bytes of a capability."""
    return b''.join([bytes([c.format, 0]), big(c.key_version, 2), big(c.rights, 4), big(c.expiry, 8), big(c.grant, 4),
                     big(c.holder, 4), big(c.tag, 4), bytes(4), big(c.partition, 8), big(c.object, 8),
                     big(c.range_start, 8), big(c.range_length, 8), bytes(32)])


def payload_is_allowed(action: int, length: int, payload: int) -> bool:
    """A WRITE has as many bytes as it says; CREATE and SET ATTR any, and no length; the others none."""
    if action == WRITE:
        return payload == length
    if action in (CREATE, SET_ATTR):
        return length == 0
    return payload == 0


def read_command(data: bytes) -> Command:
    """The command that bytes spell."""
    if len(data) < COMMAND_BLOCK:
        raise Unreadable('a command has at least %d bytes' % COMMAND_BLOCK)
    if data[:4] != COMMAND_MAGIC:
        raise Unreadable('a command begins with OSD2')
    action = number_at(data, 4, 2)
    if action not in ACTIONS:
        raise Unreadable('there is no action %d' % action)
    check_size = CHECK_SIZES.get(data[CAPABILITY_AT], 20)
    for first, end in ((6, 8), (52, 56), (60, 64), (CAPABILITY_END, COMMAND_BLOCK - check_size)):
        must_be_zero(data, first, end)
    spelled = data[CAPABILITY_AT:CAPABILITY_END]
    capability = read_capability(spelled)
    payload = data[COMMAND_BLOCK:]
    length = number_at(data, 32, 8)
    if number_at(data, 56, 4) != len(payload) or not payload_is_allowed(action, length, len(payload)):
        raise Unreadable('the payload hasn\'t the length that the command says')
    head = COMMAND_BLOCK - check_size
    return Command(action, number_at(data, 8, 8), number_at(data, 16, 8), number_at(data, 24, 8), length,
                   number_at(data, 40, 8), number_at(data, 48, 4), capability, spelled, data[head:COMMAND_BLOCK],
                   payload, data[:head] + payload)


def read_reply(data: bytes) -> Reply:
    """The reply that bytes spell."""
    if len(data) < REPLY_BLOCK or data[:4] != REPLY_MAGIC:
        raise Unreadable('a reply begins with OSDr and has at least %d bytes' % REPLY_BLOCK)
    reply = Reply(number_at(data, 4, 2), number_at(data, 6, 2), number_at(data, 8, 8), number_at(data, 16, 8),
                  number_at(data, 24, 8), data[REPLY_BLOCK:])
    if reply.action > SET_TAG or reply.verdict > LAST_VERDICT or reply.verdict == AGAIN:
        raise Unreadable('no reply has action %d and verdict %d' % (reply.action, reply.verdict))
    must_be_zero(data, 36, REPLY_BLOCK)
    if number_at(data, 32, 4) != len(reply.payload):
        raise Unreadable('the payload hasn\'t the length that the reply says')
    if reply.payload and (reply.verdict != 0 or reply.action not in (READ, GET_ATTR)):
        raise Unreadable('only a READ and a GET ATTR that were performed have a payload')
    return reply


def reply_bytes(reply: Reply) -> bytes:
    """The bytes of a reply."""
    return b''.join([REPLY_MAGIC, big(reply.action, 2), big(reply.verdict, 2), big(reply.object, 8),
                     big(reply.nonce, 8), big(reply.detail, 8), big(len(reply.payload), 4), bytes(4), reply.payload])


def mac(key: bytes, text: bytes, form: int) -> bytes:
    """HMAC (RFC 2104) over the hash of a capability's format."""
    return hmac.new(key, text, HASHES[form]).digest()


def capability_key(drive_key: bytes, capability: bytes) -> bytes:
    """The key of a capability's bytes, under a drive's key."""
    return mac(drive_key, capability, capability[0])


def opens(drive_key: bytes, command: Command) -> bool:
    """The command's check value is the one that the drive's key gives."""
    form = command.capability.format
    return mac(mac(drive_key, command.capability_bytes, form), command.text, form) == command.check


def write_command(action: int, partition: int, at: Tuple[int, int], length: int, nonce: int, attribute: int,
                  capability: bytes, key: bytes, payload: bytes) -> bytes:
    """A command under a capability's key; `at` is the object and the offset in it."""
    form = capability[0]
    head = b''.join([COMMAND_MAGIC, big(action, 2), bytes(2), big(partition, 8), big(at[0], 8), big(at[1], 8),
                     big(length, 8), big(nonce, 8), big(attribute, 4), bytes(4), big(len(payload), 4), bytes(4),
                     capability, bytes(COMMAND_BLOCK - CAPABILITY_END - CHECK_SIZES[form])])
    return head + mac(key, head + payload, form) + payload


def maybe_command(data: bytes) -> Optional[Command]:
    """The command that bytes spell, or none."""
    try:
        return read_command(data)
    except Unreadable:
        return None
