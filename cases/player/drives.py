"""Commands to the drives of a cluster, under the keys that the row `cluster` gives them, and their replies in words."""

import os
import sys
from typing import Dict, Iterator, List, Tuple

from .case import Fault

sys.path.append(os.path.join(os.path.dirname(os.path.realpath(__file__)), os.pardir, os.pardir, "tools"))

from pnfs_osd.transcripts import commands, envelopes, messages, spelling  # noqa: E402

ACTIONS = {"create": commands.CREATE, "read": commands.READ, "write": commands.WRITE, "getattr": commands.GET_ATTR,
           "setattr": commands.SET_ATTR, "settag": commands.SET_TAG}

_WORDS = {number: word for word, number in ACTIONS.items()}

_FIRST_OBJECT = 65_536

_FRAME = 0x8000_0000

COMMAND_BEGINS = commands.COMMAND_MAGIC


def key_of(number: int) -> bytes:
    """The key of a drive."""
    return bytes([0x10 + number]) * 20


def framed(record: bytes) -> bytes:
    """A record as one fragment."""
    return (_FRAME + len(record)).to_bytes(4, "big") + record


def records_in(got: bytes) -> List[bytes]:
    """The records of one fragment each that bytes are."""
    found: List[bytes] = []
    while got:
        length = int.from_bytes(got[:4], "big") - _FRAME
        if length < 0 or len(got) < 4 + length:
            raise Fault("no record of one fragment stands at the end of what came back: %s" % got.hex()[:80])
        found.append(got[4:4 + length])
        got = got[4 + length:]
    return found


def _fields(words: List[str]) -> Dict[str, str]:
    if len(words) % 2:
        raise Fault("a command has pairs of a field and its value behind its action")
    return dict(zip(words[::2], words[1::2]))


def _capability(fields: Dict[str, str], partition: int, number: int) -> commands.Capability:
    """The server's capability for an object, but for the fields that are named."""

    def value(name: str, usual: int) -> int:
        return int(fields.pop(name, usual))

    return commands.Capability(
        value("format", 1), value("version", 1), value("rights", commands.ALL_RIGHTS), value("expiry", 2**64 - 1),
        value("grant", 0), value("holder", commands.SERVER_HOLDER), value("tag", 1), value("cap.partition", partition),
        value("cap.object", number), value("start", 0), value("range", 2**64 - 1))


def sealed(drive: str, words: List[str]) -> bytes:
    """The bytes of a command to a drive, by its name, that these words say."""
    number, action, fields = int(drive[1:]), ACTIONS[words[0]], _fields(words[1:])
    payload = bytes.fromhex(fields.pop("payload", ""))
    partition = int(fields.pop("partition", commands.PARTITION_BASE + number))
    at = int(fields.pop("object", _FIRST_OBJECT)), int(fields.pop("offset", 0))
    length = int(fields.pop("length", len(payload) if action == commands.WRITE else 0))
    nonce, attribute = int(fields.pop("nonce", 0)), int(fields.pop("attribute", 0))
    flipped = int(fields.pop("flipped", 0))
    capability = commands.capability_bytes(_capability(fields, partition, at[0]))
    if fields:
        raise Fault("a command has no field %s" % min(fields))
    if capability[0] not in commands.CHECK_SIZES:
        # No check value is made in such a format.
        form = bytes([commands.SHA1_FORMAT])
        made = commands.write_command(action, partition, at, length, nonce, attribute, form + capability[1:], b"", payload)
        return made[:commands.CAPABILITY_AT] + capability + made[commands.CAPABILITY_END:]
    key = commands.capability_key(key_of(number), capability)
    made = commands.write_command(action, partition, at, length, nonce, attribute, capability, key, payload)
    last = commands.COMMAND_BLOCK - 1
    return made[:last] + bytes([made[last] ^ flipped]) + made[last + 1:]


def reply_in_words(record: bytes) -> str:
    """A drive's reply: its action, `-` where that is 0, its verdict, object, nonce and detail, and its payload if it has one."""
    try:
        reply = commands.read_reply(record)
    except spelling.Unreadable as fault:
        return "no reply: %s" % fault
    words = [_WORDS.get(reply.action, "-"), commands.VERDICT_WORDS[reply.verdict]]
    words += [str(number) for number in (reply.object, reply.nonce, reply.detail)]
    return " ".join(words + ([reply.payload.hex()] if reply.payload else []))


def fields_of(record: bytes) -> List[str]:
    """The fields of a message of the server, as `tools/read` has them."""
    try:
        return ["%s: %s" % field for field in messages.envelope_fields(envelopes.read_envelope(record))]
    except spelling.Unreadable as fault:
        return ["unreadable: %s" % fault]


def transfer_in(line: str) -> str:
    """The READ or WRITE that a line of a transcript sends: who to whom, its range, and its bytes; nothing where it sends none."""
    words = line.split(" ")
    if words[0] != "m" or not words[3].startswith("d"):
        return ""
    command = commands.maybe_command(spelling.hexadecimal(words[4]))
    if command is None or command.action not in (commands.READ, commands.WRITE):
        return ""
    told = [words[2], words[3], _WORDS[command.action], "%d+%d" % (command.offset, command.length)]
    return " ".join(told + ([command.payload.hex()] if command.payload else []))


def _changes(words: List[str]) -> Iterator[Tuple[int, bytes]]:
    for word in words:
        places, _, put = word.partition("=")
        first, _, end = places.partition("..")
        for at in range(int(first), int(end or int(first) + 1)):
            yield at, bytes.fromhex(put)


def spoilt(content: bytes, changes: List[str]) -> List[bytes]:
    """What is nearly these bytes: each prefix of them, and each of these changes, `AT=HEX` or `FIRST..END=HEX`."""
    prefixes = [content[:length] for length in range(len(content))]
    return prefixes + [content[:at] + put + content[at + len(put):] for at, put in _changes(changes)]


def verdict_of(record: bytes) -> str:
    """The word of the verdict in a drive's reply."""
    return reply_in_words(record).split()[1]


def flipped(content: bytes) -> List[bytes]:
    """These bytes with all bits of one byte turned, for each byte."""
    return [content[:at] + bytes([content[at] ^ 0xff]) + content[at + 1:] for at in range(len(content))]
