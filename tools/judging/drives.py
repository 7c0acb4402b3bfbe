"""An object drive, as docs/rules/DRIVE.md tells it: which verdict each command gets, what it does, and what is answered."""
from typing import Dict, NamedTuple, Optional, Tuple

from pnfs_osd.transcripts import commands
from pnfs_osd.transcripts.commands import CREATE, GET_ATTR, READ, SET_ATTR, SET_TAG, WRITE, Command, Reply

KEY_VERSION = 1
FIRST_USER_ATTRIBUTE, LABEL = 65536, 65536
LENGTH_ATTRIBUTE, TAG_ATTRIBUTE = 1, 2
LONGEST_COMMAND, LAST_END, LONGEST_VALUE = 262144, 17825792, 256
GREATEST_TAG, MOST_OBJECTS, MOST_LANES, MOST_ATTRIBUTES = 4294967295, 65536, 32, 16
PAGE = 4096
FORMAT_REPLY = Reply(0, commands.VERDICTS['format'], 0, 0, 0, b'')


class Verdict(NamedTuple):
    """A verdict: its word, the number behind it, and why it is so."""
    word: str
    detail: int
    why: str

    @property
    def text(self) -> str:
        """As it stands in a line."""
        return '%s %d' % (self.word, self.detail) if self.word in ('tag', 'nospace', 'stale') else self.word


PERFORM = Verdict('perform', 0, 'no row of the verdict table applies')


class Bytes:
    """Bytes of which those never written are 0, kept in pages."""

    def __init__(self) -> None:
        self.length = 0
        self.pages: Dict[int, bytearray] = {}

    def read(self, offset: int, length: int) -> bytes:
        """The bytes of a range, as far as there are any."""
        end = min(offset + length, self.length)
        return self.padded(offset, end - offset) if offset < end else b''

    def padded(self, offset: int, length: int) -> bytes:
        """The bytes of a range, with zeros behind the end."""
        parts, end = [], offset + length
        while offset < end:
            page, at = divmod(offset, PAGE)
            count = min(PAGE - at, end - offset)
            kept = self.pages.get(page)
            parts.append(bytes(kept[at:at + count]) if kept is not None else bytes(count))
            offset += count
        return b''.join(parts)

    def write(self, offset: int, data: bytes) -> None:
        """Bytes over the old ones; a gap becomes zeros."""
        if not data:
            return
        self.length = max(self.length, offset + len(data))
        done = 0
        while done < len(data):
            page, at = divmod(offset + done, PAGE)
            count = min(PAGE - at, len(data) - done)
            self.pages.setdefault(page, bytearray(PAGE))[at:at + count] = data[done:done + count]
            done += count


class Lane(NamedTuple):
    """The last change of a holder, and the short reply to it."""
    nonce: int
    action: int
    detail: int


class StoredObject:
    """An object of a drive."""

    def __init__(self, tag: int, label: bytes) -> None:
        self.tag = tag
        self.data = Bytes()
        self.attributes = {LABEL: label}
        self.lanes: Dict[int, Lane] = {}

    def attribute(self, number: int) -> Optional[bytes]:
        """The value of an attribute, if it has one."""
        if number == LENGTH_ATTRIBUTE:
            return self.data.length.to_bytes(8, 'big')
        if number == TAG_ATTRIBUTE:
            return self.tag.to_bytes(4, 'big')
        return self.attributes.get(number)


class Drive:
    """A drive with its keys, clock and objects."""

    def __init__(self, number: int, key: bytes, capacity: int, stored: bool) -> None:
        self.number = number
        self.stored = stored
        self.down = False
        self.keys = {KEY_VERSION: key}
        self.capacity = capacity
        self.least = 1
        self.clock = 0
        self.failed = False
        self.objects: Dict[int, StoredObject] = {}
        self.used = 0

    def fail(self) -> None:
        """The drive loses everything, and is deaf."""
        self.failed = True
        self.objects = {}
        self.used = 0

    def deaf(self) -> str:
        """Why nothing reaches the drive; empty where it isn't deaf."""
        return 'has failed' if self.failed else 'is down' if self.down else ''

    def raise_least(self, form: int) -> None:
        """The least format only rises."""
        self.least = max(self.least, form)

    def opens(self, command: Command) -> bool:
        """The command's check value is the one that the drive's key of its version gives."""
        key = self.keys.get(command.capability.key_version)
        return key is not None and commands.opens(key, command)

    def verdict(self, c: Command) -> Verdict:
        """The first row of the verdict table that applies."""
        return self.early_fault(c) or self.late_fault(c) or PERFORM

    def early_fault(self, c: Command) -> Optional[Verdict]:
        """The rows that don't ask what objects there are."""
        capability = c.capability
        if capability.format < self.least:
            return Verdict('oldformat', 0, 'the capability has format %d, and the drive takes %d at least'
                           % (capability.format, self.least))
        if capability.key_version not in self.keys:
            return Verdict('nokey', 0, 'the drive has no key of version %d' % capability.key_version)
        if not self.opens(c):
            return Verdict('checkvalue', 0, 'the check value isn\'t the one that the drive\'s key gives')
        if self.clock > capability.expiry:
            return Verdict('expired', 0, 'the drive\'s clock is at %d, past the expiry %d'
                           % (self.clock, capability.expiry))
        if not capability.rights & commands.RIGHTS[c.action]:
            return Verdict('rights', 0, 'the capability hasn\'t the right for %s' % commands.ACTIONS[c.action])
        if c.action == SET_ATTR and c.attribute < FIRST_USER_ATTRIBUTE:
            return Verdict('rights', 0, 'attribute %d is none of a user' % c.attribute)
        if (c.partition, c.object) != (capability.partition, capability.object):
            return Verdict('wrongobject', 0, 'the capability is for another object')
        if c.partition != commands.PARTITION_BASE + self.number:
            return Verdict('wrongobject', 0, 'the partition is another drive\'s')
        start, end = capability.range_start, capability.range_start + capability.range_length
        if c.action in (READ, WRITE) and not (start <= c.offset and c.offset + c.length <= end):
            return Verdict('range', 0, 'the bytes %d..%d aren\'t inside the capability\'s %d..%d'
                           % (c.offset, c.offset + c.length, start, end))
        return None

    def late_fault(self, c: Command) -> Optional[Verdict]:
        """The rows on the object."""
        there = self.objects.get(c.object)
        if c.action != CREATE and there is None:
            return Verdict('noobject', 0, 'there is no object %d' % c.object)
        if c.action == CREATE and there is not None:
            return Verdict('exists', 0, 'object %d exists' % c.object)
        if there is not None and there.tag != c.capability.tag:
            return Verdict('tag', there.tag, 'the capability names tag %d, and the object has tag %d'
                           % (c.capability.tag, there.tag))
        if self.passes_limit(c, there):
            return Verdict('limit', 0, 'a limit of one command is passed')
        if there is None:
            return None
        free = self.capacity - self.used
        if c.action == WRITE and c.length and c.offset + c.length - there.data.length > free:
            return Verdict('nospace', free, 'the object would grow by more than the %d bytes that are free' % free)
        return self.lane_fault(c, there) if c.action in commands.CHANGES else None

    def passes_limit(self, c: Command, there: Optional[StoredObject]) -> bool:
        """Row 10 of the table."""
        return (c.length > LONGEST_COMMAND
                or (c.action in (READ, WRITE) and c.offset + c.length > LAST_END)
                or (c.action in (CREATE, SET_ATTR) and len(c.payload) > LONGEST_VALUE)
                or (c.action == SET_TAG and there is not None and there.tag == GREATEST_TAG)
                or (c.action == CREATE and len(self.objects) >= MOST_OBJECTS))

    def lane_fault(self, c: Command, there: StoredObject) -> Optional[Verdict]:
        """The rows on the holder's lane, and on the number of attributes."""
        lane = there.lanes.get(c.capability.holder)
        if lane is None and len(there.lanes) >= MOST_LANES:
            return Verdict('lanefull', 0, 'the object has %d lanes, none of them the holder\'s' % MOST_LANES)
        if lane is not None and lane.nonce > c.nonce:
            return Verdict('stale', lane.nonce, 'a change of this holder with nonce %d was performed' % lane.nonce)
        if (c.action == SET_ATTR and there.attribute(c.attribute) is None
                and len(there.attributes) >= MOST_ATTRIBUTES):
            return Verdict('attrfull', 0, 'the object has %d attributes' % MOST_ATTRIBUTES)
        if lane is not None and lane.nonce == c.nonce:
            return Verdict('again', 0, 'the command was performed before')
        return None

    def perform(self, c: Command) -> Tuple[int, bytes]:
        """A command's effect; the detail and the payload of its reply."""
        if c.action == CREATE:
            self.objects[c.object] = StoredObject(c.capability.tag, c.payload)
            return 0, b''
        there = self.objects[c.object]
        if c.action == READ:
            return there.data.length, there.data.read(c.offset, c.length)
        if c.action == GET_ATTR:
            value = there.attribute(c.attribute)
            return (0, b'') if value is None else (1, value)
        if c.action == WRITE:
            before = there.data.length
            there.data.write(c.offset, c.payload)
            self.used += there.data.length - before
            return 0, b''
        if c.action == SET_ATTR:
            there.attributes[c.attribute] = c.payload
            return 0, b''
        there.tag += 1
        return there.tag, b''

    def answer(self, c: Command, verdict: Verdict) -> Reply:
        """The reply to a command that gets this verdict; what it does is done."""
        if verdict.word == 'perform':
            detail, payload = self.perform(c)
            if c.action in commands.CHANGES:
                self.objects[c.object].lanes[c.capability.holder] = Lane(c.nonce, c.action, detail)
            return Reply(c.action, 0, c.object, c.nonce, detail, payload)
        if verdict.word == 'again':
            lane = self.objects[c.object].lanes[c.capability.holder]
            return Reply(lane.action, 0, c.object, lane.nonce, lane.detail, b'')
        return Reply(c.action, commands.VERDICTS[verdict.word], c.object, c.nonce, verdict.detail, b'')

    def hear(self, command: Optional[Command]) -> Tuple[Verdict, Reply]:
        """The verdict on what came to the drive, none where it spells no command, and the reply."""
        if command is None:
            return Verdict('format', 0, 'the bytes spell no command'), FORMAT_REPLY
        verdict = self.verdict(command)
        return verdict, self.answer(command, verdict)
