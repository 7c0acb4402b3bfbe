"""The network: every message that was sent, and its marks (docs/rules/WORLD.md, "The state")."""
from typing import Dict, List, Optional, Tuple

from pnfs_osd.transcripts.commands import Command, maybe_command
from pnfs_osd.transcripts.lines import Sent


class Message:
    """A message that was sent, and its marks."""

    def __init__(self, line: Sent) -> None:
        self.line = line
        self.delivered = False
        self.dropped = False
        self.spelled: Optional[Command] = None
        self.is_read = False

    def command(self) -> Optional[Command]:
        """The command that its bytes spell, if any."""
        if not self.is_read:
            self.is_read = True
            self.spelled = maybe_command(self.line.data)
        return self.spelled


class Network:
    """All messages by number, and the first message to a party of the same bytes."""

    def __init__(self) -> None:
        self.messages: List[Message] = []
        self.sent_to: Dict[Tuple[str, bytes], int] = {}

    def add(self, line: Sent) -> Message:
        """A message more."""
        message = Message(line)
        self.messages.append(message)
        self.sent_to.setdefault((line.receiver, line.data), line.number)
        return message

    def first(self, receiver: str, data: bytes) -> Optional[int]:
        """The first message to a party of these bytes."""
        return self.sent_to.get((receiver, data))

    def pending_from(self, first: int) -> Optional[int]:
        """The lowest message from a number on that was neither delivered nor dropped."""
        messages = self.messages
        while first < len(messages) and (messages[first].delivered or messages[first].dropped):
            first += 1
        return first if first < len(messages) else None
