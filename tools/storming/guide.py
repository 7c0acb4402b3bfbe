"""A guide: the world of the judge, which carries out events instead of comparing lines."""
from typing import List, Optional, Tuple

from judging.faults import text_of
from judging.world import World
from pnfs_osd.transcripts.lines import Last, Line, read_event


class Guide(World):
    """The world after some events, to choose the next ones by."""

    def __init__(self) -> None:
        super().__init__([])
        self.scenario: List[str] = []
        self.done: List[Line] = []

    def peek(self) -> Optional[Line]:
        """There is no line to compare with."""
        return None

    def must(self, wanted: Line, why: str = '') -> Line:
        """What was due happens."""
        self.next += 1
        self.done.append(wanted)
        return wanted

    def goes(self, text: str) -> Optional[Tuple[str, str]]:
        """An event is carried out, or the cause for which it is refused."""
        event = read_event(self.at(), text.split(' '))
        refused = self.refusal(event)
        if refused is None:
            self.scenario.append(text)
            self.done.append(event)
            self.next += 1
            self.event(event)
        return refused

    def transcript(self) -> bytes:
        """The transcript of all that happened, with its last line."""
        lines = self.done + [Last(self.at(), self.moments.calm, self.unguessed)]
        return ''.join(text_of(line) + '\n' for line in lines).encode()

    # ---- what there is to choose from

    def waiting(self) -> List[int]:
        """The messages that were neither delivered nor dropped."""
        return [n for n, message in enumerate(self.messages) if not message.delivered and not message.dropped]

    def to_drives(self) -> List[int]:
        """The messages that were sent to drives."""
        return [n for n, message in enumerate(self.messages) if message.line.receiver[0] == 'd']

    def living(self) -> List[int]:
        """The clients that weren't stopped."""
        return [n for n, client in self.clients.items() if not client.stopped]

    def standing(self) -> List[int]:
        """The drives that didn't fail."""
        return [n for n, drive in self.drives.items() if not drive.failed]

    def zoneless(self) -> List[int]:
        """The drives that may be given a zone."""
        return [n for n in self.standing() if n not in self.server.zones]

    def crashing(self) -> List[str]:
        """The server and the stored drives, where they are up."""
        drives = ['d%d' % n for n, drive in self.drives.items() if drive.stored and not drive.deaf()]
        return drives if self.server.down else ['s'] + drives

    def down(self) -> List[str]:
        """The server and the drives that are down and may be opened."""
        drives = ['d%d' % n for n, drive in self.drives.items() if drive.down and not drive.failed]
        return ['s'] + drives if self.server.down else drives

    def fallen(self) -> List[int]:
        """The drives that failed and weren't declared."""
        return [n for n, drive in self.drives.items() if drive.failed and self.server.drives[n].online]
