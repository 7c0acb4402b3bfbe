"""What can be seen of a cluster from outside, by messages that its parties answer anyway.

A drive answers a record without bytes. The server tells the number that it expects of a client in its refusal of number 0,
which no request has. A file's size and its components are in the answer to a request for a layout to read its first byte;
before that grant is given back, each of its drives is asked once whether it takes what the layout has for it. Like any
reader, such a request has a fence begin where a grant on these bytes ran out and wasn't given back.
"""
from typing import Dict, List, NamedTuple, Optional

from pnfs_osd.asking import FIRST_BYTE, Asker
from pnfs_osd.cluster_text import ClusterText
from pnfs_osd.transcripts import envelopes, structures
from pnfs_osd.transcripts.envelopes import Answer, Granted, ReturnArgs
from pnfs_osd.transcripts.striping import Map
from pnfs_osd.wire import Reply, exchange

from .probing import refusal_of

DRIVE_SECONDS = 6.0    # a drive that another peer keeps busy with its silence is free after 5

UP, DOWN, HANGS, REFUSES = "up", "down", "hangs", "refuses"
WHOLE, MISSING, LOST = "whole", "missing", "lost"
BUSY, HELD, SPENT, ABSENT, UNKNOWN = "busy", "held", "spent", "absent", "unknown"


class DriveSeen(NamedTuple):
    """A drive: whether it answers, how soon, and why not."""

    number: int
    address: str
    state: str
    seconds: float
    why: str


class ServerSeen(NamedTuple):
    """The server: whether it answers, how soon, and why not."""

    address: str
    state: str
    seconds: float
    why: str


class FileSeen(NamedTuple):
    """A file: its size and its state; the drive of each component (None: it is missing), where a layout told them; and the client
    that holds it, or the component that a job of it waits for."""

    number: int
    size: Optional[int]
    state: str
    components: Optional[List[Optional[int]]]
    holder: Optional[int] = None
    waits_for: Optional[int] = None
    why: str = ""

    def missing(self) -> List[int]:
        """The components that are missing, as far as they were told."""
        return [number for number, drive in enumerate(self.components or []) if drive is None]


class ClusterSeen(NamedTuple):
    """All of a cluster, at one time."""

    server: ServerSeen
    drives: List[DriveSeen]
    files: List[FileSeen]

    def is_well(self) -> bool:
        """Whether every party answers and no file lacks anything."""
        return (self.server.state == UP and all(drive.state == UP for drive in self.drives)
                and all(file.state in (WHOLE, HELD) for file in self.files))


def state_of(reply: Reply) -> str:
    """Whether a party answers; one that takes a connection and says nothing hangs."""
    if reply.record is not None:
        return UP
    return HANGS if reply.connected else DOWN


def see_drive(number: int, address: str) -> DriveSeen:
    """Asks a drive for a sign of life."""
    reply = exchange(address, b"", DRIVE_SECONDS)
    return DriveSeen(number, address, state_of(reply), reply.seconds, reply.why)


class Onlooker(Asker):
    """Asks the server as one client, whose number somebody holds meanwhile, and the drives at these addresses what they refuse."""

    def __init__(self, address: str, client: int, drives: Optional[Dict[int, str]] = None):
        super().__init__(address, client)
        self.drives = drives or {}
        self.refusals: Dict[int, str] = {}

    def see_file(self, number: int) -> FileSeen:
        """What the answer to a request for a layout tells of a file."""
        answer = self.request(number, envelopes.GET, FIRST_BYTE)
        if answer is None:
            return FileSeen(number, None, UNKNOWN, None, why=self.reply.why)
        if isinstance(answer.result, Granted):
            self.probe(layout_in(answer))
            back = ReturnArgs(False, envelopes.IOMODE_ANY, 0, envelopes.GREATEST, answer.result.state, structures.errors_bytes([]))
            self.request(number, envelopes.RETURN, back)
        return file_told(number, answer)

    def probe(self, layout: Optional[structures.Layout]) -> None:
        """Asks each drive of a layout once whether it takes what the server gives out for it."""
        for credential in layout.components if layout is not None else []:
            drive = credential.object.device
            if credential.version != structures.MISSING and drive in self.drives and drive not in self.refusals:
                self.refusals[drive] = refusal_of(self.drives[drive], credential, DRIVE_SECONDS)


def layout_in(answer: Answer) -> Optional[structures.Layout]:
    """The layout that an answer has, if it can be read."""
    if not isinstance(answer.result, Granted) or not answer.result.layouts:
        return None
    return structures.maybe(structures.layout_in, answer.result.layouts[0].body)


def state_with(striping: Map, drives: List[Optional[int]]) -> str:
    """Whether a file is whole, lacks components, or has a group that lacks more positions than its code brings back."""
    if None not in drives:
        return WHOLE
    gone = [all(drives[component] is None for component in striping.replicas_of(position)) for position in range(striping.positions)]
    groups = [sum(gone[position] for position in striping.group_positions(group)) for group in range(striping.groups)]
    return LOST if max(groups) > striping.parities else MISSING


def file_told(number: int, answer: Answer) -> FileSeen:
    """What an answer to a request for a layout says of a file."""
    if isinstance(answer.result, Granted) and answer.result.layouts:
        layout = layout_in(answer)
        if layout is None:
            return FileSeen(number, answer.size, UNKNOWN, None, why="its layout can't be read")
        drives = [None if credential.version == structures.MISSING else credential.object.device for credential in layout.components]
        return FileSeen(number, answer.size, state_with(layout.map, drives), drives)
    if answer.status == envelopes.TRYLATER:
        return FileSeen(number, answer.size, HELD, None, holder=answer.detail)
    if answer.status == envelopes.RECALLCONFLICT:
        return FileSeen(number, answer.size, BUSY, None, waits_for=answer.detail)
    if answer.status == envelopes.UNAVAILABLE:
        return FileSeen(number, answer.size, SPENT, None)
    if answer.status == envelopes.NOENT:
        return FileSeen(number, None, ABSENT, None)
    return FileSeen(number, answer.size, UNKNOWN, None, why=envelopes.STATUSES.get(answer.status, f"status {answer.status}"))


def see_files(cluster: ClusterText, onlooker: Onlooker) -> List[FileSeen]:
    """Every file of the cluster text, in the order of their numbers."""
    return [onlooker.see_file(number) for number in sorted(cluster.files)]


def see_server(address: str, onlooker: Onlooker, file: int) -> ServerSeen:
    """Asks the server for the number that it expects."""
    onlooker.learn_number(file)
    reply = onlooker.reply
    return ServerSeen(address, state_of(reply), reply.seconds, reply.why)


def see_cluster(cluster: ClusterText, client: int, spare_file: int) -> ClusterSeen:
    """Asks every party once."""
    drives = [see_drive(number, address) for number, address in sorted(cluster.drives.items())]
    onlooker = Onlooker(cluster.server, client, {drive.number: drive.address for drive in drives if drive.state == UP})
    server = see_server(cluster.server, onlooker, spare_file)
    files: List[FileSeen] = []
    if server.state == UP:
        files = see_files(cluster, onlooker)
    else:
        files = [FileSeen(number, None, UNKNOWN, None, why="the server doesn't answer") for number in sorted(cluster.files)]
    return ClusterSeen(server, [with_refusal(drive, onlooker.refusals.get(drive.number, "")) for drive in drives], files)


def with_refusal(drive: DriveSeen, why: str) -> DriveSeen:
    """A drive, of which it was seen whether it refuses what the server gives out for it."""
    return drive._replace(state=REFUSES, why=why) if why else drive


def drives_by_number(seen: ClusterSeen) -> Dict[int, DriveSeen]:
    """The drives, to be looked up."""
    return {drive.number: drive for drive in seen.drives}
