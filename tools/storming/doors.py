"""A party's door: it hands whole records to a party's process, one connection after the other, and writes down what came."""
import asyncio
import contextlib
import os
import re
import signal
import time
from typing import List, Optional, Tuple

from .seen import Log, Seen

LAST_FRAGMENT = 0x80000000
# how long the process of a party has to listen, to answer, and to end a connection, in seconds
LISTENING, ANSWERING = 40.0, 45.0
# within what time a process that was given a record surely doesn't give up to wait for it
SURELY = 4.0
# how long what a process sent before its end has to arrive
SETTLING = 0.05
NOTE = re.compile(r'f f[0-9]+ .*')


class Trouble(Exception):
    """A process did what none of them may do, so nothing is to be compared."""


class Slow(Trouble):
    """It may have done so since the machine was too slow: an exchange took longer than a process waits."""


def framed(record: bytes) -> bytes:
    """A record as a stream has it."""
    return (LAST_FRAGMENT | len(record)).to_bytes(4, 'big') + record


async def record_from(reader: asyncio.StreamReader) -> Optional[bytes]:
    """The next whole record of a stream, or none."""
    record = b''
    try:
        while True:
            head = int.from_bytes(await reader.readexactly(4), 'big')
            record += await reader.readexactly(head & ~LAST_FRAGMENT)
            if head & LAST_FRAGMENT:
                return record
    except (asyncio.IncompleteReadError, ConnectionError):
        return None


async def rest_of(reader: asyncio.StreamReader) -> None:
    """Waits until the other side ends its stream."""
    with contextlib.suppress(ConnectionError):
        while await reader.read(65_536):
            pass


class Process:
    """A process of the program, and what it says."""

    def __init__(self, words: List[str], folder: str) -> None:
        self.words, self.folder = words, folder
        self.output: List[str] = []
        self.errors: List[str] = []
        self.listens = asyncio.Event()
        self.process: Optional[asyncio.subprocess.Process] = None
        self.hearing: List['asyncio.Task[None]'] = []

    async def start(self, text: str) -> None:
        """It starts, and is given a cluster text."""
        streams = {'stdin': asyncio.subprocess.PIPE, 'stdout': asyncio.subprocess.PIPE, 'stderr': asyncio.subprocess.PIPE}
        self.process = await asyncio.create_subprocess_exec(*self.words, cwd=self.folder, limit=1 << 24, start_new_session=True,
                                                            **streams)
        stdin, stdout, stderr = self.process.stdin, self.process.stdout, self.process.stderr
        assert stdin is not None and stdout is not None and stderr is not None
        self.hearing = [asyncio.ensure_future(self._hear(stdout, self.output)),
                        asyncio.ensure_future(self._hear(stderr, self.errors))]
        with contextlib.suppress(ConnectionError):
            stdin.write(text.encode())
            await stdin.drain()
        stdin.close()

    async def _hear(self, stream: asyncio.StreamReader, lines: List[str]) -> None:
        async for line in stream:
            lines.append(line.decode('utf-8', 'replace').rstrip('\n'))
            if lines == ['listening']:
                self.listens.set()
        self.listens.set()

    async def wait(self) -> int:
        """Waits until it has ended and all that it said was heard; its status."""
        assert self.process is not None
        status = await self.process.wait()
        await asyncio.gather(*self.hearing)
        return status

    def kill(self) -> None:
        """Ends it."""
        if self.process is not None:
            with contextlib.suppress(ProcessLookupError, PermissionError):
                os.killpg(self.process.pid, signal.SIGKILL)

    def told(self) -> str:
        """What it said, for a person."""
        return '%s: %s' % (' '.join(self.words)[:200], ' / '.join((self.output + self.errors)[-6:])[-900:])


class Door:
    """The way to a drive or the server, whose process may be ended and started again."""

    def __init__(self, log: Log, name: str, words: List[str], place: Tuple[str, int], folder: str) -> None:
        self.log, self.name, self.words, self.place, self.folder = log, name, words, place, folder
        self.process: Optional[Process] = None
        self.is_up = asyncio.Event()
        self.is_lost = False
        self.turn = asyncio.Lock()
        # the number of its processes so far, which rises as one is killed
        self.life = 0
        self.dying: Optional['asyncio.Task[None]'] = None

    async def start(self, text: str, spelled: str = '') -> None:
        """A process starts, and listens."""
        self.log.add(Seen('starts', self.name, text=spelled))
        self.process = Process(self.words, self.folder)
        await self.process.start(text)
        await asyncio.wait_for(self.process.listens.wait(), LISTENING)
        if self.process.output != ['listening']:
            raise Trouble('%s doesn\'t listen: %s' % (self.name, self.process.told()))
        self.is_up.set()

    def fall(self) -> None:
        """Its process is killed, whatever it does; `fallen` waits for its end."""
        if self.process is not None and self.is_up.is_set():
            self.is_up.clear()
            self.life += 1
            self.process.kill()

    async def fallen(self, how: str = 'killed') -> None:
        """Waits for the end of a process that was killed, and writes it down."""
        assert self.process is not None
        await self.process.wait()
        await asyncio.sleep(SETTLING)
        if self.name == 's':
            notes = tuple(line for line in self.process.errors if NOTE.fullmatch(line))
            self.log.add(Seen('notes', self.name, lines=notes))
        self.log.add(Seen('ends', self.name, text=how))
        self.process = None


class DriveDoor(Door):
    """The way to a drive."""

    async def take(self, ask: int, record: bytes, falls_after: Optional[float] = None) -> Optional[Tuple[int, bytes]]:
        """The drive is given a record, of an exchange or (0) a stranger's; the number of the taking, and its reply. If
        `falls_after` is a time, the drive is killed so long after it was given the record."""
        async with self.turn:
            if not self.is_up.is_set():
                return None
            try:
                reader, writer = await asyncio.open_connection(*self.place)
            except OSError as error:
                raise Trouble('%s can\'t be reached: %s; %s' % (self.name, error, self.process and self.process.told())) from None
            step = Seen('takes', self.name, self.log.number(), ask, record, text='' if ask else 'inject')
            step = step._replace(since=time.time())
            writer.write(framed(record))
            if falls_after is not None:
                await asyncio.sleep(falls_after)
                self.fall()
            reply = await asyncio.wait_for(record_from(reader), ANSWERING)
            self.log.add(step._replace(reply=reply))
            writer.close()
            if falls_after is not None:
                await self.fallen()
            elif reply is None and time.time() - step.since < SURELY:
                raise Trouble('%s ended a connection without a reply: %s' % (self.name, self.process and self.process.told()))
            return None if reply is None else (step.number, reply)


class ServerDoor(Door):
    """The way to the server."""

    def __init__(self, log: Log, words: List[str], place: Tuple[str, int], folder: str) -> None:
        super().__init__(log, 's', words, place, folder)
        self.is_idle = asyncio.Event()
        self.is_idle.set()

    async def hear(self, ask: int, record: bytes, answered: 'asyncio.Future[Optional[Tuple[int, bytes]]]') -> None:
        """The server is given a record on a connection of its own. `answered` is told the number of the connection, and the
        answer; the server may go on with its work after that."""
        try:
            async with self.turn:
                await asyncio.wait_for(self.is_up.wait(), LISTENING)
                self.is_idle.clear()
                try:
                    await asyncio.wait_for(self._hear(ask, record, answered), ANSWERING)
                finally:
                    self.is_idle.set()
        except Exception as error:
            if not answered.done():
                answered.set_exception(error)
            else:
                raise
        if not answered.done():
            answered.set_result(None)

    async def _hear(self, ask: int, record: bytes, answered: 'asyncio.Future[Optional[Tuple[int, bytes]]]') -> None:
        life, number = self.life, self.log.number()
        self.log.add(Seen('accepts', 's', number))
        try:
            reader, writer = await asyncio.open_connection(*self.place)
        except OSError as error:
            if self.life == life:
                raise Trouble('s can\'t be reached: %s; %s' % (error, self.process and self.process.told())) from None
            return
        self.log.add(Seen('hears', 's', number, ask, record))
        writer.write(framed(record))
        answer = await record_from(reader)
        if answer is not None:
            self.log.add(Seen('puts', 's', number, record=answer))
            if not answered.done():
                answered.set_result((number, answer))
            with contextlib.suppress(OSError, RuntimeError):
                writer.write_eof()
            await rest_of(reader)
        if self.life == life:
            self.log.add(Seen('over', 's', number))
        writer.close()
