"""Runs a cluster of real processes in the weather of a seed, and writes down what is seen of it."""
import asyncio
import contextlib
import os
import re
import socket
import time
from random import Random
from typing import Any, Coroutine, Dict, List, NamedTuple, Optional, Set, Tuple

from .doors import ANSWERING, SETTLING, Door, DriveDoor, Process, ServerDoor, Slow, Trouble, framed, record_from
from .seen import Log, Seen
from .town import AT_DRIVES, AT_SERVER, LAST, ORDERS, Text, Town

MANY = '4294967295'
# how long a call may take, and the whole run, in seconds
CALLING, WHOLE = 90.0, 240.0
# for how long who asks surely waits: a client for a drive and for the server, and the server for a drive
SURELY = {'cd': 9.0, 'cs': 28.0, 'sd': 2.4}
CREATE = b'OSD2\x00\x01'
NEXT = re.compile(r'next ([0-9]+)')

Found = Optional[Tuple[int, bytes]]


class Called(NamedTuple):
    """What came of a process of a client: the number of its next request, if it told one."""

    next: Optional[int]
    lines: List[str]


class Run:
    """A run of a cluster: its processes, and the proxy between them."""

    def __init__(self, seed: int, program: str, folder: str, log: Log) -> None:
        self.seed, self.program, self.folder = seed, program, folder
        self.town, self.log = Town(seed), log
        # loopback addresses of its own, one for processes and one for proxies, so that nobody else takes its ports
        net = '127.%d.%d' % (1 + os.getpid() // 250 % 250, 1 + os.getpid() % 250)
        self.own, self.host = net + '.1', net + '.2'
        self.ports: Set[int] = set()
        self.drives: Dict[int, DriveDoor] = {}
        self.server: ServerDoor = self.server_door()
        self.proxies: Dict[Tuple[str, str], str] = {}
        self.listeners: List[asyncio.AbstractServer] = []
        self.randoms: Dict[str, Random] = {}
        self.processes: Dict[str, Process] = {}
        self.lives: Dict[str, int] = {}
        self.tasks: Set['asyncio.Task[Any]'] = set()
        self.trouble: Optional[BaseException] = None
        self.numbers = list(range(LAST))
        self.is_calm = False
        # whether an exchange took longer than any process of an idle machine takes
        self.is_slow = False
        # after how many further exchanges of the server with drives it falls; 0 if it doesn't
        self.armed = 0

    # ---- places

    def free_place(self) -> Tuple[str, int]:
        """A place at which nobody listens."""
        while True:
            with socket.socket() as tried:
                tried.bind((self.own, 0))
                place: Tuple[str, int] = tried.getsockname()
            if place[1] not in self.ports:
                self.ports.add(place[1])
                return place

    def server_door(self) -> ServerDoor:
        """The way to the server."""
        words = [self.program, 'stored-server' if self.town.keeps_server else 'server', '--connections', MANY]
        words += ['--store', 's.journal'] if self.town.keeps_server else []
        return ServerDoor(self.log, words, self.free_place(), self.folder)

    def drive_door(self, number: int) -> DriveDoor:
        """The way to a drive."""
        keeps = self.town.keeps[number]
        words = [self.program, 'stored-drive' if keeps else 'drive', '--number', str(number), '--connections', MANY]
        words += ['--store', 'd%d.store' % number] if keeps else []
        return DriveDoor(self.log, 'd%d' % number, words, self.free_place(), self.folder)

    async def proxied(self, asker: str, target: str) -> str:
        """The address of the proxy by which an asker reaches a party."""
        if (asker, target) not in self.proxies:
            async def serve(reader: asyncio.StreamReader, writer: asyncio.StreamWriter) -> None:
                await self.serve(asker, target, reader, writer)

            listener = await asyncio.start_server(serve, self.host, 0, limit=1 << 20)
            self.listeners.append(listener)
            self.proxies[asker, target] = '%s:%d' % listener.sockets[0].getsockname()[:2]
        return self.proxies[asker, target]

    async def text_for(self, asker: str, text: Text) -> str:
        """The cluster text that a party reads: it reaches others by proxies."""
        addresses = {d.number: await self.proxied(asker, 'd%d' % d.number) for d in text.drives}
        if asker[0] == 'd':
            addresses[int(asker[1:])] = '%s:%d' % self.drives[int(asker[1:])].place
        server = '%s:%d' % self.server.place if asker == 's' else await self.proxied(asker, 's')
        return text.toml(server, addresses)

    # ---- exchanges

    def random(self, who: str) -> Random:
        """The random numbers of a party: others don't change them."""
        return self.randoms.setdefault(who, Random('cluster %d %s' % (self.seed, who)))

    def later(self, work: Coroutine[Any, Any, Any]) -> 'asyncio.Task[Any]':
        """Something goes on beside all else. What it raises ends the run."""
        task = asyncio.ensure_future(work)
        self.tasks.add(task)
        task.add_done_callback(self.done)
        return task

    def done(self, task: 'asyncio.Task[Any]') -> None:
        """Such a thing has ended."""
        self.tasks.discard(task)
        if not task.cancelled() and task.exception() is not None:
            self.trouble = self.trouble or task.exception()

    async def serve(self, asker: str, target: str, reader: asyncio.StreamReader, writer: asyncio.StreamWriter) -> None:
        """A connection of an asker."""
        try:
            while True:
                record = await record_from(reader)
                answer = None if record is None else await self.carry(asker, target, record)
                if answer is None:
                    break
                writer.write(framed(answer))
                await writer.drain()
        except ConnectionError:
            pass
        except Exception as error:  # the run ends by it
            self.trouble = self.trouble or error
        finally:
            with contextlib.suppress(ConnectionError, RuntimeError):
                writer.close()

    def life_of(self, asker: str) -> int:
        """Which process of a party it is."""
        return self.server.life if asker == 's' else self.lives.get(asker, 0)

    async def carry(self, asker: str, target: str, record: bytes) -> Optional[bytes]:
        """An exchange: its record is handed on, as the weather is; the answer that is handed back, or nothing."""
        if self.server.process is None if asker == 's' else asker not in self.processes:
            return None
        ask, life, begin = self.log.number(), self.life_of(asker), time.monotonic()
        self.log.add(Seen('asks', asker, ask, record=record, text=target))
        fate, r = self.fate(asker, target, record), self.random(asker)
        await asyncio.sleep(r.choice([0, 0, 0, 0.001, 0.01]))
        if target == 's':
            work = self.to_server(asker, ask, record, fate, r)
        else:
            work = self.to_drive(asker, self.drives[int(target[1:])], ask, record, fate, r)
        found: Found = None
        left = SURELY[asker[0] + target[0]] - (time.monotonic() - begin)
        try:
            found = await asyncio.wait_for(asyncio.shield(self.later(work)), left)
        except asyncio.TimeoutError:
            self.is_slow = True
        if self.life_of(asker) != life:
            return None
        number, answer = found if found else (0, None)
        self.log.add(Seen('gets', asker, ask, number, answer))
        return answer

    def fate(self, asker: str, target: str, record: bytes) -> str:
        """What the weather does to an exchange."""
        rates, words = ((self.town.server_rates, AT_SERVER) if target == 's' else (self.town.drive_rates, AT_DRIVES))
        chance, r = self.random(asker).random(), self.random(asker)
        if asker == 's' and self.armed:
            self.armed -= 1
            if not self.armed:
                return 'kill'
        if self.is_calm or record.startswith(CREATE):
            return ''
        for word in words:
            chance -= rates.get(word, 0.0)
            if chance < 0:
                return word if asker != 'c%d' % ORDERS or word not in ('late', 'kill') else ''
        return 'slow' if r.random() < 0.05 else ''

    async def to_drive(self, asker: str, door: DriveDoor, ask: int, record: bytes, fate: str, r: Random) -> Found:
        """What comes of an exchange with a drive."""
        if not door.is_up.is_set() and not door.is_lost and r.random() < 0.8:
            with contextlib.suppress(asyncio.TimeoutError):
                await asyncio.wait_for(door.is_up.wait(), 2.0 if asker == 's' else 6.0)
        if fate == 'lose':
            return None
        if fate == 'late':
            self.later(self.late(door, ask, record, r.uniform(0, 0.4)))
            return None
        if fate == 'kill' and self.may_kill(asker):
            self.kill(asker)
            if r.random() < 0.6:
                self.later(self.late(door, ask, record, r.uniform(0, 0.2)))
            return None
        if fate == 'fall' and self.town.keeps[int(door.name[1:])]:
            return await self.falling(door, ask, record, r)
        if fate == 'inject':
            await door.take(0, self.altered(record, r))
        found = await door.take(ask, record)
        if fate == 'slow':
            await asyncio.sleep(r.uniform(0, 0.2))
        if fate == 'twice':
            found = r.choice([found, await door.take(ask, record) or found])
        if fate == 'again':
            self.later(self.late(door, ask, record, r.uniform(0, 0.5)))
        return None if fate == 'unanswer' else found

    @staticmethod
    async def late(door: DriveDoor, ask: int, record: bytes, pause: float) -> None:
        """A drive is given a record later."""
        await asyncio.sleep(pause)
        await door.take(ask, record)

    @staticmethod
    def altered(record: bytes, r: Random) -> bytes:
        """A record in which a bit is another, or any bytes."""
        if r.random() < 0.2 or not record:
            return bytes(r.randrange(256) for _ in range(r.randrange(300)))
        at = r.randrange(len(record))
        return record[:at] + bytes([record[at] ^ (1 << r.randrange(8))]) + record[at + 1:]

    # ---- what is killed

    def may_kill(self, asker: str) -> bool:
        """Whether who asks may be killed: a client, or a server that keeps itself."""
        return self.town.keeps_server and self.server.is_up.is_set() if asker == 's' else asker in self.processes

    def kill(self, asker: str) -> None:
        """Who asks is killed."""
        if asker == 's':
            self.server_falls()
        elif asker in self.processes:
            self.lives[asker] = self.life_of(asker) + 1
            self.processes[asker].kill()

    async def falling(self, door: DriveDoor, ask: int, record: bytes, r: Random) -> Found:
        """A drive is killed before it is given a record, or so that nobody knows, or after its reply."""
        how = r.randrange(3)
        found = None
        if how == 1:
            found = await door.take(ask, record, r.choice([0.0, 0.0005, 0.001, 0.002, 0.005]))
        elif how == 2:
            found = await door.take(ask, record)
        await self.drive_falls(door)
        self.later(self.rises(door, r.uniform(0, 0.2)))
        if found is None and r.random() < 0.6:
            await door.is_up.wait()
            found = await door.take(ask, record)
        return found

    @staticmethod
    async def drive_falls(door: DriveDoor) -> None:
        """A drive is killed that does nothing."""
        async with door.turn:
            if door.is_up.is_set():
                door.fall()
                await door.fallen()

    async def rises(self, door: Door, pause: float) -> None:
        """A process is started again."""
        await asyncio.sleep(pause)
        if door.process is None and not door.is_lost:
            text = self.town.later if door is self.server else self.town.text
            await door.start(await self.text_for(door.name, text), text.spelled() if door is self.server else '')

    def server_falls(self) -> None:
        """The server is killed, whatever it does, and started again."""
        if self.server.is_up.is_set():
            self.server.fall()
            self.armed = 0
            self.later(self.server_rises(self.random('s').uniform(0, 0.2)))

    async def server_rises(self, pause: float) -> None:
        """The server is started again when it has ended."""
        await self.server.is_idle.wait()
        await self.server.fallen()
        await self.rises(self.server, pause)

    # ---- the server

    async def heard(self, ask: int, record: bytes) -> Found:
        """What the server answers."""
        answered: 'asyncio.Future[Found]' = asyncio.get_event_loop().create_future()
        self.later(self.server.hear(ask, record, answered))
        return await asyncio.wait_for(answered, 2 * ANSWERING)

    async def to_server(self, asker: str, ask: int, record: bytes, fate: str, r: Random) -> Found:
        """What comes of an exchange with the server."""
        if fate == 'lose':
            return None
        if fate in ('late', 'kill'):
            if fate == 'kill':
                self.kill(asker)
            if fate == 'late' or r.random() < 0.6:
                self.later(self.heard_later(ask, record, r.uniform(0, 0.3)))
            return None
        if fate == 'fall' and self.town.keeps_server:
            return await self.server_falling(ask, record, r)
        found = await self.heard(ask, record)
        if fate == 'slow':
            await asyncio.sleep(r.uniform(0, 0.2))
        if fate == 'twice' and found is not None:
            found = r.choice([found, await self.heard(ask, record) or found])
        if fate == 'again':
            self.later(self.heard_later(ask, record, r.uniform(0, 0.5)))
        if found is None and r.random() < 0.8:
            found = await self.heard(ask, record)
        return None if fate == 'unanswer' else found

    async def heard_later(self, ask: int, record: bytes, pause: float) -> None:
        """The server is given a record later."""
        await asyncio.sleep(pause)
        await self.heard(ask, record)

    async def server_falling(self, ask: int, record: bytes, r: Random) -> Found:
        """The server is killed before it is given a record, while it has it, in one of its next exchanges, or after it."""
        how = r.randrange(4)
        if how == 0:
            self.server_falls()
        elif how == 1:
            pause = r.choice([0.0, 0.001, 0.002, 0.005, 0.01])
            asyncio.get_event_loop().call_later(pause, self.server_falls)
        elif how == 2:
            self.armed = r.randint(1, 6)
        found = await self.heard(ask, record)
        if how == 3:
            self.server_falls()
        if found is None and r.random() < 0.8:
            found = await self.heard(ask, record)
        return found

    # ---- clients

    async def process_of(self, who: str, sequence: int, text: str) -> Tuple[int, List[str]]:
        """A process of a client carries out a call or an order; its status, and what it printed."""
        words = [self.program, 'client', '--number', who[1:], '--sequence', str(sequence), '--call', text]
        process = Process(words, self.folder)
        given = await self.text_for(who, self.town.later)
        self.processes[who] = process
        await process.start(given)
        status = await asyncio.wait_for(process.wait(), CALLING)
        del self.processes[who]
        self.lives[who] = self.life_of(who) + 1
        if status < 0:
            await asyncio.sleep(SETTLING)
        if status not in (0, 8, 10, -9):
            raise Trouble('a client ends with status %d: %s' % (status, process.told()))
        self.log.add(Seen('says', who, status, lines=tuple(process.output)))
        return status, process.output

    async def call(self, number: int, sequence: int, text: str) -> Called:
        """A call of a client."""
        self.log.add(Seen('calls', 'c%d' % number, sequence, text=text))
        status, lines = await self.process_of('c%d' % number, sequence, text)
        found = NEXT.fullmatch(lines[-1]) if lines and status in (0, 10) else None
        return Called(int(found.group(1)) if found else None, lines)

    async def order(self, text: str) -> None:
        """An order."""
        self.log.add(Seen('orders', 'c%d' % ORDERS, text=text))
        await self.process_of('c%d' % ORDERS, 1, text)

    async def user(self, which: int) -> None:
        """Calls, one after the other, by a client; by another one after it was killed, or had no answer."""
        r = Random('cluster %d user %d' % (self.seed, which))
        number, sequence = self.numbers.pop(0), 1
        for _ in range(self.town.calls):
            text = self.town.call_text(r, self.town.text.files)
            await asyncio.sleep(r.uniform(0, 0.05))
            called = await self.call(number, sequence, text)
            if called.next is not None:
                sequence = called.next
            elif self.numbers:
                number, sequence = self.numbers.pop(0), 1
            else:
                return

    async def operator(self) -> None:
        """Orders, one after the other; and the drive that is lost for good, which is declared later."""
        r = Random('cluster %d operator' % self.seed)
        for _ in range(self.town.orders):
            await asyncio.sleep(r.uniform(0.1, 0.5))
            await self.order(self.town.order_text(r))
        if self.town.doomed is not None:
            door = self.drives[self.town.doomed]
            await door.is_up.wait()
            door.is_lost = True
            await self.drive_falls(door)
            await asyncio.sleep(r.uniform(0.2, 0.6))
            self.log.add(Seen('lost', door.name))
            await self.order('declare %s' % door.name)

    # ---- the whole

    async def settled(self) -> None:
        """Waits until nothing goes on beside."""
        while self.tasks:
            await asyncio.wait(set(self.tasks))
        if self.trouble is not None:
            raise self.trouble

    async def ending(self) -> None:
        """In calm weather all grants end, lost components are made anew, and each file is read."""
        await self.settled()
        self.is_calm, self.armed = True, 0
        for door in list(self.drives.values()) + [self.server]:
            await self.rises(door, 0)
        sequence: Optional[int] = 1
        for file in self.town.text.files:
            await self.order('revoke f%d' % file.number)
            if self.town.doomed is not None:
                await self.order('rebuild f%d' % file.number)
            if sequence is not None:
                reach = file.shape.unit * file.shape.components * 6
                sequence = (await self.call(LAST, sequence, 'read f%d 0 %d' % (file.number, reach))).next
        await self.settled()

    async def work(self) -> None:
        """The whole run, but for its clean end."""
        text = self.town.text
        for d in text.drives:
            self.drives[d.number] = self.drive_door(d.number)
        for door in self.drives.values():
            await door.start(await self.text_for(door.name, text))
        await self.server.start(await self.text_for('s', text), text.spelled())
        works = [self.user(which) for which in range(self.town.users)] + [self.operator()]
        await asyncio.gather(*works)
        await self.ending()
        for last in [self.server] + list(self.drives.values()):
            if last.process is not None:
                async with last.turn:
                    last.fall()
                    await last.fallen('over')

    async def go(self) -> None:
        """The whole run, in bounded time; all processes are ended."""
        try:
            await asyncio.wait_for(self.work(), WHOLE)
        except asyncio.TimeoutError:
            raise Trouble('the run isn\'t over within %d seconds' % WHOLE) from None
        except Trouble as trouble:
            raise (Slow(str(trouble)) if self.is_slow else trouble) from None
        finally:
            await self.close()

    async def close(self) -> None:
        """All that goes on is ended."""
        for task in list(self.tasks):
            task.cancel()
        for listener in self.listeners:
            listener.close()
        doors = list(self.drives.values()) + [self.server]
        left = [door.process for door in doors if door.process is not None] + list(self.processes.values())
        for process in left:
            process.kill()
        await asyncio.gather(*[process.wait() for process in left if process.process is not None], return_exceptions=True)
