"""Storms over TCP: runs a cluster of real processes, maps what was seen to a scenario, and compares its replay with it."""
import asyncio
import multiprocessing
import os
import shutil
import signal
import subprocess
import sys
import tempfile
from typing import Callable, List, NamedTuple, Optional, Tuple

from .comparing import Unequal, compare
from .doors import Slow, Trouble
from .mapping import Mapping
from .running import Run
from .seen import Log, Seen, written
from .sides import Choices, Difference
from .town import Town

# how many ways of what was left open are tried, and how long a replay may take, in seconds
MOST_WAYS, REPLAYING = 256, 120
# how long a process of a storm has to end its run, in seconds
ENDING = 10
# how often a seed is run where the machine is too slow
TRIES = 4

Replay = Callable[[str], bytes]


class Task(NamedTuple):
    """A seed, the program, and where to leave the steps, the scenario and its transcript."""

    seed: int
    program: str
    keep: Optional[str]


class Blown(NamedTuple):
    """What became of a seed: what was compared, or the fault, and where its steps stand."""

    seed: int
    told: str
    fault: str
    path: str


class Found(NamedTuple):
    """What became of some steps: the scenario, its transcript, what was compared, and the fault."""

    scenario: str
    transcript: bytes
    told: str
    fault: str


def ends_cleanly() -> None:
    """A process of a storm that is told to end ends its run, with all processes of that."""
    signal.signal(signal.SIGTERM, lambda number, _: sys.exit(128 + number))


def stops_all(number: int, _: object) -> None:
    """A storm that is told to end ends its processes first, each of which ends its run."""
    workers = multiprocessing.active_children()
    for worker in workers:
        worker.terminate()
    for worker in workers:
        worker.join(ENDING)
    os._exit(128 + number)


def replay_by(program: str) -> Replay:
    """Has a program write the transcript of a scenario."""
    def replay(scenario: str) -> bytes:
        streams = {'stdout': subprocess.PIPE, 'stderr': subprocess.DEVNULL}
        return subprocess.run([program, 'replay'], input=scenario.encode(), timeout=REPLAYING, **streams).stdout

    return replay


def one_way(steps: List[Seen], choices: Choices, replay: Replay) -> Tuple[int, Found]:
    """What becomes of some steps by these choices, and how far it goes."""
    mapping = Mapping(steps, choices)
    try:
        mapping.go()
    except Difference as difference:
        scenario = mapping.scenario()
        return difference.at, Found(scenario, replay(scenario), '', difference.why)
    scenario = mapping.scenario()
    transcript = replay(scenario)
    try:
        return len(steps), Found(scenario, transcript, compare(transcript, mapping), '')
    except Unequal as unequal:
        return len(steps), Found(scenario, transcript, '', str(unequal))


def examined(steps: List[Seen], replay: Replay) -> Found:
    """What becomes of some steps by the first choices that leave no fault; else by those that go furthest."""
    best, taken = (-1, Found('', b'', '', 'there are no steps')), []  # type: Tuple[int, Found], Optional[List[int]]
    for way in range(MOST_WAYS):
        if taken is None:
            break
        choices = Choices(taken)
        found = one_way(steps, choices, replay)
        if not found[1].fault:
            return found[1]._replace(told=found[1].told + ('' if not choices.ways else '; %d left open' % len(choices.ways)))
        best = max(best, found, key=lambda one: one[0])
        taken = choices.next()
    return best[1]


def blow(task: Task) -> Blown:
    """One seed; once more where the machine was too slow for it."""
    slow = ''
    try:
        for _ in range(TRIES):
            try:
                return blown_once(task)
            except Slow as why:
                slow = str(why)
    except SystemExit as end:
        # the pool would go on with the next seed
        os._exit(int(end.code or 0))
    return Blown(task.seed, '', 'the machine is too slow: %s' % slow, '')


def blown_once(task: Task) -> Blown:
    """One run of a seed."""
    folder, log = tempfile.mkdtemp(prefix='storm.'), Log()
    try:
        asyncio.run(ran(task, folder, log))
        found = examined(log.steps, replay_by(task.program))
    except Slow:
        raise
    except (Trouble, asyncio.TimeoutError, OSError, subprocess.TimeoutExpired) as trouble:
        found = Found('', b'', '', 'the run: %s' % (str(trouble) or type(trouble).__name__))
    finally:
        shutil.rmtree(folder, ignore_errors=True)
    path = left(task, log.steps, found) if found.fault or task.keep else ''
    return Blown(task.seed, '%s: %d steps, %s' % (Town(task.seed).kind, len(log.steps), found.told), found.fault, path)


async def ran(task: Task, folder: str, log: Log) -> None:
    """A seed's run."""
    await Run(task.seed, task.program, folder, log).go()


def left(task: Task, steps: List[Seen], found: Found) -> str:
    """The steps, the scenario, its transcript and the fault are left in a folder; the path of the steps."""
    folder = task.keep or tempfile.mkdtemp(prefix='storm.')
    os.makedirs(folder, exist_ok=True)
    path = os.path.join(folder, 'cluster_%d' % task.seed)
    parts = [('.steps', written(steps).encode()), ('.txt', found.scenario.encode()), ('.transcript', found.transcript)]
    parts += [('.fault', found.fault.encode())] if found.fault else []
    for ending, data in parts:
        with open(path + ending, 'wb') as file:
            file.write(data)
    return path + '.steps'
