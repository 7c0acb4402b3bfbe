"""Holds a client number on this machine, so that no two runs use it at once.

The lock is one for the whole machine, whoever runs the tool, so its folder is below /tmp and not below a user's
own $XDG_RUNTIME_DIR. The program's process has the lock open too: where the tool is killed and the program goes on,
the number stays held until the program has ended.
"""
import contextlib
import errno
import fcntl
import hashlib
import os
import stat
import time
from typing import Callable, Iterator, Optional, Tuple

from .ends import NOT_ASKED, End

FOLDER_VARIABLE = "PNFS_LOCKS"
FOLDER = "/tmp/pnfs_osd.locks"
PAUSE_SECONDS = 0.2


def folder() -> str:
    """The folder of the locks, which is made where it isn't there."""
    path = os.environ.get(FOLDER_VARIABLE) or FOLDER
    try:
        os.mkdir(path)
        os.chmod(path, 0o1777)
    except FileExistsError:
        pass
    except OSError as fault:
        raise End(NOT_ASKED, f"the folder {path} for the locks of client numbers can't be made: {fault.strerror or fault}")
    if not stat.S_ISDIR(os.lstat(path).st_mode):
        raise End(NOT_ASKED, f"{path} isn't a folder: it is to have the locks of client numbers")
    return path


def lock_path(server: str, client: int) -> str:
    """The lock of a client number at this server."""
    digest = hashlib.sha256(server.encode()).hexdigest()[:16]
    return os.path.join(folder(), f"{digest}-c{client}")


def opened(path: str) -> int:
    """The lock's file. A file that another user made is opened for reading, which is enough for a lock."""
    # O_NONBLOCK: opening a FIFO that somebody put there would wait for its writer.
    flags = os.O_RDONLY | os.O_NOFOLLOW | os.O_CLOEXEC | os.O_NONBLOCK
    for _ in range(3):
        try:
            return regular(os.open(path, flags), path)
        except FileNotFoundError:
            pass
        try:
            lock = os.open(path, flags | os.O_CREAT | os.O_EXCL, 0o644)
            os.fchmod(lock, 0o644)
            return lock
        except FileExistsError:
            pass
    raise OSError(errno.EEXIST, "it comes and goes", path)


def regular(lock: int, path: str) -> int:
    """The descriptor of a lock's file. Refuses what is no file, as a FIFO or a device under its name."""
    if not stat.S_ISREG(os.fstat(lock).st_mode):
        os.close(lock)
        raise End(NOT_ASKED, f"{path} is no file: remove it, or name another folder for the locks by ${FOLDER_VARIABLE}")
    return lock


def is_current(lock: int, path: str) -> bool:
    """Whether the file that is open is the one at the path still: who had it before may have removed it."""
    try:
        return os.path.samestat(os.fstat(lock), os.stat(path, follow_symlinks=False))
    except FileNotFoundError:
        return False


def tried(path: str, client: int) -> Optional[int]:
    """The descriptor that holds the number, where it is free."""
    try:
        while True:
            lock = opened(path)
            try:
                fcntl.flock(lock, fcntl.LOCK_EX | fcntl.LOCK_NB)
            except OSError as fault:
                os.close(lock)
                if fault.errno in (errno.EAGAIN, errno.EACCES, errno.EINTR):
                    return None
                raise
            if is_current(lock, path):
                return lock
            os.close(lock)
    except OSError as fault:
        raise End(NOT_ASKED, f"the lock of client number {client} can't be held: {fault}")


def hold(server: str, client: int, patience: float, tell: Callable[[str], None]) -> Tuple[int, str]:
    """Waits until the number is free. Gives the descriptor that holds it for as long as it is open, and its file."""
    path = lock_path(server, client)
    until = time.monotonic() + patience
    waits = False
    while True:
        lock = tried(path, client)
        if lock is not None:
            return lock, path
        if time.monotonic() >= until:
            raise End(NOT_ASKED, f"client number {client} is in use by another run on this machine: "
                                 "wait for it, or take another with --client")
        if not waits:
            waits = True
            tell(f"client number {client} is in use by another run on this machine: waiting")
        time.sleep(PAUSE_SECONDS)


def release(lock: int, path: str) -> None:
    """Gives the number free, and removes its file where it may."""
    try:
        os.unlink(path)
    except OSError:
        pass
    os.close(lock)


@contextlib.contextmanager
def held(server: str, client: int, patience: float, tell: Callable[[str], None]) -> Iterator[int]:
    """Holds the client number while something is asked under it."""
    lock, path = hold(server, client, patience, tell)
    try:
        yield lock
    finally:
        release(lock, path)
