"""Copies many files: a folder into a cluster, and out of it."""
import argparse
import os
from typing import Dict, List, NamedTuple, Optional

from pnfs_osd.calls import Caller
from pnfs_osd.cluster_text import ClusterText, refuse_file
from pnfs_osd.ends import DONE, INPUT, NOT_ASKED, OUTPUT, SHORT, End
from pnfs_osd.pieces import MAX_FILE, read_piece

from .copying import Progress, put, read_all, resume, same_front, write_all
from .names import Entry, Kept, Table, is_name
from .words import CLUSTER

#: What a file that isn't whole yet ends with.
PART = ".part"


class Copy(NamedTuple):
    """What a run copies, and what it uses for that."""

    words: argparse.Namespace
    cluster: ClusterText
    caller: Caller

    def progress(self, name: str, file: int, size: Optional[int]) -> Progress:
        """Tells of one file."""
        progress = Progress(f"{name} f{file}", size, self.words.quiet, self.words.verbose, self.caller)
        progress.way_on = lambda done: ": the same 'cp' with --resume goes on"
        return progress


def names_below(folder: str) -> List[str]:
    """The names of all files below a folder, in order. Ends the run where one of them can't be copied."""
    found = []
    for path, folders, files in os.walk(folder, onerror=refuse_folder):
        folders.sort()
        for file in files:
            whole = os.path.join(path, file)
            name = os.path.relpath(whole, folder).replace(os.sep, "/")
            try:
                name.encode()
            except UnicodeEncodeError:
                raise End(NOT_ASKED, f"{name!r} isn't UTF-8: nothing was done")
            if os.path.islink(whole) or not os.path.isfile(whole) or not is_name(name):
                raise End(NOT_ASKED, f"{name!r} is no plain file: nothing was done")
            found.append(name)
    return sorted(found)


def refuse_folder(fault: OSError) -> None:
    """Ends the run where a folder can't be read."""
    raise End(INPUT, f"{fault.filename} can't be read: {fault.strerror or fault}")


def bytes_of(path: str) -> bytes:
    """A local file, but no more than shows that it is too long."""
    try:
        with open(path, "rb") as file:
            data = file.read(MAX_FILE + 1)
    except OSError as fault:
        raise End(INPUT, f"{path} can't be read: {fault.strerror or fault}")
    if len(data) > MAX_FILE:
        raise End(NOT_ASKED, f"{path} has more than {MAX_FILE} bytes: it wasn't copied")
    return data


def given_to(names: List[str], entries: Dict[str, Entry], table: int, copy: Copy) -> Dict[str, int]:
    """The file of each name: the one that it has, or else the first of the text that is empty and no name has."""
    taken = {entry.file for entry in entries.values()} | {table}
    free = (file for file in sorted(copy.cluster.files) if file not in taken and not read_piece(copy.caller, file, 0, 1))
    files: Dict[str, int] = {}
    for name in names:
        file = entries[name].file if name in entries else next(free, None)
        if file is None:
            raise End(NOT_ASKED, f"no file of the cluster text is free for '{name}': nothing was done")
        refuse_file(copy.cluster, file)
        files[name] = file
    return files


def copy_in(copy: Copy) -> int:
    """Copies a folder into the cluster."""
    words, folder = copy.words, copy.words.source
    if words.table is None:
        for name, file in words.names:
            data = bytes_of(os.path.join(folder, name))
            with copy.progress(name, file, len(data)) as progress:
                (resume if words.resume else put)(copy.caller, file, copy.cluster.files[file], data, progress)
        return DONE
    names = names_below(folder)
    kept = Kept(copy.caller, words.table, copy.cluster.files[words.table])
    table = kept.load()
    files = given_to(names, table.entries, words.table, copy)
    begun = {name: Entry(file, None) for name, file in files.items()}
    table = kept.store(Table(table.count, {**table.entries, **begun}))
    sizes: Dict[str, Entry] = {}
    for name, file in files.items():
        data, file_map = bytes_of(os.path.join(folder, name)), copy.cluster.files[file]
        with copy.progress(name, file, len(data)) as progress:
            front = same_front(copy.caller, file, file_map, data) if words.resume else 0
            progress.add(front)
            write_all(copy.caller, file, file_map, front, data[front:], progress)
        sizes[name] = Entry(file, len(data))
    kept.store(Table(table.count, {**table.entries, **sizes}))
    return DONE


def copy_out(copy: Copy) -> int:
    """Copies files of the cluster into a folder; of a table, those that are whole."""
    words, tell = copy.words, copy.caller.tell
    entries = {name: Entry(file, MAX_FILE) for name, file in words.names}
    if words.table is not None:
        entries = Kept(copy.caller, words.table, copy.cluster.files[words.table]).load().entries
    status = DONE
    for name, entry in sorted(entries.items()):
        refuse_file(copy.cluster, entry.file)
        if entry.size is None:
            tell(f"{name} f{entry.file}: it isn't whole, and was left out: copy its folder into the cluster again")
            status = SHORT
            continue
        path = os.path.join(words.target, name)
        if words.resume and os.path.isfile(path) and (words.table is None or os.path.getsize(path) == entry.size):
            continue
        status = max(status, fetch(copy, name, entry.file, entry.size, path))
    return status


def fetch(copy: Copy, name: str, file: int, size: int, path: str) -> int:
    """Reads a file of the cluster into a local one, which has its name as soon as it is whole."""
    part = path + PART
    try:
        os.makedirs(os.path.dirname(part) or ".", exist_ok=True)
        with open(part, "r+b" if copy.words.resume and os.path.isfile(part) else "wb") as sink:
            begin = min(sink.seek(0, os.SEEK_END), size)
            with copy.progress(name, file, None if copy.words.table is None else size) as progress:
                progress.add(begin)
                sink.seek(begin)
                count = begin + read_all(copy.caller, file, copy.cluster.files[file], begin, size - begin, sink, progress)
                sink.truncate(count)
        if copy.words.table is not None and count < size:
            copy.caller.tell(f"{name} f{file} has {count} bytes, and the table of names says {size}: it stays '{part}'")
            return SHORT
        os.replace(part, path)
    except OSError as fault:
        raise End(OUTPUT, f"{path} can't be written: {fault.strerror or fault}")
    return DONE


def copy_many(words: argparse.Namespace, cluster: ClusterText, caller: Caller) -> int:
    """Carries out cp."""
    for file in [words.table] if words.table is not None else [file for _, file in words.names]:
        refuse_file(cluster, file)
    return (copy_in if words.target == CLUSTER else copy_out)(Copy(words, cluster, caller))
