"""Tells people and programs what was seen of a cluster."""
import json
from typing import Dict, List

from .seeing import ABSENT, BUSY, HELD, LOST, MISSING, REFUSES, SPENT, UNKNOWN, UP, ClusterSeen, DriveSeen, FileSeen, drives_by_number

ADVICE = {
    BUSY: "a job of it waits for component {waits_for} (if its drive is lost: 'declare')",
    HELD: "client {holder} holds it, for 90 seconds at most",
    SPENT: "its tags or grants are used up: it takes no further orders",
    ABSENT: "the server has no such file: start a stored server again, with the file in its text",
}


def party_line(name: str, state: str, seconds: float, address: str, why: str) -> str:
    """A drive or the server, in one line."""
    answers = f"{seconds * 1000:.1f} ms" if state == UP else why
    return f"{name:<7} {state:<8} {address}  {answers}"


def drive_of(number: int, file: FileSeen, drives: Dict[int, DriveSeen]) -> str:
    """Where a component is, with a mark if its drive doesn't answer."""
    drive = (file.components or [])[number]
    if drive is None:
        return "missing"
    is_up = drive in drives and drives[drive].state == UP
    return f"d{drive}" if is_up else f"d{drive}!"


def file_line(file: FileSeen, drives: Dict[int, DriveSeen]) -> str:
    """A file, in one line."""
    size = "-" if file.size is None else str(file.size)
    rest = file.why
    if file.components is not None:
        rest = " ".join(drive_of(number, file, drives) for number in range(len(file.components)))
        if file.state in (MISSING, LOST):
            rest += "  ('rebuild' it)" if file.state == MISSING else "  (more than its parity brings back: put a copy under another number)"
    elif file.state in ADVICE:
        rest = ADVICE[file.state].format(waits_for=file.waits_for, holder=file.holder)
    return f"f{file.number:<6} {file.state:<8} {size:>9}  {rest}".rstrip()


def summary_of(seen: ClusterSeen) -> str:
    """What asks for attention, in one line."""
    parts = []
    if seen.server.state != UP:
        parts.append("the server doesn't answer")
    silent = [f"d{drive.number}" for drive in seen.drives if drive.state not in (UP, REFUSES)]
    if silent:
        parts.append(f"{', '.join(silent)} {'doesn' if len(silent) == 1 else 'don'}'t answer")
    parts += [f"d{drive.number} refuses: {drive.why}" for drive in seen.drives if drive.state == REFUSES]
    for state in (MISSING, LOST, BUSY, SPENT, ABSENT, UNKNOWN):
        names = [f"f{file.number}" for file in seen.files if file.state == state]
        if names:
            parts.append(f"{state}: {', '.join(names)}")
    return "all is well" if not parts else "; ".join(parts)


def as_text(seen: ClusterSeen) -> str:
    """The whole of it for people: the server, the drives, the files, and what asks for attention."""
    drives = drives_by_number(seen)
    server = seen.server
    lines = [party_line("server", server.state, server.seconds, server.address, server.why)]
    lines += [party_line(f"d{drive.number}", drive.state, drive.seconds, drive.address, drive.why) for drive in seen.drives]
    lines += [file_line(file, drives) for file in seen.files]
    return "\n".join(lines + [summary_of(seen)]) + "\n"


def as_list(files: List[FileSeen]) -> str:
    """The files alone: number, size and state."""
    lines = [f"f{file.number} {'-' if file.size is None else file.size} {file.state}" for file in files]
    return "".join(line + "\n" for line in lines)


def as_json(seen: ClusterSeen) -> str:
    """The whole of it for programs; docs/use/TOOLS.md has the keys."""
    files = [dict(file._asdict(), missing=file.missing() if file.components is not None else None) for file in seen.files]
    whole = {
        "well": seen.is_well(),
        "summary": summary_of(seen),
        "server": seen.server._asdict(),
        "drives": [drive._asdict() for drive in seen.drives],
        "files": files,
    }
    return json.dumps(whole, indent=2) + "\n"
