"""What was seen of a cluster as metrics in the text format of Prometheus (version 0.0.4)."""
import os
from typing import Iterable, List, NamedTuple, Tuple

from .seeing import ABSENT, BUSY, HELD, LOST, MISSING, REFUSES, SPENT, UNKNOWN, UP, WHOLE, ClusterSeen

FILE_STATES = (WHOLE, MISSING, LOST, BUSY, HELD, SPENT, ABSENT, UNKNOWN)

Labels = Tuple[Tuple[str, str], ...]


class Gauge(NamedTuple):
    """A metric: its name, what it tells, and its values by their labels."""

    name: str
    tells: str
    values: List[Tuple[Labels, float]]


def label_text(value: str) -> str:
    """A label's value, as the format spells it."""
    return value.replace("\\", "\\\\").replace("\n", "\\n").replace('"', '\\"')


def value_line(name: str, labels: Labels, value: float) -> str:
    """One value of a metric."""
    inside = ",".join(f'{key}="{label_text(text)}"' for key, text in labels)
    number = str(int(value)) if value == int(value) else f"{value:.6f}"
    return f"{name}{{{inside}}} {number}" if inside else f"{name} {number}"


def gauge_text(gauge: Gauge) -> str:
    """A metric with all its values; nothing if it has none."""
    if not gauge.values:
        return ""
    lines = [f"# HELP {gauge.name} {gauge.tells}", f"# TYPE {gauge.name} gauge"]
    lines += [value_line(gauge.name, labels, value) for labels, value in gauge.values]
    return "".join(line + "\n" for line in lines)


def store_sizes(paths: Iterable[str]) -> List[Tuple[Labels, float]]:
    """The sizes of the stores and journals that can be looked at from here."""
    sizes: List[Tuple[Labels, float]] = []
    for path in paths:
        try:
            sizes.append(((("store", path),), os.stat(path).st_size))
        except OSError:
            continue
    return sizes


def gauges_of(seen: ClusterSeen, stores: Iterable[str]) -> List[Gauge]:
    """Every metric of a cluster."""
    parties = [("server", seen.server.state, seen.server.seconds)]
    parties += [(f"d{drive.number}", drive.state, drive.seconds) for drive in seen.drives]
    files = [((("file", f"f{file.number}"),), file) for file in seen.files]
    states = [((*labels, ("state", state)), int(file.state == state)) for labels, file in files for state in FILE_STATES]
    return [
        Gauge("pnfs_well", "Whether every party answers and no file lacks anything.", [((), int(seen.is_well()))]),
        Gauge("pnfs_up", "Whether the server or the drive answers.",
              [((("party", name),), int(state in (UP, REFUSES))) for name, state, _ in parties]),
        Gauge("pnfs_drive_refuses", "Whether the drive refuses what the server gives out for it.",
              [((("party", f"d{drive.number}"),), int(drive.state == REFUSES)) for drive in seen.drives]),
        Gauge("pnfs_answer_seconds", "How long the server or the drive took to answer.",
              [((("party", name),), seconds) for name, state, seconds in parties if state in (UP, REFUSES)]),
        Gauge("pnfs_file_size_bytes", "The size of the file, if the server told it.",
              [(labels, file.size) for labels, file in files if file.size is not None]),
        Gauge("pnfs_file_missing_components", "How many components of the file are missing, if a layout told it.",
              [(labels, len(file.missing())) for labels, file in files if file.components is not None]),
        Gauge("pnfs_file_state", "1 for the state that the file is in.", states),
        Gauge("pnfs_store_bytes", "The size of a store or a journal of this machine.", store_sizes(stores)),
    ]


def as_metrics(seen: ClusterSeen, stores: Iterable[str]) -> str:
    """The whole of it for Prometheus."""
    return "".join(gauge_text(gauge) for gauge in gauges_of(seen, stores))
