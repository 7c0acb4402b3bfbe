"""What the benchmarks measure: figures with a name and a unit, and the file that keeps those of a former state."""
import importlib.machinery
import importlib.util
import pathlib
from types import ModuleType
from typing import Dict, Iterable, NamedTuple

HERE = pathlib.Path(__file__).resolve().parent
BASELINE = HERE / "baseline"

# Units of which more is better; of all others less is.
RATES = "MB/s", "/s"


class Figure(NamedTuple):
    """What was measured, for example the milliseconds of a run."""

    name: str
    value: float
    unit: str

    def gain(self, former: "Figure") -> float:
        """How many times as good it is as a former one: above 1 it is better."""
        if self.unit in RATES:
            return self.value / former.value
        return former.value / self.value


def script(name: str) -> ModuleType:
    """A benchmark beside this file, as a module."""
    loader = importlib.machinery.SourceFileLoader(name, str(HERE / name))
    module = importlib.util.module_from_spec(importlib.util.spec_from_loader(name, loader))
    loader.exec_module(module)
    return module


def kept(path: pathlib.Path) -> Dict[str, Figure]:
    """The figures of a file by name: a line is NAME, a tab, the figure, a space and its unit."""
    found = {}
    for line in path.read_text().splitlines():
        name, measured = line.split("\t")
        value, unit = measured.split(" ")
        found[name] = Figure(name, float(value), unit)
    return found


def keep(path: pathlib.Path, figures: Iterable[Figure]) -> None:
    """Writes such a file. A figure of a former one that wasn't measured now stays in it."""
    all_kept = kept(path) if path.exists() else {}
    all_kept.update((figure.name, figure) for figure in figures)
    path.write_text("".join(f"{figure.name}\t{figure.value:.4g} {figure.unit}\n" for figure in all_kept.values()))
