"""Finds the cases of the repository."""

import os
from typing import Dict, List, Tuple

from .case import Case
from .rows import RowsCase
from .scenarios import ScenarioCase
from .structures import StructureCase

OUTCOMES = (".transcript", ".shows", ".commands", ".status")


def _of_file(top: str, path: str, name: str, beside: List[str]) -> List[Case]:
    """The case of a file, if it is one."""
    stem, ending = os.path.splitext(os.path.basename(path))
    if ending == ".rows":
        return [RowsCase(name, path, top)]
    if ending != ".txt":
        return []
    if any(stem + outcome in beside for outcome in OUTCOMES):
        return [ScenarioCase(name, path)]
    if os.path.basename(os.path.dirname(path)) == "show":
        return [StructureCase(name, path)]
    raise SystemExit("cases: %s says nowhere what has to come of it" % path)


def _below(top: str, folder: str, prefix: str) -> Dict[str, Case]:
    found: Dict[str, Case] = {}
    for root, folders, files in os.walk(folder):
        folders[:] = sorted(each for each in folders if each != "player")
        for file in sorted(files):
            path = os.path.join(root, file)
            name = prefix + os.path.splitext(os.path.relpath(path, folder))[0]
            for case in _of_file(top, path, name, files):
                if name in found:
                    raise SystemExit("cases: two cases have the name %s" % name)
                found[name] = case
    return found


def cases(top: str) -> List[Case]:
    """All cases of the repository, in the order of their names."""
    found = _below(top, os.path.join(top, "cases"), "")
    found.update(_below(top, os.path.join(top, "scenarios"), "scenarios/"))
    return [found[name] for name in sorted(found)]


def _is_meant(case: Case, name: str) -> bool:
    stem = os.path.splitext(name)[0] if name.endswith(OUTCOMES + (".txt", ".rows")) else name
    stem = stem.rstrip("/")
    if stem.startswith("cases/"):
        stem = stem[len("cases/"):]
    return case.name == stem or case.name.startswith(stem + "/")


def named(found: List[Case], names: List[str]) -> Tuple[List[Case], List[str]]:
    """The cases of these names and folders, all where there are none; and the names that none has."""
    if not names:
        return found, []
    unknown = [name for name in names if not any(_is_meant(case, name) for case in found)]
    return [case for case in found if any(_is_meant(case, name) for name in names)], unknown
