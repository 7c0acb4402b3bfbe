"""Texts of clusters at free ports."""

from typing import Dict, List, Set

from .case import Fault
from .marks import Values

_CAPACITY = 50_000_000

_MAP = ("components", "unit", "width", "depth", "mirrors", "algorithm")


class _Cluster:
    """What the lines below a row say of a cluster."""

    def __init__(self, below: List[str]) -> None:
        self.settings: Dict[str, str] = {}
        self.left_out: Set[int] = set()
        self.names: Dict[int, str] = {}
        self.server = "s"
        self.files: List[List[str]] = []
        self.keyless = False
        for line in below:
            if line.strip():
                self._read(line.split())

    def _read(self, words: List[str]) -> None:
        if words[0] == "file" and len(words) == len(_MAP) + 2:
            self.files.append(words[1:])
        elif words[0] in ("format", "capacity") and len(words) == 2:
            self.settings[words[0]] = words[1]
        elif words[0] == "without" and len(words) == 2:
            self.left_out.add(int(words[1]))
        elif words[0] == "at" and len(words) == 3:
            if words[1] == "s":
                self.server = words[2]
            else:
                self.names[int(words[1])] = words[2]
        elif words == ["keyless"]:
            self.keyless = True
        else:
            raise Fault("a cluster has no %s" % " ".join(words))

    def _drive(self, values: Values, number: int) -> List[str]:
        key = "" if self.keyless else 'key = "%s"\n' % (bytes([0x10 + number]) * 20).hex()
        port = values.port(self.names.get(number, "d%d" % number))
        capacity = self.settings.get("capacity", str(_CAPACITY))
        return ['[[drive]]\nnumber = %d\naddress = "127.0.0.1:%d"\n%scapacity = %s\n' % (number, port, key, capacity)]

    def text(self, values: Values, drives: int) -> str:
        """The text of a cluster of so many drives."""
        parts = ['server = "127.0.0.1:%d"\n' % values.port(self.server)]
        if "format" in self.settings:
            parts.append("format = %s\n" % self.settings["format"])
        for number in range(drives):
            if number not in self.left_out:
                parts += self._drive(values, number)
        for file in self.files:
            numbers = "".join("%s = %s\n" % pair for pair in zip(_MAP, file[1:]))
            parts.append("[[file]]\nnumber = %s\n%s" % (file[0], numbers))
        return "\n".join(parts)


def text(values: Values, drives: int, below: List[str]) -> str:
    """The text of a cluster of so many drives and a server, with what the lines below say."""
    return _Cluster(below).text(values, drives)
