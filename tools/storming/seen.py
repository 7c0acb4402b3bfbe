"""What is seen of a cluster from outside: its steps in the order in which they were seen, and the file that keeps them."""
import json
import time
from typing import Dict, Iterator, List, NamedTuple, Optional, Tuple

# what a step may be, and what its fields say then
KINDS = {
    'starts': 'a process of `who` starts; of the server `text` is what it is given',
    'ends': 'it was ended by a signal; `text` is `killed`, or `over` at the end of the run',
    'lost': 'drive `who` never comes back',
    'notes': '`lines` are the notes that the process of the server told, from its start on',
    'calls': 'client `who` begins a process with the call `text`, whose first request has number `number`',
    'orders': 'a process of `who` begins with the order `text`',
    'says': 'that process ended with status `number`, and printed `lines`',
    'asks': '`who` sent the whole `record`, meant for `text`: the exchange `number`',
    'gets': '`who` was given `record` in the exchange `number`, that of the taking or connection `other`; or nothing',
    'takes': 'drive `who` was given the `record` of the exchange `other`, and put `reply`, or nothing: the taking `number`. '
             'Where `text` is `inject`, the record is a stranger\'s',
    'accepts': 'the server was given the connection `number`',
    'hears': 'and on it the `record` of the exchange `other`',
    'puts': 'and put `record` on it',
    'over': 'and ended it'}


class Seen(NamedTuple):
    """A step. It began at `since` and was seen at `at`, by the system's clock."""

    kind: str
    who: str
    number: int = 0
    other: int = 0
    record: Optional[bytes] = None
    reply: Optional[bytes] = None
    text: str = ''
    lines: Tuple[str, ...] = ()
    since: float = 0.0
    at: float = 0.0

    def title(self) -> str:
        """In some words."""
        what = '%d bytes' % len(self.record) if self.record is not None else ' '.join(self.lines) or self.text[:60]
        return '%s %s %d %s' % (self.who, self.kind, self.number, what)


class Log:
    """All that was seen so far."""

    def __init__(self) -> None:
        self.steps: List[Seen] = []
        self._last = 0

    def number(self) -> int:
        """A number that none had before: of an exchange, a taking or a connection."""
        self._last += 1
        return self._last

    def add(self, step: Seen) -> None:
        """A step more, seen now."""
        now = time.time()
        self.steps.append(step._replace(at=now, since=step.since or now))


def spelled(step: Seen) -> str:
    """The line of a step."""
    found: Dict[str, object] = {}
    for key, value, nothing in zip(Seen._fields, step, Seen('', '')):
        if isinstance(value, bytes):
            found[key] = value.hex()
        elif value != nothing or key in ('kind', 'who'):
            found[key] = list(value) if isinstance(value, tuple) else value
    return json.dumps(found)


def read_step(line: str) -> Seen:
    """The step that a line spells."""
    found = json.loads(line)
    for key in ('record', 'reply'):
        if key in found:
            found[key] = bytes.fromhex(found[key])
    found['lines'] = tuple(found.get('lines', ()))
    return Seen(**found)


def written(steps: List[Seen]) -> str:
    """The file of some steps."""
    return ''.join(spelled(step) + '\n' for step in steps)


def read(text: str) -> List[Seen]:
    """The steps that a file has."""
    return list(_read(text))


def _read(text: str) -> Iterator[Seen]:
    for line in text.split('\n'):
        if line:
            yield read_step(line)
