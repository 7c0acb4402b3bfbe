"""Transcripts: what `replay` writes."""
import os
from typing import Iterator, List, NamedTuple, Sequence, Type, TypeVar, Union, overload

from .transcripts.lines import Line, Sent, read_transcript
from .transcripts.messages import Fields, fields_of

Kind = TypeVar("Kind", bound=Line)


class Message(NamedTuple):
    """A message that was sent: the number of its line, its own number, from whom to whom, and its fields, each with its name."""

    at: int
    number: int
    sender: str
    receiver: str
    fields: Fields


class Transcript(Sequence[Line]):
    """A transcript, as a sequence of its lines, each of which is one of the kinds in `pnfs_osd.transcripts.lines`.

    >>> transcript = Transcript.of("lost_drive.transcript")
    >>> transcript[-1]
    Last(at=199, calm=True, unguessed=True)
    """

    def __init__(self, data: bytes):
        """The transcript of these bytes. Raises `NoTranscript`, with the line and why, where they are none."""
        self._lines = read_transcript(data)

    @classmethod
    def of(cls, path: Union[str, "os.PathLike[str]"]) -> "Transcript":
        """The transcript in a file."""
        with open(path, "rb") as file:
            return cls(file.read())

    @overload
    def __getitem__(self, at: int) -> Line: ...

    @overload
    def __getitem__(self, at: slice) -> List[Line]: ...

    def __getitem__(self, at: Union[int, slice]) -> Union[Line, List[Line]]:
        return self._lines[at]

    def __len__(self) -> int:
        return len(self._lines)

    def of_kind(self, kind: Type[Kind]) -> Iterator[Kind]:
        """The lines of one kind, in order."""
        return (line for line in self._lines if isinstance(line, kind))

    def messages(self) -> Iterator[Message]:
        """The messages that were sent, in order, with the fields that `tools/read` prints."""
        return (Message(sent.at, sent.number, sent.sender, sent.receiver, fields_of(sent)) for sent in self.of_kind(Sent))
