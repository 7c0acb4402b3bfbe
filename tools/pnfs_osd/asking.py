"""Requests to the server over a connection of their own, beside the runs of the program.

The server tells the number that it expects of a client, and the size of the file, in its refusal of number 0, which no request
has. So a size costs one exchange, and uses no number.
"""
from typing import Optional

from .ends import LINK, STRANGE, End
from .transcripts import envelopes
from .transcripts.envelopes import Answer, Envelope, GetArgs, Request
from .transcripts.spelling import Unreadable
from .wire import Reply, exchange

#: A number that no server expects: the numbers of requests begin with 1.
NO_NUMBER = 0
SERVER_SECONDS = 30.0
FIRST_BYTE = GetArgs(False, envelopes.IOMODE_READ, 0, 1, 1, envelopes.ZERO_STATE, envelopes.LARGEST_BODY)


class Asker:
    """Asks the server as one client, whose number somebody holds meanwhile."""

    def __init__(self, address: str, client: int):
        self.address = address
        self.client = client
        self.next: Optional[int] = None
        self.reply = Reply(None, 0.0, "", False)

    def ask(self, sequence: int, file: int, operation: int, args: object) -> Optional[Answer]:
        """Makes one request; none where no answer to it comes."""
        request = Request(self.client, sequence, file, operation, args)
        self.reply = exchange(self.address, envelopes.request_bytes(request), SERVER_SECONDS)
        if self.reply.record is None:
            return None
        try:
            answer: Envelope = envelopes.read_envelope(self.reply.record)
        except Unreadable as fault:
            self.reply = self.reply._replace(record=None, why=f"its answer can't be read: {fault}")
            return None
        if not isinstance(answer, Answer) or answer[:4] != request[:4]:
            self.reply = self.reply._replace(record=None, why="it answered something else")
            return None
        return answer

    def learn_number(self, file: int) -> Optional[Answer]:
        """Asks without a number, which does nothing, for the number that the server expects."""
        answer = self.ask(NO_NUMBER, file, envelopes.GET, FIRST_BYTE)
        if answer is not None and answer.status == envelopes.MISORDERED and answer.detail > 0:
            self.next = answer.detail
        return answer

    def request(self, file: int, operation: int, args: object) -> Optional[Answer]:
        """Makes a request under the next number, which the server tells where it isn't known."""
        if self.next is None:
            self.learn_number(file)
        if self.next is None:
            return None
        sequence, self.next = self.next, None
        answer = self.ask(sequence, file, operation, args)
        if answer is not None and answer.status != envelopes.MISORDERED:
            self.next = sequence + 1
        return answer

    def size_of(self, file: int) -> int:
        """The size of a file. Ends the run where the server doesn't tell it."""
        answer = self.learn_number(file)
        if answer is None:
            raise End(LINK, f"the server at {self.address} didn't answer: {self.reply.why}")
        if answer.status != envelopes.MISORDERED:
            status = envelopes.STATUSES.get(answer.status, str(answer.status))
            raise End(STRANGE, f"the server answered {status} to a request without a number")
        return answer.size
