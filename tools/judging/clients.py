"""A client, as docs/rules/CLIENT.md tells it: calls, what it sends, what it takes, and how its calls end."""
from typing import Dict, List, NamedTuple, Optional, Set, Tuple

from pnfs_osd.transcripts import commands, envelopes, structures
from pnfs_osd.transcripts.commands import VERDICT_WORDS, Reply
from pnfs_osd.transcripts.envelopes import (BADLAYOUT, COMMIT, GET, GREATEST, IOMODE_ANY, IOMODE_READ, IOMODE_RW, NOENT,
                                   NOMATCHING, NOTHING_IN_PARTICULAR, OK, RECALLCONFLICT, RETURN, TRYLATER,
                                   UNAVAILABLE, ZERO_STATE, Answer, CommitArgs, GetArgs, Recall, RecallAnswer, Request,
                                   ReturnArgs, recall_answer_bytes, request_bytes, state_of)
from pnfs_osd.transcripts.structures import IoError, errors_bytes

from .calls import (ERRNOS, FILE_END, Awaited, Call, Held, Need, Op, TimedOut, error_at, report_of, take_layout)
from .plans import Asked, Outs, Pieces, Span, answer, asks, written

LONGEST_CALL = 262144
GREATEST_SEQUENCE, SPARE_REQUESTS = 4294967295, 16
MOST_COMMANDS, NONCES = 4000000000, 1 << 32
MOST_TRIES, CLIENTS = 3, 16
LARGEST_LAYOUT, LOSS_TAKEN = 65536, 1


class Did(NamedTuple):
    """What a client did in a step: how its call ended, if it did, and its messages."""
    outcome: Optional[str]
    sends: List[Tuple[str, bytes]]


class Client:
    """A client and all that it keeps."""

    def __init__(self, number: int) -> None:
        self.number = number
        self.next = 1
        self.stopped = False
        self.held: Dict[int, Held] = {}
        self.due: List[Tuple[int, int]] = []
        self.call: Optional[Call] = None
        self.outstanding: Optional[Tuple[int, bytes]] = None
        self.outcome: Optional[str] = None
        self.recalls: List[bytes] = []
        self.requests: List[bytes] = []
        self.sent: List[Awaited] = []
        self.timing_out = 0

    # ---- steps

    def begin(self) -> None:
        """A step begins."""
        self.outcome = None
        self.recalls, self.requests, self.sent = [], [], []

    def finish(self) -> Did:
        """A call may begin, and then a request may go out."""
        self.begin_call()
        self.send_request()
        sends = [('s', data) for data in self.recalls + self.requests]
        return Did(self.outcome, sends + [('d%d' % a.drive, a.data) for a in self.sent])

    def refusal(self, span: Span) -> Optional[str]:
        """Why a call is refused."""
        if self.call is not None:
            return 'busy'
        if span.length > LONGEST_CALL or span.end > FILE_END:
            return 'badrange'
        if self.next == 0 or self.next - 1 > GREATEST_SEQUENCE - SPARE_REQUESTS:
            return 'slotspent'
        return None

    def begin_op(self, op: Op) -> Did:
        """A call that isn't refused."""
        self.begin()
        if op.write and op.span.length == 0:
            return Did('ok 0', [])
        self.call = Call(op)
        return self.finish()

    def time_out(self, k: int) -> Did:
        """Component k doesn't answer."""
        self.begin()
        call = self.call
        mine = [a for a in call.awaited if a.ask.component == k] if call else []
        if not mine:
            return Did(None, [])
        first = min(mine, key=lambda a: (a.ask.stripe, a.ask.component, a.ask.offset))
        self.timing_out = k
        call.timed = sorted(call.timed + [TimedOut(first.write, first.ask)], key=lambda t: t.ask.component)
        call.awaited = [a for a in call.awaited if a.ask.component != k]
        held = self.held[call.op.file]
        {'Reads': self.read, 'Probes': self.probe, 'Gathers': self.gather_timed,
         'Scatters': self.scatter_timed}[call.phase](held)
        return self.finish()

    def leave(self) -> Did:
        """An idle client returns its grants."""
        self.begin()
        for file in sorted(self.held):
            self.add_due(file, self.held[file].number)
        return self.finish()

    def resend(self) -> List[Tuple[str, bytes]]:
        """What it waits for, once more."""
        sends = [('s', self.outstanding[1])] if self.outstanding else []
        awaited = sorted(self.call.awaited if self.call else [],
                         key=lambda a: (a.ask.stripe, a.ask.component, a.ask.offset))
        return sends + [('d%d' % a.drive, a.data) for a in awaited]

    def awaits_drive(self) -> Optional[int]:
        """The lowest component that its call awaits."""
        return min((a.ask.component for a in self.call.awaited), default=None) if self.call else None

    # ---- messages

    def on_reply(self, drive: int, r: Reply) -> Did:
        """A drive's reply, where it is awaited."""
        self.begin()
        awaited = self.call.awaited if self.call else []
        a = next((a for a in awaited if a.nonce == r.nonce and a.drive == drive), None)
        if a is None:
            return Did(None, [])
        held = self.held[self.call.op.file]
        if r.verdict == 0:
            self.performed(held, a, r)
        else:
            self.refused(held, a, r)
        return self.finish()

    def on_envelope(self, message: envelopes.Envelope) -> Did:
        """An answer or a recall of the server, where it is for this client."""
        self.begin()
        if isinstance(message, Recall) and message.client == self.number:
            return self.recalled(message)
        if not isinstance(message, Answer) or message.client != self.number or self.outstanding is None:
            return Did(None, [])
        nobody = message.status == TRYLATER and message.detail >= CLIENTS
        if message.sequence != self.outstanding[0] or nobody:
            return Did(None, [])
        self.outstanding = None
        if self.call is not None and self.call.phase == 'Waits':
            self.answered(self.call, message)
        return self.finish()

    def recalled(self, r: Recall) -> Did:
        """A recall is answered OK where it names the held grant, which is due then."""
        held = self.held.get(r.file)
        status = NOMATCHING
        if held is not None and held.number == r.args.state.grant:
            status = OK
            self.add_due(r.file, held.number)
        self.recalls.append(recall_answer_bytes(RecallAnswer(r.client, r.number, r.file, status)))
        return self.finish()

    def add_due(self, file: int, number: int) -> None:
        """A grant becomes due once."""
        if (file, number) not in self.due:
            self.due.append((file, number))

    # ---- requests

    def needs(self, need: Need) -> None:
        """The call needs something of the server."""
        self.call.phase, self.call.need = 'Needs', need
        self.call.awaited = []

    def ends(self, outcome: str) -> None:
        """The call ends."""
        self.call = None
        self.outcome = outcome

    def begin_call(self) -> None:
        """A call that hasn't begun begins where it can."""
        call = self.call
        if call is None or call.phase != 'Starts':
            return
        held = self.held.get(call.op.file)
        if held is not None and held.count <= MOST_COMMANDS and held.is_for(call.op):
            self.start(held)
        elif self.outstanding is None:
            self.needs(Need('Get') if held is None else Need('First'))

    def send_request(self) -> None:
        """A request goes out, if none is outstanding."""
        if self.outstanding is not None:
            return
        if self.call is None:
            self.return_due()
        elif self.call.phase == 'Needs':
            call = self.call
            held = self.held.get(call.op.file)
            call.phase = 'Waits'
            self.request(call.op.file, *self.args(call.op, call.need, held))

    def return_due(self) -> None:
        """The first grant that is due and still held goes back clean."""
        if self.next == 0:
            return
        for n, (file, number) in enumerate(self.due):
            held = self.held.get(file)
            if held is not None and held.number == number:
                self.due = self.due[n + 1:]
                self.request(file, RETURN, self.returning(number, ()))
                return
        self.due = []

    def request(self, file: int, operation: int, args) -> None:
        """A request with the next number."""
        data = request_bytes(Request(self.number, self.next, file, operation, args))
        self.outstanding = (self.next, data)
        self.next = 0 if self.next == GREATEST_SEQUENCE else self.next + 1
        if operation == RETURN:
            self.held.pop(file, None)
        self.requests.append(data)

    def args(self, op: Op, need: Need, held: Optional[Held]) -> Tuple:
        """The operation and the arguments of what a call needs."""
        if need.kind == 'Get' or held is None:
            span = op.asked
            return GET, GetArgs(False, IOMODE_RW if op.write else IOMODE_READ, span.offset, span.length, span.length,
                                ZERO_STATE, LARGEST_LAYOUT)
        if need.kind == 'Commit':
            return COMMIT, CommitArgs(op.span.offset, op.span.length, False, state_of(held.number), op.span.end - 1,
                                      None, bytes(8))
        return RETURN, self.returning(held.number, need.report)

    @staticmethod
    def returning(number: int, report: Tuple[IoError, ...]) -> ReturnArgs:
        """A return of all layouts of a file."""
        return ReturnArgs(False, IOMODE_ANY, 0, GREATEST, state_of(number), errors_bytes(report))

    # ---- answers

    def answered(self, call: Call, a: Answer) -> None:
        """The answer to what the call waits for."""
        kind = call.need.kind
        if kind == 'First':
            call.phase = 'Starts'
        elif kind == 'Get':
            self.on_get(call, a)
        elif kind == 'Commit':
            self.on_commit(call, a)
        elif kind == 'Report':
            taken = a.status == OK and a.detail == LOSS_TAKEN
            self.ends('ok %d' % call.op.span.length if taken else 'silent %d' % call.timed[0].ask.component)
        else:
            self.ends(call.need.outcome)

    def on_get(self, call: Call, a: Answer) -> None:
        """The answer to a LAYOUTGET."""
        if a.status == OK:
            taken = take_layout(a, call.op)
            if isinstance(taken, Held):
                self.held[call.op.file] = taken
                call.phase = 'Starts'
            else:
                self.ends('badlayout %s' % taken)
        elif a.status == NOENT:
            self.ends('nofile')
        elif a.status in (TRYLATER, RECALLCONFLICT):
            if call.need.tries + 1 < MOST_TRIES:
                self.needs(Need('Get', call.need.tries + 1))
            else:
                self.ends('held c%d' % a.detail if a.status == TRYLATER else 'fencing %d' % a.detail)
        elif a.status == UNAVAILABLE:
            self.ends('spent' if a.detail == NOTHING_IN_PARTICULAR else 'degraded %d' % a.detail)
        else:
            self.ends('status %d %d' % (a.status, a.detail))

    def on_commit(self, call: Call, a: Answer) -> None:
        """The answer to a LAYOUTCOMMIT."""
        if a.status == OK:
            self.held[call.op.file].size = a.size
            self.account(call)
            return
        if a.status == BADLAYOUT:
            del self.held[call.op.file]
        self.ends('status %d %d' % (a.status, a.detail))

    # ---- replies

    def refused(self, held: Held, a: Awaited, r: Reply) -> None:
        """A reply that isn't Perform."""
        word = VERDICT_WORDS[r.verdict]
        numbered = word in ('tag', 'nospace', 'stale')
        outcome = 'refused d%d %s' % (a.drive, '%s %d' % (word, r.detail) if numbered else word)
        if word == 'tag':
            del self.held[held.file]
            self.ends(outcome)
            return
        report: Tuple[IoError, ...] = ()
        if self.call.phase == 'Scatters':
            report = (error_at(held, a.write, a.ask, ERRNOS.get(word, structures.EIO)),)
        self.needs(Need('Close', 0, outcome, report))

    def performed(self, held: Held, a: Awaited, r: Reply) -> None:
        """The call goes on with what was read or written."""
        call = self.call
        call.awaited = [b for b in call.awaited if b.nonce != a.nonce]
        if call.phase == 'Scatters':
            self.scatter_next(held, a.ask.component)
            return
        data = r.payload[:a.ask.length].ljust(a.ask.length, b'\0')
        call.got.add(a.ask.position, a.ask.offset, data)
        if call.awaited:
            return
        if call.phase == 'Gathers':
            self.scatter(held)
        else:
            self.end_read(held)

    # ---- drives

    def send(self, held: Held, write: bool, stores: List[Tuple[Asked, bytes]]) -> None:
        """Commands with the next nonces of the grant."""
        for ask, data in stores:
            held.count += 1
            listed = held.components[ask.component]
            nonce = held.number * NONCES + held.count
            action = commands.WRITE if write else commands.READ
            command = commands.write_command(action, listed.object.partition, (listed.object.object, ask.offset),
                                             ask.length, nonce, 0, listed.capability_bytes, listed.key, data)
            sent = Awaited(write, ask, listed.object.device, nonce, command)
            self.sent.append(sent)
            self.call.awaited.append(sent)

    def outs(self, held: Held) -> Outs:
        """The components that are out in the call."""
        return Outs(held.map, held.missing() | {t.ask.component for t in self.call.timed})

    def start(self, held: Held) -> None:
        """The call begins under a grant that covers it."""
        call = self.call
        call.got, call.timed, call.awaited = Pieces(held.map), [], []
        if call.op.write:
            call.phase = 'Gathers'
            self.gather(held)
        elif held.clipped(call.op.span).length == 0:
            call.phase = 'Probes'
            self.probe(held)
        else:
            call.phase = 'Reads'
            self.read(held)

    def had(self, held: Held) -> Dict[Tuple[int, int], List[Tuple[int, int]]]:
        """The bytes of positions that were read or are awaited, by row."""
        unit, call = held.map.unit, self.call
        had = {key: [(first, first + len(data)) for first, data in pieces] for key, pieces in call.got.rows.items()}
        for a in call.awaited:
            had.setdefault((a.ask.position, a.ask.offset // unit), []).append(
                (a.ask.offset, a.ask.offset + a.ask.length))
        return had

    def ask(self, held: Held, aim: str, span: Span) -> None:
        """What a plan still asks is sent."""
        due = asks(aim, held.map, span, self.outs(held), self.had(held))
        self.send(held, False, [(ask, b'') for ask in due])

    def read(self, held: Held) -> None:
        """A read of bytes, at its begin and where a component timed out."""
        span = held.clipped(self.call.op.span)
        lost = self.outs(held).unreadable(span)
        if lost is not None:
            self.ends('lost %s' % ','.join(str(p) for p in lost))
            return
        self.ask(held, 'read', span)
        if not self.call.awaited:
            self.end_read(held)

    def end_read(self, held: Held) -> None:
        """A read's last reply came."""
        span = held.clipped(self.call.op.span)
        data = answer(held.map, span, self.outs(held), self.call.got) if self.call.phase == 'Reads' else b''
        self.ends('ok %s' % (data.hex() or '-'))

    def probe(self, held: Held) -> None:
        """A read of no byte wants a reply all the same."""
        m, outs, call = held.map, self.outs(held), self.call
        first = next((k for k, listed in enumerate(held.components) if listed.capability is not None), None)
        if first is None:
            self.ends('lost %s' % ','.join(str(p) for p in range(m.positions)))
            return
        position = m.position_with(first)
        group = position // m.group_width
        wanted = [position]
        if outs.is_out(position):
            lost = outs.positions(group)
            if len(lost) > m.parities:
                self.ends('lost %s' % ','.join(str(p) for p in lost))
                return
            wanted = list(m.group_positions(group))
        had = {key[0] for key in call.got.rows} | {a.ask.position for a in call.awaited}
        due = []
        for p in wanted:
            source = outs.source(p)
            if p not in had and source is not None:
                due.append((Asked(0, p, source, held.components[source].capability.range_start, 0), b''))
        self.send(held, False, due)
        if not call.awaited:
            self.end_read(held)

    def gather(self, held: Held) -> None:
        """A write reads what its parity needs; without parity nothing."""
        if held.map.parities:
            self.ask(held, 'gather', self.call.op.span)
        if not self.call.awaited:
            self.scatter(held)

    def gather_timed(self, held: Held) -> None:
        """A component timed out before the first WRITE."""
        if self.outs(held).is_unwritable(self.call.op.span):
            self.ends('silent %d' % self.timing_out)
        else:
            self.gather(held)

    def scatter(self, held: Held) -> None:
        """The new bytes and their parity are written, to each component one WRITE at a time."""
        call, m = self.call, held.map
        outs, op = self.outs(held), call.op
        new = written(m, op.span, op.data, outs, call.got)
        stores = [(ask, new.read(ask.position, ask.offset, ask.length)) for ask in asks('write', m, op.span, outs, {})]
        seen: Set[int] = set()
        firsts, call.queue = [], []
        for store in stores:
            (call.queue if store[0].component in seen else firsts).append(store)
            seen.add(store[0].component)
        call.phase, call.awaited = 'Scatters', []
        self.send(held, True, firsts)
        self.scatters_on(held)

    def scatter_next(self, held: Held, k: int) -> None:
        """Component k answered, and is sent its next WRITE."""
        queue = self.call.queue
        n = next((n for n, store in enumerate(queue) if store[0].component == k), None)
        if n is not None:
            self.send(held, True, [queue.pop(n)])
        self.scatters_on(held)

    def scatter_timed(self, held: Held) -> None:
        """A component timed out after the first WRITE."""
        call = self.call
        call.queue = [store for store in call.queue if store[0].component != self.timing_out]
        if self.outs(held).is_unwritable(call.op.span):
            report = report_of(held, call.timed)
            self.needs(Need('Close', 0, 'silent %d' % self.timing_out, report))
        else:
            self.scatters_on(held)

    def scatters_on(self, held: Held) -> None:
        """Where no reply is awaited the write is committed, reported or over."""
        call = self.call
        if call.awaited:
            return
        if held.size < call.op.span.end:
            self.needs(Need('Commit'))
        else:
            self.account(call)

    def account(self, call: Call) -> None:
        """The components that timed out are reported; with none the write is over."""
        if call.timed:
            self.needs(Need('Report', 0, '', report_of(self.held[call.op.file], call.timed)))
        else:
            self.ends('ok %d' % call.op.span.length)
