"""What clients and the metadata server say to each other, both ways (docs/rules/MESSAGES.md)."""
from typing import List, NamedTuple, Optional, Tuple, Union

from .spelling import Items, Unreadable, big, xdr_opaque

COMMIT, GET, RETURN, RECALL_OP = 49, 50, 51, 5
OPERATIONS = {COMMIT: 'LAYOUTCOMMIT', GET: 'LAYOUTGET', RETURN: 'LAYOUTRETURN', RECALL_OP: 'CB_LAYOUTRECALL'}
REQUEST, ANSWER, RECALL, RECALL_ANSWER, ORDER, ORDER_ANSWER = range(1, 7)
ORDERS = {1: 'recall', 2: 'revoke', 3: 'declare', 4: 'rebuild', 5: 'audit'}
ORDER_RESULTS = {0: 'started', 1: 'busy', 2: 'spent', 3: 'unknown'}

OK, NOENT, INVAL, DELAY, BADIOMODE, BADLAYOUT = 0, 2, 22, 10008, 10049, 10050
TRYLATER, UNAVAILABLE, NOMATCHING, RECALLCONFLICT, MISORDERED = 10058, 10059, 10060, 10061, 10063
STATUSES = {OK: 'NFS4_OK', NOENT: 'NFS4ERR_NOENT', INVAL: 'NFS4ERR_INVAL', DELAY: 'NFS4ERR_DELAY',
            BADIOMODE: 'NFS4ERR_BADIOMODE', BADLAYOUT: 'NFS4ERR_BADLAYOUT', TRYLATER: 'NFS4ERR_LAYOUTTRYLATER',
            UNAVAILABLE: 'NFS4ERR_LAYOUTUNAVAILABLE', NOMATCHING: 'NFS4ERR_NOMATCHING_LAYOUT',
            RECALLCONFLICT: 'NFS4ERR_RECALLCONFLICT', MISORDERED: 'NFS4ERR_SEQ_MISORDERED'}
IOMODE_READ, IOMODE_RW, IOMODE_ANY = 1, 2, 3
IOMODES = {IOMODE_READ: 'read', IOMODE_RW: 'read and write', IOMODE_ANY: 'any'}

OBJECTS, ONE_FILE = 2, 1
LARGEST_BODY, LARGEST_HANDLE, LARGEST_LIST = 65536, 128, 1024
GREATEST = (1 << 64) - 1
NOTHING_IN_PARTICULAR = (1 << 32) - 1


class StateId(NamedTuple):
    """A state id; its last four bytes are a grant's number."""
    sequence: int
    other: bytes

    @property
    def grant(self) -> int:
        """The number of the grant."""
        return int.from_bytes(self.other[8:], 'big')


class GetArgs(NamedTuple):
    """What a LAYOUTGET asks."""
    signal: bool
    iomode: int
    offset: int
    length: int
    least: int
    state: StateId
    largest: int


class CommitArgs(NamedTuple):
    """What a LAYOUTCOMMIT says."""
    offset: int
    length: int
    reclaim: bool
    state: StateId
    last_offset: Optional[int]
    time: Optional[Tuple[int, int]]
    body: bytes


class ReturnArgs(NamedTuple):
    """What a LAYOUTRETURN says."""
    reclaim: bool
    iomode: int
    offset: int
    length: int
    state: StateId
    body: bytes


class RecallArgs(NamedTuple):
    """What a recall says."""
    iomode: int
    changed: bool
    handle: bytes
    offset: int
    length: int
    state: StateId


class Segment(NamedTuple):
    """A layout that is granted."""
    offset: int
    length: int
    iomode: int
    body: bytes


class Granted(NamedTuple):
    """The result of a LAYOUTGET that gives layouts."""
    return_on_close: bool
    state: StateId
    layouts: List[Segment]


class Request(NamedTuple):
    """A client's request."""
    client: int
    sequence: int
    file: int
    operation: int
    args: Union[GetArgs, CommitArgs, ReturnArgs]


class Answer(NamedTuple):
    """The server's answer. `result` is what stands behind the status."""
    client: int
    sequence: int
    file: int
    operation: int
    detail: int
    size: int
    status: int
    result: Union[None, bool, int, Granted, StateId]


class Recall(NamedTuple):
    """The server asks for a grant back."""
    client: int
    number: int
    file: int
    args: RecallArgs


class RecallAnswer(NamedTuple):
    """What a client answers to that."""
    client: int
    number: int
    file: int
    status: int


class Order(NamedTuple):
    """An operator's order."""
    order: int
    target: int


class OrderAnswer(NamedTuple):
    """What became of it."""
    order: int
    result: int


Envelope = Union[Request, Answer, Recall, RecallAnswer, Order, OrderAnswer]


def state_in(items: Items) -> StateId:
    """A state id."""
    return StateId(items.u32(), items.fixed(12))


def constant(items: Items, value: int, what: str) -> None:
    """A number that is always the same."""
    found = items.u32()
    if found != value:
        raise Unreadable('%s is %d, not %d' % (what, found, value))


def args_in(items: Items, operation: int) -> Union[GetArgs, CommitArgs, ReturnArgs]:
    """The arguments of an operation."""
    if operation == GET:
        signal = items.yes()
        constant(items, OBJECTS, 'the layout type')
        return GetArgs(signal, items.u32(), items.u64(), items.u64(), items.u64(), state_in(items), items.u32())
    if operation == COMMIT:
        head = (items.u64(), items.u64(), items.yes(), state_in(items), items.optional(Items.u64),
                items.optional(lambda i: (i.i64(), i.u32())))
        constant(items, OBJECTS, 'the layout type')
        return CommitArgs(*head, items.opaque(LARGEST_BODY))
    if operation != RETURN:
        raise Unreadable('there is no operation %d' % operation)
    reclaim = items.yes()
    constant(items, OBJECTS, 'the layout type')
    iomode = items.u32()
    constant(items, ONE_FILE, 'the kind of the return')
    return ReturnArgs(reclaim, iomode, items.u64(), items.u64(), state_in(items), items.opaque(LARGEST_BODY))


def recall_args_in(items: Items) -> RecallArgs:
    """The arguments of a recall."""
    constant(items, RECALL_OP, 'the operation')
    constant(items, OBJECTS, 'the layout type')
    iomode, changed = items.u32(), items.yes()
    constant(items, ONE_FILE, 'the kind of the recall')
    return RecallArgs(iomode, changed, items.opaque(LARGEST_HANDLE), items.u64(), items.u64(), state_in(items))


def segment_in(items: Items) -> Segment:
    """A layout that is granted."""
    offset, length, iomode = items.u64(), items.u64(), items.u32()
    constant(items, OBJECTS, 'the layout type')
    return Segment(offset, length, iomode, items.opaque(LARGEST_BODY))


def result_in(items: Items, operation: int) -> Tuple[int, Union[None, bool, int, Granted, StateId]]:
    """A status, and what stands behind it."""
    if operation not in (COMMIT, GET, RETURN):
        raise Unreadable('there is no operation %d' % operation)
    status = items.u32()
    if operation == GET and status == TRYLATER:
        return status, items.yes()
    if status != OK:
        return status, None
    if operation == GET:
        return status, Granted(items.yes(), state_in(items), items.listed(LARGEST_LIST, segment_in))
    return status, items.optional(Items.u64 if operation == COMMIT else state_in)


def listed(items: Items, values: dict, what: str) -> int:
    """A number that is among those of a list."""
    value = items.u32()
    if value not in values:
        raise Unreadable('there is no %s %d' % (what, value))
    return value


def body_in(items: Items, kind: int) -> Envelope:
    """What stands behind the kind of a message."""
    if kind == REQUEST:
        client, sequence, file, operation = items.u32(), items.u32(), items.u32(), items.u32()
        return Request(client, sequence, file, operation, args_in(items, operation))
    if kind == ANSWER:
        head = (items.u32(), items.u32(), items.u32(), items.u32())
        detail, size = items.u32(), items.u64()
        return Answer(*head, detail, size, *result_in(items, head[3]))
    if kind == RECALL:
        return Recall(items.u32(), items.u32(), items.u32(), recall_args_in(items))
    if kind == RECALL_ANSWER:
        head = (items.u32(), items.u32(), items.u32())
        constant(items, RECALL_OP, 'the operation')
        return RecallAnswer(*head, items.u32())
    if kind == ORDER:
        return Order(listed(items, ORDERS, 'order'), items.u32())
    if kind == ORDER_ANSWER:
        return OrderAnswer(listed(items, ORDERS, 'order'), listed(items, ORDER_RESULTS, 'result of an order'))
    raise Unreadable('there is no message of kind %d' % kind)


def read_envelope(data: bytes) -> Envelope:
    """The message that bytes spell."""
    items = Items(data)
    envelope = body_in(items, items.u32())
    items.end()
    return envelope


def state_bytes(state: StateId) -> bytes:
    """The bytes of a state id."""
    return big(state.sequence, 4) + state.other


def state_of(grant: int) -> StateId:
    """The state id of a grant."""
    return StateId(1, bytes(8) + big(grant, 4))


ZERO_STATE = StateId(0, bytes(12))


def numbers(*values: int) -> bytes:
    """Numbers of 32 bits."""
    return b''.join(big(value, 4) for value in values)


def args_bytes(args: Union[GetArgs, CommitArgs, ReturnArgs]) -> bytes:
    """The bytes of an operation's arguments."""
    if isinstance(args, GetArgs):
        return (numbers(args.signal, OBJECTS, args.iomode) + big(args.offset, 8) + big(args.length, 8)
                + big(args.least, 8) + state_bytes(args.state) + big(args.largest, 4))
    if isinstance(args, ReturnArgs):
        return (numbers(args.reclaim, OBJECTS, args.iomode, ONE_FILE) + big(args.offset, 8) + big(args.length, 8)
                + state_bytes(args.state) + xdr_opaque(args.body))
    last = big(0, 4) if args.last_offset is None else big(1, 4) + big(args.last_offset, 8)
    return (big(args.offset, 8) + big(args.length, 8) + big(args.reclaim, 4) + state_bytes(args.state) + last
            + numbers(0, OBJECTS) + xdr_opaque(args.body))


def request_bytes(r: Request) -> bytes:
    """The bytes of a request."""
    return numbers(REQUEST, r.client, r.sequence, r.file, r.operation) + args_bytes(r.args)


def result_bytes(a: Answer) -> bytes:
    """The bytes of a result."""
    if a.operation == GET and a.status == TRYLATER:
        return numbers(a.status, bool(a.result))
    if a.status != OK:
        return numbers(a.status)
    if isinstance(a.result, Granted):
        segments = b''.join(big(s.offset, 8) + big(s.length, 8) + numbers(s.iomode, OBJECTS) + xdr_opaque(s.body)
                            for s in a.result.layouts)
        return (numbers(a.status, a.result.return_on_close) + state_bytes(a.result.state)
                + numbers(len(a.result.layouts)) + segments)
    return numbers(a.status, 0)


def answer_bytes(a: Answer) -> bytes:
    """The bytes of an answer; a LAYOUTCOMMIT's has no size and a LAYOUTRETURN's no state id."""
    return (numbers(ANSWER, a.client, a.sequence, a.file, a.operation, a.detail) + big(a.size, 8) + result_bytes(a))


def recall_bytes(r: Recall) -> bytes:
    """The bytes of a recall."""
    return (numbers(RECALL, r.client, r.number, r.file, RECALL_OP, OBJECTS, r.args.iomode, r.args.changed, ONE_FILE)
            + xdr_opaque(r.args.handle) + big(r.args.offset, 8) + big(r.args.length, 8) + state_bytes(r.args.state))


def recall_answer_bytes(r: RecallAnswer) -> bytes:
    """The bytes of an answer to a recall."""
    return numbers(RECALL_ANSWER, r.client, r.number, r.file, RECALL_OP, r.status)


def maybe_envelope(data: bytes) -> Optional[Envelope]:
    """The message that bytes spell, or none."""
    try:
        return read_envelope(data)
    except Unreadable:
        return None
