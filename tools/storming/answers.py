"""What is read off records of a run."""
from typing import Optional

from pnfs_osd.transcripts import commands, envelopes, structures
from pnfs_osd.transcripts.lines import Sent
from pnfs_osd.transcripts.messages import fields_of
from pnfs_osd.transcripts.spelling import Unreadable

from .guide import Guide

GRANT_SECONDS = 90


def order_bytes(text: str) -> bytes:
    """The bytes of an order in a scenario's words."""
    word, target = text.split(' ')
    order = next(number for number, name in envelopes.ORDERS.items() if name == word)
    return envelopes.numbers(envelopes.ORDER, order, int(target[1:]))


def order_answer(order: int, result: int) -> bytes:
    """The bytes of an answer to an order."""
    return envelopes.numbers(envelopes.ORDER_ANSWER, order, result)


def is_repeat(record: Optional[bytes], guide: Guide) -> bool:
    """The request has a number that the server has carried out before, so its answer is an old one."""
    envelope = envelopes.maybe_envelope(record or b'')
    if not isinstance(envelope, envelopes.Request):
        return False
    slot = guide.server.slots.get(envelope.client)
    return slot is not None and slot[0] >= envelope.sequence


def time_in(answer: bytes) -> Optional[int]:
    """The time at which a layout was given, by the expiry of its capabilities."""
    envelope = envelopes.maybe_envelope(answer)
    if not isinstance(envelope, envelopes.Answer) or not isinstance(envelope.result, envelopes.Granted):
        return None
    layout = structures.maybe(structures.layout_in, envelope.result.layouts[0].body)
    for credential in layout.components if layout else []:
        if credential.version != structures.MISSING:
            try:
                return commands.read_capability(credential.capability).expiry - GRANT_SECONDS
            except Unreadable:
                return None
    return None


def unlike(wanted: Sent, data: bytes) -> str:
    """The first field in which bytes differ from a message."""
    for (key, value), (other_key, other) in zip(fields_of(wanted), fields_of(wanted._replace(data=data))):
        if (key, value) != (other_key, other):
            return '%s is "%s", and by the rules %s is "%s"' % (other_key, other[:80], key, value[:80])
    at = next((n for n, (a, b) in enumerate(zip(wanted.data, data)) if a != b), min(len(wanted.data), len(data)))
    return 'the bytes differ at %d' % at
