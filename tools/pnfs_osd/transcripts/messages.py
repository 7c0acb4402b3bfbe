"""The fields of a message, by name, for people to read."""
from typing import Any, List, Tuple

from . import commands, envelopes, structures
from .lines import Sent
from .spelling import Unreadable, in_hex

Fields = List[Tuple[str, str]]
LONGEST_SHOWN = 64

ERRNOS = {1: 'I/O error', 2: 'no such object', 3: 'no space', 4: 'bad credential', 5: 'no access', 6: 'unreachable',
          7: 'want of resources'}
ALGORITHMS = {1: 'RAID 0', 2: 'RAID 4', 3: 'RAID 5', 4: 'RAID P+Q'}


def shown_bytes(data: bytes) -> str:
    """Bytes in digits, those past the longest shown length left out."""
    if len(data) <= LONGEST_SHOWN:
        return in_hex(data)
    return '%s.. (%d bytes)' % (data[:LONGEST_SHOWN].hex(), len(data))


def named(number: int, names: dict) -> str:
    """A number and what it stands for."""
    return '%d %s' % (number, names[number]) if number in names else str(number)


def rights_named(rights: int) -> str:
    """The rights of a capability."""
    words = [commands.ACTIONS[action] for action, right in commands.RIGHTS.items() if rights & right]
    return '%d %s' % (rights, ', '.join(words)) if words else str(rights)


def holder_named(holder: int) -> str:
    """Whose capability it is."""
    return '%d the server' % holder if holder == commands.SERVER_HOLDER else str(holder)


def nonce_named(nonce: int, holder: int) -> str:
    """A nonce; a client's has its grant's number and a count."""
    if holder == commands.SERVER_HOLDER or nonce >> 32 == 0:
        return str(nonce)
    return '%d grant %d, count %d' % (nonce, nonce >> 32, nonce & 0xffffffff)


def range_named(start: int, length: int) -> str:
    """A range of bytes."""
    return '%d..%d' % (start, start + length) if length < 1 << 63 else 'from %d on' % start


def capability_fields(c: commands.Capability, prefix: str) -> Fields:
    """The fields of a capability."""
    values = [('format', str(c.format)), ('key version', str(c.key_version)), ('rights', rights_named(c.rights)),
              ('expiry', str(c.expiry)), ('grant', str(c.grant)), ('holder', holder_named(c.holder)),
              ('tag', str(c.tag)), ('partition', str(c.partition)), ('object', str(c.object)),
              ('range', range_named(c.range_start, c.range_length))]
    return [(prefix + key, value) for key, value in values]


def command_fields(c: commands.Command) -> Fields:
    """The fields of a command."""
    fields = [('command', commands.ACTIONS[c.action]), ('partition', str(c.partition)), ('object', str(c.object))]
    if c.action in (commands.READ, commands.WRITE):
        fields += [('offset', str(c.offset)), ('length', str(c.length))]
    if c.action in (commands.GET_ATTR, commands.SET_ATTR):
        fields += [('attribute', str(c.attribute))]
    fields += [('nonce', nonce_named(c.nonce, c.capability.holder))]
    fields += capability_fields(c.capability, 'capability.')
    fields += [('check value', c.check.hex())]
    if c.action == commands.CREATE and len(c.payload) == 36:
        return fields + label_fields(c.payload)
    return fields + ([('payload', shown_bytes(c.payload))] if c.payload else [])


def label_fields(label: bytes) -> Fields:
    """The label that a CREATE gives: file, component and map."""
    fields = [('label.file', str(int.from_bytes(label[:4], 'big'))),
              ('label.component', str(int.from_bytes(label[4:8], 'big')))]
    m = structures.maybe(structures.map_in, label[8:])
    return fields + (map_fields(m, 'label.map.') if m else [('label.map', label[8:].hex())])


def map_fields(m: structures.Map, prefix: str) -> Fields:
    """The fields of a data map."""
    return [(prefix + 'components', str(m.components)), (prefix + 'unit', str(m.unit)),
            (prefix + 'width', str(m.width)), (prefix + 'depth', str(m.depth)), (prefix + 'mirrors', str(m.mirrors)),
            (prefix + 'algorithm', named(m.algorithm, ALGORITHMS))]


def reply_fields(r: commands.Reply) -> Fields:
    """The fields of a reply."""
    action = commands.ACTIONS.get(r.action, 'of no command')
    fields = [('reply', action), ('verdict', '%d %s' % (r.verdict, commands.VERDICT_WORDS[r.verdict])),
              ('object', str(r.object)), ('nonce', str(r.nonce)), ('detail', str(r.detail))]
    return fields + ([('payload', shown_bytes(r.payload))] if r.payload else [])


def credential_fields(c: structures.Credential, prefix: str) -> Fields:
    """The fields of a credential."""
    head = [(prefix + 'device', 'd%d' % c.object.device), (prefix + 'partition', str(c.object.partition)),
            (prefix + 'object', str(c.object.object)), (prefix + 'version', '%d' % c.version)]
    if c.version == structures.MISSING:
        return head[:3] + [(prefix + 'version', '0 missing')]
    head += [(prefix + 'security', str(c.security)), (prefix + 'key', in_hex(c.key))]
    try:
        return head + capability_fields(commands.read_capability(c.capability), prefix + 'capability.')
    except Unreadable:
        return head + [(prefix + 'capability', shown_bytes(c.capability))]


def layout_fields(body: bytes, prefix: str) -> Fields:
    """The fields of a layout's body."""
    layout = structures.maybe(structures.layout_in, body)
    if layout is None:
        return [(prefix + 'body', shown_bytes(body))]
    fields = map_fields(layout.map, prefix + 'map.') + [(prefix + 'first component', str(layout.first))]
    for n, credential in enumerate(layout.components):
        fields += credential_fields(credential, '%scomponent %d.' % (prefix, n + layout.first))
    return fields


def report_fields(body: bytes, prefix: str) -> Fields:
    """The fields of a client's report."""
    errors = structures.maybe(structures.errors_in, body)
    if errors is None:
        return [(prefix + 'body', shown_bytes(body))]
    if not errors:
        return [(prefix + 'report', 'empty')]
    fields: Fields = []
    for n, e in enumerate(errors):
        at = '%sreport %d.' % (prefix, n)
        fields += [(at + 'device', 'd%d' % e.component.device), (at + 'object', str(e.component.object)),
                   (at + 'range', range_named(e.offset, e.length)), (at + 'is write', yes_or_no(e.is_write)),
                   (at + 'error', named(e.errno, ERRNOS))]
    return fields


def yes_or_no(value: bool) -> str:
    """A bool as a word."""
    return 'yes' if value else 'no'


def args_fields(args: Any) -> Fields:
    """The fields of an operation's arguments."""
    state = [('state', '%d, grant %d' % (args.state.sequence, args.state.grant))]
    extent = [('range', range_named(args.offset, args.length))]
    if isinstance(args, envelopes.GetArgs):
        return [('iomode', named(args.iomode, envelopes.IOMODES))] + extent + [
            ('least length', str(args.least)), ('signal', yes_or_no(args.signal)),
            ('largest count', str(args.largest))] + state
    if isinstance(args, envelopes.CommitArgs):
        last = '-' if args.last_offset is None else str(args.last_offset)
        time = '-' if args.time is None else '%d.%09d' % args.time
        return extent + [('reclaim', yes_or_no(args.reclaim)), ('last offset', last), ('time', time),
                         ('body', shown_bytes(args.body))] + state
    if isinstance(args, envelopes.ReturnArgs):
        return [('iomode', named(args.iomode, envelopes.IOMODES))] + extent + [
            ('reclaim', yes_or_no(args.reclaim))] + state + report_fields(args.body, '')
    return [('iomode', named(args.iomode, envelopes.IOMODES)), ('changed', yes_or_no(args.changed)),
            ('handle', in_hex(args.handle))] + extent + state


def result_fields(answer: envelopes.Answer) -> Fields:
    """The fields of a result."""
    result = answer.result
    if isinstance(result, envelopes.Granted):
        fields = [('return on close', yes_or_no(result.return_on_close)),
                  ('state', '%d, grant %d' % (result.state.sequence, result.state.grant))]
        for n, segment in enumerate(result.layouts):
            at = 'layout %d.' % n
            fields += [(at + 'range', range_named(segment.offset, segment.length)),
                       (at + 'iomode', named(segment.iomode, envelopes.IOMODES))] + layout_fields(segment.body, at)
        return fields
    if isinstance(result, envelopes.StateId):
        return [('state', '%d, grant %d' % (result.sequence, result.grant))]
    if isinstance(result, bool):
        return [('will signal', yes_or_no(result))]
    return [] if result is None else [('new size', str(result))]


def envelope_fields(e: envelopes.Envelope) -> Fields:
    """The fields of a message between a client and the server."""
    if isinstance(e, envelopes.Request):
        return [('request', envelopes.OPERATIONS[e.operation]), ('client', 'c%d' % e.client),
                ('sequence', str(e.sequence)), ('file', 'f%d' % e.file)] + args_fields(e.args)
    if isinstance(e, envelopes.Answer):
        return [('answer', envelopes.OPERATIONS[e.operation]), ('client', 'c%d' % e.client),
                ('sequence', str(e.sequence)), ('file', 'f%d' % e.file), ('status', named(e.status, envelopes.STATUSES)),
                ('detail', str(e.detail)), ('size', str(e.size))] + result_fields(e)
    if isinstance(e, envelopes.Recall):
        return [('recall', envelopes.OPERATIONS[envelopes.RECALL_OP]), ('client', 'c%d' % e.client),
                ('number', str(e.number)), ('file', 'f%d' % e.file)] + args_fields(e.args)
    if isinstance(e, envelopes.RecallAnswer):
        return [('answer to a recall', envelopes.OPERATIONS[envelopes.RECALL_OP]), ('client', 'c%d' % e.client),
                ('number', str(e.number)), ('file', 'f%d' % e.file), ('status', named(e.status, envelopes.STATUSES))]
    if isinstance(e, envelopes.Order):
        return [('order', envelopes.ORDERS[e.order]), ('target', str(e.target))]
    return [('answer to an order', envelopes.ORDERS[e.order]), ('result', envelopes.ORDER_RESULTS[e.result])]


def fields_of(message: Sent) -> Fields:
    """The fields of a message, or why its bytes can't be read."""
    try:
        if message.receiver.startswith('d'):
            return command_fields(commands.read_command(message.data))
        if message.sender.startswith('d'):
            return reply_fields(commands.read_reply(message.data))
        return envelope_fields(envelopes.read_envelope(message.data))
    except Unreadable as fault:
        return [('unreadable', str(fault))]
