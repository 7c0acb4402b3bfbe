"""Short words for messages, as they stand beside arrows."""
from pnfs_osd.transcripts import commands, envelopes, structures
from pnfs_osd.transcripts.lines import Sent
from pnfs_osd.transcripts.spelling import Unreadable

LONGEST_PAYLOAD = 8


def command_label(c: commands.Command) -> str:
    """A command, with its bytes where it has a range."""
    action = commands.ACTIONS[c.action]
    if c.action in (commands.READ, commands.WRITE):
        shown = ' ' + c.payload.hex() if 0 < len(c.payload) <= LONGEST_PAYLOAD else ''
        return '%s %d..%d%s' % (action, c.offset, c.offset + c.length, shown)
    return 'SET TAG, %d to %d' % (c.capability.tag, c.capability.tag + 1) if c.action == commands.SET_TAG else action


def verdict_label(message: Sent, result: str) -> str:
    """A verdict; where the tag is another, also the one that the command names."""
    c = commands.maybe_command(message.data)
    return '%s, it names %d' % (result, c.capability.tag) if result.startswith('tag ') and c else result


def reply_label(r: commands.Reply) -> str:
    """A reply: the verdict, or what was performed."""
    word = commands.VERDICT_WORDS[r.verdict]
    if r.verdict:
        return 'refused: %s%s' % (word, ' %d' % r.detail if word in ('tag', 'nospace', 'stale') else '')
    if r.action == commands.SET_TAG:
        return 'SET TAG: now %d' % r.detail
    shown = ' ' + r.payload.hex() if 0 < len(r.payload) <= LONGEST_PAYLOAD else ''
    if r.action == commands.GET_ATTR and len(r.payload) == LONGEST_PAYLOAD:
        shown = ' %d' % int.from_bytes(r.payload, 'big')
    return '%s done%s' % (commands.ACTIONS[r.action], shown) if r.action in commands.ACTIONS else word


def status_word(status: int) -> str:
    """A status without its prefix."""
    return envelopes.STATUSES.get(status, str(status)).replace('NFS4ERR_', '').replace('NFS4_', '')


def answer_label(a: envelopes.Answer) -> str:
    """An answer of the server."""
    if isinstance(a.result, envelopes.Granted):
        modes = {envelopes.IOMODE_RW: 'read/write', envelopes.IOMODE_READ: 'read'}
        mode = modes.get(a.result.layouts[0].iomode, '?') if a.result.layouts else '?'
        return 'grant %d: %s' % (a.result.state.grant, mode)
    operation = envelopes.OPERATIONS[a.operation].replace('LAYOUT', '').lower()
    if a.operation == envelopes.RETURN and a.status == envelopes.OK and a.detail == 1:
        return 'return: loss taken'
    return '%s: %s%s' % (operation, status_word(a.status), ' %d' % a.detail if a.status not in (0, 2, 10050) else '')


def request_label(q: envelopes.Request) -> str:
    """A client's request."""
    if isinstance(q.args, envelopes.GetArgs):
        mode = 'RW' if q.args.iomode == envelopes.IOMODE_RW else 'R'
        return 'LAYOUTGET %s %d..%d' % (mode, q.args.offset, q.args.offset + q.args.length)
    if isinstance(q.args, envelopes.CommitArgs):
        return 'LAYOUTCOMMIT'
    return 'LAYOUTRETURN' + (' + report' if structures.maybe(structures.errors_in, q.args.body) else '')


def label(message: Sent) -> str:
    """A message in some words."""
    try:
        if message.receiver[0] == 'd':
            return command_label(commands.read_command(message.data))
        if message.sender[0] == 'd':
            return reply_label(commands.read_reply(message.data))
        e = envelopes.read_envelope(message.data)
    except Unreadable:
        return 'unreadable'
    if isinstance(e, envelopes.Request):
        return request_label(e)
    if isinstance(e, envelopes.Answer):
        return answer_label(e)
    if isinstance(e, envelopes.Recall):
        return 'recall of grant %d' % e.args.state.grant
    return 'recall: %s' % status_word(e.status) if isinstance(e, envelopes.RecallAnswer) else 'order'
