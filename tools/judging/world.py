"""The world of a transcript (docs/rules/WORLD.md): its lines are gone through event by event, move by move, and compared with
what each party had to do."""
from typing import Dict, List, Optional, Tuple

from pnfs_osd.transcripts import commands, envelopes
from pnfs_osd.transcripts.commands import READ, WRITE, Command, maybe_command
from pnfs_osd.transcripts.lines import (Delivered, Error, Event, Judged, Last, Line, Note, Refused, Sent, TimedOut,
                               number_of, read_ended)
from pnfs_osd.transcripts.spelling import Unreadable
from pnfs_osd.transcripts.striping import Map

from . import clients, server
from .calm import Moments
from .drives import Drive, Verdict
from .faults import Cut, Fault, due_text, quoted, unlike, verdict_text
from .files import Fixed, Log, Pending
from .network import Message, Network

# the events that the server has to carry out, beside those that name it
ORDERS = ('recall', 'revoke', 'rebuild', 'audit')
SERVED = ORDERS + ('drive', 'disk', 'zone', 'file', 'zfile', 'declare')


class World:
    """All parties and the network, as the lines so far leave them."""

    def __init__(self, lines: List[Line]) -> None:
        self.lines = lines
        self.next = 0
        self.drives: Dict[int, Drive] = {}
        self.clients: Dict[int, clients.Client] = {}
        self.server = server.Server()
        self.network = Network()
        self.messages = self.network.messages
        self.settled = 0
        self.log = Log()
        self.moments = Moments(self.server, self.log)
        self.unguessed = True
        self.guess = ''
        self.before_break: Optional[List[Fixed]] = None
        self.performed = 0

    # ---- lines

    def peek(self) -> Optional[Line]:
        """The next line."""
        return self.lines[self.next] if self.next < len(self.lines) else None

    def at(self) -> int:
        """The number of the next line."""
        return self.next + 1

    def must(self, wanted: Line, why: str = '') -> Line:
        """The next line is this one, but for its place; `why` says why in a sentence of its own."""
        line = self.peek()
        if line is None or (isinstance(line, Error) and line.reason in ('full kept', 'memory')):
            raise Cut()
        if type(line) is not type(wanted):
            raise Fault(self.at(), '%s, and %s' % (due_text(wanted), quoted(line)))
        if line[1:] != wanted[1:]:
            raise Fault(line.at, '%s, and %s' % (why, quoted(line)) if why else unlike(wanted, line))
        self.next += 1
        return line

    # ---- the whole

    def go(self) -> None:
        """All events, up to the last line."""
        while True:
            line = self.peek()
            if line is None or isinstance(line, (Last, Error)):
                return
            if not isinstance(line, Event):
                raise Fault(line.at, 'nothing more was due in the event before, and %s' % quoted(line))
            self.next += 1
            self.event(line)

    def event(self, e: Event) -> None:
        """An event is carried out."""
        refused = self.refusal(e)
        if refused:
            raise Fault(e.at, 'this event is refused, and no line of it stands in a transcript: %s' % refused[1])
        before = self.calm_so_far()
        fixed = self.log.fixed() if before and e.kind == 'inject' else None
        getattr(self, 'do_' + e.kind)(e)
        if before and not self.unguessed:
            self.before_break = fixed

    def calm_so_far(self) -> bool:
        """The run was calm and unguessed so far."""
        return self.moments.calm and self.unguessed

    def begins(self, at: int) -> None:
        """A step begins with the line of that number: a moment."""
        if not self.calm_so_far():
            self.moments.look(at)
            return
        self.moments.look(at)
        if not self.moments.calm:
            self.before_break = self.log.fixed()

    # ---- why an event is refused

    def refusal(self, e: Event) -> Optional[Tuple[str, str]]:
        """The first cause for which an event isn't carried out: its word, and a sentence."""
        return self.naming_refusal(e) or self.down_refusal(e)

    def naming_refusal(self, e: Event) -> Optional[Tuple[str, str]]:
        """What an event names isn't there, or is there, or isn't alive."""
        if e.kind in ('drive', 'disk', 'client'):
            there = number_of(e.args[0]) in (self.clients if e.kind == 'client' else self.drives)
            return ('Taken', '%s exists' % e.args[0]) if there else None
        if e.kind == 'zone' and number_of(e.args[0]) in self.server.zones:
            return 'Taken', 'the drive has a zone'
        if e.kind in ORDERS:
            return None if number_of(e.args[0]) in self.server.files else ('NoName', 'there is no such file')
        if e.kind in ('deliver', 'drop'):
            return None if e.args[0] < len(self.messages) else ('NoMessage', 'no message of that number was sent')
        if e.kind == 'declare':
            return self.declare_refusal(number_of(e.args[0]))
        return self.party_refusal(e.args[0]) if e.args and e.kind not in ('file', 'zfile', 'format') else None

    def declare_refusal(self, drive: int) -> Optional[Tuple[str, str]]:
        """A drive that is declared has failed."""
        if drive not in self.drives:
            return 'NoName', 'there is no such drive'
        return None if self.drives[drive].failed else ('Alive', 'the drive hasn\'t failed')

    def down_refusal(self, e: Event) -> Optional[Tuple[str, str]]:
        """A drive that is named keeps nothing, or it or the server is down, or isn't."""
        names_server = bool(e.args) and e.args[0] == 's'
        if e.kind == 'reopen' and names_server:
            return None if self.server.down else ('Running', 's isn\'t down')
        if e.kind in SERVED or names_server:
            return ('Down', 's is down') if self.server.down else None
        if e.kind not in ('crash', 'reopen', 'inject', 'least'):
            return None
        drive = self.drives[number_of(e.args[0])]
        if e.kind in ('crash', 'reopen') and not drive.stored:
            return 'NotKept', 'the drive keeps nothing over a crash'
        if e.kind == 'reopen':
            return None if drive.down else ('Running', 'the drive isn\'t down')
        return ('Down', 'the drive is down') if drive.down else None

    def party_refusal(self, party: str) -> Optional[Tuple[str, str]]:
        """A party that an event names exists, and wasn't stopped and didn't fail."""
        if party == 's':
            return None
        number, is_drive = number_of(party), party[0] == 'd'
        if number not in (self.drives if is_drive else self.clients):
            return 'NoName', 'there is no such %s' % ('drive' if is_drive else 'client')
        if is_drive:
            return ('Dead', 'the drive failed') if self.drives[number].failed else None
        return ('Dead', 'the client was stopped') if self.clients[number].stopped else None

    # ---- messages

    def posts(self, sender: str, sends: List[Tuple[str, bytes]]) -> None:
        """A party sends these, in order."""
        for receiver, data in sends:
            self.post(Sent(self.at(), len(self.messages), sender, receiver, data))

    def post(self, wanted: Sent) -> None:
        """The next line is that of this message."""
        found = self.must(wanted)
        message = self.network.add(found)
        if found.sender[0] == 'c' and found.receiver[0] == 'd':
            command = message.command()
            if command is not None and command.action in (READ, WRITE):
                self.log.sends(found.at, found.number, number_of(found.sender), command.action == WRITE,
                               command.capability.grant)

    def deliver_all(self, first: int) -> int:
        """Messages from a number on are delivered, the lowest first; below the result none is pending."""
        while True:
            number = self.network.pending_from(first)
            if number is None:
                return len(self.messages)
            self.deliver(number)
            first = number + 1

    def deliver(self, number: int) -> None:
        """Message `number` is delivered."""
        message = self.messages[number]
        sent = message.line
        message.delivered = True
        if sent.receiver == 's':
            self.to_server(number, sent)
        elif sent.receiver[0] == 'd':
            self.to_drive(number, message)
        else:
            self.to_client(number, sent)

    def is_next(self, number: int) -> bool:
        """The next line tells of the delivery of this message."""
        line = self.peek()
        return isinstance(line, Delivered) and line.number == number

    def delivered(self, number: int, result: str, why: str) -> int:
        """The next line tells so of a delivery."""
        return self.must(Delivered(self.at(), number, result), why if self.is_next(number) else '').at

    # ---- drives

    def to_drive(self, number: int, message: Message) -> None:
        """A drive judges a message and replies to who sent it."""
        sent = message.line
        drive = self.drives[number_of(sent.receiver)]
        if drive.deaf():
            self.begins(self.delivered(number, 'deaf', '%s %s, so it is deaf' % (sent.receiver, drive.deaf())))
            return
        command = message.command()
        verdict, reply = drive.hear(command)
        at = self.delivered(number, verdict.text, verdict_text(sent.receiver, verdict, command))
        self.performs(drive.number, verdict, command, sent.number)
        self.begins(at)
        self.posts(sent.receiver, [(sent.sender, commands.reply_bytes(reply))])

    def performs(self, drive: int, verdict: Verdict, command: Optional[Command], number: Optional[int]) -> None:
        """A drive performs a command that was sent as a message, if its verdict is so."""
        if verdict.word == 'perform':
            self.performed += 1
            self.moments.performed(drive, command, None if number is None else self.log.writes.get(number))

    def do_inject(self, e: Event) -> None:
        """A stranger hands bytes to a drive; its reply goes nowhere."""
        name, data = e.args
        drive = self.drives[number_of(name)]
        command = maybe_command(data)
        first = self.network.first(name, data)
        if command is not None and first is None and drive.opens(command) and self.unguessed:
            self.unguessed = False
            self.guess = 'at line %d bytes were injected that the drive\'s key opens, and that weren\'t sent there' % e.at
        self.begins(e.at)
        verdict, _ = drive.hear(command)
        at = self.must(Judged(self.at(), name, verdict.text), verdict_text(name, verdict, command)).at
        self.performs(drive.number, verdict, command, first)
        self.begins(at)

    # ---- the server

    def to_server(self, number: int, sent: Sent) -> None:
        """The server takes a message."""
        if self.server.down:
            self.begins(self.delivered(number, 'deaf', 's is down, so it is deaf'))
            return
        at = self.delivered(number, 'taken', 'the server takes what comes to it')
        did = server.NOTHING
        returned = None
        if sent.sender[0] == 'd':
            try:
                did = self.server.on_reply(number_of(sent.sender), commands.read_reply(sent.data))
            except Unreadable:
                pass
        else:
            envelope = envelopes.maybe_envelope(sent.data)
            if isinstance(envelope, envelopes.Request) and sent.sender == 'c%d' % envelope.client:
                did = self.server.on_request(envelope)
                returned = envelope if did.took_loss else None
        if returned is not None:
            for entry in self.log.entries:
                entry.taken = entry.taken or entry.grant == returned.args.state.grant
        self.server_did(at, did)

    def server_did(self, at: int, did: server.Did) -> None:
        """What the server tells and sends in a step that begins with that line."""
        self.begins(at)
        before = self.calm_so_far()
        fixed = self.log.fixed() if before and did.notes else None
        for file, text in did.notes:
            self.note(file, text, did)
        if before and not self.moments.calm:
            self.before_break = fixed
        self.posts('s', did.sends)
        self.moments.after_step()

    def note(self, file: int, text: str, did: server.Did) -> None:
        """The next line is this note."""
        line = self.must(Note(self.at(), 'f%d' % file, tuple(text.split(' '))))
        self.moments.noted(line.at, file, line.words, did.mended)
        self.is_spread(line.at, file)

    # ---- clients

    def to_client(self, number: int, sent: Sent) -> None:
        """A client takes a message."""
        client = self.clients[number_of(sent.receiver)]
        if client.stopped:
            self.begins(self.delivered(number, 'deaf', '%s was stopped, so it is deaf' % sent.receiver))
            return
        self.begins(self.delivered(number, 'taken', 'a client takes what comes to it'))
        self.client_did(client, self.heard(client, sent))

    @staticmethod
    def heard(client: clients.Client, sent: Sent) -> clients.Did:
        """What a client does with a message."""
        if sent.sender[0] == 'd':
            try:
                return client.on_reply(number_of(sent.sender), commands.read_reply(sent.data))
            except Unreadable:
                return clients.Did(None, [])
        envelope = envelopes.maybe_envelope(sent.data)
        return clients.Did(None, []) if envelope is None else client.on_envelope(envelope)

    def client_did(self, client: clients.Client, did: clients.Did) -> None:
        """What a client tells and sends in a step."""
        if did.outcome is not None:
            self.ended(client.number, did.outcome)
        self.posts('c%d' % client.number, did.sends)

    def ended(self, number: int, outcome: str) -> None:
        """The next line tells how a call ended."""
        pending = self.log.pending.get(number)
        word = 'write' if pending is None or pending.write else 'read'
        line = self.must(read_ended(self.at(), ['c%d' % number, word] + outcome.split(' ')))
        if outcome != 'pending':
            ok = line.kind == 'ok'
            self.log.ends(line.at, number, ok, line.args[0] if ok and word == 'read' else None)

    def call(self, e: Event) -> bool:
        """A client is called; false where the call is refused."""
        client = self.clients[number_of(e.args[0])]
        write, file, offset = e.args[1] == 'write', number_of(e.args[2]), e.args[3]
        data = e.args[4] if write else None
        length = len(data) if data is not None else e.args[4]
        span = clients.Span(offset, length)
        self.begins(e.at)
        self.log.call(client.number, Pending(write, file, offset, length, data))
        why = client.refusal(span)
        if why:
            self.refused(client.number, why)
            return False
        self.client_did(client, client.begin_op(clients.Op(write, file, span, data or b'')))
        return True

    def refused(self, number: int, why: str) -> None:
        """The next line says that a call was refused."""
        self.must(Refused(self.at(), 'c%d' % number, why))
        self.log.refuse(number, why)

    def do_call(self, e: Event) -> None:
        """A call whose messages wait."""
        self.call(e)

    def do_do(self, e: Event) -> None:
        """A call with prompt delivery."""
        first = len(self.messages)
        if not self.call(e):
            return
        client = self.clients[number_of(e.args[0])]
        while True:
            first = self.deliver_all(first)
            k = client.awaits_drive()
            if k is None:
                break
            self.time_out(client, k)
        if client.call is not None:
            self.ended(client.number, 'pending')

    def time_out(self, client: clients.Client, k: int) -> None:
        """A component times out at a client."""
        self.begins(self.must(TimedOut(self.at(), 'c%d' % client.number, k)).at)
        self.client_did(client, client.time_out(k))

    # ---- the other events

    def do_drive(self, e: Event) -> None:
        """A drive is made, and the server knows it."""
        number = number_of(e.args[0])
        self.drives[number] = Drive(number, e.args[1], e.args[2], e.kind == 'disk')
        self.server.add_drive(number, e.args[1])

    def do_disk(self, e: Event) -> None:
        """So is one that may crash."""
        self.do_drive(e)

    def do_crash(self, e: Event) -> None:
        """A drive or the server is down from now on."""
        if e.args[0] == 's':
            self.server.crash()
        else:
            self.drives[number_of(e.args[0])].down = True

    def do_reopen(self, e: Event) -> None:
        """A drive or the server is opened again."""
        if e.args[0] == 's':
            self.server_did(e.at, self.server.opens())
        else:
            self.drives[number_of(e.args[0])].down = False

    def do_client(self, e: Event) -> None:
        """A client is made."""
        number = number_of(e.args[0])
        self.clients[number] = clients.Client(number)

    def do_zone(self, e: Event) -> None:
        """A drive is in a zone from now on."""
        self.server.zones[number_of(e.args[0])] = e.args[1]

    def do_file(self, e: Event) -> None:
        """The server makes a file, and what is sent is delivered."""
        first = len(self.messages)
        made = self.server.make_file(number_of(e.args[0]), Map(*e.args[1:7]), e.args[7], e.kind == 'zfile')
        self.server_did(e.at, made)
        self.is_spread(e.at, number_of(e.args[0]))
        self.deliver_all(first)

    do_zfile = do_file

    def is_spread(self, at: int, number: int) -> None:
        """The components of a zoned file are spread over zones, whatever the rules made of it."""
        why = self.server.crowded(number)
        if why:
            raise Fault(at, 'f%d isn\'t spread over zones: %s' % (number, why))

    def do_least(self, e: Event) -> None:
        """A drive's least format rises."""
        self.drives[number_of(e.args[0])].raise_least(e.args[1])

    def do_format(self, e: Event) -> None:
        """The server's format rises."""
        self.server.raise_format(e.args[1])

    def do_clock(self, e: Event) -> None:
        """A clock is set."""
        if e.args[0] == 's':
            self.server.clock = e.args[1]
        else:
            self.drives[number_of(e.args[0])].clock = e.args[1]

    def do_deliver(self, e: Event) -> None:
        """A message is delivered, as often as it is named."""
        self.deliver(e.args[0])

    def do_drop(self, e: Event) -> None:
        """A message is left out when messages are settled."""
        self.messages[e.args[0]].dropped = True

    def do_settle(self, e: Event) -> None:
        """Each message that was never delivered and not dropped is delivered."""
        self.settled = self.deliver_all(self.settled)

    def do_resend(self, e: Event) -> None:
        """A party sends again what it waits for."""
        if e.args[0] == 's':
            self.server_did(e.at, self.server.resend())
        else:
            client = self.clients[number_of(e.args[0])]
            self.posts(e.args[0], client.resend())

    def do_timeout(self, e: Event) -> None:
        """A client gives up to wait for a component."""
        self.time_out(self.clients[number_of(e.args[0])], e.args[1])

    def do_leave(self, e: Event) -> None:
        """An idle client returns its grants."""
        client = self.clients[number_of(e.args[0])]
        if client.call is not None:
            self.refused(client.number, 'busy')
        else:
            self.client_did(client, client.leave())

    def do_recall(self, e: Event) -> None:
        """Every grant of a file is recalled."""
        self.server_did(e.at, self.server.recall(number_of(e.args[0])))

    def start(self, e: Event, kind: str) -> None:
        """A job of a file."""
        self.server_did(e.at, self.server.start(number_of(e.args[0]), kind))

    def do_revoke(self, e: Event) -> None:
        """A fence and a repair."""
        self.start(e, 'revoke')

    def do_rebuild(self, e: Event) -> None:
        """A fence, a repair, and each missing component anew."""
        self.start(e, 'rebuild')

    def do_audit(self, e: Event) -> None:
        """A fence, a repair, and all stripes are judged."""
        self.start(e, 'audit')

    def do_declare(self, e: Event) -> None:
        """A failed drive is taken out."""
        self.server_did(e.at, self.server.declare(number_of(e.args[0])))

    def do_stop(self, e: Event) -> None:
        """A client is deaf from now on."""
        number = number_of(e.args[0])
        self.clients[number].stopped = True
        self.moments.stopped.add(number)
        self.begins(e.at)

    def do_fail(self, e: Event) -> None:
        """A drive has lost everything."""
        number = number_of(e.args[0])
        self.drives[number].fail()
        self.moments.failed.add(number)
        self.begins(e.at)
