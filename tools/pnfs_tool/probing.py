"""Asks drives whether they take what the server gives out for them.

A layout has for each component what opens its object. With that the drive is asked to read no byte of it, which a drive performs
that has the server's key and the object. So what is wrong with a key or an address shows without the server's text or journal.
"""
from pnfs_osd.transcripts import commands
from pnfs_osd.transcripts.spelling import Unreadable
from pnfs_osd.transcripts.structures import Credential

from pnfs_osd.wire import exchange

TELLS = {
    "checkvalue": "it has another key than the server has for it, or another drive is at its address",
    "nokey": "it has no key of the version that the server gives out",
    "wrongobject": "another drive is at its address",
    "noobject": "it has lost its objects: it was started anew under an old number",
    "expired": "its clock is 90 seconds ahead of the server's",
}


def refusal_of(address: str, credential: Credential, patience: float) -> str:
    """Why the drive at an address doesn't take a credential; nothing if it does, or if that can't be told."""
    if len(credential.capability) != commands.CAPABILITY_SIZE or credential.capability[0] not in commands.CHECK_SIZES:
        return ""
    at = (credential.object.object, 0)
    command = commands.write_command(commands.READ, credential.object.partition, at, 0, 1, 0, credential.capability, credential.key, b"")
    record = exchange(address, command, patience).record
    if record is None:
        return ""
    try:
        word = commands.VERDICT_WORDS[commands.read_reply(record).verdict]
    except Unreadable:
        return ""
    return f"{word}: {TELLS[word]}" if word in TELLS else ""
