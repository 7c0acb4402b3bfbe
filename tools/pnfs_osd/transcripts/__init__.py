"""The reader of transcripts: lines, messages and formats, as the pages of docs/ tell them.

Nothing here is shared with the program. `lines` reads the lines of a transcript, `commands` what drives are sent and
answer, `envelopes` what clients and the server say to each other, `structures` the parts of RFC 5664 inside that,
`striping` where a file's bytes stand and how parity is made, `spelling` numbers and hexadecimal digits, and `messages`
turns a message's bytes into fields with names.
"""
