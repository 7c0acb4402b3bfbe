"""How a run of the tool ends: its exit statuses, and the exception that carries one."""

DONE = 0
WORDS = 2          # the words aren't those of a command
INPUT = 4          # standard input or the cluster text couldn't be read
OUTPUT = 5         # standard output failed
LINK = 8           # the server didn't answer
CLUSTER = 9        # the cluster text is refused
NOT_ASKED = 20     # the tool refused it itself: no call or order of it was sent
STRANGE = 21       # the program said something that is no answer to what was asked
NO_PROGRAM = 22    # the program couldn't be started, or was ended by a signal
SHORT = 23         # the file ends before the bytes that were asked for
NOT_WELL = 24      # something of the cluster doesn't answer, or lacks something
NOT_ENDED = 25     # the job that was waited for didn't end in time
LACKS_DRIVE = 26   # a component couldn't be made anew, since no drive was free
FILE_LOST = 27     # more of the file is missing than its parity brings back
STOPPED = 130      # Ctrl-C

#: What the program's own statuses mean where the tool passes one on.
PROGRAM_STATUSES = {
    2: "it was given words that it doesn't know",
    4: "it couldn't read the cluster text",
    5: "it couldn't write its output",
    6: "it had no memory",
    7: "the cluster text is too long",
    8: "the server didn't answer, or with something else than its answer",
    9: "the cluster text is refused",
    10: "the call or the order was refused",
    70: "it could not be built",
}


class End(Exception):
    """The run ends here, with this status and this message for a person."""

    def __init__(self, status: int, message: str):
        super().__init__(message)
        self.status = status
        self.message = message
