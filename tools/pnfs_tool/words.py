"""The words of the tool."""
import argparse
import re
from typing import List, Tuple

from pnfs_osd.cluster_text import MOST_CLIENTS, MOST_DRIVES, MOST_FILES

#: The server among parties, and all drives.
SERVER, DRIVES = "server", "drives"
#: The cluster, among a source and a target.
CLUSTER = ":"

EPILOG = """\
calls (they use a number of the client, which the tool asks the server for):
  put F < DATA              writes DATA, at most 16777216 bytes, as the whole of file F (f0 to f63).
                            Refused where F is longer than DATA: a file doesn't get shorter.
                            --resume leaves the bytes at the front that F has already: it goes on after a stop
  get F > DATA              reads file F to its end
  write F OFFSET < DATA     writes DATA from byte OFFSET on
  read F OFFSET LENGTH      reads these bytes; status 23 where F ends before
  cp DIR : NAME=F..         puts file NAME of the folder DIR as the whole of F, for each of them
  cp : DIR NAME=F..         gets each F to its end as file NAME of DIR
                            --table F in place of NAME=F..: the names, their files and sizes are in a table in file F. Into the
                            cluster go all files below DIR, and a new name gets the first file that is empty; out of it
                            come all names that are whole, and status 23 says that one isn't.
                            --resume leaves the bytes at the front that a file of the cluster has already, and the files in DIR
                            that are there (with a table: with their size), and goes on with each NAME.part

A long copy is many calls, each whole in itself: other clients may read and write between them, and a copy that
stops has written, or put out, a part from the front. A call of whose run nothing is known is tried again,
so it may be carried out twice.

to see how the cluster is (each asks for a layout of a file's first byte, like a reader, and gives it back):
  status [--json]           drives, server and files: who answers, what is missing, what waits for what. Status 24 if
                            something doesn't answer or lacks something
  metrics [--store NAME]..  the same for Prometheus, in its text format, with the size of each store or journal NAME that can be seen here
  ls                        the files: number, size and state
  watch [SECONDS]           'status' again and again, every 5 seconds or as many as are given
  wait [PARTY]..            ends as soon as these parties answer: drives as d0 or all of them as 'drives', and the server as
                            'server'; without a PARTY all of the cluster text. Status 24 if they don't within --patience seconds.
                            It asks for no layout and uses no number. --process PID gives up at once when this process has ended

orders (the server only begins with them: how they end is told on its standard error, and as far as it shows by --wait):
  revoke F     ends every grant of F, and repairs what unfinished writes left
  rebuild F    makes each missing component of F anew on another drive. With --wait it ends with 0 only if none is missing then
  audit F      reads and judges all stripes of F. What it found is told on the server's standard error alone
               (revoke, rebuild and audit: --wait ends when no job of F runs any more, at most --patience seconds later)
  recall F     asks for every grant of F back (over a network this reaches no client)
  declare D    takes drive D (d0 to d63) for lost, for good. Refused where something takes connections at its
               address, unless --even-if-alive follows

exit status:
  0    done: each call was acknowledged, each byte that was asked for was read
  2    the words are none of these
  4    the cluster text or standard input couldn't be read
  5    standard output failed
  8    the server didn't answer, as often as it was asked
  9    the cluster text is refused
  10   the call or the order was refused, or what is in its way didn't go away: standard error says what
  20   refused by this tool, which sent nothing of it: the drive is alive, F is longer than DATA or DATA too long,
       there is no such file or drive in the cluster text, or the client number is in use
  21   the program's answer is none to what was asked
  22   the program couldn't be run
  23   F ends before the bytes that 'read' asked for; those before its end were put out. 'cp': a name isn't whole
  24   'status': something of the cluster doesn't answer, or lacks something; 'wait': a party doesn't answer
  25   '--wait': the job didn't end in time, or nothing is known of it
  26   '--wait' with 'rebuild': a component is missing still, since no drive was free for it
  27   '--wait' with 'rebuild': more of F is missing than its parity brings back
  130  Ctrl-C
Other statuses are the program's own (./pnfs_osd --help).

The program is that of --program or $PNFS_OSD, else crates/pnfs_osd/out/pnfs_osd, which ./pnfs_osd builds; an installed
tool takes the pnfs_osd of the PATH.

Client numbers are held by locks in /tmp/pnfs_osd.locks ($PNFS_LOCKS), for one machine. Give each machine its own.
docs/use/OPERATIONS.md goes through a cluster's first hour.
"""


def file_name(word: str) -> int:
    """A file as f0."""
    if not re.fullmatch(r"f(0|[1-9][0-9]{0,17})", word) or int(word[1:]) >= MOST_FILES:
        raise argparse.ArgumentTypeError(f"'{word}' is no file: f0 to f{MOST_FILES - 1}")
    return int(word[1:])


def drive_name(word: str) -> int:
    """A drive as d0."""
    if not re.fullmatch(r"d(0|[1-9][0-9]{0,17})", word) or int(word[1:]) >= MOST_DRIVES:
        raise argparse.ArgumentTypeError(f"'{word}' is no drive: d0 to d{MOST_DRIVES - 1}")
    return int(word[1:])


def named_file(word: str) -> Tuple[str, int]:
    """A name and its file, as a.txt=f0."""
    name, _, file = word.rpartition("=")
    if not name or any(part in ("", ".", "..") for part in name.split("/")):
        raise argparse.ArgumentTypeError(f"'{word}' is no NAME=F")
    return name, file_name(file)


def party_name(word: str) -> str:
    """A drive, all drives, or the server."""
    if word not in (SERVER, DRIVES):
        drive_name(word)
    return word


def number(word: str) -> int:
    """A number from 0."""
    if not re.fullmatch(r"0|[1-9][0-9]{0,17}", word):
        raise argparse.ArgumentTypeError(f"'{word}' is no number without a sign and leading zeros")
    return int(word)


def client_number(word: str) -> int:
    """A client's number."""
    if number(word) >= MOST_CLIENTS:
        raise argparse.ArgumentTypeError(f"'{word}' is no client: 0 to {MOST_CLIENTS - 1}")
    return int(word)


def add_options(parser: argparse.ArgumentParser) -> None:
    """The options before the command."""
    parser.add_argument("-c", "--cluster", metavar="CLUSTER.toml", required=True, help="the cluster text")
    parser.add_argument("--client", metavar="N", type=client_number, default=0, help="act as client N, 0 to 15 (default 0)")
    parser.add_argument("--program", metavar="P", help="the program pnfs_osd")
    parser.add_argument("--patience", metavar="SECONDS", type=number, default=120,
                        help="how long to try one call again, and to wait for the client number (default 120)")
    parser.add_argument("-q", "--quiet", action="store_true", help="say on standard error only what failed")
    parser.add_argument("-v", "--verbose", action="store_true", help="tell the progress also where standard error is no terminal")


def parser() -> argparse.ArgumentParser:
    """The parser of the words."""
    top = argparse.ArgumentParser(prog="pnfs", formatter_class=argparse.RawDescriptionHelpFormatter, epilog=EPILOG,
                                  description="Reads and writes the files of a pnfs_osd cluster, and hands its server orders.",
                                  allow_abbrev=False)
    add_options(top)
    commands = top.add_subparsers(dest="command", metavar="COMMAND", required=True)
    for name in ("put", "get", "recall", "revoke", "rebuild", "audit"):
        command = commands.add_parser(name, allow_abbrev=False)
        command.add_argument("file", type=file_name, metavar="F")
        if name == "put":
            command.add_argument("--resume", action="store_true", help="leave the bytes at the front that the file has already")
        if name in ("revoke", "rebuild", "audit"):
            command.add_argument("--wait", action="store_true", help="end when no job of the file runs any more")
    copy = commands.add_parser("cp", allow_abbrev=False)
    copy.add_argument("source", metavar="SOURCE")
    copy.add_argument("target", metavar="TARGET")
    copy.add_argument("names", type=named_file, nargs="*", metavar="NAME=F")
    copy.add_argument("--table", type=file_name, metavar="F", help="the file that keeps the table of names")
    copy.add_argument("--resume", action="store_true", help="leave what is there already")
    commands.add_parser("status", allow_abbrev=False).add_argument("--json", action="store_true", help="for programs")
    metrics = commands.add_parser("metrics", allow_abbrev=False)
    metrics.add_argument("--store", metavar="NAME", action="append", default=[], help="a store or journal whose size is told")
    commands.add_parser("ls", allow_abbrev=False)
    watch = commands.add_parser("watch", allow_abbrev=False)
    watch.add_argument("seconds", type=number, nargs="?", default=5, metavar="SECONDS")
    wait = commands.add_parser("wait", allow_abbrev=False)
    wait.add_argument("parties", type=party_name, nargs="*", metavar="PARTY")
    wait.add_argument("--process", type=number, metavar="PID", help="give up when this process has ended")
    write = commands.add_parser("write", allow_abbrev=False)
    write.add_argument("file", type=file_name, metavar="F")
    write.add_argument("offset", type=number, metavar="OFFSET")
    read = commands.add_parser("read", allow_abbrev=False)
    read.add_argument("file", type=file_name, metavar="F")
    read.add_argument("offset", type=number, metavar="OFFSET")
    read.add_argument("length", type=number, metavar="LENGTH")
    declare = commands.add_parser("declare", allow_abbrev=False)
    declare.add_argument("drive", type=drive_name, metavar="D")
    declare.add_argument("--even-if-alive", action="store_true", help="declare it though something answers at its address")
    return top


def words_of(arguments: List[str]) -> argparse.Namespace:
    """The words; argparse ends the process with status 2 where they are none of the tool's."""
    top = parser()
    words = top.parse_args(arguments)
    if words.command == "cp":
        if (words.source == CLUSTER) == (words.target == CLUSTER):
            top.error(f"cp: one of SOURCE and TARGET is '{CLUSTER}', the cluster, and the other a folder")
        if bool(words.names) == (words.table is not None):
            top.error("cp: either NAME=F.. or --table F says which files")
        if len({name for name, _ in words.names}) < len(words.names) or len({file for _, file in words.names}) < len(words.names):
            top.error("cp: a name or a file comes twice")
    return words
