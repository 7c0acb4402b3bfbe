"""The words of tools/pnfs as a table, out of the parser that reads them."""
import argparse
from typing import Dict, List, NamedTuple, Optional

from pnfs_tool import words

from .helps import first_clause, parts_of

#: What completes a value: names of the cluster text, or of files; else nothing does.
FILE, DRIVE, PARTY, CLIENT, PATH, NUMBER = "file", "drive", "party", "client", "path", "number"
KINDS = {words.file_name: FILE, words.drive_name: DRIVE, words.party_name: PARTY, words.client_number: CLIENT,
         words.number: NUMBER, words.named_file: PATH}


class Option(NamedTuple):
    """An option: its spellings, what its value is (None: it has none), the value's name, and what it is for."""

    names: List[str]
    kind: Optional[str]
    value: str
    told: str
    repeats: bool


class Argument(NamedTuple):
    """An argument of a command: what it is, its name, and whether it may be left out or come again."""

    kind: str
    name: str
    optional: bool
    repeats: bool


class Command(NamedTuple):
    """A command."""

    name: str
    options: List[Option]
    arguments: List[Argument]
    told: str


class Words(NamedTuple):
    """All words of the tool."""

    options: List[Option]
    commands: List[Command]


def kind_of(action: argparse.Action) -> Optional[str]:
    """What the value of an option or an argument is."""
    if action.nargs == 0:
        return None
    return PATH if action.type is None else KINDS[action.type]  # type: ignore[index]


def options_of(parser: argparse.ArgumentParser) -> List[Option]:
    """The options of a parser, but for --help."""
    return [Option(list(action.option_strings), kind_of(action), str(action.metavar or ""), action.help or "",
                   isinstance(action.default, list))
            for action in parser._actions if action.option_strings and action.dest != "help"]


def arguments_of(parser: argparse.ArgumentParser) -> List[Argument]:
    """The arguments of a command's parser."""
    return [Argument(kind_of(action) or PATH, str(action.metavar), action.nargs in ("?", "*"), action.nargs == "*")
            for action in parser._actions if not action.option_strings]


def told_of() -> Dict[str, str]:
    """What the help says of each command, in few words."""
    items = [part.item for part in parts_of(words.EPILOG) if part.item is not None]
    return {item.term.split()[0]: first_clause(item.text) for item in reversed(items)}


def table() -> Words:
    """The words of the tool."""
    top = words.parser()
    chooser = next(action for action in top._actions if isinstance(action, argparse._SubParsersAction))
    told = told_of()
    commands = [Command(name, options_of(parser), arguments_of(parser), told[name]) for name, parser in chooser.choices.items()]
    return Words(options_of(top), commands)
