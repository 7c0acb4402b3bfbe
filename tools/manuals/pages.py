"""The manual pages of the tool and the program."""
import os
import re
from typing import Dict, List, Tuple

from pnfs_tool import words

from . import roff
from .helps import Item, Part, first_clause, parts_of
from .table import Command, Option, table

TOP = os.path.dirname(os.path.dirname(os.path.dirname(os.path.abspath(__file__))))
USAGE = os.path.join(TOP, "crates", "pnfs_osd", "src", "usage.rt")
TEXT = re.compile(r'^(?:pub )?const ([A-Z_]+): &str = "\\\n(.*?)^";$', re.MULTILINE | re.DOTALL)
EXIT_STATUS = "exit status"
PAGES_PLACE = "The pages that are named docs/.. are below /usr/share/doc/pnfs-osd where the Debian package is installed."


def texts() -> Dict[str, str]:
    """The texts of the program's own, by the names of their constants."""
    with open(USAGE, encoding="utf-8") as source:
        return dict(TEXT.findall(source.read()))


def version() -> str:
    """The program's name and version."""
    return texts()["VERSION"].strip()


def spelled(command: Command) -> str:
    """A command with its options and arguments."""
    found = [command.name]
    for option in command.options:
        found.append("[" + spelled_option(option) + "]" + (".." if option.repeats else ""))
    for argument in command.arguments:
        name = f"[{argument.name}]" if argument.optional else argument.name
        found.append(name + (".." if argument.repeats else ""))
    return " ".join(found)


def spelled_option(option: Option) -> str:
    """An option with its value."""
    return ", ".join(name + (" " + option.value if option.value else "") for name in option.names)


def tool_page() -> str:
    """pnfs(1)."""
    all_words, top = table(), words.parser()
    said = first_clause(top.description or "")
    found = roff.head("pnfs", version()) + roff.section("name") + ["pnfs \\- " + roff.escaped(said[:1].lower() + said[1:])]
    found += roff.section("synopsis")
    found += roff.lines([f"pnfs -c CLUSTER.toml [OPTION].. {spelled(command)}" for command in all_words.commands])
    found += roff.section("description") + [roff.escaped(top.description or "")]
    found += roff.section("options")
    for option in all_words.options:
        found += roff.item(Item(spelled_option(option), option.told + "."))
    parts = parts_of(words.EPILOG)
    at = parts.index(Part(heading=EXIT_STATUS))
    found += roff.section("commands") + roff.body(parts[:at]) + roff.section(EXIT_STATUS) + roff.body(parts[at + 1:])
    found += roff.section("see also") + [".BR pnfs_osd (1)"] + roff.paragraph(PAGES_PLACE)
    return "\n".join(found) + "\n"


def usage_and_rest(text: str) -> Tuple[List[str], str]:
    """The ways to call the program that a text begins with, and what it says after them."""
    usage, _, rest = text.partition("\n\n")
    return [line.replace("usage:", "").strip() for line in usage.splitlines()], rest


def program_page() -> str:
    """pnfs_osd(1)."""
    told = texts()
    usage, rest = usage_and_rest(told["PROGRAM"])
    before, _, statuses = rest.partition("Exit status: ")
    found = roff.head("pnfs_osd", version()) + roff.section("name")
    found += ["pnfs_osd \\- parallel NFS with object layouts: drives, metadata server, clients"]
    found += roff.section("synopsis") + roff.lines(usage)
    found += roff.section("description") + ["The first word says what the program does."]
    commands = [Item(*line.split(None, 1)) for line in before.splitlines() if line]
    for command in commands:
        found += roff.item(command)
    found += roff.section("commands")
    for command in commands:
        lines, more = usage_and_rest(told[command.term.upper().replace("-", "_")])
        found += [".SS " + roff.escaped(command.term)] + roff.lines(lines) + roff.body(parts_of(more))
    found += roff.section(EXIT_STATUS)
    for status in re.findall(r"(\d+) (.*?)(?:, (?=\d)|\.$)", " ".join(statuses.split())):
        found += roff.item(Item(*status))
    found += roff.section("see also") + [".BR pnfs (1)"] + roff.paragraph(PAGES_PLACE)
    return "\n".join(found) + "\n"
