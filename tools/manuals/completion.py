"""The completions of tools/pnfs, for bash and for zsh."""
from typing import List

from .table import CLIENT, DRIVE, FILE, PARTY, PATH, Argument, Command, Option, table

FIRST = "# Made by tools/manual --write out of the words of tools/pnfs."
CLIENTS = " ".join(str(number) for number in range(16))

#: Prints the names of the files or drives of a cluster text: `_pnfs_names TEXT file f`.
NAMES = r"""_pnfs_names() {
    [ -r "$1" ] && awk -v table="[[$2]]" -v letter="$3" '
        /^[ \t]*\[/ { inside = index($0, table) }
        inside && /^[ \t]*number[ \t]*=/ { sub(/^[^=]*=[ \t]*/, ""); sub(/[^0-9].*/, ""); print letter $0 }' "$1"
}"""

BASH_VALUES = {
    FILE: '$(_pnfs_names "$cluster" file f)',
    DRIVE: '$(_pnfs_names "$cluster" drive d)',
    PARTY: 'server drives $(_pnfs_names "$cluster" drive d)',
    CLIENT: CLIENTS,
}


def bash_values(kind: str) -> str:
    """The command that completes a value of that kind."""
    if kind == PATH:
        return 'compopt -o filenames 2>/dev/null; mapfile -t COMPREPLY < <(compgen -f -- "$word")'
    return f'mapfile -t COMPREPLY < <(compgen -W "{BASH_VALUES.get(kind, "")}" -- "$word")'


def names_of(options: List[Option]) -> str:
    """The spellings of options."""
    return " ".join(name for option in options for name in option.names)


def bash_command(command: Command) -> List[str]:
    """How the words of a command are completed: `at` counts its arguments from 0."""
    lines = [f"        {command.name})", f'            options="{names_of(command.options)}"']
    kinds = [argument.kind for argument in command.arguments]
    if kinds and command.arguments[-1].repeats:
        lines.append(f"            kind={kinds[-1]}")
    elif kinds:
        lines.append("            case $at in")
        lines += [f"                {at}) kind={kind} ;;" for at, kind in enumerate(kinds)]
        lines.append("            esac")
    return lines + ["            ;;"]


def for_bash() -> str:
    """The completion for bash."""
    words = table()
    all_options = words.options + [option for command in words.commands for option in command.options]
    with_value = {name for option in all_options if option.kind for name in option.names} - {"-c", "--cluster"}
    kinds = {option.kind: [] for option in all_options if option.kind}  # type: ignore[var-annotated]
    for option in all_options:
        if option.kind:
            kinds[option.kind] += [name for name in option.names if name not in kinds[option.kind]]
    lines = [FIRST, "", NAMES, "", "_pnfs() {"]
    lines += ['    local word=${COMP_WORDS[COMP_CWORD]} before="" cluster="" command="" kind="" options="" at=0 place',
              "    COMPREPLY=()",
              "    for ((place = 1; place < COMP_CWORD; place++)); do",
              '        before=${COMP_WORDS[place]}',
              "        case $before in",
              "            -c | --cluster) cluster=${COMP_WORDS[place + 1]/#\\~/$HOME}; place=$((place + 1)) ;;",
              f"            {' | '.join(sorted(with_value))}) place=$((place + 1)) ;;",
              "            -*) before= ;;",
              '            *) if [ -z "$command" ]; then command=$before; else at=$((at + 1)); fi; before= ;;',
              "        esac",
              "    done",
              '    [ "$place" -gt "$COMP_CWORD" ] || before=',
              "    case $before in"]
    lines += [f"        {' | '.join(names)}) kind={kind} ;;" for kind, names in sorted(kinds.items())]
    lines += ["    esac", '    if [ -z "$before" ]; then', "        case $command in",
              f'        "") options="{names_of(words.options)} --help {" ".join(command.name for command in words.commands)}" ;;']
    for command in words.commands:
        lines += bash_command(command)
    lines += ["        esac", "    fi",
              '    if [ -n "$options" ] && { [ -z "$kind" ] || [[ $word == -* ]]; }; then',
              '        mapfile -t COMPREPLY < <(compgen -W "$options" -- "$word")',
              "        return", "    fi", "    case $kind in"]
    lines += [f"        {kind}) {bash_values(kind)} ;;" for kind in (FILE, DRIVE, PARTY, CLIENT, PATH)]
    return "\n".join(lines + ["    esac", "}", "", "complete -F _pnfs pnfs"]) + "\n"


ZSH_VALUES = {FILE: "_pnfs_files", DRIVE: "_pnfs_drives", PARTY: "_pnfs_parties", CLIENT: f"({CLIENTS})", PATH: "_files"}


def zsh_text(text: str) -> str:
    """Text within brackets and apostrophes."""
    return text.replace("\\", "\\\\").replace("[", "\\[").replace("]", "\\]").replace(":", "\\:").replace("'", "'\\''")


def zsh_option(option: Option) -> str:
    """An option, as _arguments has them."""
    value = f":{option.value}:{ZSH_VALUES.get(option.kind, ' ')}" if option.kind else ""
    told = f"[{zsh_text(option.told)}]{value}'"
    if option.repeats:
        return f"'*{option.names[0]}{told}"
    if len(option.names) == 1:
        return f"'{option.names[0]}{told}"
    return f"'({' '.join(option.names)})'" + "{" + ",".join(option.names) + "}" + f"'{told}"


def zsh_argument(at: int, argument: Argument) -> str:
    """An argument, as _arguments has them."""
    place = "*" if argument.repeats else str(at + 1) + ":" * argument.optional
    return f"'{place}:{argument.name}:{ZSH_VALUES.get(argument.kind, ' ')}'"


def for_zsh() -> str:
    """The completion for zsh."""
    words = table()
    lines = ["#compdef pnfs", FIRST, "", NAMES, "",
             "_pnfs_files() { compadd -- $(_pnfs_names \"$_pnfs_cluster\" file f) }",
             "_pnfs_drives() { compadd -- $(_pnfs_names \"$_pnfs_cluster\" drive d) }",
             "_pnfs_parties() { compadd -- server drives $(_pnfs_names \"$_pnfs_cluster\" drive d) }", "",
             "_pnfs() {", "    local curcontext=$curcontext state line _pnfs_cluster", "    typeset -A opt_args",
             "    local -a commands=("]
    lines += [f"        '{command.name}:{zsh_text(command.told)}'" for command in words.commands]
    lines += ["    )", "    _arguments -C \\"]
    lines += [f"        {zsh_option(option)} \\" for option in words.options]
    lines += ["        '(- *)--help[how the tool is used]' \\", "        '1:COMMAND:->command' '*::word:->words' && return",
              "    _pnfs_cluster=${${opt_args[-c]:-${opt_args[--cluster]}}/#\\~/$HOME}", "    case $state in",
              "        command) _describe command commands ;;", "        words)", "            case $words[1] in"]
    for command in words.commands:
        told = [zsh_option(option) for option in command.options]
        told += [zsh_argument(at, argument) for at, argument in enumerate(command.arguments)]
        if told:
            lines.append(f"                {command.name}) _arguments {' '.join(told)} ;;")
    return "\n".join(lines + ["            esac", "            ;;", "    esac", "}", "", '_pnfs "$@"']) + "\n"
