"""What bash, zsh and fish are told of the command line, by its help texts: for tools/man."""
from collections.abc import Iterable

from detio_tools.helps import Help, Item

MADE = "made by tools/man of the help texts"


def quoted(text: str) -> str:
    """One word of a shell."""
    return "'" + text.replace("'", "'\\''") + "'"


def flags_of(options: Iterable[Item]) -> list[str]:
    return [flag for it in options for flag in it.flags]


def bash(top: Help, commands: list[Help]) -> str:
    names = " ".join(it.written for it in top.commands)
    lines = [
        f"# Completion of detio for bash, {MADE}.",
        "_detio() {",
        '  local word=${COMP_WORDS[COMP_CWORD]} before=${COMP_WORDS[COMP_CWORD - 1]} command="" options="" paths=""',
        "  COMPREPLY=()",
        "  # --NAME=VALUE comes as three words.",
        "  if [[ $word == = ]]; then",
        "    word=",
        "  elif [[ $before == = ]]; then",
        "    before=${COMP_WORDS[COMP_CWORD - 2]}",
        "  fi",
        "  ((COMP_CWORD < 2)) || command=${COMP_WORDS[1]}",
        "  case $command in",
        f"    '') options={quoted(names + ' ' + ' '.join(flags_of(top.options)))} ;;",
        f"    help) options={quoted(names)} ;;",
    ]
    for it in commands:
        paths = " paths=yes" if it.takes_paths else ""
        lines.append(f"    {it.name}) options={quoted(' '.join(flags_of(it.options)))}{paths} ;;")
    lines += ["  esac", "  case $command,$before in"]
    for it in commands:
        lines += [f"    {' | '.join(before)}) {value} ;;" for value, before in bash_values(it).items()]
    lines += [
        "  esac",
        "  if [[ $paths && $word != -* ]]; then",
        "    compopt -o default",
        "  else",
        '    mapfile -t COMPREPLY < <(compgen -W "$options" -- "$word")',
        "  fi",
        "}",
        "complete -F _detio detio",
    ]
    return "\n".join(lines) + "\n"


def bash_values(command: Help) -> dict[str, list[str]]:
    """What is done for a value of an option, and after which words."""
    found: dict[str, list[str]] = {}
    for option in command.options:
        if option.values:
            found.setdefault(bash_value(option), []).extend(f"{command.name},{flag}" for flag in option.flags)
    return found


def bash_value(option: Item) -> str:
    if option.is_value_optional:
        return "paths="
    if option.choices:
        return f"mapfile -t COMPREPLY < <(compgen -W {quoted(' '.join(option.choices))} -- \"$word\"); return"
    if option.is_path or option.is_folder:
        return f"compopt -o {'default' if option.is_path else 'dirnames'}; return"
    return "return"


def zsh(top: Help, commands: list[Help]) -> str:
    lines = [
        "#compdef detio",
        f"# Completion of detio for zsh, {MADE}.",
        "_detio_commands() {",
        "  local -a commands=(",
        *(f"    {quoted(it.written + ':' + it.about)}" for it in top.commands),
        "  )",
        "  _describe command commands",
        "}",
        "",
        "_detio() {",
        "  local curcontext=$curcontext state line",
        "  typeset -A opt_args",
        "  _arguments -C \\",
        *(f"    {zsh_option(it)} \\" for it in top.options),
        "    '1: :_detio_commands' \\",
        "    '*:: :->words' && return",
        "  case $words[1] in",
    ]
    for it in commands:
        specs = [*map(zsh_option, it.options), *map(zsh_argument, it.arguments)]
        lines += [f"    {it.name})", "      _arguments \\"]
        lines += [f"        {spec} \\" for spec in specs[:-1]]
        lines += [f"        {specs[-1]}", "      ;;"]
    lines += [
        "    help) _detio_commands ;;",
        "  esac",
        "}",
        "",
        'if [[ $funcstack[1] == _detio ]]; then _detio "$@"; else compdef _detio detio; fi',
    ]
    return "\n".join(lines) + "\n"


def zsh_option(option: Item) -> str:
    about = option.about
    for char in "\\[]:":
        about = about.replace(char, "\\" + char)
    values = "".join(f":{':' * option.is_value_optional}{value}:{zsh_value(option)}" for value in option.values)
    if len(option.flags) > 1:
        return f"'({' '.join(option.flags)})'{{{','.join(option.flags)}}}{quoted(f'[{about}]{values}')}"
    joined = "=" if len(option.values) == 1 else ""
    return quoted(f"{option.flags[0]}{joined}[{about}]{values}")


def zsh_argument(argument: Item) -> str:
    many = "*" if argument.written.endswith("...") else "1"
    return quoted(f"{many}:{argument.values[0]}:{zsh_value(argument)}")


def zsh_value(option: Item) -> str:
    if option.choices:
        return f"({' '.join(option.choices)})"
    return "_files" if option.is_path else "_files -/" if option.is_folder else " "


def fish(top: Help, commands: list[Help]) -> str:
    lines = [f"# Completion of detio for fish, {MADE}.", "complete -c detio -f"]
    first, names = "complete -c detio -n __fish_use_subcommand", " ".join(it.written for it in top.commands)
    lines += [f"{first} {fish_option(it)}" for it in top.options]
    lines += [f"{first} -a {it.written} -d {fish_word(it.about)}" for it in top.commands]
    for it in commands:
        head = f"complete -c detio -n '__fish_seen_subcommand_from {it.name}'"
        lines += [f"{head} {fish_option(option)}" for option in it.options]
        lines += [f"{head} -F"] if it.takes_paths else []
    lines.append(f"complete -c detio -n '__fish_seen_subcommand_from help' -a {fish_word(names)}")
    return "\n".join(lines) + "\n"


def fish_word(text: str) -> str:
    return "'" + text.replace("\\", "\\\\").replace("'", "\\'") + "'"


def fish_option(option: Item) -> str:
    names = " ".join(f"-l {it[2:]}" if it.startswith("--") else f"-s {it[1:]}" for it in option.flags)
    return f"{names}{fish_value(option)} -d {fish_word(option.about)}"


def fish_value(option: Item) -> str:
    if option.choices:
        return f" -x -a {fish_word(' '.join(option.choices))}"
    if option.is_path:
        return " -r -F"
    if option.is_folder:
        return " -x -a '(__fish_complete_directories)'"
    return " -x" if option.values and not option.is_value_optional else ""
