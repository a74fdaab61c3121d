"""`zonectl completion`: a completion for the shell, made from the parsers."""
from __future__ import annotations

import argparse
import re
from collections.abc import Iterable

from ..errors import Status, Usage
from ..main import ABOUT as SUMMARIES
from ..main import COMMANDS, module_of
from ..options import Parser, add_output
from ..outputs import Output

ABOUT = "Prints a completion for bash, zsh or fish, made from the parsers."
MORE = {"--ignore": ("serial", "ttl", "dnssec"), "--lines": ("all",)}  # values beside others
BASH = """\
# Completion of zonectl for bash. `zonectl completion bash` makes it from the parsers.
_zonectl() {{
    local word=${{COMP_WORDS[COMP_CWORD]}} before=${{COMP_WORDS[COMP_CWORD - 1]}} options=''
    COMPREPLY=()
    if [ "$COMP_CWORD" -eq 1 ]; then
        mapfile -t COMPREPLY < <(compgen -W '{commands} --help --version -V -h' -- "$word")
        return
    fi
    case ${{COMP_WORDS[1]}}:$before in
{values}    esac
    case ${{COMP_WORDS[1]}} in
{options}    esac
    case $word in
        -*) mapfile -t COMPREPLY < <(compgen -W "$options" -- "$word") ;;
        *)
            compopt -o filenames 2> /dev/null
            mapfile -t COMPREPLY < <(compgen -f -- "$word")
            ;;
    esac
}}
complete -F _zonectl zonectl
"""
ZSH = """\
#compdef zonectl
# Completion of zonectl for zsh. `zonectl completion zsh` makes it from the parsers.
_zonectl() {{
    local -a commands=(
{commands}    )
    if (( CURRENT == 2 )); then
        _describe command commands
        _arguments '(- *)'{{-h,--help}}'[print help]' '(- *)'{{-V,--version}}'[print the versions]'
        return
    fi
    shift words
    (( CURRENT-- ))
    case $words[1] in
{options}    esac
}}
_zonectl "$@"
"""
FISH = """\
# Completion of zonectl for fish. `zonectl completion fish` makes it from the parsers.
complete -c zonectl -n __fish_use_subcommand -s h -l help -d 'print help'
complete -c zonectl -n __fish_use_subcommand -s V -l version -d 'print the versions'
{commands}{options}"""


def parser() -> Parser:
    """Returns the parser."""
    made = Parser("completion", "bash|zsh|fish", ABOUT)
    made.words = tuple(SHELLS)
    add_output(made, has_json=False)
    return made


def run(given: argparse.Namespace, output: Output) -> int:
    """Prints a completion."""
    if len(given.operands) != 1 or given.operands[0] not in SHELLS:
        raise Usage("it takes the name of a shell: bash, zsh or fish")
    output.result(SHELLS[given.operands[0]](), given.output)
    return Status.SAME


def _words(action: argparse.Action) -> list[str]:
    """Returns the values of an option that are known."""
    return list(MORE.get(action.option_strings[-1], ()) if action.choices is None else action.choices)


def bash() -> str:
    """Returns the completion for bash."""
    values = options = ""
    for name in sorted(COMMANDS):
        known: list[str] = []
        parser = module_of(name).parser()
        for action in parser.options():
            known += action.option_strings
            if words := _words(action):
                values += _case("|".join(f"{name}:{it}" for it in action.option_strings), words)
        if parser.words:
            values += _case(f"{name}:{name}", parser.words)
        options += f"        {name}) options='{' '.join(sorted(known))}' ;;\n"
    return BASH.format(commands=" ".join(sorted(COMMANDS)), values=values, options=options)


def _case(pattern: str, words: Iterable[str]) -> str:
    return f"        {pattern}) mapfile -t COMPREPLY < <(compgen -W '{' '.join(words)}' -- \"$word\") && return ;;\n"


def _quoted(text: str) -> str:
    """Returns a text between quotes for zsh and fish."""
    return "'" + text.replace("'", "\\'") + "'"


def zsh() -> str:
    """Returns the completion for zsh."""
    commands = "".join(f"        {_quoted(f'{name}:{SUMMARIES[COMMANDS[name]][1]}')}\n" for name in sorted(COMMANDS))
    options = ""
    for name in sorted(COMMANDS):
        parser = module_of(name).parser()
        specs = [spec for action in parser.options() for spec in _of_zsh(action, parser)]
        first = f"'1:what:({' '.join(parser.words)})' " if parser.words else ""
        options += f"        {name})\n            _arguments -S " + " ".join(f"\\\n                {it}" for it in specs)
        options += f" \\\n                {first}'*:source:_files'\n            ;;\n"
    return ZSH.format(commands=commands, options=options)


def _of_zsh(action: argparse.Action, parser: Parser) -> list[str]:
    """Returns how zsh's _arguments has an option, for each of its names."""
    what = re.sub(r"([\[\]:\\])", r"\\\1", action.help or "").replace("'", "'\\''")
    value = ""
    if action.nargs != 0:
        words = _words(action)
        kind = {"DIR": "_directories", "FILE": "_files"}.get(str(action.metavar), " ")
        value = f":{action.metavar}:({' '.join(words)})" if words else f":{action.metavar}:{kind}"
    names, specs = action.option_strings, []
    for name in names:
        others = f"({' '.join(names)})" if len(names) > 1 and not isinstance(action.default, list) else ""
        repeated = "*" if isinstance(action.default, list) else ""
        joined = "" if not value else "=-" if name in parser.alone else "=" if name.startswith("--") else "+"
        specs.append(f"'{others}{repeated}{name}{joined}[{what}]{':' if name in parser.alone else ''}{value}'")
    return specs


def fish() -> str:
    """Returns the completion for fish."""
    commands = options = ""
    for name in sorted(COMMANDS):
        parser = module_of(name).parser()
        commands += f"complete -c zonectl -n __fish_use_subcommand -f -a {name} -d {_quoted(SUMMARIES[COMMANDS[name]][1])}\n"
        seen = f"complete -c zonectl -n '__fish_seen_subcommand_from {name}'"
        if parser.words:
            options += f"{seen} -f -a '{' '.join(parser.words)}'\n"
        for action in parser.options():
            names = " ".join(f"-l {it[2:]}" if it.startswith("--") else f"-s {it[1:]}" for it in action.option_strings)
            has_value = action.nargs != 0 and action.option_strings[0] not in parser.alone
            takes = (" -r" if action.metavar in ("FILE", "DIR") else " -x") if has_value else ""
            words = f" -a '{' '.join(_words(action))}'" if _words(action) else ""
            options += f"{seen} {names}{takes}{words} -d {_quoted(action.help or '')}\n"
    return FISH.format(commands=commands, options=options)


SHELLS = {"bash": bash, "zsh": zsh, "fish": fish}
