"""Prints the completion of orch for a shell.

  eval "$(orch completion bash)"                               in ~/.bashrc
  eval "$(orch completion zsh)"                                in ~/.zshrc, after compinit
  orch completion fish > ~/.config/fish/completions/orch.fish
"""
from __future__ import annotations

import argparse
import shlex

from orch_tools import table, wrapper

HELP = "print the completion for bash, zsh or fish"
FILES = ("path",)


def add_arguments(parser: argparse.ArgumentParser) -> None:
    """The subcommand's arguments."""
    parser.add_argument("shell", choices=sorted(SHELLS), help="the shell")


def options_of(subcommand: str) -> list[tuple[str, str, tuple[str, ...]]]:
    """The options of a subcommand: name, help, and what may be its value."""
    found = []
    for action in wrapper.parser_of(subcommand)._actions:
        names = [name for name in action.option_strings if name.startswith("--")]
        about = (action.help or "") % {"default": action.default, "prog": "orch"} if action.help else ""
        found += [(name, about.splitlines()[0] if about else "", tuple(action.choices or ())) for name in names]
    return found


def operands_of(subcommand: str) -> tuple[str, ...]:
    """What may be the first argument of a subcommand."""
    if subcommand == "help":
        return (*wrapper.SUBCOMMANDS, *table.BY_NAME)
    actions = wrapper.parser_of(subcommand)._actions
    return next((tuple(action.choices) for action in actions if not action.option_strings and action.choices), ())


def values_of(option: table.Option) -> tuple[str, ...]:
    """What may be an option's value."""
    return {"command": tuple(table.BY_NAME), "rule": table.RULES}.get(option.kind, ())


def bash() -> str:
    """The completion of bash."""
    cases = ["    %s) words=%s ;;" % (option.name, shlex.quote(" ".join(values_of(option)))) for option in table.OPTIONS if values_of(option)]
    cases += ["    %s) COMPREPLY=($(compgen -f -- \"$here\")); return ;;" % "|".join(
        option.name for option in table.OPTIONS if option.kind in FILES)]
    subcommands = ["      %s) words=%s ;;" % (name, shlex.quote(" ".join([*(option[0] for option in options_of(name)), *operands_of(name)])))
                   for name in wrapper.SUBCOMMANDS]
    own = " ".join([*wrapper.SUBCOMMANDS, "help", "--help", "--version", "--explain", *table.OPTION_OF])
    return "\n".join([
        "# Completion of orch for bash.", "_orch() {", "  local here=${COMP_WORDS[COMP_CWORD]} before=${COMP_WORDS[COMP_CWORD-1]} words=",
        "  case $before in", *cases, "    *)", "      case ${COMP_WORDS[1]} in", *subcommands,
        "      help) words=%s ;;" % shlex.quote(" ".join(operands_of("help"))),
        "      -*) words=%s ;;" % shlex.quote(" ".join(table.OPTION_OF)), "      *) words=%s ;;" % shlex.quote(own), "      esac", "  esac",
        '  COMPREPLY=($(compgen -W "$words" -- "$here"))',
        '  [[ ${#COMPREPLY[@]} -gt 0 || $here == -* ]] || COMPREPLY=($(compgen -f -- "$here"))', "}", "complete -o filenames -F _orch orch", ""])


def zsh_text(text: str) -> str:
    """A text inside a description of zsh."""
    for sign in "\\[]:'":
        text = text.replace(sign, "'\\''" if sign == "'" else "\\" + sign)
    return text


def zsh_values(values: tuple[str, ...], kind: str) -> str:
    """What completes an option's value."""
    return ":value:(%s)" % " ".join(values) if values else ":file:_files" if kind in FILES else ":value:" if kind != "flag" else ""


def zsh() -> str:
    """The completion of zsh."""
    first = ["    '%s:%s'" % (name, zsh_text(wrapper.module_of(name).HELP.splitlines()[0])) for name in wrapper.SUBCOMMANDS]
    own = ["    '%s[%s]%s'" % (option.name, zsh_text(option.about), zsh_values(values_of(option), option.kind)) for option in table.OPTIONS]
    cases = []
    for name in wrapper.SUBCOMMANDS:
        options = " ".join("'%s[%s]'" % (option, zsh_text(about)) for option, about, _ in options_of(name))
        operands = "'1:value:(%s)'" % " ".join(operands_of(name)) if operands_of(name) else "'*:file:_files'"
        cases.append("    %s) shift words; (( CURRENT-- )); _arguments %s %s ;;" % (name, options, operands))
    return "\n".join(["#compdef orch", "# Completion of orch for zsh.", "_orch() {", "  local -a subcommands own", "  subcommands=(", *first, "  )",
                      "  own=(", *own, "  )", "  if (( CURRENT == 2 )) && [[ $PREFIX != -* ]]; then", "    _describe subcommand subcommands; return",
                      "  fi", "  case $words[2] in", *cases,
                      "    help) compadd -- %s ;;" % " ".join(operands_of("help")), "    *) _arguments $own ;;", "  esac", "}", "compdef _orch orch", ""])


def fish_line(condition: str, option: str, about: str, values: tuple[str, ...], kind: str) -> str:
    """A line of fish for one option."""
    name = "-l " + option[2:] if option.startswith("--") else "-s " + option[1:]
    takes = " -x -a %s" % shlex.quote(" ".join(values)) if values else " -r -F" if kind in FILES else "" if kind == "flag" else " -x"
    return "complete -c orch -n %s %s%s -d %s" % (shlex.quote(condition), name, takes, shlex.quote(about))


def fish() -> str:
    """The completion of fish."""
    lines = ["# Completion of orch for fish."]
    for name in wrapper.SUBCOMMANDS:
        about = wrapper.module_of(name).HELP.splitlines()[0]
        lines.append("complete -c orch -n __fish_use_subcommand -a %s -d %s" % (name, shlex.quote(about)))
        lines += [fish_line("__fish_seen_subcommand_from " + name, option, text, values, "flag") for option, text, values in options_of(name)]
        if operands_of(name):
            lines.append("complete -c orch -n '__fish_seen_subcommand_from %s' -f -a %s" % (name, shlex.quote(" ".join(operands_of(name)))))
    lines.append("complete -c orch -n __fish_use_subcommand -a help -d 'print help'")
    lines.append("complete -c orch -n '__fish_seen_subcommand_from help' -f -a %s" % shlex.quote(" ".join(operands_of("help"))))
    inside = "not __fish_seen_subcommand_from %s" % " ".join(wrapper.SUBCOMMANDS)
    lines += [fish_line(inside, option.name, option.about, values_of(option), option.kind) for option in table.OPTIONS]
    return "\n".join([*lines, ""])


SHELLS = {"bash": bash, "zsh": zsh, "fish": fish}


def run(given: argparse.Namespace) -> int:
    """The exit status."""
    print(SHELLS[given.shell](), end="")
    return 0
