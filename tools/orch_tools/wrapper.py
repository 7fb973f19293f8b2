"""The wrapper: subcommands of its own, and every other command line is given to the program."""
from __future__ import annotations

import argparse
import importlib
import os
import sys
from types import ModuleType

from orch_tools import table
from orch_tools.handing_on import handed_on
from orch_tools.near import did_you_mean
from orch_tools.program import TOP, NoAnswer

# Each subcommand and its module.
SUBCOMMANDS = {"import": "importing", "outage": "outage", "sweep": "sweep", "compare": "compare", "then": "then", "draw": "draw",
               "runbook": "runbook", "follow": "follow", "explain": "explain", "completion": "completion", "man": "man"}

STATUSES = """exit status of a subcommand: 0 fine; 1 something differs, or a policy fails; 2 wrong arguments; 3 no answer, with the reason.
Every other command line is given to the program, which has its own statuses (docs/COMMANDS.md)."""

ENVIRONMENT = "ORCH names the program; without it: crates/orch_cli/out/orch_cli beside the tools, or orch_cli on the PATH."


def version() -> str:
    """The repository's version."""
    with open(os.path.join(TOP, "VERSION"), encoding="utf-8") as file:
        return file.read().strip()


def module_of(subcommand: str) -> ModuleType:
    """The module of a subcommand."""
    return importlib.import_module("orch_tools." + SUBCOMMANDS[subcommand])


def parser_of(subcommand: str) -> argparse.ArgumentParser:
    """The arguments of a subcommand."""
    module = module_of(subcommand)
    about = (module.__doc__ or module.HELP).strip()
    parser = argparse.ArgumentParser(prog="orch " + subcommand, description=about, allow_abbrev=False,
                                     formatter_class=argparse.RawDescriptionHelpFormatter)
    module.add_arguments(parser)
    return parser


def help_text() -> str:
    """What `orch --help` prints."""
    lines = ["usage: orch SUBCOMMAND [arguments]", "       orch -c COMMAND [options] < SCENARIO     (the program's own command line)",
             "       orch help [SUBCOMMAND | COMMAND]; orch --version", "", "Subcommands:"]
    lines += ["  %-26s %s" % (name, module_of(name).HELP.splitlines()[0]) for name in SUBCOMMANDS]
    for group, title in table.GROUPS.items():
        lines += ["", title + " (-c COMMAND):"]
        lines += ["  %-26s %s" % (command.name, command.about) for command in table.COMMANDS if command.group == group]
    lines += ["", "Options of the program:"]
    lines += ["  %-26s %s" % (table.synopsis_of(option.name), option.about) for option in table.OPTIONS]
    lines += ["  %-26s %s" % ("--explain", "report what is wrong, also if standard error is no terminal"), "", STATUSES, ENVIRONMENT]
    return "\n".join(lines)


def command_help(name: str) -> str:
    """The help of a command of the program."""
    command = table.BY_NAME[name]
    lines = ["usage: " + command.synopsis(), "", command.about[0].upper() + command.about[1:] + ".", ""]
    names = ["-c", *command.needs, *command.uses, *(["--scenario", "--db"] if name != "generate" else [])]
    lines += ["  %-26s %s" % (table.synopsis_of(option), table.OPTION_OF[option].about) for option in names if option != "-c"]
    return "\n".join(lines + ["", "docs/COMMANDS.md has its answer, docs/REFUSALS.md its refusals."])


def helped(words: list[str]) -> int:
    """Prints help: of all, of a subcommand, or of a command of the program."""
    if not words:
        print(help_text())
    elif words[0] in SUBCOMMANDS:
        parser_of(words[0]).print_help()
    elif words[0] in table.BY_NAME:
        print(command_help(words[0]))
    else:
        print("orch help: there is no `%s`.%s" % (words[0], did_you_mean(words[0], [*SUBCOMMANDS, *table.BY_NAME])), file=sys.stderr)
        return 2
    return 0


def command_in(words: list[str]) -> list[str]:
    """The command of which a command line asks for help."""
    return [word for word in words if word in table.BY_NAME][:1]


def answered(words: list[str]) -> int:
    """Does what a command line asks, and gives the status."""
    explains = "--explain" in words or (sys.stderr is not None and sys.stderr.isatty())
    words = [word for word in words if word != "--explain"]
    if words and words[0] in SUBCOMMANDS:
        return int(module_of(words[0]).run(parser_of(words[0]).parse_intermixed_args(words[1:])))
    if words == ["--version"]:
        print("orch " + version())
        return 0
    if words[:1] == ["help"] or "--help" in words or "-h" in words:
        return helped(words[1:] if words[:1] == ["help"] else command_in(words))
    if not words and sys.stdin is not None and sys.stdin.isatty():
        print(help_text())
        return 2
    return handed_on(words, explains)


def main(words: list[str]) -> int:
    """The status of a command line."""
    name = "orch " + words[0] if words and words[0] in SUBCOMMANDS else "orch"
    try:
        return answered(words)
    except NoAnswer as reason:
        print("%s: %s" % (name, reason), file=sys.stderr)
        return 3
    except BrokenPipeError:
        sys.stderr.close()
        os.dup2(os.open(os.devnull, os.O_WRONLY), 1)
        return 3
    except KeyboardInterrupt:
        return 130
