"""Prints the man page of orch, made from the table of its commands and options.

  orch man > /usr/local/share/man/man1/orch.1
"""
from __future__ import annotations

import argparse
import re

from orch_tools import completion, table, wrapper

HELP = "print the man page"


def add_arguments(_parser: argparse.ArgumentParser) -> None:
    """The subcommand has no arguments."""


def escaped(text: str) -> str:
    """A text of a man page."""
    text = text.replace("\\", "\\e").replace("-", "\\-")
    return re.sub(r"^([.'])", r"\\&\1", text, flags=re.M)


def entry(term: str, about: str) -> list[str]:
    """A term with its text."""
    return [".TP", ".B " + escaped(term), escaped(about[:1].upper() + about[1:] + ("" if about.endswith(".") else "."))]


def subcommand(name: str) -> list[str]:
    """The section of a subcommand: what it does, then its options."""
    module = wrapper.module_of(name)
    paragraphs = (module.__doc__ or module.HELP).strip().split("\n\n")
    lines = [".SS orch " + escaped(name)]
    for paragraph in paragraphs:
        lines += [".nf", escaped(paragraph), ".fi", ".PP"] if paragraph.startswith("  ") else [escaped(paragraph), ".PP"]
    for option, about, _ in completion.options_of(name):
        lines += entry(option, about) if option != "--help" else []
    return lines


def page() -> str:
    """The man page."""
    lines = ['.TH ORCH 1 "" "orch %s" ""' % wrapper.version(), ".SH NAME", "orch \\- rehearse MySQL replication, recoveries and moves on a model",
             ".SH SYNOPSIS", ".B orch", ".I SUBCOMMAND", "[arguments]", ".br", ".B orch \\-c", ".I COMMAND", "[options] < SCENARIO", ".br",
             ".B orch help", "[\\fISUBCOMMAND\\fR | \\fICOMMAND\\fR]", ".SH DESCRIPTION",
             "orch runs orchestrator's commands on modelled MySQL servers, which a scenario in JSON describes.",
             "Its subcommands read a running topology, and report what becomes of it if a server dies.", ".SH SUBCOMMANDS"]
    for name in wrapper.SUBCOMMANDS:
        lines += subcommand(name)
    lines.append(".SH COMMANDS")
    for group, title in table.GROUPS.items():
        lines.append(".SS " + title)
        for command in table.COMMANDS:
            lines += entry(command.synopsis(), command.about) if command.group == group else []
    lines.append(".SH OPTIONS")
    for option in table.OPTIONS:
        lines += entry(table.synopsis_of(option.name), option.about)
    lines += entry("--explain", "report what is wrong, also if standard error is no terminal")
    return "\n".join([*lines, ".SH EXIT STATUS", escaped(wrapper.STATUSES[0].upper() + wrapper.STATUSES[1:]), ".SH ENVIRONMENT",
                      escaped(wrapper.ENVIRONMENT), ""])


def run(_given: argparse.Namespace) -> int:
    """The exit status."""
    print(page(), end="")
    return 0
