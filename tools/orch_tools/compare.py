"""Compares two states of servers, server by server. Status 1 if something differs.

  orch compare now.json later.json
  orch compare --command '-c recover -i db1' now.json

Each state is the one after its scenario's turns. With --command the second state is the one after that command. A line begins with
~ for a server that differs, with + for a new one and with - for one that is gone.
"""
from __future__ import annotations

import argparse
import dataclasses
import json
import sys
from typing import Any

from orch_tools import scenario, sequel
from orch_tools.answers import Server, Tables, tables_of
from orch_tools.near import counted
from orch_tools.program import NoAnswer, Program

HELP = "print what differs between two scenarios, or before and after a command"
FIELDS = ("state", "mode", "source", "detached", "executed", "end", "at", "read", "io", "sql", "until", "auto", "purged")
COLOURS = {"~": "33", "+": "32", "-": "31", "!": "36"}


@dataclasses.dataclass
class Difference:
    """A server that differs: its sign, its name, and the fields with their values in both states."""
    sign: str
    name: str
    fields: dict[str, tuple[Any, Any]]


def add_arguments(parser: argparse.ArgumentParser) -> None:
    """The subcommand's arguments."""
    parser.add_argument("scenarios", nargs="*", metavar="SCENARIO", help="two scenarios, or one with --command")
    parser.add_argument("--command", action="append", default=[], metavar="'COMMAND [options]'",
                        help="the second state is the one after this command of the first; may be repeated")
    parser.add_argument("--ignore", action="append", default=[], metavar="FIELD", choices=FIELDS,
                        help="don't compare this field: %s; may be repeated" % ", ".join(FIELDS))
    scenario.add_notes(parser)


def differences_of(one: dict[str, Server], other: dict[str, Server], ignored: list[str]) -> list[Difference]:
    """The servers that differ, in the first scenario's order, new ones at the end."""
    found = []
    for name in [*one, *(name for name in other if name not in one)]:
        if name not in other:
            found.append(Difference("-", name, {}))
        elif name not in one:
            found.append(Difference("+", name, {"source": (None, other[name].source)}))
        else:
            pairs = {field: (getattr(one[name], field), getattr(other[name], field)) for field in FIELDS if field not in ignored}
            changed = {field: pair for field, pair in pairs.items() if pair[0] != pair[1]}
            found += [Difference("~", name, changed)] if changed else []
    return found


def shown(value: Any) -> str:
    """A field's value as it is printed."""
    if isinstance(value, bool):
        return "yes" if value else "no"
    return "none" if value is None else str(value)


def lines_of(differences: list[Difference], tables: Tables, total: int, colours: bool) -> list[str]:
    """The report's lines."""
    def coloured(sign: str, text: str) -> str:
        return "\033[%sm%s\033[0m" % (COLOURS[sign], text) if colours else text

    lines = []
    for difference in differences:
        source = " below %s" % shown(difference.fields["source"][1]) if difference.sign == "+" else ""
        lines.append(coloured(difference.sign, "%s %s%s" % (difference.sign, difference.name, source)))
        if difference.sign == "~":
            lines += ["    %-9s %s -> %s" % (field, shown(one), shown(other)) for field, (one, other) in difference.fields.items()]
    lines += [coloured("!", "! recovery %d of %s: %s" % (it.number, it.failed, it.outcome)) for it in tables.recoveries]
    return [*lines, "%d of %s differ" % (len(differences), counted(total, "server")) if differences else "nothing differs"]


def second_state(program: Program, one: scenario.Scenario, given: argparse.Namespace) -> tuple[Tables, str | None]:
    """The tables of the second state, and the line of a command that wasn't carried out."""
    if not given.command:
        return tables_of(scenario.state_of(program, scenario.read(given.scenarios[1])).out), None
    commands = [sequel.words_of(text) for text in given.command]
    steps = sequel.steps_of(program, one.data, commands[:-1], lambda: None)
    if steps and not steps[-1].is_done:
        raise NoAnswer("`%s`: %s" % (steps[-1].command, steps[-1].answer.reason))
    data = steps[-1].data if steps else one.data
    answer = program.report(data if steps else one.text, *[word for word in commands[-1] if word != "--tables"], "--tables")
    tables = tables_of(answer.out)
    if not tables.servers:
        raise NoAnswer("`%s`: %s" % (given.command[-1], answer.reason))
    return tables, answer.err.strip() or None


def wrong(given: argparse.Namespace) -> str | None:
    """What is wrong with the arguments."""
    wanted = 1 if given.command else 2
    if len(given.scenarios) != wanted and not (given.command and not given.scenarios):
        return "%s given; %s wanted" % (counted(len(given.scenarios), "scenario"), "one with --command is" if given.command else "two are")
    return None


def run(given: argparse.Namespace) -> int:
    """The exit status: 1 if something differs."""
    fault = wrong(given)
    if fault:
        print("orch compare: %s" % fault, file=sys.stderr)
        return 2
    program, one = Program(), scenario.read(given.scenarios[0] if given.scenarios else "-", given.notes)
    before = tables_of(scenario.state_of(program, one).out)
    try:
        after, refused = second_state(program, one, given)
    except sequel.Unread as reason:
        print("orch compare: %s" % reason, file=sys.stderr)
        return 2
    found = differences_of(before.servers, after.servers, given.ignore)
    report(given, found, after, len({*before.servers, *after.servers}), refused, one.repeated({item.name for item in found}))
    return 1 if found else 0


def report(given: argparse.Namespace, found: list[Difference], after: Tables, total: int, refused: str | None, notes: list[str]) -> None:
    """Prints the differences."""
    if given.json:
        rows = [{"sign": item.sign, "server": item.name, "fields": {field: list(pair) for field, pair in item.fields.items()}} for item in found]
        print(json.dumps({"servers": rows, "recoveries": [dataclasses.asdict(it) for it in after.recoveries], "refused": refused,
                          "answer": after.lines, "notes": notes}, indent=1))
        return
    if refused:
        print("! %s" % refused)
    print("\n".join(lines_of(found, after, total, sys.stdout.isatty())))
    print("".join("note: %s\n" % note for note in notes), end="", file=sys.stderr)
