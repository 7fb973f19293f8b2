"""Carries commands out one after another on a scenario, each on the state that the one before it left, and prints the scenario whose
turns end there. What each command answered is on standard error. It stops at the first one that isn't carried out, with status 1.

  orch then --command 'relocate -i db6 -d db2' --command 'graceful-master-takeover -i db1 -d db2' now.json > later.json
  orch then --list window.txt now.json | orch outage db2

The commands are kept as turns, so what orchestrator knows (recoveries, downtimes, rules, kept pairs) goes on with the servers. With
--flat the servers are printed as a scenario without turns: then only they and the given promotion rules go on. For one command that
is the program's own option: `orch -c COMMAND --dump`, which leaves out the rules, too.
"""
from __future__ import annotations

import argparse
import json
import sys
from typing import Any

from orch_tools import scenario, sequel
from orch_tools.program import Program
from orch_tools.counting import Count

HELP = "carry commands out one after another, and pass the state on"


def add_arguments(parser: argparse.ArgumentParser) -> None:
    """The subcommand's arguments."""
    scenario.add_scenario(parser)
    parser.add_argument("--command", action="append", default=[], metavar="'COMMAND [options]'", help="a command; may be repeated")
    parser.add_argument("--list", metavar="FILE", help="a file with a command on each line, `#` before a comment")
    parser.add_argument("--flat", action="store_true", help="print the servers as a scenario without turns")


def texts_of(given: argparse.Namespace) -> list[str]:
    """The commands as they were written: those of the list, then those of the command line."""
    texts: list[str] = []
    if given.list:
        try:
            with open(given.list, encoding="utf-8") as file:
                texts = [line.strip() for line in file if line.strip() and not line.lstrip().startswith("#")]
        except OSError as fault:
            raise sequel.Unread("%s: %s" % (given.list, fault.strerror)) from None
    return [*texts, *given.command]


def with_rules(data: dict[str, Any], told: scenario.Scenario) -> dict[str, Any]:
    """Dumped servers, with the rules that the first scenario gave."""
    rules = {scenario.full(server["name"]): {"rule": server["rule"]} for server in told.servers() if "rule" in server}
    return {**data, "servers": [{**server, **rules.get(server["name"], {})} for server in data["servers"]]}


def told_of(step: sequel.Step) -> list[str]:
    """A step's lines for a person."""
    return ["%s %s" % ("ok " if step.is_done else "NOT", step.command), *("    " + line for line in step.lines)]


def run(given: argparse.Namespace) -> int:
    """The exit status: 1 if a command isn't carried out."""
    try:
        commands = [sequel.words_of(text) for text in texts_of(given)]
    except sequel.Unread as reason:
        print("orch then: %s" % reason, file=sys.stderr)
        return 2
    if not commands:
        print("orch then: no command is given: --command or --list", file=sys.stderr)
        return 2
    program, told = Program(), scenario.read(given.scenario, given.notes)
    scenario.state_of(program, told)
    with Count("orch then: commands", len(commands)) as progress:
        steps = (sequel.flat_steps_of if given.flat else sequel.steps_of)(program, told.data, commands, progress.step)
    data = with_rules(steps[-1].data, told) if given.flat else steps[-1].data
    if given.json:
        print(json.dumps({"steps": [step.as_json() for step in steps], "scenario": data, "notes": told.repeated(set(told.full_names()))}))
    else:
        for step in steps:
            print("\n".join(told_of(step)), file=sys.stderr)
        print(json.dumps(data, separators=(",", ":")))
    return 0 if steps[-1].is_done else 1
