"""Prints what to type, step by step, if SERVER has died. It has the statements of the program's own plan of that recovery, with
the conditions before each step and a check after it. Nothing is sent to any server.

  orch runbook db1 now.json                        the recovery of db1's death
  orch runbook --regroup db3 now.json              gather the replicas of db3 below the best of them
  orch runbook --takeover db2 db1 now.json         db2 takes the place of the living master db1
  orch runbook --plan db1 now.json > plan.txt      the program's plan as it is, for `orch follow`

No coordinate of the scenario is printed: each is written down from the servers on the way.
"""
from __future__ import annotations

import argparse
import dataclasses
import json
import re
import sys
from typing import Any

from orch_tools import runbook_words, scenario
from orch_tools.answers import tables_of
from orch_tools.deaths import dying
from orch_tools.program import NoAnswer, Program

HELP = "print the statements of a recovery, a regroup or a takeover, step by step"
LINE = re.compile(r"(\d+) ([A-Z]\d*)(?: (?!-- )(.+?);)?(?: -- (.+))?$")


@dataclasses.dataclass
class Step:
    """A line of the plan: its server, its statements, and its conditions."""
    number: int
    server: str
    statements: list[str]
    conditions: list[str]

    def lines(self, names: dict[str, str]) -> list[str]:
        """The step for a hand."""
        purposes = runbook_words.purposes(self.statements)
        found = ["%d. %s: %s" % (self.number, self.server, " ".join(purposes) or "Nothing is sent; only compare.")]
        late = len(self.statements) > 1 and self.statements[-1].startswith("CHANGE")
        words = [(late and plain.startswith(("note ", "only ")) or not is_after(plain), runbook_words.condition(plain, names))
                 for plain in self.conditions]
        before = ["     %s: %s" % ("before CHANGE" if late else "before", text) for is_before, text in words if is_before]
        after = ["     after:  " + text for is_before, text in words if not is_before]
        found += before + ["     %s> %s;" % (scenario.short(self.server), runbook_words.named(text, names)) for text in self.statements]
        return found + after + ["     check:  " + text for text in runbook_words.checks(self.statements)]


def is_after(condition: str) -> bool:
    """Whether a condition is about a statement's answer."""
    return condition.startswith(("note ", "must be below", "again until", "until then")) and "by hand" not in condition


@dataclasses.dataclass
class Plan:
    """A plan as the program prints it."""
    text: str
    warnings: list[str]
    names: dict[str, str]
    steps: list[Step]

    def as_json(self) -> dict[str, Any]:
        """The plan as a report has it in JSON."""
        return {"warnings": self.warnings, "servers": self.names, "steps": [
            {**dataclasses.asdict(step), "words": step.lines(self.names)} for step in self.steps]}


def add_arguments(parser: argparse.ArgumentParser) -> None:
    """The subcommand's arguments."""
    parser.add_argument("server", metavar="SERVER", help="the server that has died, HOST or HOST:PORT")
    scenario.add_scenario(parser)
    kind = parser.add_mutually_exclusive_group()
    kind.add_argument("--regroup", action="store_true", help="of a regroup of its replicas, whatever has become of SERVER")
    kind.add_argument("--takeover", metavar="REPLICA", help="of a takeover: this replica takes SERVER's place")
    parser.add_argument("--plan", action="store_true", help="print the program's plan as it is")


def plan_of(text: str) -> Plan:
    """A printed plan."""
    plan = Plan(text, [], {}, [])
    for line in text.splitlines():
        found = LINE.match(line)
        if line.startswith("#"):
            plan.warnings.append(line.lstrip("# "))
        elif line.startswith("server "):
            _, letter, name = line.split()
            plan.names[letter] = name
        elif found:
            statements = found[3].split("; ") if found[3] else []
            plan.steps.append(Step(int(found[1]), plan.names[found[2]], statements, found[4].split("; ") if found[4] else []))
        elif line.strip():
            raise NoAnswer("a line of the plan isn't understood: %s" % line)
    return plan


def asked(given: argparse.Namespace, told: scenario.Scenario) -> list[str]:
    """The program's command line."""
    server = scenario.known(told, given.server)
    if given.takeover:
        return ["-c", "graceful-master-takeover", "-i", server, "-d", scenario.known(told, given.takeover)]
    return ["-c", "regroup-replicas" if given.regroup else "recover", "-i", server]


def printed_plan(program: Program, data: dict[str, Any], words: list[str]) -> str:
    """The plan that the program prints. NoAnswer where it prints none."""
    answer = program.ask(data, *words, "--plan")
    if answer.status == 1:
        raise NoAnswer("this build of the program prints no plan of `%s`" % words[1])
    if answer.status:
        raise NoAnswer(answer.reason)
    return answer.out


def text_of(plan: Plan, words: list[str]) -> list[str]:
    """The runbook."""
    found = ["Runbook: orch %s" % " ".join(words), ""]
    found += plan.warnings
    found += ["", *runbook_words.LEGEND, "", "Servers: " + ", ".join(plan.names.values()), ""]
    for step in plan.steps:
        found += [*step.lines(plan.names), ""]
    return found + ["Then read the topology again (orch import), and compare it with what was expected (orch compare)."]


def run(given: argparse.Namespace) -> int:
    """The exit status: 3 where the program prints no plan, with the reason."""
    program, told = Program(), scenario.read(given.scenario, given.notes)
    state = tables_of(scenario.state_of(program, told).out)
    words = asked(given, told)
    dead = words[1] == "recover" and state.servers[words[3]].is_up
    text = printed_plan(program, dying(told.data, (words[3],)) if dead else told.data, words)
    notes = told.repeated(set(state.servers))
    if given.json:
        print(json.dumps({**plan_of(text).as_json(), "notes": notes}, indent=1))
    elif given.plan:
        print(text, end="")
    else:
        print("\n".join(text_of(plan_of(text), words)))
    if not given.json:
        print("".join("note: %s\n" % note for note in notes), end="", file=sys.stderr)
    return 0
