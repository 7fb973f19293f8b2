"""Lets each server of a scenario die in turn, and with --pairs each two of a cluster. It prints what becomes of each death, one line
each. With --policy FILE the exit status is 1 if a death doesn't keep a rule.

  orch sweep --pairs --policy policy.json now.json

A policy is a JSON file. Each rule has the deaths that it is about, and what they must come to:

  {"version": 1, "rules": [
    {"name": "a master's death promotes in ams and loses nobody", "deaths": "masters", "promotes_in": ["ams"], "lost": 0},
    {"name": "no pair of deaths leaves a cluster without a master", "deaths": "pairs", "servers": ["db1"], "promotes": true}]}

`deaths` is masters, intermediates, all or pairs. `clusters` and `servers` are lists of names with `*`. `promotes` is true if somebody
must be promoted. `promotes_in` has the data centres of the promoted one. `lost` and `gone` are the most lost servers and gone transactions.
"""
from __future__ import annotations

import argparse
import json
import sys
from typing import Any

from orch_tools import clusters, losses, policy, scenario
from orch_tools.answers import Outcome, Server, tables_of
from orch_tools.counting import Count
from orch_tools.deaths import Death, death_of
from orch_tools.program import Program, each_at_once, processors

HELP = "let each server die, and each pair of a cluster; check a policy"


def add_arguments(parser: argparse.ArgumentParser) -> None:
    """The subcommand's arguments."""
    scenario.add_scenario(parser)
    parser.add_argument("--pairs", action="store_true", help="each two servers of a cluster as well: both die, and the first is recovered")
    parser.add_argument("--worse", action="store_true", help="of the pairs print those alone that cost more than the first one's death")
    parser.add_argument("--policy", metavar="FILE", help="rules that the deaths must keep")
    parser.add_argument("--server", action="append", default=[], metavar="HOST[:PORT]", help="only this server's death; may be repeated")
    parser.add_argument("--at-once", type=int, default=processors(), metavar="N", help="runs at once (%(default)s)")


def deaths_in(names: list[str], data: dict[str, Any], pairs: bool) -> list[tuple[str, ...]]:
    """The deaths: of each of these servers, and with each other one of its cluster."""
    label = clusters.labels(data)
    found: list[tuple[str, ...]] = [(name,) for name in names]
    if pairs:
        found += [(name, other) for name in names for other in label if other != name and label[other] == label[name]]
    return found


class Sweep:
    """The deaths of one scenario."""

    def __init__(self, program: Program, told: scenario.Scenario, before: dict[str, Server]) -> None:
        self.program, self.told, self.before, self.parts = program, told, before, clusters.parts_of(told.data)
        self.replicas = {server.source for server in before.values() if not server.detached}

    def death(self, names: tuple[str, ...]) -> Death:
        """What becomes of these deaths. The program needn't be asked about a server without replicas."""
        part = self.parts[names[0]]
        before = {scenario.full(server["name"]): self.before[scenario.full(server["name"])] for server in part["servers"]}
        if names[0] not in self.replicas:
            return Death(names[0], names[1:], None, Outcome(), before, before)
        return losses.measured(self.told, death_of(self.program, part, before, names[0], names[1:]))

    def all(self, deaths: list[tuple[str, ...]], at_once: int) -> list[Death]:
        """All deaths, so many at once."""
        with Count("orch sweep: deaths", len(deaths)) as progress:
            return each_at_once(self.death, deaths, at_once, progress.step)


def is_worse(death: Death, alone: Death) -> bool:
    """Whether a pair's death costs more than the first one's alone."""
    return death.cost > alone.cost


def shown(deaths: list[Death], worse: bool) -> list[Death]:
    """The deaths that are printed."""
    alone = {death.dead: death for death in deaths if not death.also}
    return [death for death in deaths if not worse or not death.also or is_worse(death, alone[death.dead])]


def line_of(death: Death, width: int) -> str:
    """A death's line."""
    return "%-*s %s" % (width, " with ".join((death.dead, *death.also)), death)


def printed(deaths: list[Death], failures: list[dict[str, str]], rules: int) -> None:
    """Prints the lines, then what the policy doesn't pass."""
    width = max(len(" with ".join((death.dead, *death.also))) for death in deaths)
    print("\n".join(line_of(death, width) for death in deaths))
    for failure in failures:
        print("policy: %(rule)s: %(server)s: %(why)s" % failure)
    if rules:
        print("policy: %s" % ("kept" if not failures else "%d failures" % len(failures) if len(failures) > 1 else "1 failure"))


def run(given: argparse.Namespace) -> int:
    """The exit status: 1 if a policy isn't kept."""
    try:
        rules = policy.read(given.policy) if given.policy else []
    except policy.Unread as reason:
        print("orch sweep: %s: %s" % (given.policy, reason), file=sys.stderr)
        return 2
    program, told = Program(), scenario.read(given.scenario, given.notes)
    before = tables_of(scenario.state_of(program, told).out).servers
    names = [scenario.known(told, name) for name in given.server] or list(before)
    pairs = given.pairs or any(rule.deaths == "pairs" for rule in rules)
    deaths = Sweep(program, told, before).all(deaths_in(names, told.data, pairs), max(1, given.at_once))
    failures = policy.failures_of(rules, deaths, told.data)
    notes = told.repeated(set(before))
    if given.json:
        rows = [death.as_json() for death in shown(deaths, given.worse)]
        print(json.dumps({"deaths": rows, "failures": failures, "notes": notes}, indent=1))
    else:
        printed(shown(deaths, given.worse), failures, len(rules))
        print("".join("note: %s\n" % note for note in notes), end="", file=sys.stderr)
    return 1 if failures else 0
