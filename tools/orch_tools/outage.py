"""Reports what becomes of a topology if SERVER dies now: who is promoted, who follows, who is lost and why. It lists which
transactions are gone and where each still is, what to do with each lost server, and which one change would have helped most.

  orch outage db1 now.json

Each answer is a run of the program on a copy of the scenario. Nothing is sent to any server.
"""
from __future__ import annotations

import argparse
import json
import sys
from typing import Any

from orch_tools import advice, changes, losses, scenario
from orch_tools.answers import tables_of
from orch_tools.deaths import Death, death_of
from orch_tools.program import Program

HELP = "report what becomes of a topology if a server dies: promoted, lost, gone, and what would help"


def add_arguments(parser: argparse.ArgumentParser) -> None:
    """The subcommand's arguments."""
    parser.add_argument("server", metavar="SERVER", help="the server that dies, HOST or HOST:PORT")
    scenario.add_scenario(parser)
    parser.add_argument("--no-changes", action="store_true", help="don't try which change would help")
    parser.add_argument("--all-changes", action="store_true", help="print every change that would help, not only the best five")


def wrapped(label: str, lines: list[str]) -> list[str]:
    """Lines after a label, the label on the first one alone."""
    return ["%-12s %s" % (label if not number else "", line) for number, line in enumerate(lines)]


def head_lines(death: Death, told: scenario.Scenario) -> list[str]:
    """Who is promoted, who follows and who is lost."""
    if not death.had_replicas:
        return wrapped("promoted", ["nobody: no replica is below %s" % death.dead])
    if not death.chosen:
        return wrapped("promoted", ["nobody: %s" % death.refusal])
    label = "promoted" if death.outcome.promoted else "successor"
    return [*wrapped(label, [death.chosen]), *wrapped("follow", advice.follow_lines(death) or ["none"]),
            *wrapped("lost", advice.lost_lines(death, told.notes) or ["none"])]


def change_lines(trials: list[changes.Trial], now: Death, every: bool) -> list[str]:
    """Which change would have helped, the best first."""
    better = changes.helpful(trials, now)
    shown = better if every else better[:5]
    lines = []
    for change, death in shown:
        lines += [change.what, "  -> " + changes.gain_text(death), "     " + change.how]
    if len(better) > len(shown):
        lines.append("(%d more: --all-changes)" % (len(better) - len(shown)))
    untried = [trial for trial in trials if not trial.death]
    lines += ["not tried: %s (%s)" % (trial.change.what, trial.reason) for trial in untried]
    return wrapped("would help", lines or ["no single change of those that were tried (%d)" % len(trials)])


def report(told: scenario.Scenario, gone: losses.Gone, trials: list[changes.Trial] | None, every: bool) -> list[str]:
    """The report's lines."""
    death, warnings = gone.death, advice.warnings_of(told, gone.death)
    lines = ["%s dies." % death.dead, "", *head_lines(death, told), *wrapped("gone", gone.lines())]
    to_do = advice.to_do(gone)
    lines += ["", *wrapped("to do", to_do)] if to_do else []
    lines += ["", *change_lines(trials, death, every)] if trials is not None else []
    return lines + (["", *wrapped("look at", warnings)] if warnings else [])


def as_json(told: scenario.Scenario, gone: losses.Gone, trials: list[changes.Trial] | None, notes: list[str]) -> dict[str, Any]:
    """The report as JSON."""
    death = gone.death
    better = changes.helpful(trials, death) if trials is not None else []
    return {**death.as_json(), "transactions": gone.as_json(), "to_do": advice.to_do(gone),
            "warnings": advice.warnings_of(told, death), "notes": notes,
            "changes": [{"change": change.what, "how": change.how, **then.as_json()} for change, then in better]}


def run(given: argparse.Namespace) -> int:
    """The exit status."""
    program, told = Program(), scenario.read(given.scenario, given.notes)
    state = tables_of(scenario.state_of(program, told).out)
    dead = scenario.known(told, given.server)
    death = losses.measured(told, death_of(program, told.data, state.servers, dead))
    gone = losses.gone_of(program, told, death)
    trials = None if given.no_changes or not death.had_replicas else changes.trials_of(program, told, death)
    notes = told.repeated(death.names())
    if given.json:
        print(json.dumps(as_json(told, gone, trials, notes), indent=1))
    else:
        print("\n".join(report(told, gone, trials, given.all_changes)))
        print("".join("note: %s\n" % note for note in notes), end="", file=sys.stderr)
    return 0
