"""Reads a running topology, and writes it as a scenario of orch.

It asks servers by SELECT and SHOW alone, through the command line client. From the servers that are named it finds the others.
Without --exact it lists no binary log: it reads sources, threads, settings, coordinates and GTID sets. Coordinates of the root's log
are then the server's own. With --exact it lists each transaction of each binary log.

What the import can't know goes to standard error, in lines that begin with `note:`. The same notes go into the file of notes, and
other subcommands repeat them. docs/REAL.md explains them.

Exit status: 0 written; 2 wrong arguments; 3 no scenario, with all reasons on standard error. Nothing is written then.
"""
from __future__ import annotations

import argparse
import json
import sys
from collections.abc import Callable
from typing import Any

from orch_tools import notes
from orch_tools.client import Client, Down, Refused, add_options, aliases_in, full
from orch_tools.exact_scenario import Writer
from orch_tools.light_import import Light, Wanted, found_names
from orch_tools.light_scenario import LightWriter, TooMuch, problem_line
from orch_tools.operator_file import RULES, Operator, Unfit, read_files
from orch_tools.progress import Progress
from orch_tools.reading import Cant
from orch_tools.topology import Topology

HELP = "read a running topology, and write it as a scenario"

Made = tuple[dict[str, Any], dict[str, Any], notes.Notes]


def name_and(what: str) -> Callable[[str], tuple[str, str]]:
    """The type of an argument NAME=VALUE."""
    def read(text: str) -> tuple[str, str]:
        name, equals, value = text.partition("=")
        if not (name and equals and value):
            raise argparse.ArgumentTypeError("%s isn't NAME=%s" % (text, what))
        return full(name), full(value) if what == "SOURCE" else value
    return read


def positive(text: str) -> int:
    """The type of an argument that is a number from 1 on."""
    if not (text.isdecimal() and int(text) > 0):
        raise argparse.ArgumentTypeError("%s is no number from 1 on" % text)
    return int(text)


def turns_of(text: str) -> list[Any]:
    """The type of an argument that is a list of turns."""
    try:
        found = json.loads(text)
    except ValueError as reason:
        raise argparse.ArgumentTypeError("no JSON: %s" % reason) from None
    if not isinstance(found, list):
        raise argparse.ArgumentTypeError("a list of turns is wanted")
    return found


def add_arguments(parser: argparse.ArgumentParser) -> None:
    """The subcommand's arguments."""
    parser.add_argument("servers", nargs="+", metavar="HOST:PORT", type=full,
                        help="servers of the topology, as the replicas name their sources; one is enough")
    add_options(parser)
    parser.add_argument("--out", metavar="FILE", help="write the scenario there, and beside it FILE's .notes.json and .map.json; without it to standard output")
    parser.add_argument("--notes", metavar="FILE", help="write the notes there")
    parser.add_argument("--map", metavar="FILE", help="write there which coordinate of the scenario is which of the servers")
    parser.add_argument("--operator", action="append", default=[], metavar="FILE",
                        help="data centres, promotion rules, downtimes, filters, block periods and hooks: a file of one's own, or orchestrator.conf.json")
    parser.add_argument("--rule", action="append", default=[], metavar="NAME=RULE", type=name_and("RULE"), help="a promotion rule: %s" % ", ".join(RULES))
    parser.add_argument("--dc", action="append", default=[], metavar="NAME=CENTRE", type=name_and("CENTRE"), help="a data centre")
    parser.add_argument("--below", action="append", default=[], metavar="NAME=SOURCE", type=name_and("SOURCE"),
                        help="the source of a server that isn't reached")
    parser.add_argument("--without", action="append", default=[], metavar="NAME", type=full, help="leave this server out")
    parser.add_argument("--only-named", action="store_true", help="find no other servers")
    parser.add_argument("--broken-ok", action="store_true", help="accept broken appliers and receivers, as if a start made them go on")
    parser.add_argument("--turns", default=[], metavar="JSON", type=turns_of, help="turns after those of the scenario")
    parser.add_argument("--exact", action="store_true", help="list each transaction of each binary log")
    parser.add_argument("--last-files", type=positive, metavar="N", help="with --exact: read only the N newest files of each binary log")
    parser.add_argument("--jobs", type=positive, default=32, metavar="N", help="ask so many servers at a time (%(default)d)")


class NoScenario(Exception):
    """Why there is none: all reasons."""

    def __init__(self, reasons: list[str]) -> None:
        Exception.__init__(self, "\n".join(reasons))
        self.reasons = reasons


def operator_of(given: argparse.Namespace) -> Operator:
    """What the operator's files and arguments say. Unfit if a rule isn't one."""
    operator = read_files(given.operator)
    for name, rule in given.rule:
        if rule not in RULES:
            raise Unfit("--rule %s=%s: one of %s" % (name, rule, ", ".join(RULES)))
    for key, found in (("rule", given.rule), ("dc", given.dc)):
        operator.servers += [(name, {key: value}) for name, value in found]
    return operator


def wanted_of(given: argparse.Namespace) -> Wanted:
    """What is to be read."""
    return Wanted(list(dict.fromkeys(given.servers)), aliases_in(given), dict(given.below), given.without, given.only_named, given.jobs)


def light(given: argparse.Namespace, client: Client, progress: Progress) -> Made:
    """The scenario, the map and the notes of a reading that lists no log."""
    read = Light.read(client, wanted_of(given), progress)
    problems = read.problems(given.broken_ok)
    if problems:
        reasons = [problem_line(name, problem) for name, problem in problems]
        more = ["--broken-ok accepts broken ones"] if any(problem.broken for _, problem in problems) else []
        raise NoScenario(reasons + more + ["--without NAME leaves a server out"])
    progress.tell("write the scenario")
    writer = LightWriter(read)
    scenario = writer.scenario()
    return scenario, writer.map(), writer.all_notes()


def exact(given: argparse.Namespace, client: Client, progress: Progress) -> Made:
    """The same of a reading that lists each transaction."""
    wanted = wanted_of(given)
    names = wanted.names if wanted.only_named else found_names(client, wanted, progress)
    topology = Topology(client, [name for name in names if name not in wanted.without], wanted.aliases, given.last_files, wanted.below, given.broken_ok,
                        given.jobs)
    progress.tell("write the scenario")
    writer = Writer(topology)
    scenario = writer.scenario()
    found = notes.Notes()
    for text in topology.notes + writer.notes + [note for server in topology.servers.values() for note in server.notes]:
        found.add("other", text)
    return scenario, writer.map(), found


def text_of(scenario: dict[str, Any]) -> str:
    """A scenario's text, a line for each server."""
    parts = ["%s: %s" % (json.dumps(key), json.dumps(value)) for key, value in scenario.items() if key not in ("servers", "turns")]
    servers = ",\n  ".join(map(json.dumps, scenario["servers"]))
    return "{%s,\n \"servers\": [\n  %s],\n \"turns\": %s}\n" % (",\n ".join(parts), servers, json.dumps(scenario["turns"]))


def write(path: str, what: dict[str, Any]) -> None:
    """A JSON file."""
    with open(path, "w", encoding="utf-8") as file:
        json.dump(what, file, indent=1)
        file.write("\n")


def run(given: argparse.Namespace, make: Callable[..., Client] = Client) -> int:
    """The exit status."""
    progress = Progress()
    try:
        operator = operator_of(given)
        client = make(given.client, given.user, given.client_option)
        scenario, found, told = (exact if given.exact else light)(given, client, progress)
    except Unfit as reason:
        print(reason, file=sys.stderr)
        return 2
    except (NoScenario, Cant, Down, Refused, TooMuch) as reason:
        progress.end()
        for line in getattr(reason, "reasons", [str(reason)]):
            print("no scenario: %s" % line, file=sys.stderr)
        return 3
    progress.end()
    scenario = operator.put(scenario)
    scenario["turns"] += given.turns
    operator.note_absent([server["name"] for server in scenario["servers"]])
    told.take(operator.notes)
    told.say()
    try:
        put(given, scenario, found, told)
    except OSError as reason:
        print("no scenario: %s" % reason, file=sys.stderr)
        return 3
    return 0


def put(given: argparse.Namespace, scenario: dict[str, Any], found: dict[str, Any], told: notes.Notes) -> None:
    """Writes what was made to the places that the arguments name."""
    way = "exact" if given.exact else "light"
    if given.notes or given.out:
        told.write(given.notes or notes.beside(given.out), way)
    if given.map or given.out:
        write(given.map or notes.beside(given.out, "map"), found)
    if given.out:
        with open(given.out, "w", encoding="utf-8") as file:
            file.write(text_of(scenario))
    else:
        sys.stdout.write(text_of(scenario))
