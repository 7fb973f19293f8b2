"""Scenarios as the wrapper reads and edits them."""
from __future__ import annotations

import argparse
import copy
import functools
import json
import sys
from typing import Any

from orch_tools import faults, notes
from orch_tools.json_text import plain
from orch_tools.light_map import LightMap
from orch_tools.near import did_you_mean, listed
from orch_tools.program import Answer, NoAnswer, Program

MOST_BYTES = 67108864
MOST_TURNS = 1000000


class Faulty(NoAnswer):
    """The scenario has a fault. The lines name the place and the fault."""


class Scenario:
    """A scenario, with the text from which it was read, and the import's notes and map beside it."""

    def __init__(self, raw: bytes, name: str, told: notes.Notes | None = None, light: LightMap | None = None) -> None:
        self.raw, self.name, self.notes, self.map = raw, name, told or notes.Notes(), light
        self.text = plain_bytes(raw)

    @functools.cached_property
    def data(self) -> dict[str, Any]:
        """The scenario's value, an empty one where it isn't an object."""
        try:
            value = json.loads(self.text)
        except (ValueError, RecursionError):
            return {}
        return value if isinstance(value, dict) else {}

    def servers(self) -> list[dict[str, Any]]:
        """The servers as they are written."""
        return self.data.get("servers", [])

    def full_names(self) -> list[str]:
        """The servers' names HOST:PORT in the scenario's order."""
        return [full(server["name"]) for server in self.servers()]

    def repeated(self, names: set[str]) -> list[str]:
        """The notes on which an answer that names these servers may rest."""
        return [str(note) for note in self.notes if note.repeat and (note.server is None or full(note.server) in names)]


def plain_bytes(raw: bytes) -> bytes:
    """The bytes that the program gets: without comments and `$schema`. What isn't UTF-8 or has neither stays as it is."""
    if len(raw) > MOST_BYTES or (b"//" not in raw and b'"$schema"' not in raw):
        return raw
    try:
        return plain(raw.decode("utf-8")).encode()
    except UnicodeDecodeError:
        return raw


def full(name: str) -> str:
    """A server's name as the program prints it."""
    return name if ":" in name else name + ":3306"


def short(name: str) -> str:
    """A server's name without the port 3306."""
    return name.removesuffix(":3306")


def more_turns(data: dict[str, Any], turns: list[list[Any]]) -> dict[str, Any]:
    """The scenario with these turns after its own."""
    return {**of_one_node(data), "turns": [*data.get("turns", []), *turns]}


def of_one_node(data: dict[str, Any]) -> dict[str, Any]:
    """The scenario as one orchestrator's, so that turns can follow its own. NoAnswer where its turns are several orchestrators'."""
    if data.get("nodes", 1) == 1:
        return data
    if any(turn[0] in ("claim", "release", "as") for turn in data.get("turns", [])):
        raise NoAnswer("the turns of this scenario are those of several orchestrators (`nodes`): nothing can be added to them")
    return {**data, "nodes": 1}


def edited(data: dict[str, Any], name: str, **keys: Any) -> dict[str, Any]:
    """The scenario with these keys of one server."""
    changed = copy.deepcopy(data)
    for server in changed["servers"]:
        if full(server["name"]) == name:
            server.update(keys)
    return changed


def add_scenario(parser: argparse.ArgumentParser) -> None:
    """The arguments by which a subcommand gets its scenario and its notes."""
    parser.add_argument("scenario", nargs="?", default="-", metavar="SCENARIO", help="the scenario's file; without it, standard input")
    add_notes(parser)


def add_notes(parser: argparse.ArgumentParser) -> None:
    """The arguments for the notes of an import, and for the form of the report."""
    parser.add_argument("--notes", metavar="FILE", help="the notes of `orch import`; without it, those beside the scenario's file")
    parser.add_argument("--json", action="store_true", help="print the report as JSON")


def read_bytes(path: str) -> bytes:
    """The bytes of a scenario's file, or of standard input."""
    if path == "-":
        if sys.stdin.isatty():
            print("orch: the scenario is read from standard input (end it with Ctrl-D)", file=sys.stderr)
        return sys.stdin.buffer.read(MOST_BYTES + 1)
    try:
        with open(path, "rb") as file:
            return file.read(MOST_BYTES + 1)
    except OSError as fault:
        raise NoAnswer("%s: %s" % (path, fault.strerror)) from None


def read_notes(path: str | None, scenario: str) -> notes.Notes:
    """The notes of this file, or those beside the scenario's."""
    try:
        if path:
            return notes.read(path)
        return notes.Notes() if scenario == "-" else notes.read_beside(scenario)
    except (OSError, ValueError, KeyError, TypeError) as fault:
        raise NoAnswer("%s has no notes of an import: %s" % (path or notes.beside(scenario), fault)) from None


def read_map(scenario: str) -> LightMap | None:
    """The map beside a scenario's file, if there is one."""
    try:
        return None if scenario == "-" else LightMap.beside(scenario)
    except (OSError, ValueError, KeyError, TypeError) as fault:
        raise NoAnswer("%s is no map of an import: %s" % (notes.beside(scenario, "map"), fault)) from None


def read(path: str, notes_path: str | None = None) -> Scenario:
    """The scenario of a file, `-` for standard input."""
    return Scenario(read_bytes(path), "standard input" if path == "-" else path, read_notes(notes_path, path), read_map(path))


def state_of(program: Program, scenario: Scenario) -> Answer:
    """What `run` answers. Faulty where the scenario has a fault, with its explanation."""
    answer = program.ask(scenario.text, "-c", "run")
    if answer.status == 2:
        raise Faulty("\n".join([answer.reason, *faults.explained(answer.err, scenario.raw, scenario.name)]))
    if not answer.has_report:
        raise NoAnswer(answer.reason)
    return answer


def known(scenario: Scenario, name: str) -> str:
    """A server's full name. NoAnswer where no server has it."""
    names = scenario.full_names()
    if full(name) in names:
        return full(name)
    question = did_you_mean(full(name), names)
    raise NoAnswer("no server is called %s.%s There are: %s." % (full(name), question, listed(names)))
