"""What the wrapper adds to an answer of the program: which argument or place is wrong, and what a refusal means."""
from __future__ import annotations

import os
import re
import sqlite3

from orch_tools import command_line, faults, refusals, table
from orch_tools.near import did_you_mean, listed
from orch_tools.scenario import Scenario, full

HEADER = b"SQLite format 3\x00"

# Of which argument, or of what beside the arguments, a refusal speaks.
ABOUT = {"SameInstance": "-i and -d", "NoSource": "-i", "NotDetached": "-i", "AlreadyDetached": "-i", "OtherCluster": "-i and -d",
         "Below": "-i and -d", "SourceHasNoSource": "the source of -i", "NotSibling": "-i and -d", "NotSameLog": "-i and -d",
         "DestNotLogging": "the new source of -i", "GtidOff": "-i; the scenario's `gtid` is false", "Errant": "-i", "NoPath": "-i and -d",
         "NotActionable": "-i", "OpenRecovery": "the cluster of -i", "Blocked": "the cluster of -i", "NoCandidate": "the replicas of -i",
         "NotMaster": "-i", "NotReplica": "-d", "NotQuiet": "the scenario: servers with a source accepted writes",
         "PseudoOff": "-i; the scenario's `pseudo` is 0"}


def indented(lines: list[str]) -> list[str]:
    """Lines, each after two spaces."""
    return ["  " + line if line else "" for line in lines]


def of_refusal(line: str, sections: refusals.Sections) -> list[str]:
    """The first paragraphs of the sections that a line of the program speaks of."""
    found = []
    for heading in sections.of(line):
        found += ["%s (docs/REFUSALS.md):" % heading, *indented(sections.first(heading))]
    return found


def unknown_instance(words: list[str], scenario: Scenario | None) -> list[str]:
    """Which server of the command line isn't in the scenario."""
    values = command_line.CommandLine(words).values
    names = scenario.full_names() if scenario else []
    found = []
    for option in ("-i", "-d"):
        name = full(values.get(option, ""))
        if option in values and names and name not in names:
            question = did_you_mean(name, names)
            found.append("orch: no server is called %s (after %s).%s There are: %s." % (name, option, question, listed(names)))
    asked = " and ".join(full(values[option]) for option in ("-i", "-d") if option in values)
    return found or ["orch: orchestrator's book has no instance %s" % asked]


def of_read_fault(words: list[str]) -> list[str]:
    """Why the scenario wasn't read."""
    path = command_line.CommandLine(words).values.get("--scenario")
    if path is None:
        return ["orch: standard input can't be read: it is closed, or a folder"]
    if os.path.isdir(path):
        return ["orch: %s (after --scenario) is a folder" % path]
    try:
        with open(path, "rb") as file:
            file.read(1)
    except OSError as fault:
        return ["orch: %s (after --scenario): %s" % (path, fault.strerror)]
    return ["orch: %s (after --scenario) can't be read to its end" % path]


def of_keeper_fault(words: list[str]) -> list[str]:
    """Why the database file isn't taken."""
    path = command_line.CommandLine(words).values.get("--db", "")
    folder = os.path.dirname(path) or "."
    if not os.path.isdir(folder):
        return ["orch: %s (after --db): there is no folder %s" % (path, folder)]
    if os.path.isdir(path):
        return ["orch: %s (after --db) is a folder" % path]
    if not os.path.exists(path):
        return ["orch: %s (after --db) can't be made: %s can't be written, or the disk is full" % (path, folder)]
    return ["orch: %s (after --db) %s" % (path, database_fault(path))]


def database_fault(path: str) -> str:
    """What is wrong with a file that is there."""
    try:
        with open(path, "rb") as file:
            head = file.read(len(HEADER))
    except OSError as fault:
        return "can't be read: %s" % fault.strerror
    if head and head != HEADER:
        return "is no database of SQLite; it stays as it is"
    if not os.access(path, os.W_OK):
        return "can't be written"
    try:
        with sqlite3.connect("file:%s?mode=rw" % path.replace("%", "%25").replace("?", "%3f"), uri=True, timeout=0) as database:
            database.execute("begin immediate")
            rows = database.execute("select number, key, text from kept").fetchall()
            database.rollback()
    except sqlite3.Error as fault:
        return "can't be used: %s" % fault
    odd = next((row for row in rows if row[0] not in range(1, 7)), None)
    return "has a row that orch doesn't read: table %s, key %s" % odd[:2] if odd else "has a row that orch doesn't read, or the disk is full"


def of_answer(words: list[str], status: int, err: str, scenario: Scenario | None) -> list[str]:
    """All that is added to an answer, by its status and its line on standard error."""
    sections = refusals.Sections()
    if status == 1:
        return command_line.explained(words)
    if status == 2 and scenario:
        return [*faults.explained(err, scenario.raw, scenario.name), *of_refusal(err, sections)]
    if status == 3:
        return of_read_fault(words)
    if status == 5:
        return of_keeper_fault(words)
    if status == 4:
        return ["orch: standard output can't be written: it is closed, or the disk is full"]
    if status == 7:
        first = unknown_instance(words, scenario) if re.search(r"refused 2 UnknownInstance", err) else []
        return first + about(words, err) + of_refusal(err, sections) + of_command(words, err)
    return []


def about(words: list[str], err: str) -> list[str]:
    """Of which argument a refusal speaks; nothing where the program's line names the server."""
    found = re.search(r"refused \d+ (\w+)", err)
    values = command_line.CommandLine(words).values
    text = ABOUT.get(found[1], "") if found else ""
    for option in ("-i", "-d"):
        text = re.sub(r"(?<!\w)%s(?!\w)" % option, "%s %s" % (option, full(values.get(option, ""))), text) if option in values else text
    return ["orch: this is about %s" % text] if text else []


def of_command(words: list[str], err: str) -> list[str]:
    """What often helps with a refused command."""
    if re.search(r"refused 20 NotActionable NoProblem", err) and command_line.CommandLine(words).command == "recover":
        return ["orch: after a death orchestrator has to poll: [\"fail\", SERVER] needs [\"polls\"] after it. `orch outage SERVER` does both."]
    command = table.BY_NAME.get(command_line.CommandLine(words).command or "")
    return ["  " + command.synopsis()] if command and "UnknownInstance" in err else []

