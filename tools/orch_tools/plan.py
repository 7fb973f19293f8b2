"""A printed plan as it is read: servers by their letters, and lines of statements with what must be true before each."""
from __future__ import annotations

import dataclasses
import re
from collections.abc import Iterable

from orch_tools.client import Kind

LETTER = r"([A-Z]\d*)"
VALUE = r"([A-Z]\d*\.(?:exec|read|end))"
WARNING = "# Rehearsed on a model"

# What may come after the -- of a line. docs/REAL.md explains each.
CONDITIONS = {
    "note": "note %s" % LETTER,
    "by hand": r"note ([A-Z]\d*)\.match, by hand: (.+)",
    "below": "must be below %s" % LETTER,
    "root": "must be below nothing",
    "again": "again until %s >= %s" % (VALUE, VALUE),
    "answers": "again until it answers 0",
    "applier": "until then its applier must be on",
    "idle": r"again until %s\.exec = %s\.read or its applier is off" % (LETTER, LETTER),
    "unless": "not where %s >= %s" % (VALUE, VALUE),
    "at": r"only where %s is below %s(\.source)? at %s, stopped" % (LETTER, LETTER, VALUE),
    "ends": "only where %s ends at %s, stopped" % (LETTER, VALUE),
    "contained": r"only where %s\.gtids are in %s\.gtids, stopped" % (LETTER, LETTER),
    "purged": r"only where %s\.purged is in %s\.gtids" % (LETTER, LETTER),
    "attached": "only where %s is attached( by auto position)?, stopped" % LETTER,
    "detached": "only where %s is detached( by auto position)?, stopped" % LETTER,
    "unmoved": "only where %s stands as it did then, stopped" % LETTER,
    "unreached": "only while it isn't reached",
    "chosen": "chosen before %s" % LETTER,
    "lost": "lost, (?:unreachable|behind %s|ahead of %s|no kept pair of %s)" % (LETTER, LETTER, LETTER),
    "compared": r"only where %s\.exec (>=?) %s\.exec" % (LETTER, LETTER),
}

FILE = r"SOURCE_LOG_FILE=:[A-Z]\d*\.(?:exec|end|match)\.file, SOURCE_LOG_POS=:[A-Z]\d*\.(?:exec|end|match)\.pos"
HOST = r"SOURCE_HOST='[A-Za-z0-9._-]+', SOURCE_PORT=\d+"
OWN = r"SOURCE_HOST='(?://)?:[A-Z]\d*\.source\.host', SOURCE_PORT=:[A-Z]\d*\.source\.port"
LOGIN = r"SOURCE_USER=:user, SOURCE_PASSWORD=:password"

# The statements that a plan may have, and no others.
STATEMENTS = {
    "stop": r"STOP REPLICA",
    "stop receiver": r"STOP REPLICA IO_THREAD",
    "start": r"START REPLICA",
    "until": r"START REPLICA UNTIL %s" % FILE,
    "status": r"SHOW REPLICA STATUS",
    "end": r"SHOW BINARY LOG STATUS",
    "events": r"SHOW BINLOG EVENTS",
    "wait": r"SELECT WAIT_FOR_EXECUTED_GTID_SET\(':[A-Z]\d*\.gtids', \d+\)",
    "change": r"CHANGE REPLICATION SOURCE TO (?:(?:%s|%s), )?%s(?:, SOURCE_AUTO_POSITION=0)?(?:, %s)?" % (HOST, OWN, FILE, LOGIN),
    "auto": r"CHANGE REPLICATION SOURCE TO %s, SOURCE_AUTO_POSITION=1(?:, %s)?" % (HOST, LOGIN),
    "own": r"CHANGE REPLICATION SOURCE TO %s" % OWN,
    "reset": r"RESET REPLICA ALL",
    "refuse": r"SET PERSIST super_read_only=ON",
    "take": r"SET PERSIST super_read_only=OFF",
    "take too": r"SET PERSIST read_only=OFF",
}
CHANGES = ("change", "auto", "own")


class Unread(Exception):
    """The text is no plan. Nothing was sent."""


@dataclasses.dataclass
class Statement:
    """A statement of MySQL 8, and which of STATEMENTS it is."""
    kind: str
    text: str


@dataclasses.dataclass
class Line:
    """A line: for which server it is, what is sent, and each condition as text and as its name with its parts."""
    number: int
    letter: str
    statements: list[Statement]
    notes: list[str]
    conditions: list[tuple[str, tuple[str, ...]]]

    def condition(self, kind: str) -> tuple[str, ...] | None:
        """The parts of this condition, if the line has it."""
        return next((parts for name, parts in self.conditions if name == kind), None)

    def has(self, *kinds: str) -> bool:
        """Whether a statement is of one of these kinds."""
        return any(statement.kind in kinds for statement in self.statements)


@dataclasses.dataclass
class Plan:
    """The servers' names by their letters, and the lines."""
    names: dict[str, str]
    lines: list[Line]

    @property
    def needs_login(self) -> bool:
        """Whether a line has a login."""
        return any(":user" in statement.text for line in self.lines for statement in line.statements)

    @property
    def is_recovery(self) -> bool:
        """Whether it begins with a server that mustn't be reached."""
        return any(line.condition("unreached") is not None for line in self.lines)

    @property
    def unreached(self) -> set[str]:
        """The servers that mustn't be reached."""
        return {line.letter for line in self.lines if line.condition("unreached") is not None}

    @property
    def by_hand(self) -> dict[str, Line]:
        """For each letter whose coordinate is found by hand, the line that asks for it."""
        return {line.letter: line for line in self.lines if line.condition("by hand")}


def one_of(patterns: dict[str, str], text: str, at: str) -> tuple[str, tuple[str, ...]]:
    """Which of these patterns a text is, and its parts."""
    for name, pattern in patterns.items():
        found = re.fullmatch(pattern, text)
        if found:
            return name, found.groups()
    raise Unread("%s: a plan has no such %s: %s" % (at, "statement" if patterns is STATEMENTS else "condition", text))


def line_of(text: str, at: str) -> Line:
    """A numbered line."""
    found = re.fullmatch(r"(\d+) %s(?: (?!--)(.+?);)?(?: -- (.+))?" % LETTER, text)
    if not found or not (found.group(3) or found.group(4)):
        raise Unread("%s is no line of a plan, which is NUMBER LETTER STATEMENTS; -- CONDITIONS: %s" % (at, text[:80]))
    at += " (line %s of the plan)" % found.group(1)
    statements = [Statement(one_of(STATEMENTS, one, at)[0], one) for one in found.group(3).split("; ")] if found.group(3) else []
    notes = found.group(4).split("; ") if found.group(4) else []
    return Line(int(found.group(1)), found.group(2), statements, notes, [one_of(CONDITIONS, note, at) for note in notes])


def letters_in(line: Line) -> Iterable[str]:
    """The letters that a line speaks of."""
    yield line.letter
    for name, parts in line.conditions:
        spoken = parts[:1] if name == "by hand" else parts
        yield from (part.split(".")[0] for part in spoken if part and re.fullmatch(r"[A-Z]\d*(\..*)?", part))
    for statement in line.statements:
        yield from re.findall(r":([A-Z]\d*)\.", statement.text)


def refuse_other_texts(text: str) -> None:
    """Refuses a text that is often given in place of a plan, with what it is."""
    if not text.strip():
        raise Unread("no plan: the text is empty")
    if text.lstrip()[0] in "{[":
        raise Unread("line 1 is JSON: this is a scenario, and no plan. `orch -c COMMAND -i HOST:PORT --plan < SCENARIO` prints one")
    if text.startswith("refused "):
        raise Unread("line 1 is a refusal, and no plan: %s" % text.split("\n", 1)[0])


def checked(plan: Plan, has_warning: bool) -> Plan:
    """The plan, if its lines are numbered through and speak of its servers. It may have no lines: then there is nothing to do."""
    if not plan.lines and not has_warning:
        raise Unread("no plan: it has neither the warning with which a plan begins nor a numbered line")
    for number, line in enumerate(plan.lines, 1):
        if line.number != number:
            raise Unread("line %d of the plan is missing: %d comes in its place" % (number, line.number))
        for letter in letters_in(line):
            if letter not in plan.names:
                raise Unread("line %d of the plan speaks of %s, but no line `server %s HOST:PORT` names it" % (number, letter, letter))
    return plan


def read_plan(text: str) -> Plan:
    """The plan that a text is; Unread with the line and the reason if it is none. Lines that are empty or begin with # say nothing to a runner."""
    refuse_other_texts(text)
    plan = Plan({}, [])
    for number, line in enumerate(text.splitlines(), 1):
        server = re.fullmatch(r"server %s ([A-Za-z0-9._-]+:\d{1,5})" % LETTER, line)
        if server and server.group(1) in plan.names:
            raise Unread("line %d: there are two servers %s" % (number, server.group(1)))
        if server:
            plan.names[server.group(1)] = server.group(2)
        elif line and not line.startswith("#"):
            plan.lines.append(line_of(line, "line %d" % number))
    return checked(plan, text.startswith(WARNING))


def for_server(kind: Kind, statement: str) -> str | None:
    """A statement in the syntax of a server of this kind, or None if it has none that does something."""
    if kind.since(8, 0, 23):
        return statement
    if kind.maria and statement == "SET PERSIST read_only=OFF":
        return None
    words = [("SET PERSIST super_read_only", "SET GLOBAL read_only")] if kind.maria else []
    words += [] if kind.since(8, 0, 0) else [("SET PERSIST", "SET GLOBAL")]
    words += [("CHANGE REPLICATION SOURCE", "CHANGE MASTER"), ("REPLICA", "SLAVE")]
    words += [("SOURCE_AUTO_POSITION=0", "MASTER_USE_GTID=no")] if kind.maria else []
    for new, old in words:
        statement = statement.replace(new, old)
    if kind.maria:
        statement = re.sub(r", SOURCE_RETRY_COUNT=\d+", "", statement)
    return re.sub(r"\bSOURCE_", "MASTER_", statement)
