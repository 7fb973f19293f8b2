"""A scenario's fault in full: the file, line and column, the value there, what may be there, and what may have been meant."""
from __future__ import annotations

import json
import re
from collections.abc import Callable
from typing import Any

from orch_tools import not_json, table
from orch_tools.json_text import Lines, Place, Unread, places_in, plain, value_at
from orch_tools.near import did_you_mean, listed, nearest
from orch_tools.schema import Schema

FAULT = re.compile(r"scenario fault (?P<code>\d+) (?P<name>\w+)(?: (?P<path>/.*))?$", re.S)
LONGEST = 67108864

# What a stranger writes, and the key or the turn that is meant.
KEYS = {"master": "source", "slave_of": "source", "replica_of": "source", "host": "name", "hostname": "name", "readonly": "read_only",
        "super_read_only": "read_only", "gtids": "gtid", "data_center": "dc", "datacenter": "dc", "promotion_rule": "rule",
        "serverid": "server_id", "id": "server_id", "position": "at", "transactions": "executed", "log_bin": "logs"}
TURNS = {"kill": "fail", "crash": "fail", "stop": "fail", "die": "fail", "start": "heal", "poll": "polls", "sleep": "tick", "wait": "tick",
         "insert": "write", "flush": "rotate"}


class Fault:
    """One fault of a scenario, and what is known of its place."""

    def __init__(self, code: int, name: str, path: str, raw: bytes, file: str) -> None:
        self.code, self.name, self.path, self.raw, self.file = code, name, path, raw, file
        self.text = plain(raw.decode("utf-8", "replace"))
        self.schema = Schema()
        self.data, self.places = read(self.text)
        self.value = value_at(self.data, path)

    @property
    def key(self) -> str:
        """The last part of the pointer."""
        return self.path.rsplit("/", 1)[-1]

    @property
    def above(self) -> str:
        """The pointer to the object or the list that has the value."""
        return self.path.rsplit("/", 1)[0]

    @property
    def place(self) -> Place:
        """The place of the value in the text."""
        return self.places.get(self.path, Place(0, 0, 0))

    def shown(self) -> str:
        """The value as it is written, cut off where it is long."""
        text = " ".join(self.text[self.place.first:self.place.last].split())
        return text if len(text) <= 60 else text[:57] + "..."

    def servers(self) -> list[dict[str, Any]]:
        """The servers of the scenario that are objects."""
        servers = self.data.get("servers") if isinstance(self.data, dict) else None
        return [server for server in servers if isinstance(server, dict)] if isinstance(servers, list) else []

    def names(self) -> list[str]:
        """The servers' names as they are written."""
        return [server["name"] for server in self.servers() if isinstance(server.get("name"), str)]

    def server(self) -> dict[str, Any]:
        """The server that the pointer is in."""
        found = re.match(r"/servers/\d+", self.path)
        value = value_at(self.data, found.group()) if found else None
        return value if isinstance(value, dict) else {}

    def line(self, path: str) -> int:
        """The line of another value."""
        return Lines(self.text).at(self.places[path].start)[0] if path in self.places else 0


def read(text: str) -> tuple[Any, dict[str, Place]]:
    """A text's value and the places in it; nothing where it isn't JSON."""
    try:
        return json.loads(text), places_in(text)
    except (ValueError, Unread, RecursionError):
        return None, {}


def missing(fault: Fault) -> str:
    """A needed key that is absent."""
    wanted = fault.schema.at(fault.path).get("required", ["name"])
    absent = [key for key in wanted if not isinstance(fault.value, dict) or key not in fault.value]
    return "a needed key is missing: %s" % ", ".join("`%s`" % key for key in absent)


def bad_type(fault: Fault) -> str:
    """A value of another kind."""
    if re.fullmatch(r"/turns/\d+", fault.path):
        word = fault.value if isinstance(fault.value, str) else next(iter(fault.value), "") if isinstance(fault.value, dict) else ""
        form = " Did you mean `%s`?" % fault.schema.turn_text(word) if word in fault.schema.turns() else ""
        return "%s can't be a turn: a turn is a list.%s" % (fault.shown(), form)
    return "%s can't be here%s%s" % (fault.shown() or "the value", wanted_here(fault), number_in_text(fault))


def wanted_here(fault: Fault) -> str:
    """What may be at the fault's place, as a text."""
    found = re.fullmatch(r"/turns/(\d+)/(\d+)", fault.path)
    turn = value_at(fault.data, "/turns/" + found[1]) if found else None
    if isinstance(turn, list) and turn and turn[0] in fault.schema.turns():
        return ": the turn is %s" % fault.schema.turn_text(turn[0])
    wanted = "an object" if fault.path == "" else fault.schema.wanted(fault.path)
    return ": %s is wanted" % wanted if wanted else ""


def number_in_text(fault: Fault) -> str:
    """The question whether a text's own value was meant."""
    if isinstance(fault.value, str) and re.fullmatch("[0-9]+", fault.value):
        return ". Did you mean %s, without quotes?" % fault.value
    meant = {"ON": "true", "1": "true", "TRUE": "true", "OFF": "false", "0": "false", "FALSE": "false"}.get(str(fault.value).upper())
    return ". Did you mean %s?" % meant if meant and fault.schema.wanted(fault.path) == "true or false" else ""


def unknown_key(fault: Fault) -> str:
    """A key that isn't known, or that needs a source."""
    known = fault.schema.keys(fault.above)
    if re.fullmatch(r"/servers/\d+/\w+", fault.path) and fault.schema.only_below_a_source(fault.key):
        others = [key for key in fault.server() if key not in known and "source" in (KEYS.get(key.lower()), nearest(key, known))]
        question = "; it has `%s`. Did you mean `source`?" % others[0] if others else ""
        return "the key `%s` is only for a server with a `source`%s" % (fault.key, question)
    meant = KEYS.get(fault.key.lower())
    question = " Did you mean `%s`?" % meant if meant in known else did_you_mean(fault.key, known)
    return "there is no key `%s` here.%s%s" % (fault.key, question, "" if question else " There are: %s." % listed(known, 14))


def bad_name(fault: Fault) -> str:
    """A text that is no server's name."""
    more = " IPv6 addresses aren't taken: give a host name." if "[" in fault.shown() else ""
    return "%s is no server's name: HOST or HOST:PORT, of letters, digits, `.`, `_` and `-`.%s" % (fault.shown(), more)


def duplicate(fault: Fault) -> str:
    """A name or a UUID that an earlier server has."""
    for number, server in enumerate(fault.servers()):
        other = str(server.get(fault.key, "")).lower()
        if full(other) == full(str(fault.value).lower()):
            return "%s: the server of line %d has it already" % (fault.shown(), fault.line("/servers/%d/%s" % (number, fault.key)))
    return "%s: another server has it already" % fault.shown()


def full(name: str) -> str:
    """A name with its port."""
    return name if ":" in name else name + ":3306"


def unknown_name(fault: Fault) -> str:
    """A name that no server has."""
    meant = nearest(str(fault.value), fault.names())
    return "no server is called %s.%s" % (fault.shown(), " Did you mean `%s`?" % meant if meant else " There are: %s." % listed(fault.names()))


def bad_number(fault: Fault) -> str:
    """A number, a length or a word out of its range."""
    choice = turn_part(fault).get("enum") or fault.schema.at(fault.path).get("enum")
    if choice:
        question = " Did you mean `prefer`?" if fault.value == "must" else did_you_mean(str(fault.value), choice)
        return "%s isn't one of the words that may be here: %s.%s" % (fault.shown(), ", ".join(choice), question)
    return "%s is out of range%s" % (fault.shown(), wanted_here(fault))


def turn_part(fault: Fault) -> dict[str, Any]:
    """The rule of a part of a turn."""
    found = re.fullmatch(r"/turns/(\d+)/(\d+)", fault.path)
    turn = value_at(fault.data, "/turns/" + found[1]) if found else None
    parts = fault.schema.turns().get(turn[0], []) if isinstance(turn, list) and turn and isinstance(turn[0], str) else []
    return parts[int(found[2])] if found and int(found[2]) < len(parts) else {}


def too_many(fault: Fault) -> str:
    """More transactions than the source has."""
    source = full(str(fault.server().get("source", "")))
    above: dict[str, Any] = next((server for server in fault.servers() if full(str(server.get("name"))) == source), {})
    history = above.get("history")
    has = sum(run[2] for run in history) if history else above.get("executed", 0)
    return "executed %s, but its source %s has executed %d" % (fault.shown(), source, has)


def bad_place(fault: Fault) -> str:
    """A coordinate that is no place."""
    if "/flushes" in fault.path:
        return "%s: flushes rise or stay equal, and are at most the number of the server's transactions" % fault.shown()
    return ("%s is no position of the source's log: a coordinate is after a transaction, `at` belongs to `executed`, "
            "and `read` isn't before `at`" % fault.shown())


def bad_turn(fault: Fault) -> str:
    """A turn that isn't known, or that has too few or too many parts."""
    forms = fault.schema.turns()
    turn = fault.value if isinstance(fault.value, list) else []
    word = turn[0] if turn else None
    if word in forms:
        return "the turn `%s` has %d parts; here are %d: %s" % (word, len(forms[word]), len(turn), fault.schema.turn_text(word))
    if word in table.BY_NAME:
        return 'there is no turn `%s`. Did you mean ["command", "%s", {"i": SERVER}]?' % (word, word)
    meant = TURNS.get(str(word)) or nearest(str(word), forms)
    return "there is no turn `%s`.%s" % (word, " Did you mean %s?" % fault.schema.turn_text(meant) if meant else
                                         " There are: %s." % listed(forms, 24))


def bad_command(fault: Fault) -> str:
    """A command that isn't known, or without a key that it needs."""
    if isinstance(fault.value, str):
        meant = table.INSTEAD.get(fault.value)
        return "`%s` is no command.%s" % (fault.value, " Did you mean `%s`?" % meant if meant else did_you_mean(fault.value, table.BY_NAME))
    turn: Any = fault.value if isinstance(fault.value, list) else value_at(fault.data, fault.above)
    command = table.BY_NAME.get(turn[1]) if isinstance(turn, list) and len(turn) > 1 and isinstance(turn[1], str) else None
    if command is None:
        return "%s is no command's turn: %s" % (fault.shown(), fault.schema.turn_text("command"))
    keys = {"-i": "i", "-d": "d", "--promotion-rule": "rule", "--pattern": "pattern"}
    given = turn[2] if len(turn) > 2 and isinstance(turn[2], dict) else {}
    absent = [keys[name] for name in command.needs if keys[name] not in given]
    return "`%s` needs the key %s: [\"command\", \"%s\", {%s}]" % (
        command.name, " and ".join("`%s`" % key for key in absent), command.name, ", ".join('"%s": ..' % keys[name] for name in command.needs))


def bad_version(fault: Fault) -> str:
    """A version that isn't 1, or that isn't A.B.C."""
    if fault.path == "/version":
        return "%s: this program reads scenarios of version 1" % fault.shown()
    return "%s is no version: A.B.C, as \"8.0.36\"" % fault.shown()


def loop(fault: Fault) -> str:
    """A server that is below itself."""
    return "%s is below itself: follow the keys `source` from it" % (fault.server().get("name") or fault.shown())


def says(text: str) -> Callable[[Fault], str]:
    """A fault that one text with its value explains."""
    return lambda fault: text.replace("VALUE", fault.shown() or "the value")


SAYS: dict[int, Callable[[Fault], str]] = {
    3: missing, 4: bad_type, 5: unknown_key, 6: bad_name, 7: duplicate, 8: unknown_name, 9: bad_number, 10: loop,
    11: says("the source VALUE writes no binary log (\"logs\": false)"),
    12: says("VALUE is of a cluster with another label"),
    13: too_many, 14: bad_place,
    15: says("this history contradicts another one of its cluster: a transaction has the same predecessor and size in each"),
    16: says("the servers times the transactions are above 4,000,000, or the turns above 1,000,000"),
    17: says("VALUE is no coordinate, as \"mysql-bin.000001:4\""),
    18: says("VALUE is no UUID: hexadecimal digits in groups of 8, 4, 4, 4 and 12, with `-` between them"),
    19: duplicate,
    20: says("a server has either `history` or `source`, not both"),
    21: says("VALUE has no regular expression that the program takes"),
    22: bad_version, 23: bad_turn, 24: bad_command,
    26: says("`auto` needs `\"gtid\": true` at the top of the scenario"),
    27: says("VALUE is no hook: a hook is [TEXT, EXIT], with a text of 1 to 1000 bytes and an exit of 0 to 255"),
    28: says("with several `nodes` what orchestrator does is inside [\"as\", N, TURN]; with one there are no claims"),
}


def caret(text: str, line: int, column: int) -> list[str]:
    """The line of a place, and a sign below its column."""
    shown = Lines(text).line(line).replace("\t", " ")
    if not shown.strip() or "\x00" in shown:
        return []
    cut = max(0, column - 60)
    return ["    " + shown[cut:cut + 100], "    " + " " * (column - 1 - cut) + "^"]


def explained(line: str, raw: bytes, file: str) -> list[str]:
    """The explanation of the program's line of a scenario fault. `raw` is the scenario as it was read."""
    found = FAULT.match(line.strip())
    if not found:
        return []
    code = int(found["code"])
    if code == 1:
        return ["%s: the scenario has more than %d bytes" % (file, LONGEST)]
    text = raw.decode("utf-8", "replace")
    if code == 2:
        row, column, why = not_json.reason(raw if b"\xff" in raw[:2] else plain(text).encode())
        return ["%s:%d:%d: %s" % (file, row, column, why), *caret(text, row, column)]
    fault = Fault(code, found["name"], found["path"] or "", raw, file)
    row, column = Lines(fault.text).at(fault.place.start)
    return ["%s:%d:%d: %s" % (file, row, column, SAYS[code](fault)), *caret(text, row, column)]
