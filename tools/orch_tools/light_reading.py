"""What one server reports in one call of the client, without listing a binary log."""
from __future__ import annotations

import dataclasses

from orch_tools.binary_log import HEADS
from orch_tools.client import (NOWHERE, BadName, Client, Coord, Down, Kind, NoClient, Refused, Row, address, applier_in, are_idle, coord, count, executed_in,
                               has_read_all, is_not_reached, is_on,
                               number_of, pick, read_in, receiver_in, source_of)
from orch_tools.gtid_sets import GtidSet
from orch_tools.notes import Notes
from orch_tools.reading import FILTERS, broken_in, channel_in, until_of

MARK = "orch_part"
NO_LOG = "ERROR 1381"
# The bytes after a file's last transaction: a Rotate event with its checksum, without the name of the next file.
TAIL = 31
# No head is longer than this, unless its sets have many UUIDs; if a file's head isn't known, a coordinate below is taken for its first.
LONGEST_HEAD = 334
# What an encrypted file has besides, which no position counts.
ENCRYPTED = 512


@dataclasses.dataclass
class Problem:
    """Why a scenario can't have a server. `broken` ones are accepted if the operator asks for it."""
    text: str
    broken: bool = False


@dataclasses.dataclass
class Status:
    """A server as it reports itself. `source` is the name of the one above it, `files` the size of each file of its binary log by number.
    `logged` (of MariaDB) is the last number that its log has of each domain and server id. `idle` is true if its applier has read its whole relay log."""
    name: str
    up: bool = False
    version: str | None = None
    maria: bool = False
    server_id: int | None = None
    uuid: str | None = None
    identity: str | None = None
    read_only: bool = False
    logs: bool = True
    gtid: bool = False
    binlog_format: str | None = None
    logged: dict[tuple[str, int], int] = dataclasses.field(default_factory=dict)
    executed: GtidSet = dataclasses.field(default_factory=GtidSet)
    purged: GtidSet = dataclasses.field(default_factory=GtidSet)
    retrieved: GtidSet = dataclasses.field(default_factory=GtidSet)
    end: Coord | None = None
    files: dict[int, int] = dataclasses.field(default_factory=dict)
    base: str = "mysql-bin"
    heads: dict[int, int] = dataclasses.field(default_factory=dict)
    source: str | None = None
    detached: bool = False
    auto: bool = False
    until: Coord | None = None
    exec: Coord = NOWHERE
    read: Coord = NOWHERE
    io: str = "No"
    sql: bool = False
    idle: bool = False
    source_id: int | None = None
    source_uuid: str | None = None
    problems: list[Problem] = dataclasses.field(default_factory=list)
    replicas: list[Row] = dataclasses.field(default_factory=list)

    def __post_init__(self) -> None:
        self.longest_head, self.tells_heads = LONGEST_HEAD, True
        self.notes = Notes()

    def note(self, code: str, text: str) -> None:
        """A note about this server."""
        self.notes.add(code, text, self.name)

    # ---- its log in bytes: heads and tails take no room, so the end of a file and the first byte of the next are one place

    @property
    def tail(self) -> int:
        """How many bytes lie after the last transaction of a file that isn't the last one."""
        return TAIL + len(self.base) + len(".000001")

    def file_end(self, number: int) -> int | None:
        """The position after the last transaction of a file; None if the file isn't listed."""
        if self.end and number == self.end.number:
            return self.end.position
        return max(4, self.files[number] - self.tail) if number in self.files else None

    @property
    def first_kept(self) -> int:
        """The first file that it keeps; 1 if it lists none."""
        return min(self.files, default=1)

    def norm(self, at: Coord) -> Coord:
        """A coordinate as a scenario has it: position 4 up to the end of a file's head, and a file's end within its tail."""
        head = self.heads.get(at.number, 4 if self.up and self.tells_heads else self.longest_head)
        if at.position <= head:
            return Coord(at.number, 4)
        end = self.file_end(at.number)
        is_last = self.end is not None and at.number == self.end.number
        return Coord(at.number, end if end is not None and end < at.position and not is_last else at.position)


def parts_of(text: str) -> dict[str, list[Row]]:
    """The rows of several answers, by the names that mark them."""
    found: dict[str, list[Row]] = {}
    rows: list[Row] = []
    head: list[str] | None = None
    lines = iter(text.split("\n"))
    for line in lines:
        if line == MARK:
            rows, head = found.setdefault(next(lines, ""), []), None
        elif line and head is None:
            head = line.split("\t")
        elif line:
            rows.append(dict(zip(head or [], line.split("\t"))))
    return found


def settings_of(kind: Kind) -> str:
    """The statement of a server's settings and sets."""
    own = "SELECT @@version v, @@server_id i, @@global.read_only r, @@log_bin b, @@global.%s u, @@global.%s w" % (kind.updates, kind.workers)
    if kind.maria:
        return own + ", @@global.gtid_binlog_state g"
    return own + ", @@server_uuid uuid, @@global.gtid_mode m, @@global.gtid_executed e, @@global.gtid_purged p"


def statements(kind: Kind) -> list[tuple[str, str]]:
    """What a server is asked, by parts. Its status as a replica comes first, its sets and the end of its own log after it. So these have all that the
    status counts. What may be refused without harm comes last."""
    more = "SHOW GLOBAL VARIABLES WHERE Variable_name IN ('binlog_format', 'hostname', 'port')"
    return [("version", "SELECT @@version v"), ("status", kind.status), ("own", settings_of(kind)), ("end", kind.end), ("more", more), ("logs",
                                                                                                                                        "SHOW BINARY LOGS"),
            ("replicas", kind.replicas)]


class Asker:
    """Asks servers: each by the statements of the first one that answered, and again by its own if these differ."""

    def __init__(self, client: Client, aliases: dict[str, str]) -> None:
        self.client, self.aliases, self.asked = client, aliases, 0
        self.first: Kind | None = None

    def learn(self, names: list[str]) -> None:
        """Learns the statements of the first of these servers that answers."""
        for name in names if self.first is None else []:
            try:
                self.first = self.kind_in(*self.ask(name, [("version", "SELECT @@version v")]))
                return
            except NoClient:
                raise
            except (Down, Refused, BadName):
                continue

    def ask(self, name: str, parts: list[tuple[str, str]]) -> tuple[dict[str, list[Row]], str]:
        """The rows of each part up to the first that the server refuses, and that error. Down if it isn't reached, or is lost on the way."""
        text = "; ".join("SELECT '%s' %s; %s" % (part, MARK, statement) for part, statement in parts)
        self.asked += 1
        status, out, err = self.client.ran(*address(name), text)
        if status != 0 and is_not_reached(err):
            raise Down(err.strip())
        return parts_of(out), err.strip() if status != 0 else ""

    def read(self, name: str) -> Status:
        """One reading of a server. One that isn't reached is down; a statement that it refuses is a problem."""
        server = Status(name)
        try:
            told, error, kind = self.told(name)
            server.up = True
            self.fill(server, kind, told, error)
        except NoClient:
            raise
        except (Down, BadName) as reason:
            server = Status(name)
            server.note("not reached", "not reached (%s)" % str(reason).split("\n")[-1][:160])
        except Refused as reason:
            server.up = True
            server.problems.append(Problem(str(reason)))
        return server

    def told(self, name: str) -> tuple[dict[str, list[Row]], str, Kind]:
        """What a server answers to its own statements, and its kind."""
        kind = self.first or self.kind_in(*self.ask(name, [("version", "SELECT @@version v")]))
        told, error = self.ask(name, statements(kind))
        own = self.kind_in(told, error)
        if statements(own) != statements(kind):
            told, error = self.ask(name, statements(own))
        return told, error, own

    @staticmethod
    def kind_in(told: dict[str, list[Row]], error: str) -> Kind:
        """The kind of an answer with a version."""
        if not told.get("version"):
            raise Refused(error or "no answer to SELECT @@version")
        return Kind(told["version"][0]["v"])

    def fill(self, server: Status, kind: Kind, told: dict[str, list[Row]], error: str) -> None:
        """Takes all from an answer."""
        server.version, server.maria = kind.version, kind.maria
        if error and not error_is_of(told, "logs", NO_LOG, error) and not error_is_of(told, "replicas", "", error):
            raise Refused(error)
        if error and "replicas" in told:
            server.note("not found", "it doesn't list its replicas (%s): name them" % error[:120])
        fill_settings(server, told["own"][0], {row["Variable_name"]: row["Value"] for row in told["more"]}, bool(told["status"]))
        fill_log(server, told)
        fill_replica(server, told["status"], self.aliases)
        if told["status"] and count(told["own"][0]["w"]) > 1:
            server.note("parallel appliers", "%s parallel appliers; a scenario has one" % told["own"][0]["w"])

    def is_idle(self, server: Status) -> bool:
        """Whether no thread of its applier executes anything."""
        try:
            return are_idle(self.ask(server.name, [("threads", "SHOW PROCESSLIST")])[0].get("threads", []))
        except Down:
            return False

    def probe(self, server: Status, numbers: set[int]) -> None:
        """How long the heads of these files are, by their first events alone."""
        for number in sorted(numbers):
            log = "%s.%06d" % (server.base, number)
            try:
                told, error = self.ask(server.name, [("events", "SHOW BINLOG EVENTS IN '%s' LIMIT 6" % log)])
            except Down:
                continue
            server.tells_heads = server.tells_heads and not error
            for row in told.get("events", []):
                if row["Event_type"] not in HEADS:
                    break
                server.heads[number] = int(row["End_log_pos"])


def error_is_of(told: dict[str, list[Row]], part: str, word: str, error: str) -> bool:
    """Whether an error with this word ended the answer at this part: a part is marked before it is tried."""
    return next(reversed(told), None) == part and word in error


def fill_settings(server: Status, own: Row, more: Row, is_replica: bool) -> None:
    """Its settings and sets. Who has no source logs what it executes, whether it would log what it applies or not."""
    server.server_id, server.read_only = int(own["i"]), is_on(own["r"])
    server.logs = is_on(own["b"]) and (is_on(own["u"]) or not is_replica)
    server.uuid, server.gtid = own.get("uuid"), own.get("m") == "ON"
    server.identity = own.get("uuid") or "%s %s:%s" % (own["i"], more.get("hostname"), more.get("port"))
    server.binlog_format = more.get("binlog_format")
    server.logged = last_logged(own.get("g", ""))
    server.executed, server.purged = GtidSet.read(own.get("e", "")), GtidSet.read(own.get("p", ""))


def last_logged(state: str) -> dict[tuple[str, int], int]:
    """What @@gtid_binlog_state has: the last number of each domain and server id."""
    found = {}
    for gtid in filter(None, state.replace("\\n", "").split(",")):
        domain, server_id, number = gtid.strip().split("-")
        found[domain, int(server_id)] = int(number)
    return found


def fill_log(server: Status, told: dict[str, list[Row]]) -> None:
    """The end and the files of its binary log, and who reads it."""
    server.replicas = told.get("replicas", [])
    if not server.logs:
        return
    for end in told["end"]:
        server.end = coord(end["File"], end["Position"])
        server.base = server.end.file.rsplit(".", 1)[0]
        for key in ("Binlog_Do_DB", "Binlog_Ignore_DB"):
            if end.get(key):
                server.note("filtered", "a filter of its binary log (%s %s): a scenario's servers log all" % (key, end[key]))
    server.files = {number_of(log["Log_name"]): int(log["File_size"]) - (ENCRYPTED if log.get("Encrypted") == "Yes" else 0) for log in told.get("logs", [])}


def fill_replica(server: Status, rows: list[Row], aliases: dict[str, str]) -> None:
    """Its status as a replica."""
    if len(rows) > 1:
        server.problems.append(Problem("it has more than one source"))
    for row in rows[:1]:
        server.problems += [Problem(text) for text in [channel_in(row)] if text] + [Problem(text, broken=True) for text in broken_in(row)]
        server.source, server.detached = source_of(row, aliases)
        server.exec, server.read, server.io, server.sql = executed_in(row), read_in(row), receiver_in(row), applier_in(row)
        server.auto, server.idle = row.get("Auto_Position") == "1", has_read_all(row)
        server.retrieved = GtidSet.read(row.get("Retrieved_Gtid_Set") or "")
        server.source_id, server.source_uuid = count(pick(row, "Master_Server_Id", "Source_Server_Id")) or None, pick(row, "Master_UUID", "Source_UUID") or None
        server.until = until_of(row, server.sql)
        note_replica(server, row)


def note_replica(server: Status, row: Row) -> None:
    """What of its status no scenario has."""
    if count(row.get("SQL_Delay")):
        server.note("delayed", "a delayed replica (%s seconds): a scenario has no clock between servers" % row["SQL_Delay"])
    for key in FILTERS:
        if row.get(key):
            server.note("filtered", "a replication filter (%s %s): a scenario's replicas apply all" % (key, row[key]))
    if (row.get("Using_Gtid") or "No") != "No":
        server.note("MariaDB GTIDs", "it uses MariaDB's GTIDs; taken as replicating by coordinates")
