"""What is read of one server, each transaction of its binary log among it: its settings, its status as a replica, and its log."""
from __future__ import annotations

import dataclasses
import time

from orch_tools.binary_log import Group, count_until, groups_of, head_of
from orch_tools.client import (NOWHERE, Client, Coord, Down, Kind, Refused, Row, address, applier_in, coord, count, executed_in, is_on, number_of, pick,
                               read_in,
                               receiver_in, source_of)
from orch_tools.gtid_sets import GtidSet

FILTERS = ("Replicate_Do_DB", "Replicate_Ignore_DB", "Replicate_Do_Table", "Replicate_Ignore_Table", "Replicate_Wild_Do_Table",
           "Replicate_Wild_Ignore_Table", "Replicate_Rewrite_DB", "Replicate_Ignore_Server_Ids", "Replicate_Do_Domain_Ids",
           "Replicate_Ignore_Domain_Ids")


# A status of MySQL may be late by replica_checkpoint_period and so many seconds more; and that period if the server doesn't report it.
MORE, PERIOD = 0.2, 0.3


class Cant(Exception):
    """No scenario can say this."""


@dataclasses.dataclass
class Replica:
    """A server as a replica. `relay` is the file and the position up to which its applier has come in its relay log, `executed` its set."""
    source: str
    detached: bool
    auto: bool
    until: Coord | None
    source_id: int
    source_uuid: str | None
    executed: GtidSet
    relay: tuple[str | None, int]
    exec: Coord
    read: Coord
    io: str
    sql: bool


def is_broken(error: int) -> bool:
    """Whether a receiver that met this error stops again: one that only didn't reach its source (2000 to 2999) goes on."""
    return error != 0 and not 2000 <= error < 3000


def broken_in(row: Row) -> list[str]:
    """What a replica's threads met, so that in life a start doesn't make them go on."""
    again = "in a scenario a start makes it go on, in life it stops again"
    found = []
    if count(pick(row, "Last_SQL_Errno")):
        found.append("its applier met error %s (%s); %s" % (row["Last_SQL_Errno"], row.get("Last_SQL_Error", "")[:160], again))
    if is_broken(count(pick(row, "Last_IO_Errno"))) and receiver_in(row) == "No":
        found.append("its receiver met error %s (%s); %s" % (row["Last_IO_Errno"], row.get("Last_IO_Error", "")[:160], again))
    return found


def channel_in(row: Row) -> str | None:
    """What is wrong with the name of a replica's source."""
    channel = pick(row, "Channel_Name", "Connection_name")
    return "its source has a name of its own (channel %s); plans speak of the one without a name" % channel if channel else None


def refuse_what_no_scenario_has(row: Row) -> None:
    """A scenario's replicas have one source, no filters and no delay."""
    channel = channel_in(row)
    if channel:
        raise Cant(channel)
    for key in FILTERS:
        if row.get(key):
            raise Cant("a replication filter (%s %s)" % (key, row[key]))
    if count(row.get("SQL_Delay")):
        raise Cant("a delayed replica (%s seconds)" % row["SQL_Delay"])


def until_of(row: Row, sql: bool) -> Coord | None:
    """Up to where a replica's applier goes."""
    if sql and pick(row, "Until_Condition") in ("Master", "Source"):
        return coord(pick(row, "Until_Log_File"), pick(row, "Until_Log_Pos"))
    return None


def replica_of(row: Row, aliases: dict[str, str]) -> Replica:
    """A server as its status as a replica reports it."""
    source, detached = source_of(row, aliases)
    sql = applier_in(row)
    return Replica(source=source, detached=detached, auto=row.get("Auto_Position") == "1" or (row.get("Using_Gtid") or "No") != "No",
                   until=until_of(row, sql), source_id=count(pick(row, "Master_Server_Id", "Source_Server_Id")),
                   source_uuid=pick(row, "Master_UUID", "Source_UUID") or None, executed=GtidSet.read(row.get("Executed_Gtid_Set") or ""),
                   relay=(row.get("Relay_Log_File"), count(row.get("Relay_Log_Pos"))), exec=executed_in(row), read=read_in(row), io=receiver_in(row), sql=sql)


class Server:
    """One server. What isn't reached has `up` false; `rebuilt`: its log was made of its replicas'. With `broken_ok` broken threads are notes.
    `steady` means that its log has just what its status counts. That is asked if its transactions have no GTIDs."""

    def __init__(self, name: str, client: Client, aliases: dict[str, str] | None = None, last_files: int | None = None, broken_ok: bool = False) -> None:
        self.name, self.client, self.aliases, self.last_files, self.broken_ok = name, client, aliases or {}, last_files, broken_ok
        self.up, self.rebuilt, self.logs, self.maria, self.gtid_mode, self.steady = False, False, False, False, False, True
        self.files: list[int] = []
        self.headers: dict[int, int] = {}
        self.groups: list[Group] = []
        self.notes: list[str] = []
        self.status: Replica | None = None
        self.end: Coord | None = None
        self.uuid: str | None = None
        self.read_only, self.base_name = False, "mysql-bin"
        self.server_id: int | None = None
        self.version: str | None = None

    def ask(self, statement: str) -> list[Row]:
        """The rows of one answer."""
        return self.client.ask(*address(self.name), statement)

    def read(self) -> Server:
        """The status as a replica first and then the log, so that the log has all that the status counts. Down if it isn't reached; Refused
        where it goes away later: what was read of it until then isn't it."""
        self.kind = Kind(self.ask("SELECT @@version v")[0]["v"])
        try:
            self.read_all()
        except Down as reason:
            raise Refused("%s: it went away while it was read (%s)" % (self.name, reason)) from None
        except Cant as reason:
            raise Cant("%s: %s" % (self.name, reason)) from None
        return self

    def read_all(self) -> None:
        """All except its version."""
        self.maria, self.version = self.kind.maria, self.kind.version
        row = self.read_settings()
        rows = self.ask(self.kind.status)
        if len(rows) > 1:
            raise Cant("more than one source")
        for one in rows:
            refuse_what_no_scenario_has(one)
            for text in broken_in(one):
                if not self.broken_ok:
                    raise Cant(text)
                self.notes.append("%s: %s" % (self.name, text))
            self.status = replica_of(one, self.aliases)
        binary = is_on(row["b"])
        self.logs = binary and (is_on(row["u"]) or self.status is None)
        if binary:
            self.read_logs()
            self.steady = self.is_steady()
        self.up = True

    def read_settings(self) -> Row:
        """Its settings, whether it has a binary log among them."""
        row = self.ask("SELECT @@server_id i, @@global.read_only r, @@log_bin b, @@global.%s u" % self.kind.updates)[0]
        self.server_id, self.read_only = int(row["i"]), is_on(row["r"])
        if not self.maria:
            own = self.ask("SELECT @@server_uuid u, @@global.gtid_mode m")[0]
            self.uuid, self.gtid_mode = own["u"], own["m"] == "ON"
        many = count(self.ask("SELECT @@global.%s n" % self.kind.workers)[0]["n"])
        if many > 1:
            self.notes.append("%s: %d parallel appliers; a scenario has one. Plans were never carried out with several" % (self.name, many))
        return row

    def read_logs(self) -> None:
        """Each transaction of its binary log."""
        logs = self.ask("SHOW BINARY LOGS")
        for row in logs[-self.last_files:] if self.last_files else logs:
            log = row["Log_name"]
            events = self.ask("SHOW BINLOG EVENTS IN '%s'" % log)
            self.base_name = log.rsplit(".", 1)[0]
            self.files.append(number_of(log))
            self.headers[number_of(log)] = head_of(events)
            self.groups += groups_of(events, self.maria)
        for end in self.ask(self.kind.end):
            self.end = coord(end["File"], end["Position"])
            for key in ("Binlog_Do_DB", "Binlog_Ignore_DB"):
                if end.get(key):
                    raise Cant("a filter of its binary log (%s %s)" % (key, end[key]))

    @property
    def anonymous(self) -> bool:
        """Whether its log ends with a transaction without a GTID."""
        return bool(self.groups) and self.groups[-1].gtid is None

    def is_steady(self) -> bool:
        """Whether its log ends at what its status reports. MySQL's status may be late by replica_checkpoint_period. It is right if the applier is off, if
        all that was received is executed both before and after the log is read, or if nothing changes for that period."""
        status = self.status
        if status is None or not status.sql or not self.anonymous:
            return True
        again = self.replica_now()
        if again.exec == again.read == status.exec == status.read:
            return True
        time.sleep(self.period() + MORE)
        end = self.ask(self.kind.end)[0]
        return self.replica_now().exec == status.exec and coord(end["File"], end["Position"]) == self.end

    def replica_now(self) -> Replica:
        """Its status as a replica now."""
        rows = self.ask(self.kind.status)
        if not rows:
            raise Cant("it has no source any more")
        return replica_of(rows[0], self.aliases)

    def period(self) -> float:
        """How many seconds its status may be late."""
        rows = self.ask("SHOW GLOBAL VARIABLES LIKE '%_checkpoint_period'")
        return max([int(row["Value"]) / 1000 for row in rows if row["Variable_name"].startswith(("replica_", "slave_"))] + [PERIOD])

    def place(self, at: Coord) -> int:
        """How many transactions of its log end at or before this coordinate."""
        return count_until(self.groups, at)

    def stands_before(self, at: Coord) -> bool:
        """Whether a coordinate of its log lies before the first file that was read."""
        return bool(self.files) and at < Coord(self.files[0], 4) and at != NOWHERE
