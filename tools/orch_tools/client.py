"""What the tools ask of a server: one command line client, its answers as rows, and the statements of each kind of server."""
from __future__ import annotations

import argparse
import dataclasses
import os
import re
import subprocess
from collections.abc import Iterable

Row = dict[str, str]

# What SHOW PROCESSLIST reports of an applier that has taken all of its relay log, of workers without work, and of receivers.
READ_ALL = "has read all relay log"
IDLE = ("Waiting for an event from Coordinator", "Waiting for work from SQL thread", "Waiting for source", "Waiting for master", "Connecting to ",
        "Reconnecting after", "Waiting to reconnect")

NOT_REACHED = r"ERROR (2002|2003|2005|2006|2013|2026)\b"


class Down(Exception):
    """The server isn't reached."""


class Refused(Exception):
    """The server answered a statement with an error."""


class NoClient(Refused):
    """The command line client can't be run."""


class BadName(argparse.ArgumentTypeError, ValueError):
    """A text that is no HOST:PORT."""


@dataclasses.dataclass(frozen=True, order=True)
class Coord:
    """A coordinate of a binary log. Files are compared by their numbers, whatever a log is called."""
    number: int
    position: int
    file: str = dataclasses.field(default="", compare=False)

    def __str__(self) -> str:
        return "%s:%d" % (self.file or "%06d" % self.number, self.position)


NOWHERE = Coord(0, 0)


def number_of(log_name: str) -> int:
    """The number of a file of a log: 7 of binlog.000007."""
    return int(log_name.rsplit(".", 1)[1])


def count(text: str | None) -> int:
    """A number of an answer, with 0 for NULL and for an empty text."""
    return int(text) if text and text != "NULL" else 0


def coord(file: str | None, position: str | None) -> Coord:
    """A coordinate as two columns of an answer have it."""
    return Coord(number_of(file), count(position), file) if file and file != "NULL" else NOWHERE


def address(name: str) -> tuple[str, int]:
    """The host and the port of HOST:PORT or HOST; BadName if the text is neither."""
    host, colon, port = name.partition(":")
    if not re.fullmatch(r"[A-Za-z0-9._-]+", host) or colon and not (re.fullmatch(r"[0-9]{1,5}", port) and 1 <= int(port) <= 65535):
        raise BadName("%s: a server is HOST or HOST:PORT, with a port from 1 to 65535" % (name or "''"))
    return host, int(port or 3306)


def full(name: str) -> str:
    """HOST:PORT of HOST or HOST:PORT; BadName if the text is neither."""
    return "%s:%d" % address(name)


def alias(text: str) -> tuple[str, str]:
    """The other address of a server, and its name, of HOST:PORT=HOST:PORT."""
    other, equals, name = text.partition("=")
    if not equals:
        raise BadName("%s: an alias is HOST:PORT=HOST:PORT" % text)
    return full(other), full(name)


class Client:
    """The command line client. A password comes from the environment MYSQL_PWD or from an option file, never from an argument of a command line.
    Statements go by the client's standard input. So no list of processes has them."""

    def __init__(self, program: str, user: str, options: Iterable[str] = (), password: str | None = None, timeout: float = 120) -> None:
        self.program, self.user, self.options, self.timeout = program, user, list(options), timeout
        self.environment = dict(os.environ) if password is None else dict(os.environ, MYSQL_PWD=password)

    def words(self, host: str, port: int) -> list[str]:
        """The client's command line."""
        return [self.program, *self.options, "--batch", "--protocol=TCP", "--connect-timeout=3", "-h", host, "-P", str(port), "-u", self.user]

    def ran(self, host: str, port: int, statements: str) -> tuple[int, str, str]:
        """The client's status, standard output and standard error."""
        try:
            done = subprocess.run(self.words(host, port), env=self.environment, input=(statements + ";\n").encode(), capture_output=True,
                                  timeout=self.timeout)
        except subprocess.TimeoutExpired:
            raise Down("%s:%d gave no answer in %d seconds" % (host, port, self.timeout)) from None
        except OSError as reason:
            raise NoClient("the client %s can't be run (%s): install it, or name another one by --client" % (self.program, reason.strerror)) from None
        return done.returncode, done.stdout.decode("utf-8", "replace"), done.stderr.decode("utf-8", "replace")

    def ask(self, host: str, port: int, statements: str) -> list[Row]:
        """The rows of one answer, each from a column's name to its text."""
        status, out, err = self.ran(host, port, statements)
        if status != 0:
            if is_not_reached(err):
                raise Down("%s:%d isn't reached: %s" % (host, port, err.strip()))
            raise Refused("%s:%d: %s: %s" % (host, port, hidden(statements), err.strip()))
        lines = out.split("\n")[:-1]
        head = lines[0].split("\t") if lines else []
        return [dict(zip(head, line.split("\t"))) for line in lines[1:]]


def is_not_reached(err: str) -> bool:
    """Whether the client reports on standard error that it didn't reach the server, or lost it."""
    return bool(re.search(NOT_REACHED, err))


def hidden(statements: str) -> str:
    """Statements without their secrets, for a message."""
    return re.sub(r"PASSWORD='(?:[^'\\]|\\.)*'", "PASSWORD='..'", statements)


def pick(row: Row, *names: str) -> str | None:
    """The first of these columns that an answer has."""
    return next((row[name] for name in names if name in row), None)


class Kind:
    """The statements that a server takes, by its version."""

    def __init__(self, version: str) -> None:
        self.maria = "mariadb" in version.lower()
        found = re.match(r"\d+\.\d+\.\d+", version)
        self.version = found.group(0) if found else "0.0.0"
        self.parts = tuple(int(part) for part in self.version.split("."))

    def since(self, *parts: int) -> bool:
        """Whether it is MySQL of at least this version."""
        return not self.maria and self.parts >= parts

    @property
    def updates(self) -> str:
        """The setting by which it logs what it applies."""
        return "log_replica_updates" if self.since(8, 0, 26) else "log_slave_updates"

    @property
    def workers(self) -> str:
        """The setting of how many appliers it has."""
        if self.maria:
            return "slave_parallel_threads"
        return "replica_parallel_workers" if self.since(8, 0, 26) else "slave_parallel_workers"

    @property
    def status(self) -> str:
        """The statement of its status as a replica."""
        return "SHOW REPLICA STATUS" if self.since(8, 0, 22) else "SHOW ALL SLAVES STATUS" if self.maria else "SHOW SLAVE STATUS"

    @property
    def end(self) -> str:
        """The statement of the end of its binary log."""
        return "SHOW BINARY LOG STATUS" if self.since(8, 2, 0) else "SHOW MASTER STATUS"

    @property
    def replicas(self) -> str:
        """The statement of the replicas that are connected to it."""
        return "SHOW REPLICAS" if self.since(8, 0, 22) else "SHOW SLAVE HOSTS"


@dataclasses.dataclass
class Seen:
    """A server as its status shows it. `source` is HOST:PORT, without the // of a detached one."""
    end: Coord | None
    source: str | None
    detached: bool
    exec: Coord
    read: Coord
    io: str
    sql: bool
    read_only: bool
    server_id: int
    row: Row

    @property
    def stopped(self) -> bool:
        """Whether both its threads are off."""
        return self.io == "No" and not self.sql

    @property
    def host(self) -> str:
        """The host of its source."""
        return address(self.source or "")[0]

    @property
    def port(self) -> int:
        """The port of its source."""
        return address(self.source or "")[1]

    @property
    def gtids(self) -> str:
        """The set that it has executed."""
        return self.row.get("gtids", "")


def is_on(text: str | None) -> bool:
    """Whether a setting is on."""
    return text in ("1", "ON")


def source_of(row: Row, aliases: dict[str, str]) -> tuple[str, bool]:
    """The source that a status names, as those know it who named the servers, and whether it is detached."""
    host, port = pick(row, "Master_Host", "Source_Host") or "", pick(row, "Master_Port", "Source_Port")
    detached = host.startswith("//")
    name = "%s:%s" % (host[2:] if detached else host, port)
    return aliases.get(name, name), detached


def executed_in(row: Row) -> Coord:
    """The coordinate of its source's log up to which it has executed."""
    return coord(pick(row, "Relay_Master_Log_File", "Relay_Source_Log_File"), pick(row, "Exec_Master_Log_Pos", "Exec_Source_Log_Pos"))


def read_in(row: Row) -> Coord:
    """The coordinate of its source's log up to which it has received."""
    return coord(pick(row, "Master_Log_File", "Source_Log_File"), pick(row, "Read_Master_Log_Pos", "Read_Source_Log_Pos"))


def receiver_in(row: Row) -> str:
    """Its receiver: Yes, No or Connecting (MariaDB: Preparing, too)."""
    return pick(row, "Slave_IO_Running", "Replica_IO_Running") or "No"


def applier_in(row: Row) -> bool:
    """Whether its applier is on."""
    return pick(row, "Slave_SQL_Running", "Replica_SQL_Running") == "Yes"


def has_read_all(row: Row) -> bool:
    """Whether its applier has nothing more to take from its relay log. A worker of it may still execute what was taken."""
    return READ_ALL in (pick(row, "Replica_SQL_Running_State", "Slave_SQL_Running_State", "Slave_SQL_State") or "")


def are_idle(threads: Iterable[Row]) -> bool:
    """Whether SHOW PROCESSLIST reports the applier's threads, and none of them executes anything. Without the right to see them nobody knows."""
    states = [row.get("State") or "" for row in threads if row.get("User") == "system user"]
    return any(READ_ALL in state for state in states) and all(READ_ALL in state or state.startswith(IDLE) for state in states)


class Servers:
    """Servers by their names HOST:PORT, and the names by which replicas know them."""

    def __init__(self, client: Client, aliases: Iterable[tuple[str, str]] | dict[str, str] = ()) -> None:
        self.client, self.aliases = client, dict(aliases)
        self.kinds: dict[str, Kind] = {}

    def ask(self, name: str, statements: str) -> list[Row]:
        """The rows of one answer of a server."""
        return self.client.ask(*address(name), statements)

    def kind(self, name: str) -> Kind:
        """The kind of a server, asked once."""
        if name not in self.kinds:
            self.kinds[name] = Kind(self.ask(name, "SELECT @@version v")[0]["v"])
        return self.kinds[name]

    def look(self, name: str) -> Seen:
        """The status of a server: first of the replica, then the end of its own log."""
        kind = self.kind(name)
        rows = self.ask(name, kind.status)
        if len(rows) > 1:
            raise Refused("%s: more than one source" % name)
        ends = self.ask(name, kind.end)
        gtids = "" if kind.maria else ", @@global.gtid_executed g"
        own = self.ask(name, "SELECT @@global.read_only r, @@server_id i" + gtids)[0]
        end = coord(ends[0]["File"], ends[0]["Position"]) if ends else None
        row = dict(rows[0] if rows else {}, gtids=own.get("g", "").replace("\\n", ""))
        source, detached = source_of(row, self.aliases) if rows else (None, False)
        return Seen(end, source, detached, executed_in(row), read_in(row), receiver_in(row) if rows else "No", bool(rows) and applier_in(row),
                    is_on(own["r"]), int(own["i"]), row)


def add_options(parser: argparse.ArgumentParser, client: str = "mysql") -> None:
    """The options by which each tool reaches servers."""
    parser.add_argument("--client", default=client, help="the command line client: mysql or mariadb (%(default)s)")
    parser.add_argument("--user", default=os.environ.get("USER", "root"), help="(%(default)s); a password comes from the environment MYSQL_PWD")
    parser.add_argument("--client-option", action="append", default=[], metavar="OPTION",
                        help="an option for the client, first on its line, such as --defaults-extra-file=FILE")
    parser.add_argument("--alias", action="append", default=[], type=alias, metavar="HOST:PORT=HOST:PORT",
                        help="another address by which replicas know a server, and its name here")


def aliases_in(options: argparse.Namespace) -> dict[str, str]:
    """The names of servers by their other addresses."""
    return dict(options.alias)
