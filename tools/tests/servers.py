"""Servers of MySQL 8.4 that answer the light import from texts that are made here."""
from __future__ import annotations

import math
import threading
import time
from collections.abc import Callable
from typing import Any

from fake import Texts, table

from orch_tools.client import Kind
from orch_tools.light_reading import MARK, statements

KIND = Kind("8.4.3")
ASKED = "; ".join("SELECT '%s' %s; %s" % (part, MARK, statement) for part, statement in statements(KIND))
VERSION = "SELECT 'version' %s; SELECT @@version v" % MARK


def uuid(number: int) -> str:
    """The UUID of a server."""
    return "00000000-0000-0000-0000-%012d" % number


def replica_row(source: str, at: int = 1000, read: int | None = None, **more: Any) -> dict[str, Any]:
    """A status as a replica that is at a position of its source's first file. `more` has columns that are otherwise."""
    host, _, port = source.partition(":")
    row: dict[str, Any] = {
        "Source_Host": host, "Source_Port": port or 3306, "Source_Log_File": "binlog.000001", "Read_Source_Log_Pos": read or at, "Relay_Source_Log_File":
        "binlog.000001",
        "Replica_IO_Running": "Yes", "Replica_SQL_Running": "Yes", "Replicate_Do_DB": "", "Exec_Source_Log_Pos": at, "Until_Condition": "None",
        "Until_Log_File": "",
        "Until_Log_Pos": 0, "Last_IO_Errno": 0, "Last_IO_Error": "", "Last_SQL_Errno": 0, "Last_SQL_Error": "", "SQL_Delay": 0, "Auto_Position": 0,
        "Retrieved_Gtid_Set": "", "Channel_Name": "", "Source_Server_Id": 1, "Source_UUID": ""}
    row.update(more)
    return row


def server(number: int, replica: dict[str, Any] | None = None, executed: str = "", purged: str = "", end: int = 1000, file: int = 1,
           sizes: dict[int, int] | None = None, replicas: tuple[dict[str, Any], ...] = (), encrypted: str = "No", **own: Any) -> dict[str, Any]:
    """The answers of a server. It has GTID mode on where it has a set; `own` has settings that are otherwise."""
    settings = {"v": "8.4.3", "i": number, "r": int(bool(replica)), "b": 1, "u": 1, "w": 1, "uuid": uuid(number), "m": "ON" if executed else "OFF",
                "e": executed, "p": purged}
    settings.update(own)
    logs = [{"Log_name": "binlog.%06d" % one, "File_size": size, "Encrypted": encrypted} for one, size in (sizes or {file: end}).items()]
    parts = {"version": [{"v": "8.4.3"}], "status": [replica] if replica else [], "own": [settings],
             "end": [{"File": "binlog.%06d" % file, "Position": end, "Binlog_Do_DB": "", "Binlog_Ignore_DB": "", "Executed_Gtid_Set": executed}],
             "more": [{"Variable_name": name, "Value": value} for name, value in (("binlog_format", "ROW"), ("hostname", "h%d" % number), ("port", 3306))],
             "logs": logs, "replicas": list(replicas)}
    return {VERSION: [[answer_of({"version": parts["version"]}), "", 0]], ASKED: [[answer_of(parts), "", 0]]}


def answer_of(parts: dict[str, list[dict[str, Any]]]) -> str:
    """What the client prints of these parts."""
    return "".join("%s\n%s\n%s" % (MARK, name, table(*rows)[0][0] if rows else "") for name, rows in parts.items())


def listed(number: int, host: str = "", port: int = 3306) -> dict[str, Any]:
    """A row of SHOW REPLICAS."""
    return {"Server_Id": number, "Host": host, "Port": port, "Source_Id": 1, "Replica_UUID": uuid(number)}


class Slow(Texts):
    """The client in this process, each of whose calls takes a while, as one over a network does. `most` is how many were under way at once."""

    def __init__(self, answers: dict[str, Any], seconds: float) -> None:
        Texts.__init__(self, answers)
        self.seconds, self.under_way, self.most, self.lock = seconds, 0, 0, threading.Lock()

    def ran(self, host: str, port: int, statements: str) -> tuple[int, str, str]:
        """The next answer, after a while."""
        with self.lock:
            self.under_way += 1
            self.most = max(self.most, self.under_way)
        time.sleep(self.seconds)
        with self.lock:
            self.under_way -= 1
            told: tuple[int, str, str] = Texts.ran(self, host, port, statements)
            return told


def quickest(run: Callable[[], None], limit: float) -> float:
    """The seconds that the quickest of up to three runs takes: the first below the limit ends them, so that what else the machine does weighs little."""
    best = math.inf
    for _ in range(3):
        began = time.monotonic()
        run()
        best = min(best, time.monotonic() - began)
        if best < limit:
            break
    return best
