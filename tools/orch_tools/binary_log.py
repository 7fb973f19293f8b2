"""The transactions of a binary log, from SHOW BINLOG EVENTS."""
from __future__ import annotations

import dataclasses
import re
import zlib
from collections.abc import Iterable

from orch_tools.client import Coord, Row, number_of

BEGINS = ("Gtid", "Anonymous_Gtid", "Gtid_tagged")
# Events with which a file begins, none of which is part of a transaction.
HEADS = ("Format_desc", "Gtid_list", "Binlog_checkpoint", "Previous_gtids", "Start_encryption")
ASIDE = (*HEADS, "Rotate", "Stop")


@dataclasses.dataclass
class Group:
    """One transaction as one log holds it: where it begins and ends, the server that it comes from, its GTID, and its statement if it is one alone.
    `shape` is a checksum of what all logs have alike of it."""
    file: int
    start: int
    origin: int
    gtid: str | None
    end: int = 0
    what: str = ""
    shape: int = 0

    @property
    def last(self) -> Coord:
        """The coordinate after it."""
        return Coord(self.file, self.end)

    @property
    def first(self) -> Coord:
        """The coordinate before it."""
        return Coord(self.file, self.start)

    @property
    def size(self) -> int:
        """Its bytes."""
        return self.end - self.start


def count_until(groups: list[Group], at: Coord) -> int:
    """How many of a log's transactions end at or before a coordinate."""
    low, high = 0, len(groups)
    while low < high:
        middle = (low + high) // 2
        if groups[middle].last <= at:
            low = middle + 1
        else:
            high = middle
    return low


def gtid_of(info: str, maria: bool) -> str | None:
    """The GTID that an event begins; None of an anonymous one."""
    found = re.search(r"GTID (\d+-\d+-\d+)" if maria else r"'([0-9a-fA-F-]{36}:(?:[^:']*:)?\d+)'", info)
    return found.group(1) if found else None


def alike(event: Row) -> str:
    """What a source's and a replica's log have alike of an event: the length of rows, a table's name, a statement without its number."""
    kind, info = event["Event_type"], event.get("Info", "")
    if kind == "Table_map":
        return info.partition("(")[2]
    if kind.startswith("Query"):
        return re.sub(r"/\* xid=\d+ \*/", "", info).strip()
    return "%s %d" % (kind, int(event["End_log_pos"]) - int(event["Pos"])) if "_rows" in kind else kind


class Reader:
    """Takes events one after another. A transaction that hasn't ended is left out."""

    def __init__(self, maria: bool) -> None:
        self.maria, self.inside, self.is_first = maria, False, False
        self.groups: list[Group] = []
        self.open: Group | None = None

    def begin(self, event: Row) -> None:
        """A transaction begins."""
        info = event.get("Info", "")
        self.open = Group(number_of(event["Log_name"]), int(event["Pos"]), int(event["Server_id"]), gtid_of(info, self.maria))
        self.inside = self.maria and info.startswith("BEGIN")
        self.is_first = True

    def is_end(self, group: Group, kind: str, info: str) -> bool:
        """Whether this event ends the open transaction: one between BEGIN and COMMIT, or a statement alone."""
        if kind in ("Xid", "XA_prepare"):
            return True
        if kind not in ("Query", "Query_compressed"):
            return False
        word = info.strip().upper()
        if self.is_first and word == "BEGIN":
            self.inside = True
            return False
        if word in ("COMMIT", "ROLLBACK"):
            return True
        group.what = group.what or info[:80]
        return not self.inside

    def take(self, event: Row) -> None:
        """The next event."""
        kind = event["Event_type"]
        if kind in BEGINS:
            self.begin(event)
        elif self.open is not None and kind not in ASIDE:
            self.open.shape = zlib.crc32(alike(event).encode(), self.open.shape)
            ended = self.is_end(self.open, kind, event.get("Info", ""))
            self.is_first = False
            if ended:
                self.open.end = int(event["End_log_pos"])
                self.groups.append(self.open)
                self.open = None


def groups_of(events: Iterable[Row], maria: bool) -> list[Group]:
    """The transactions among these events of a log."""
    reader = Reader(maria)
    for event in events:
        reader.take(event)
    return reader.groups


def head_of(events: Iterable[Row]) -> int:
    """The position after the events with which a file begins."""
    head = 4
    for event in events:
        if event["Event_type"] not in HEADS:
            break
        head = int(event["End_log_pos"])
    return head
