"""What the rehearsal takes for MariaDB's own events between a foretold coordinate and the server's: rows as MariaDB 11.8.6 printed them."""
from __future__ import annotations

import os
import sys
import types
import unittest
from typing import Any


sys.path.insert(0, os.path.dirname(os.path.dirname(os.path.abspath(__file__))))

from orch_tools.client import Coord
from rehearsal.both_ways import Checkpoints

# The last file after three rotations: half a second later three checkpoints of 129 bytes come at once.
ROWS = [("Format_desc", 4, 256), ("Gtid_list", 256, 299), ("Binlog_checkpoint", 299, 342), ("Binlog_checkpoint", 342, 385), ("Binlog_checkpoint", 385, 428),
        ("Binlog_checkpoint", 428, 471), ("Gtid", 471, 513), ("Query", 513, 624), ("Xid", 624, 655)]


def checkpoints(kind: str = "mariadb") -> Checkpoints:
    """Over a server whose log has these rows."""
    rows = [{"Event_type": event, "Pos": str(at), "End_log_pos": str(end), "Info": "mysql-bin.000008"} for event, at, end in ROWS]
    story: Any = types.SimpleNamespace(farm=types.SimpleNamespace(
        make=types.SimpleNamespace(kind=kind), ask=lambda _, text: [row for row in rows if int(row["Pos"]) >= int(text.rsplit(" ", 1)[1])]))
    return Checkpoints(story)


class CheckpointsTest(unittest.TestCase):
    """Which coordinates are taken for one position."""

    def test_checkpoints_alone_are_passed_over(self) -> None:
        for low, high in ((342, 471), (342, 385), (428, 471)):
            found = checkpoints()
            self.assertTrue(found.are_between("a:1", Coord(8, low), Coord(8, high)))
            self.assertIn("%d bytes are %d Binlog_checkpoint events" % (high - low, (high - low) // 43), found.seen[0])

    def test_nothing_else_is(self) -> None:
        for low, high in ((342, 655), (471, 655), (342, 400), (343, 385), (299, 256), (342, 342)):
            found = checkpoints()
            self.assertFalse(found.are_between("a:1", Coord(8, low), Coord(8, high)))
            self.assertEqual(found.seen, [])

    def test_files_and_kinds(self) -> None:
        self.assertFalse(checkpoints().are_between("a:1", Coord(7, 342), Coord(8, 385)))
        self.assertFalse(checkpoints("mysql").are_between("a:1", Coord(8, 342), Coord(8, 385)))


if __name__ == "__main__":
    unittest.main()
