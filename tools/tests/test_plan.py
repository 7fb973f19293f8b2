"""Plans as they are read, and statements in a server's syntax."""
from __future__ import annotations

import os
import sys
import unittest

sys.path.insert(0, os.path.dirname(os.path.dirname(os.path.abspath(__file__))))

from orch_tools.client import Kind
from orch_tools.plan import Unread, for_server, read_plan
from rehearsal.print_plan import HEAD, plan_text

CHAIN = {"m:3306": None, "s:3306": "m:3306", "r:3306": "s:3306", "t:3306": "s:3306"}

MOVE_UP = HEAD + """\
server A r:3306
server B s:3306
server C m:3306
1 A STOP REPLICA;
2 B STOP REPLICA;
3 B SHOW REPLICA STATUS; SHOW BINARY LOG STATUS; -- note B; must be below C
4 A SHOW REPLICA STATUS; SHOW BINARY LOG STATUS; -- note A; must be below B
5 A START REPLICA UNTIL SOURCE_LOG_FILE=:B.end.file, SOURCE_LOG_POS=:B.end.pos; -- not where A.exec >= B.end
6 A SHOW REPLICA STATUS; SHOW BINARY LOG STATUS; -- note A; again until A.exec >= B.end
7 A STOP REPLICA;
8 A CHANGE REPLICATION SOURCE TO SOURCE_HOST='m', SOURCE_PORT=3306, SOURCE_LOG_FILE=:B.exec.file, SOURCE_LOG_POS=:B.exec.pos, SOURCE_AUTO_POSITION=0; \
-- only where A is below B at B.end, stopped
9 A START REPLICA;
10 B START REPLICA;
11 A SHOW REPLICA STATUS; SHOW BINARY LOG STATUS; -- note A
"""

# A command, its instance and destination, and how many lines its plan has over CHAIN.
COMMANDS = [
    ("move-up", "r:3306", None, 11), ("move-up-replicas", "s:3306", None, 22), ("move-below", "r:3306", "t:3306", 15),
    ("take-siblings", "r:3306", None, 15), ("take-master", "r:3306", None, 14), ("repoint", "r:3306", None, 5),
    ("relocate", "r:3306", "m:3306", 11), ("relocate", "r:3306", "t:3306", 15), ("graceful-master-takeover", "m:3306", "s:3306", 13),
    ("detach-replica", "r:3306", None, 2), ("reattach-replica", "r:3306", None, 3), ("reset-replica", "r:3306", None, 2),
    ("start-replica", "r:3306", None, 2), ("stop-replica", "r:3306", None, 2), ("restart-replica", "r:3306", None, 3),
    ("set-read-only", "r:3306", None, 2), ("set-writeable", "r:3306", None, 2),
]

ONE = "server A a:1\nserver B b:2\n"

UNREAD = [
    "", "hello", "1 A STOP REPLICA;", ONE, ONE + "2 A STOP REPLICA;", ONE + "1 A STOP REPLICA", ONE + "1 C STOP REPLICA;", ONE + "1 A DROP TABLE d.t;",
    ONE + "1 A STOP REPLICA; DROP TABLE d.t;", ONE + "1 A STOP REPLICA; -- if you like", ONE + "1 A STOP REPLICA; -- note C",
    ONE + "1 A CHANGE REPLICATION SOURCE TO SOURCE_HOST='b', SOURCE_PORT=2, SOURCE_LOG_FILE='mysql-bin.000001', SOURCE_LOG_POS=4;",
    ONE + "1 A CHANGE REPLICATION SOURCE TO SOURCE_HOST='b'; DROP TABLE x; ', SOURCE_PORT=2, SOURCE_LOG_FILE=:B.end.file, SOURCE_LOG_POS=:B.end.pos;",
    ONE + "1 A START REPLICA UNTIL SOURCE_LOG_FILE=:C.end.file, SOURCE_LOG_POS=:C.end.pos;", ONE + "1 A STOP REPLICA;\n1 A STOP REPLICA;",
    ONE + "1 A STOP REPLICA;\nserver\n", ONE + "1 A;", ONE + "1 A -- ", ONE + "1 A -- chosen before C",
    ONE + "1 A -- lost, behind B; only where B.exec < A.exec", ONE + "1 A STOP REPLICA; -- only while it is reached", ONE + "1 A -- lost, asleep",
    ONE + "1 A CHANGE REPLICATION SOURCE TO SOURCE_HOST='b', SOURCE_PORT=2;",
    ONE + "server A c:3\n1 A STOP REPLICA;", "{}", "refused 2 UnknownInstance",
]

CHANGE = "CHANGE REPLICATION SOURCE TO SOURCE_HOST='b', SOURCE_PORT=2, SOURCE_LOG_FILE='x.000001', SOURCE_LOG_POS=4, SOURCE_AUTO_POSITION=0"
OLD = "CHANGE MASTER TO MASTER_HOST='b', MASTER_PORT=2, MASTER_LOG_FILE='x.000001', MASTER_LOG_POS=4, "

# A version, a statement of MySQL 8, and the same in that server's syntax.
WORDS = [
    ("8.4.3", CHANGE, CHANGE), ("8.0.23", CHANGE, CHANGE), ("8.0.22", CHANGE, OLD + "MASTER_AUTO_POSITION=0"),
    ("10.11.19-MariaDB-0+deb12u1", CHANGE, OLD + "MASTER_USE_GTID=no"), ("10.11.19-MariaDB", "STOP REPLICA IO_THREAD", "STOP SLAVE IO_THREAD"),
    ("10.11.19-MariaDB", "START REPLICA UNTIL SOURCE_LOG_FILE='x.000001', SOURCE_LOG_POS=4",
     "START SLAVE UNTIL MASTER_LOG_FILE='x.000001', MASTER_LOG_POS=4"),
    ("10.11.19-MariaDB", "RESET REPLICA ALL", "RESET SLAVE ALL"), ("10.11.19-MariaDB", "SET PERSIST super_read_only=ON", "SET GLOBAL read_only=ON"),
    ("10.11.19-MariaDB", "SET PERSIST super_read_only=OFF", "SET GLOBAL read_only=OFF"), ("10.11.19-MariaDB", "SET PERSIST read_only=OFF", None),
    ("8.0.36", "SET PERSIST super_read_only=ON", "SET PERSIST super_read_only=ON"), ("5.7.44-log", "SET PERSIST read_only=OFF", "SET GLOBAL read_only=OFF"),
    ("5.7.44-log", "RESET REPLICA ALL", "RESET SLAVE ALL"),
    ("8.0.22", "CHANGE REPLICATION SOURCE TO SOURCE_HOST='//b', SOURCE_PORT=2", "CHANGE MASTER TO MASTER_HOST='//b', MASTER_PORT=2"),
    ("8.0.22", CHANGE + ", SOURCE_USER='u', SOURCE_RETRY_COUNT=9", OLD + "MASTER_AUTO_POSITION=0, MASTER_USER='u', MASTER_RETRY_COUNT=9"),
    ("10.11.19-MariaDB", CHANGE + ", SOURCE_USER='u', SOURCE_RETRY_COUNT=9", OLD + "MASTER_USE_GTID=no, MASTER_USER='u'"),
]

READING = "SHOW REPLICA STATUS; SHOW BINARY LOG STATUS"
CHANGE_TO = "CHANGE REPLICATION SOURCE TO SOURCE_HOST='b', SOURCE_PORT=3306"
MATCH = "SOURCE_LOG_FILE=:B.match.file, SOURCE_LOG_POS=:B.match.pos, SOURCE_AUTO_POSITION=0"
OWN = "SOURCE_HOST='%s:B.source.host', SOURCE_PORT=:B.source.port"

# Lines of plans of recoveries, regroups, detachments and of GTIDs: each with the kinds of its statements and of its conditions.
LINES = [
    ("A " + READING + "; -- only while it isn't reached", ["status", "end"], ["unreached"]),
    ("B " + READING + "; -- lost, unreachable; only while it isn't reached", ["status", "end"], ["lost", "unreached"]),
    ("B STOP REPLICA IO_THREAD;", ["stop receiver"], []),
    ("B " + READING + "; -- note B; again until B.exec = B.read or its applier is off", ["status", "end"], ["note", "idle"]),
    ("B " + READING + "; -- note B; must be below A", ["status", "end"], ["note", "below"]),
    ("C -- chosen before B; only where C.exec > B.exec", [], ["chosen", "compared"]),
    ("C -- chosen before D; only where C.exec >= D.exec", [], ["chosen", "compared"]),
    ("B -- lost, behind C; only where C.exec > B.exec", [], ["lost", "compared"]),
    ("B -- lost, ahead of C; only where B.exec > C.exec", [], ["lost", "compared"]),
    ("C -- lost, no kept pair of A", [], ["lost"]),
    ("B SHOW BINLOG EVENTS; %s, %s; -- note B.match, by hand: the place in the log of C behind the last transaction that B has executed; "
     "only where C.exec > B.exec; only where B is below A at B.exec, stopped" % (CHANGE_TO, MATCH), ["events", "change"], ["by hand", "compared", "at"]),
    ("B SHOW BINLOG EVENTS; -- note B.match, by hand: the place in the log of C behind all that B shows behind its last mark", ["events"], ["by hand"]),
    ("B %s, %s; -- only where B stands as it did then, stopped" % (CHANGE_TO, MATCH), ["change"], ["unmoved"]),
    ("B %s, SOURCE_AUTO_POSITION=1; -- only where B.gtids are in C.gtids, stopped; only where C.purged is in B.gtids" % CHANGE_TO, ["auto"],
     ["contained", "purged"]),
    ("B SELECT WAIT_FOR_EXECUTED_GTID_SET(':A.gtids', 1); -- again until it answers 0; until then its applier must be on", ["wait"], ["answers", "applier"]),
    ("B STOP REPLICA; %s; CHANGE REPLICATION SOURCE TO %s; -- note B; only where B is attached by auto position, stopped" % (READING, OWN % "//"),
     ["stop", "status", "end", "own"], ["note", "attached"]),
    ("B STOP REPLICA; %s; CHANGE REPLICATION SOURCE TO %s; -- note B; only where B is detached by auto position, stopped" % (READING, OWN % ""),
     ["stop", "status", "end", "own"], ["note", "detached"]),
    ("B STOP REPLICA; %s; CHANGE REPLICATION SOURCE TO %s, SOURCE_LOG_FILE=:B.exec.file, SOURCE_LOG_POS=:B.exec.pos, SOURCE_AUTO_POSITION=0; "
     "-- note B; only where B is detached, stopped" % (READING, OWN % ""), ["stop", "status", "end", "change"], ["note", "detached"]),
]
FOUR = "server A a:3306\nserver B b:3306\nserver C c:3306\nserver D d:3306\n"

STATUSES = [("8.4.3", "SHOW REPLICA STATUS", "SHOW BINARY LOG STATUS"), ("8.0.36", "SHOW REPLICA STATUS", "SHOW MASTER STATUS"),
            ("8.0.21", "SHOW SLAVE STATUS", "SHOW MASTER STATUS"), ("10.11.19-MariaDB", "SHOW ALL SLAVES STATUS", "SHOW MASTER STATUS")]


class Plans(unittest.TestCase):
    """Plans by the documents, and what a reader takes."""

    def test_a_plan_is_the_text_of_its_operations(self) -> None:
        self.assertEqual(plan_text("move-up", "r:3306", None, CHAIN), MOVE_UP)

    def test_each_command_has_a_plan_that_is_read(self) -> None:
        for command, i, d, lines in COMMANDS:
            with self.subTest(command=command, d=d):
                self.assertEqual(len(read_plan(plan_text(command, i, d, CHAIN)).lines), lines)

    def test_other_commands_have_none(self) -> None:
        for command in ("recover", "regroup-replicas", "move-gtid", "discover"):
            self.assertIsNone(plan_text(command, "s:3306", None, CHAIN))

    def test_a_former_master_needs_a_login_and_nobody_else(self) -> None:
        for command, i, d, _ in COMMANDS:
            self.assertEqual(read_plan(plan_text(command, i, d, CHAIN)).needs_login, command == "graceful-master-takeover")

    def test_a_plan_has_no_coordinate(self) -> None:
        for command, i, d, _ in COMMANDS:
            self.assertNotRegex(plan_text(command, i, d, CHAIN), r"-bin|LOG_POS=\d|\d{4,}:|LOG_FILE='")

    def test_what_is_no_plan_is_unread(self) -> None:
        for text in UNREAD:
            with self.subTest(text=text), self.assertRaises(Unread):
                read_plan(text)

    def test_lines_of_recoveries_and_of_gtids_are_read(self) -> None:
        for text, statements, conditions in LINES:
            with self.subTest(line=text):
                line = read_plan(FOUR + "1 " + text + "\n").lines[0]
                self.assertEqual([statement.kind for statement in line.statements], statements)
                self.assertEqual([kind for kind, _ in line.conditions], conditions)

    def test_a_recovery_says_who_must_not_be_reached_and_what_is_by_hand(self) -> None:
        plan = read_plan(FOUR + "".join("%d %s\n" % (number, line[0]) for number, line in enumerate(LINES, 1)))
        self.assertEqual((plan.is_recovery, plan.unreached, list(plan.by_hand)), (True, {"A", "B"}, ["B"]))
        self.assertFalse(read_plan(MOVE_UP).is_recovery)

    def test_a_plan_without_lines_has_the_warning(self) -> None:
        self.assertEqual(read_plan(HEAD).lines, [])
        self.assertEqual(read_plan(HEAD + ONE).lines, [])

    def test_statements_in_a_server_s_words(self) -> None:
        for version, statement, words in WORDS:
            with self.subTest(version=version, statement=statement):
                self.assertEqual(for_server(Kind(version), statement), words)

    def test_how_a_status_is_asked(self) -> None:
        for version, status, end in STATUSES:
            self.assertEqual((Kind(version).status, Kind(version).end), (status, end))

    def test_letters_go_on_behind_z(self) -> None:
        source = dict({"m:1": None, "x:1": "m:1"}, **{"r%02d:1" % n: "x:1" for n in range(30)})
        text = plan_text("move-up-replicas", "x:1", None, source)
        self.assertIn("server Z r23:1\nserver A1 r24:1\n", text)
        self.assertEqual(len(read_plan(text).lines), 330)


if __name__ == "__main__":
    unittest.main()
