"""The exact importer over recorded answers of MariaDB 10.11 servers, and over answers of MySQL 8 as its manual has them."""
from __future__ import annotations

import contextlib
import copy
import io
import json
import os
import time
import unittest
from typing import Any

from fake import HERE, Fake, arguments_of, changed, ran, recorded, table
from servers import Slow, quickest

from orch_tools import importing

A, B, C = "127.0.0.1:3311", "127.0.0.1:3312", "127.0.0.1:3313"
STATUS, END = "SHOW ALL SLAVES STATUS", "SHOW MASTER STATUS"
SCHEMA = os.path.join(HERE, "..", "..", "docs", "scenario.schema.json")

Answers = dict[str, Any]


def read(answers: Answers, *words: str) -> tuple[int, Any, str]:
    """The importer's status, scenario or none, and standard error; it must have asked by SELECT and SHOW alone."""
    status, out, err, client = ran(importing, answers, ["--exact", "--only-named", *(words or [A, B, C])])
    if client.changing():
        raise AssertionError("sent %s" % client.changing())
    return status, json.loads(out) if out else None, err


def notes_in(err: str) -> list[str]:
    """The notes of an import, except the one about what no operator gave."""
    return [line for line in err.split("\n") if line and not line.startswith("note: not given: ")]


def server_of(scenario: Any, name: str) -> Any:
    """A server of a scenario."""
    return next(server for server in scenario["servers"] if server["name"] == name)


# A value of an answer that is another: server, statement, column, value, and the reason.
REFUSED = [
    (C, STATUS, "SQL_Delay", "30", "a delayed replica"),
    (C, STATUS, "Replicate_Do_DB", "shop", "a replication filter (Replicate_Do_DB shop)"),
    (B, STATUS, "Replicate_Wild_Ignore_Table", "x.%", "a replication filter"),
    (C, STATUS, "Last_SQL_Errno", "1146", "its applier met error 1146"),
    (C, STATUS, "Connection_name", "other", "its source has a name of its own"),
    (C, STATUS, "Master_Port", "3399", "its source 127.0.0.1:3399 is none of the servers that were named"),
    (A, END, "Binlog_Do_DB", "shop", "a filter of its binary log"),
    (C, STATUS, "Exec_Master_Log_Pos", "4", "its applier is off, and its log has 2 transactions of 127.0.0.1:3312 from after"),
]


class RecordedTest(unittest.TestCase):
    """A chain of three servers, recorded."""

    def setUp(self) -> None:
        self.answers = recorded("chain")

    def test_scenario(self) -> None:
        status, scenario, err = read(self.answers)
        self.assertEqual((status, notes_in(err)), (0, []))
        with open(os.path.join(HERE, "recorded", "chain.scenario.json"), encoding="utf-8") as file:
            self.assertEqual(scenario, json.load(file))

    def test_it_is_valid_by_the_schema(self) -> None:
        try:
            import jsonschema
        except ImportError:
            self.skipTest("no jsonschema")
        with open(SCHEMA, encoding="utf-8") as file:
            jsonschema.Draft7Validator(json.load(file)).validate(read(self.answers)[1])

    def test_the_program_and_its_map(self) -> None:
        with Fake(self.answers) as fake:
            path = os.path.join(fake.folder, "map")
            given = arguments_of(importing, ["--client", fake.program, "--map", path, "--exact", "--only-named", A, B, C])
            with contextlib.redirect_stdout(io.StringIO()), contextlib.redirect_stderr(io.StringIO()):
                self.assertEqual(importing.run(given), 0)
            with open(path, encoding="utf-8") as file:
                found = json.load(file)
        with open(os.path.join(HERE, "recorded", "chain.map.json"), encoding="utf-8") as file:
            self.assertEqual(found, json.load(file))

    def test_what_no_scenario_says_is_refused(self) -> None:
        for server, statement, column, value, reason in REFUSED:
            with self.subTest(column=column, value=value):
                status, scenario, err = read(changed(self.answers, server, statement, column, value))
                self.assertEqual((status, scenario), (3, None))
                self.assertIn("no scenario: ", err)
                self.assertIn(reason, err)

    def test_a_broken_receiver_is_refused(self) -> None:
        stopped = changed(self.answers, C, STATUS, "Slave_IO_Running", "No")
        self.assertIn("its receiver met error 1236", read(changed(stopped, C, STATUS, "Last_IO_Errno", "1236"))[2])
        self.assertEqual(read(changed(stopped, C, STATUS, "Last_IO_Errno", "2013"))[0], 0)

    def test_several_sources_are_refused(self) -> None:
        answers = copy.deepcopy(self.answers)
        for answer in answers[C][STATUS]:
            answer[0] += answer[0].split("\n")[1] + "\n"
        self.assertEqual(read(answers)[0], 3)
        self.assertIn("more than one source", read(answers)[2])

    def test_a_transaction_of_its_own_is_refused_and_named(self) -> None:
        answers = copy.deepcopy(self.answers)
        for statement in answers[B]:
            for answer in answers[B][statement]:
                answer[0] = answer[0].replace("GTID 0-1-9", "GTID 0-2-9")
        status, _, err = read(answers)
        self.assertEqual(status, 3)
        self.assertRegex(err, r"127\.0\.0\.1:3312: its log is no prefix of that of 127\.0\.0\.1:3311: transaction 0-2-9 \(server id 1, \d+:\d+")

    def test_a_server_that_is_not_reached_is_down(self) -> None:
        status, scenario, err = read(self.answers, A, B, C, "127.0.0.1:3314")
        self.assertEqual((status, server_of(scenario, "127.0.0.1:3314")), (0, {"name": "127.0.0.1:3314", "up": False}))
        self.assertIn("note: 127.0.0.1:3314: not reached", err)

    def test_a_dead_root_is_told_by_its_replicas(self) -> None:
        whole = server_of(read(self.answers)[1], A)
        answers = {name: found for name, found in self.answers.items() if name != A}
        status, scenario, err = read(answers)
        self.assertEqual(status, 0)
        self.assertIn("its log is what its replicas report", err)
        told = server_of(scenario, A)
        self.assertFalse(told["up"])
        self.assertEqual(sum(run[2] for run in told["history"]), sum(run[2] for run in whole["history"]))

    def test_origins_that_are_not_named_are_refused(self) -> None:
        status, _, err = read({C: self.answers[C]}, B, C)
        self.assertEqual(status, 3)
        self.assertIn("comes from server id 1, which is none of the servers", err)

    def test_a_source_of_which_nothing_tells_is_refused(self) -> None:
        settings = "SELECT @@server_id i, @@global.read_only r, @@log_bin b, @@global.log_slave_updates u"
        status, _, err = read(changed({C: self.answers[C]}, C, settings, "u", "0"), B, C)
        self.assertEqual(status, 3)
        self.assertIn("its source 127.0.0.1:3312 isn't reached, and no replica has its log", err)

    def test_what_a_server_refuses_to_tell_is_told(self) -> None:
        answers = copy.deepcopy(self.answers)
        answers[B]["SHOW BINARY LOGS"] = [["", "ERROR 1227 (42000) at line 1: Access denied; you need (at least one of) the BINLOG MONITOR privilege(s)", 1]]
        status, scenario, err = read(answers)
        self.assertEqual((status, scenario), (3, None))
        self.assertIn("ERROR 1227", err)

    def test_parallel_appliers_are_noted(self) -> None:
        answers = changed(self.answers, C, "SELECT @@global.slave_parallel_threads n", "n", "4")
        self.assertIn("4 parallel appliers", read(answers)[2])

    def test_the_newest_files_alone(self) -> None:
        status, scenario, err = read(self.answers, "--last-files", "1", A, B, C)
        executed = sum(run[2] for run in server_of(scenario, A)["history"]) if scenario else None
        self.assertTrue(status == 3 and "before the first" in err or executed < 10, (status, err, executed))


# ---- MySQL 8

GTID = "00000000-0000-0000-0000-0000000000%02d"


def log_of(server_id: int, version: str, gtids: bool, sizes: list[int], file: str = "binlog.000001") -> tuple[list[dict[str, Any]], int]:
    """SHOW BINLOG EVENTS of a file in which each transaction has its GTID, a row and its Xid."""
    rows: list[dict[str, Any]] = []
    at = 4

    def event(kind: str, size: int, origin: int, info: str) -> None:
        nonlocal at
        rows.append({"Log_name": file, "Pos": at, "Event_type": kind, "Server_id": origin, "End_log_pos": at + size, "Info": info})
        at += size
    event("Format_desc", 122, server_id, "Server ver: %s, Binlog ver: 4" % version)
    event("Previous_gtids", 31, server_id, "")
    for number, size in enumerate(sizes, 1):
        kind, info = ("Gtid", "SET @@SESSION.GTID_NEXT= '%s:%d'" % (GTID % 1, number)) if gtids else ("Anonymous_Gtid", "SET @@SESSION.GTID_NEXT= 'ANONYMOUS'")
        event(kind, 79, 1, info)
        event("Query", 70, 1, "BEGIN")
        event("Write_rows", size - 79 - 70 - 31, 1, "table_id: %d flags: STMT_END_F" % (80 + server_id))
        event("Xid", 31, 1, "COMMIT /* xid=%d */" % number)
    return rows, at


def mysql(number: int, gtids: bool, sizes: list[int], source: str | None = None, executed: int = 0) -> Answers:
    """The answers of a server of MySQL 8.4 that logs so many transactions of server 1."""
    rows, end = log_of(number, "8.4.3", gtids, sizes)
    set_of = "%s:1-%d" % (GTID % 1, len(sizes)) if gtids else ""
    at = 157 + sum(sizes[:executed])
    status = [{"Replica_IO_State": "", "Source_Host": source, "Source_Port": 3306, "Source_Log_File": "binlog.000001", "Read_Source_Log_Pos": at,
               "Relay_Log_File": "relay.000002", "Relay_Log_Pos": 4, "Relay_Source_Log_File": "binlog.000001", "Replica_IO_Running": "Yes",
               "Replica_SQL_Running": "Yes", "Replicate_Do_DB": "", "Exec_Source_Log_Pos": at, "Until_Condition": "None", "Until_Log_File": "",
               "Until_Log_Pos": 0, "Last_IO_Errno": 0, "Last_SQL_Errno": 0, "SQL_Delay": 0, "Auto_Position": int(gtids), "Channel_Name": "",
               "Source_Server_Id": 1}] if source else []
    return {
        "SELECT @@version v": table({"v": "8.4.3"}),
        "SELECT @@server_id i, @@global.read_only r, @@log_bin b, @@global.log_replica_updates u": table({"i": number, "r": int(bool(source)), "b": 1, "u": 1}),
        "SELECT @@server_uuid u, @@global.gtid_mode m": table({"u": GTID % number, "m": "ON" if gtids else "OFF"}),
        "SELECT @@global.replica_parallel_workers n": table({"n": 1}),
        "SHOW REPLICA STATUS": table(*status),
        "SHOW BINARY LOGS": table({"Log_name": "binlog.000001", "File_size": end, "Encrypted": "No"}),
        "SHOW BINLOG EVENTS IN 'binlog.000001'": table(*rows),
        "SHOW BINARY LOG STATUS": table({"File": "binlog.000001", "Position": end, "Binlog_Do_DB": "", "Binlog_Ignore_DB": "", "Executed_Gtid_Set": set_of}),
        "SHOW GLOBAL VARIABLES LIKE '%_checkpoint_period'": table({"Variable_name": "replica_checkpoint_period", "Value": 300}),
    }


def working(answers: Answers, *executed: int) -> Answers:
    """The same server while its applier works: of each status what it has executed, one status after another."""
    first = answers["SHOW REPLICA STATUS"][0][0]
    lines = [line.split("\t") for line in first.split("\n")]
    column, texts = lines[0].index("Exec_Source_Log_Pos"), []
    for at in executed:
        lines[1][column] = str(at)
        texts.append(["\n".join("\t".join(line) for line in lines), "", 0])
    return dict(answers, **{"SHOW REPLICA STATUS": texts})


class MySqlTest(unittest.TestCase):
    """Servers of MySQL 8.4."""

    def test_by_gtids(self) -> None:
        answers = {"m:3306": mysql(1, True, [300, 310, 320]), "r:3306": mysql(2, True, [300, 310], "m", 2)}
        status, scenario, err = read(answers, "m", "r")
        self.assertEqual((status, notes_in(err)), (0, []))
        self.assertEqual(scenario, {"version": 1, "gtid": True, "turns": [], "servers": [
            {"name": "m:3306", "uuid": GTID % 1, "server_id": 1, "version": "8.4.3", "cluster": "m:3306", "read_only": False,
             "history": [["m:3306", 300, 1], ["m:3306", 310, 1], ["m:3306", 320, 1]]},
            {"name": "r:3306", "uuid": GTID % 2, "server_id": 2, "version": "8.4.3", "cluster": "m:3306", "read_only": True, "source": "m:3306",
             "executed": 2, "at": "mysql-bin.000001:614", "read": "mysql-bin.000001:614", "io": True, "sql": True, "auto": True}]})

    def test_without_gtids(self) -> None:
        answers = {"m:3306": mysql(1, False, [300, 310]), "r:3306": mysql(2, False, [300], "m", 1)}
        status, scenario, err = read(answers, "m", "r")
        self.assertEqual((status, server_of(scenario, "r:3306")["executed"], scenario.get("gtid")), (0, 1, None))
        self.assertIn("transactions without GTIDs", err)

    def test_without_gtids_a_late_status_is_put_right_by_the_events(self) -> None:
        """r's log has five transactions. Its status counts two, and later three: MySQL's is up to 0.3 seconds late. q below it has executed four."""
        sizes = [300, 310, 320, 305, 330, 340]
        late = working(mysql(2, False, sizes[:5], "m", 5), *[157 + 610, 157 + 930, 157 + 930] * 2)
        answers = {"m:3306": mysql(1, False, sizes), "r:3306": late, "q:3306": mysql(3, False, sizes[:4], "r", 4)}
        status, scenario, err = read(answers, "m", "r", "q")
        self.assertEqual((status, [server_of(scenario, name)["executed"] for name in ("r:3306", "q:3306")]), (0, [5, 4]), err)
        self.assertEqual(server_of(scenario, "r:3306")["at"], "mysql-bin.000001:%d" % (4 + sum(sizes[:5])))
        self.assertIn("its log is matched by its events, as its applier was working", err)

    def test_without_gtids_what_fits_at_several_places_is_refused(self) -> None:
        sizes = [300] * 6
        late = working(mysql(2, False, sizes[:5], "m", 5), 157 + 600, 157 + 900)
        status, scenario, err = read({"m:3306": mysql(1, False, sizes), "r:3306": late}, "m", "r")
        self.assertEqual((status, scenario), (3, None))
        self.assertIn("r:3306: its applier works, its transactions have no GTIDs, and its log fits that of m:3306 at several places", err)

    def test_without_gtids_an_applier_that_stands_still_is_taken_by_its_status(self) -> None:
        sizes = [300] * 6
        held = working(mysql(2, False, sizes[:2], "m", 4), 157 + 600)
        status, scenario, err = read({"m:3306": mysql(1, False, sizes), "r:3306": held}, "m", "r")
        self.assertEqual((status, server_of(scenario, "r:3306")["executed"]), (0, 2), err)

    def test_it_is_linear_in_transactions(self) -> None:
        """Eight times as many transactions take less than twice eight times as long; four times as long for each would be 64."""
        took = []
        for many in (1500, 12000):
            sizes = [300 + number % 7 for number in range(many)]
            answers = {"m:3306": mysql(1, True, sizes), "r:3306": mysql(2, True, sizes[:many // 2], "m", many // 2), "q:3306": mysql(3, True, sizes[:many - 9],
                                                                                                                                     "m", many - 9)}
            began = time.process_time()
            self.assertEqual(read(answers, "m", "r", "q")[0], 0)
            took.append(time.process_time() - began)
        self.assertLess(took[1], 20 * took[0])

    def test_servers_are_asked_in_parallel(self) -> None:
        """Twelve servers, each with eight calls of a tenth of a second."""
        answers = {"m:3306": mysql(1, True, [300, 310]), **{"r%d:3306" % number: mysql(number, True, [300, 310], "m", 2) for number in range(2, 13)}}
        given, most = arguments_of(importing, ["--exact", "--only-named", *answers]), 0

        def run() -> None:
            nonlocal most
            client = Slow(answers, 0.1)
            with contextlib.redirect_stdout(io.StringIO()), contextlib.redirect_stderr(io.StringIO()):
                self.assertEqual(importing.run(given, lambda *_: client), 0)
            most = max(most, client.most)

        self.assertLess(quickest(run, 6), 6)
        self.assertGreater(most, 4)


if __name__ == "__main__":
    unittest.main()
