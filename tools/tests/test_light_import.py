"""The light import over servers that are made of texts: what it finds, prints, notes and refuses."""
from __future__ import annotations

import io
import json
import os
import tempfile
import unittest
import unittest.mock
from typing import Any

from fake import arguments_of, ran
from servers import ASKED, Slow, answer_of, listed, quickest, replica_row, server, uuid

from light_fuzz import Fuzz
from orch_tools import importing, light_import, notes
from orch_tools.light_map import LightMap
from orch_tools.progress import Progress
from rehearsal.answers import PROGRAM, answer, is_built

MANY = int(os.environ.get("FUZZ", "4"))


def imported(answers: dict[str, Any], *words: str) -> tuple[int, dict[str, Any] | None, str]:
    """The import's status, scenario or none, and standard error; it must have asked by SELECT and SHOW alone, and listed no log."""
    status, out, err, client = ran(importing, answers, list(words) or list(answers))
    if client.changing() or any("SHOW BINLOG EVENTS" in text and "LIMIT" not in text for _, text in client.asked):
        raise AssertionError("sent %s" % client.asked)
    return status, json.loads(out) if out else None, err


def one_of(scenario: dict[str, Any] | None, name: str) -> dict[str, Any]:
    """A server of a scenario."""
    assert scenario
    found: dict[str, Any] = next(one for one in scenario["servers"] if one["name"] == name)
    return found


def status_of(words: list[str]) -> object:
    """The status of an import with these arguments, which may not be taken."""
    try:
        return ran(importing, {"m:3306": server(1)}, words)[0]
    except SystemExit as reason:
        return reason.code


def gtids(last: int, number: int = 1, first: int = 1) -> str:
    """Transactions of one server as a set."""
    return "%s:%d-%d" % (uuid(number), first, last)


class TellsTest(unittest.TestCase):
    """What a scenario has of servers."""

    def test_a_part_of_a_transaction_counts_for_nothing(self) -> None:
        """The master is dead. r has executed what q has, and received a part of a transaction besides: its applier finds no more work."""
        state = "Replica has read all relay log; waiting for more updates"
        part = server(2, replica_row("m", 3000, 3400, Replica_IO_Running="Connecting", Replica_SQL_Running_State=state), end=2900)
        answers = {"r:3306": part, "q:3306": server(3, replica_row("m", 3000, Replica_IO_Running="Connecting"), end=2950)}
        for worker, read in (("Waiting for an event from Coordinator", 3000), ("Waiting for table metadata lock", 3400), (None, 3400)):
            states = [state, worker] if worker else []
            part["SELECT 'threads' orch_part; SHOW PROCESSLIST"] = [[answer_of({"threads": [{"User": "system user", "State": one} for one in states]}), "", 0]]
            with unittest.mock.patch.object(light_import, "LATE", 0):
                status, scenario, err = imported(answers, "m:3306", "r:3306", "q:3306", "--only-named")
            found = [one_of(scenario, name)["read"] for name in ("r:3306", "q:3306")]
            self.assertEqual((status, found), (0, ["mysql-bin.000001:%d" % read, "mysql-bin.000001:3000"]), err)
            self.assertEqual("r:3306: it has received a part of a transaction, 400 bytes after binlog.000001:3000: left out" in err, read == 3000)

    def test_what_an_applier_has_still_to_execute_counts(self) -> None:
        """The same, except that r's applier works, or is off."""
        for more in ({"Replica_SQL_Running_State": "Applying batch of row changes"}, {"Replica_SQL_Running": "No"}):
            works = server(2, replica_row("m", 3000, 3400, Replica_IO_Running="Connecting", **more), end=2900)
            _, scenario, err = imported({"r:3306": works}, "m:3306", "r:3306", "--only-named")
            self.assertEqual(one_of(scenario, "r:3306")["read"], "mysql-bin.000001:3400", err)

    def test_coordinates_are_the_servers(self) -> None:
        answers = {"m:3306": server(1, end=5000), "r:3306": server(2, replica_row("m", 3000, 4000, Replica_SQL_Running="No"), end=2900)}
        status, scenario, err = imported(answers)
        self.assertEqual(status, 0)
        self.assertEqual({key: one_of(scenario, "r:3306")[key] for key in ("at", "read", "io", "sql", "executed")},
                         {"at": "mysql-bin.000001:3000", "read": "mysql-bin.000001:4000", "io": True, "sql": False,
                          "executed": one_of(scenario, "r:3306")["executed"]})
        self.assertEqual(sum(size * many for _, size, many in one_of(scenario, "m:3306")["history"]), 4996)
        self.assertIn("note: no GTIDs: a replica's own transactions aren't seen", err)
        self.assertIn("note: not given: data centres, promotion rules", err)

    def test_sets_tell_how_many_transactions_are_missing(self) -> None:
        answers = {"m:3306": server(1, executed=gtids(100), end=5000),
                   "r:3306": server(2, replica_row("m", 3000, 4000, Auto_Position=1, Retrieved_Gtid_Set=gtids(95, first=80)), gtids(90), end=2900)}
        status, scenario, err = imported(answers)
        replica, master = one_of(scenario, "r:3306"), one_of(scenario, "m:3306")
        self.assertEqual((status, scenario and scenario["gtid"], replica["auto"]), (0, True, True))
        self.assertEqual(sum(run[2] for run in master["history"]) - replica["executed"], 10)
        self.assertEqual((replica["at"], replica["read"]), ("mysql-bin.000001:3000", "mysql-bin.000001:4000"))
        self.assertNotIn("no GTIDs", err)

    def test_a_source_that_is_not_reached_and_yet_is_read(self) -> None:
        err = imported({"r:3306": server(2, replica_row("m", 3000)), "q:3306": server(3, replica_row("m", 3000, Replica_IO_Running="Connecting"))}, "m", "r",
                       "q")[2]
        self.assertIn("note: m:3306: not reached from here, and yet the receivers of r:3306 run: if it has another name, give --alias m:3306=NAME", err)

    def test_heads_and_tails_take_no_room(self) -> None:
        """One replica is at the end of a file, one at the head of the next: of an encrypted file, and of a server that lists no events, too."""
        for more in (0, 512):
            answers = {"m:3306": server(1, end=158, file=2, sizes={1: 5044 + more, 2: 158}, encrypted="Yes" if more else "No"),
                       "r:3306": server(2, replica_row("m", 5000)),
                       "q:3306": server(3, replica_row("m", 158, Relay_Source_Log_File="binlog.000002", Source_Log_File="binlog.000002"))}
            for events in ([], [["", "ERROR 1227 (42000) at line 1: Access denied", 1]],
                           [["orch_part\nevents\nEvent_type\tEnd_log_pos\nFormat_desc\t127\nPrevious_gtids\t158\n", "", 0]]):
                answers["m:3306"]["SELECT 'events' orch_part; SHOW BINLOG EVENTS IN 'binlog.000002' LIMIT 6"] = events or [["", "ERROR 1227", 1]]
                scenario = imported(answers)[1]
                self.assertEqual(one_of(scenario, "r:3306")["executed"], one_of(scenario, "q:3306")["executed"])
                self.assertEqual((one_of(scenario, "r:3306")["at"], one_of(scenario, "q:3306")["at"]), ("mysql-bin.000001:5000", "mysql-bin.000002:4"))

    def test_gtid_mode_must_be_on_everywhere(self) -> None:
        answers = {"m:3306": server(1, executed=gtids(9)), "r:3306": server(2, replica_row("m", 500), gtids(5)), "q:3306": server(3, replica_row("m", 500))}
        status, scenario, err = imported(answers)
        self.assertEqual((status, (scenario or {}).get("gtid"), one_of(scenario, "r:3306")["at"]), (0, None, "mysql-bin.000001:500"))
        self.assertIn("note: GTID mode isn't on everywhere (off: q:3306): taken without GTIDs", err)

    def test_a_lag_of_more_than_a_scenario_holds_is_told_in_pieces(self) -> None:
        answers = {"m:3306": server(1, executed=gtids(9000000), end=900000000),
                   "q:3306": server(3, replica_row("m", 450000000), gtids(4500000), end=2900),
                   "r:3306": server(2, replica_row("m", 4000), gtids(40), end=2900)}
        status, scenario, err = imported(answers)
        self.assertEqual(status, 0)
        self.assertRegex(err, r"note: m:3306: 8999960 transactions after those that all have: each of the scenario's stands for up to \d")
        self.assertEqual((one_of(scenario, "q:3306")["at"], one_of(scenario, "r:3306")["at"]), ("mysql-bin.000001:450000000", "mysql-bin.000001:4000"))
        self.assertLess(3 * sum(run[2] for run in one_of(scenario, "m:3306")["history"]), 4000000)

    def test_transactions_of_more_than_a_million_bytes_keep_their_coordinates(self) -> None:
        answers = {"m:3306": server(1, executed=gtids(3), end=9000000), "r:3306": server(2, replica_row("m", 2000), gtids(1), end=2900)}
        status, scenario, err = imported(answers)
        self.assertEqual((status, one_of(scenario, "r:3306")["at"]), (0, "mysql-bin.000001:2000"))
        self.assertIn("transactions of more than 1000000 bytes: each becomes several", err)
        if is_built():
            self.assertIn("end mysql-bin.000001:9000000 ", answer(PROGRAM, scenario or {}, ["-c", "run"])[1])

    def test_a_master_that_logs_no_applied_ones_is_a_source(self) -> None:
        """log_replica_updates means nothing for a server without a source."""
        status, scenario, _ = imported({"m:3306": server(1, u=0), "r:3306": server(2, replica_row("m"), u=0)})
        self.assertEqual((status, one_of(scenario, "m:3306").get("logs"), one_of(scenario, "r:3306")["logs"]), (0, None, False))

    def test_errant_transactions_are_turns(self) -> None:
        answers = {"m:3306": server(1, executed=gtids(9)), "r:3306": server(2, replica_row("m"), gtids(9) + "," + gtids(2, 2)),
                   "s:3306": server(3, replica_row("r"), gtids(9) + "," + gtids(2, 2))}
        status, scenario, err = imported(answers)
        assert scenario
        self.assertEqual([turn[0] for turn in scenario["turns"]], ["write"] * 2 + ["fetch", "apply"] * 2 + ["command", "job", "job", "job", "polls"])
        self.assertIn("r:3306: it has 2 transactions that its source lacks (%s)" % gtids(2, 2), err)
        if is_built():
            self.assertEqual(answer(PROGRAM, scenario, ["-c", "move-gtid", "-i", "r", "-d", "m"])[2], "refused 18 Errant %s\n" % gtids(2, 2))
            self.assertEqual(answer(PROGRAM, scenario, ["-c", "move-gtid", "-i", "s", "-d", "m"])[2], "failed WaitSpent m:3306\n")

    def test_an_old_master_that_is_back_is_of_the_same_cluster(self) -> None:
        answers = {"a:3306": server(1, executed=gtids(5)), "b:3306": server(2, executed=gtids(4) + "," + gtids(2, 2)),
                   "c:3306": server(3, replica_row("b"), gtids(4) + "," + gtids(2, 2))}
        status, scenario, err = imported(answers)
        self.assertEqual((status, {one_of(scenario, name)["cluster"] for name in answers}), (0, {"b:3306"}))
        self.assertIn("a:3306: it has no source, and 1 transactions that b:3306 lacks", err)
        if is_built():
            self.assertEqual(answer(PROGRAM, scenario or {}, ["-c", "run"])[0], 0)

    def test_a_dead_intermediate_master_goes_where_the_operator_says(self) -> None:
        answers = {"a:3306": server(1, end=5000), "c:3306": server(3, replica_row("b", 700, Replica_IO_Running="Connecting"))}
        names = ["a", "b", "c"]
        status, scenario, err = imported(answers, *names)
        self.assertNotIn("source", one_of(scenario, "b:3306"))
        self.assertIn("b:3306: not reached, and its source isn't known: taken for a master; give --below b:3306=SOURCE", err)
        status, scenario, err = imported(answers, *names, "--below", "b=a")
        self.assertEqual((status, one_of(scenario, "b:3306")["source"], one_of(scenario, "b:3306")["up"]), (0, "a:3306", False))
        self.assertIn("b:3306: not reached, and no GTIDs: how far it had come in its source's log isn't known; taken for level with it", err)
        self.assertIn("b:3306: read after its death: pairs of coordinates polled earlier aren't known", err)

    def test_a_server_of_which_nothing_is_known_may_be_a_replica(self) -> None:
        answers = {"a:3306": server(1, end=5000), "c:3306": server(3, replica_row("a", 700))}
        status, scenario, err = imported(answers, "a", "b", "c")
        self.assertEqual((status, "source" in one_of(scenario, "b:3306")), (0, False))
        unknown = "b:3306 isn't reached, and its source isn't known: taken for a master of its own. If it is a replica, give --below b:3306=SOURCE"
        self.assertIn(unknown, err)
        self.assertNotIn(unknown, imported(answers, "a", "b", "c", "--below", "b=a")[2])


class RefusesTest(unittest.TestCase):
    """What no scenario can say."""

    def refused(self, answers: dict[str, Any], *words: str) -> str:
        """Why there is no scenario."""
        status, scenario, err = imported(answers, *words)
        self.assertEqual((status, scenario), (3, None))
        return err

    def test_all_reasons_are_told_at_once(self) -> None:
        answers = {"m:3306": server(1, end=5000), "b:3306": server(2, replica_row("m", Last_SQL_Errno=1146, Last_SQL_Error="no table",
                                                                                  Replica_SQL_Running="No")),
                   "c:3306": server(3, replica_row("gone")), "d:3306": server(4, replica_row("m", Channel_Name="x")),
                   "e:3306": server(5, replica_row("m", Last_IO_Errno=13114, Last_IO_Error="purged", Replica_IO_Running="No"))}
        err = self.refused(answers, *answers, "--only-named")
        for reason in ("b:3306: its applier met error 1146 (no table)", "c:3306: its source gone:3306 is none of the servers that are read",
                       "d:3306: its source has a name of its own (channel x)", "e:3306: its receiver met error 13114 (purged)"):
            self.assertIn("no scenario: " + reason, err)
        self.assertIn("--without NAME leaves a server out", err)
        status, scenario, err = imported(answers, *answers, "--only-named", "--without", "c", "--without", "d", "--broken-ok")
        self.assertEqual((status, [one["name"] for one in (scenario or {})["servers"]]), (0, ["m:3306", "b:3306", "e:3306"]))
        self.assertIn("note: b:3306: its applier met error 1146", err)

    def test_a_ring(self) -> None:
        err = self.refused({"a:3306": server(1, replica_row("b")), "b:3306": server(2, replica_row("a"))})
        self.assertIn("a:3306: it is below itself (a:3306 < b:3306 < a:3306)", err)

    def test_nobody_is_reached(self) -> None:
        self.assertIn("none of the servers is reached", self.refused({}, "a", "b"))

    def test_what_a_server_refuses_to_tell(self) -> None:
        answers = {"m:3306": server(1), "r:3306": server(2, replica_row("m"))}
        answers["r:3306"][ASKED] = [["orch_part\nversion\nv\n8.4.3\norch_part\nstatus\n", "ERROR 1227 (42000) at line 1: Access denied", 1]]
        self.assertIn("r:3306: ERROR 1227", self.refused(answers))

    def test_a_log_that_began_anew(self) -> None:
        row = replica_row("m", 3000, Relay_Source_Log_File="binlog.000009", Source_Log_File="binlog.000009")
        self.assertIn("r:3306: it has executed up to binlog.000009:3000, and the log of its source m:3306 ends at binlog.000001:1000: that log began anew",
                      self.refused({"m:3306": server(1), "r:3306": server(2, row)}))

    def test_a_coordinate_that_nobody_knows(self) -> None:
        row = replica_row("m", Relay_Source_Log_File="", Exec_Source_Log_Pos=0, Source_Log_File="", Read_Source_Log_Pos=4)
        self.assertIn("r:3306: it shows no coordinate of its source", self.refused({"m:3306": server(1), "r:3306": server(2, row)}))

    def test_a_server_that_goes_away_between_two_readings_is_dead(self) -> None:
        answers = {"m:3306": server(1, end=5000), "r:3306": server(2, replica_row("m", 3000))}
        answers["m:3306"][ASKED].append(["", "ERROR 2013 (HY000): Lost connection to server during query", 1])
        status, scenario, err = imported(answers)
        self.assertEqual((status, one_of(scenario, "m:3306")["up"]), (0, False))
        self.assertIn("m:3306: not reached", err)

    def test_wrong_arguments(self) -> None:
        for words in (["m", "--rule", "m"], ["m", "--rule", "m=best"], ["m:x"], ["m", "--turns", "{}"], ["m", "--operator", "/none"], ["m", "--alias", "x"],
                      ["m", "--jobs", "0"]):
            with self.subTest(words=words):
                self.assertEqual(status_of(words), 2)


class FindsTest(unittest.TestCase):
    """Servers that are found from others."""

    def test_the_others_from_one_server(self) -> None:
        answers = {"m:3306": server(1, replicas=(listed(2, "r"), listed(3, "q"))), "r:3306": server(2, replica_row("m")), "q:3306": server(3, replica_row("m"),
                   replicas=(listed(4, "p"),)), "p:3306": server(4, replica_row("q"))}
        for first in ("m", "r", "p"):
            status, scenario, err = imported(answers, first)
            self.assertEqual((status, {one["name"] for one in (scenario or {})["servers"]}), (0, set(answers)))
            self.assertIn("a replica whose receiver is off isn't found: name it", err)

    def test_replicas_that_do_not_report_their_hosts(self) -> None:
        answers = {"m:3306": server(1, replicas=(listed(2, port=3307), listed(3))),
                   "10.0.0.2:3307": server(2, replica_row("m")), "10.0.0.3:3306": server(3, replica_row("m"))}
        processes = "orch_part\nprocesses\nId\tHost\tCommand\n5\t10.0.0.2:41000\tBinlog Dump GTID\n6\t10.0.0.3:41001\tBinlog Dump\n7\t10.0.0.9:1\tSleep\n"
        answers["m:3306"]["SELECT 'processes' orch_part; SHOW PROCESSLIST"] = [[processes, "", 0]]
        status, scenario, err = imported(answers, "m")
        self.assertEqual((status, [one["name"] for one in (scenario or {})["servers"]]), (0, ["m:3306", "10.0.0.2:3307", "10.0.0.3:3306"]))
        del answers["10.0.0.3:3306"]
        self.assertIn("m:3306: a server that isn't here reads its log: server id 3", imported(answers, "m")[2])

    def test_one_server_by_two_names(self) -> None:
        """The replicas know their source by another address than the operator."""
        answers = {"db1:3306": server(1, end=5000, replicas=(listed(2, "r"),)), "vip:3306": server(1, end=5000),
                   "r:3306": server(2, replica_row("vip", 3000, Source_UUID=uuid(1)))}
        for reached in (True, False):
            told = dict(answers) if reached else {name: found for name, found in answers.items() if name != "vip:3306"}
            status, scenario, err = imported(told, "db1")
            self.assertEqual((status, one_of(scenario, "r:3306")["source"], len((scenario or {})["servers"])), (0, "db1:3306", 2), err)

    def test_two_hundred_servers_in_under_ten_seconds(self) -> None:
        """A master, ten intermediate masters and their replicas; each call takes a tenth of a second."""
        answers = {"m:3306": server(1, end=9000, replicas=tuple(listed(number, "s%d" % number) for number in range(2, 12)))}
        for number in range(2, 201):
            above = number - 2 if number < 12 else None
            source = "m" if above is not None else "s%d" % (2 + number % 10)
            below = tuple(listed(other, "s%d" % other) for other in range(12, 201) if 2 + other % 10 == number)
            answers["s%d:3306" % number] = server(number, replica_row(source, 5000 if source == "m" else 900), replicas=below)
        most = 0

        def run() -> None:
            nonlocal most
            client = Slow(answers, 0.1)
            with tempfile.TemporaryDirectory() as folder:
                given = arguments_of(importing, ["m", "--out", os.path.join(folder, "now.json")])
                with unittest.mock.patch("sys.stderr"):
                    self.assertEqual(importing.run(given, lambda *_: client), 0)
                with open(given.out, encoding="utf-8") as file:
                    self.assertEqual(len(json.load(file)["servers"]), 200)
            most = max(most, client.most)

        self.assertLess(quickest(run, 10), 10)
        self.assertGreater(most, 8)


class Terminal(io.StringIO):
    """A stream that is a terminal."""

    def isatty(self) -> bool:
        """It is one."""
        return True


class ProgressTest(unittest.TestCase):
    """The line on a terminal."""

    def test_a_line_from_two_seconds_on_on_a_terminal_alone(self) -> None:
        for stream, after, wanted in ((Terminal(), 0.0, "\rread 3 servers\r%s\r" % (" " * 14)), (Terminal(), 2.0, ""), (io.StringIO(), 0.0, "")):
            progress = Progress(stream, after)
            progress.tell("read 3 servers")
            progress.tell("at once again")
            progress.end()
            self.assertEqual(stream.getvalue(), wanted)


class FilesTest(unittest.TestCase):
    """What is written beside the scenario."""

    def test_a_folder_that_is_not_there(self) -> None:
        status, out, err, _ = ran(importing, {"m:3306": server(1)}, ["m", "--out", "/none/now.json"])
        self.assertEqual((status, out), (3, ""))
        self.assertIn("no scenario: [Errno 2]", err)

    def test_notes_and_map_stand_beside_the_scenario(self) -> None:
        answers = {"m:3306": server(1, executed=gtids(100), end=5000), "r:3306": server(2, replica_row("m", 3000), gtids(90), end=2900)}
        with tempfile.TemporaryDirectory() as folder:
            path = os.path.join(folder, "now.json")
            self.assertEqual(ran(importing, answers, ["m", "r", "--out", path])[:2], (0, ""))
            found, told = LightMap.beside(path), notes.read_beside(path)
            with open(path, encoding="utf-8") as file:
                whole = sum(run[2] for run in one_of(json.load(file), "m:3306")["history"])
        assert found
        self.assertEqual(str(found.between("m:3306", whole - 10, whole)), "10 transactions (%s)" % gtids(100, first=91))
        self.assertEqual(found.real("m:3306", "mysql-bin.000001:3000"), "binlog.000001:3000")
        self.assertTrue(all(note.repeat for note in told.about("no operator's data")) and told.about("no operator's data"))

    def test_bytes_that_are_missing(self) -> None:
        answers = {"m:3306": server(1, end=5000), "r:3306": server(2, replica_row("m", 3000), end=2900)}
        with tempfile.TemporaryDirectory() as folder:
            path = os.path.join(folder, "now.json")
            self.assertEqual(ran(importing, answers, ["m", "r", "--out", path])[0], 0)
            found = LightMap.beside(path)
            with open(path, encoding="utf-8") as file:
                scenario = json.load(file)
        assert found
        whole = sum(run[2] for run in one_of(scenario, "m:3306")["history"])
        self.assertEqual(str(found.between("m:3306", one_of(scenario, "r:3306")["executed"], whole)), "2,000 bytes of the binary log")


class FuzzedTest(unittest.TestCase):
    """Modelled trees report their status to the light import, and both scenarios answer the same. FUZZ in the environment is how many of each kind."""

    @unittest.skipUnless(is_built(), "no built program")
    def test_modelled_trees_answer_the_same(self) -> None:
        for gtid in (False, True):
            for dead, middle in ((False, False), (True, False), (False, True)):
                fuzz = Fuzz(PROGRAM, gtid, dead, middle, 8)
                for seed in range(1, MANY + 1):
                    fuzz.take(seed)
                self.assertEqual(fuzz.shown, [])
                self.assertGreater(fuzz.counts["same"], MANY)


if __name__ == "__main__":
    unittest.main()
