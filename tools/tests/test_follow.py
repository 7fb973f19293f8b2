"""The runner of plans over recorded answers of MySQL and MariaDB servers: tools/rehearsal/record.py --runs records them."""
from __future__ import annotations

import contextlib
import copy
import io
import json
import os
import re
import unittest
import unittest.mock
from typing import Any

from fake import HERE, arguments_of, ran, table

from orch_tools import follow

FOLDER = os.path.join(HERE, "recorded", "follow")
KINDS = ("mysql", "mariadb")
DRY = "a dry run: nothing was sent\n"

# For each run that stops: the line, and its reason. On MySQL and on MariaDB, or on MySQL with GTIDs alone.
STOPS = {
    "broken_applier": (1, "its applier stopped: error 1146 "),
    "refused_receiver": (1, "its receiver stopped: error "),
    "another_branch": (10, "the plan's branch is another"),
    "alive": (1, "is reached: it hasn't failed"),
}
GTID_STOPS = {
    "purged": (5, "has purged what 127.0.0.1:3313 hasn't executed"),
    "old_master_refused": (6, "its receiver is refused: error 1045 "),
    "applier_off": (3, "hasn't executed that set, and its applier is off"),
}
DONE = ("move_up", "takeover", "detached", "reattached", "recovered", "by_hand")
GTID_DONE = ("moved_by_set", "old_master", "detached_auto", "reattached_auto", "recovered_by_sets")


def recorded(name: str) -> dict[str, Any]:
    """A recorded run."""
    with open(os.path.join(FOLDER, name + ".json"), encoding="utf-8") as file:
        found: dict[str, Any] = json.load(file)
    return found


def names_of(done: tuple[str, ...], gtid_done: tuple[str, ...]) -> list[str]:
    """The recordings of these runs."""
    return ["%s_%s" % (kind, name) for kind in KINDS for name in done] + ["mysql_gtids_" + name for name in gtid_done]


def all_names() -> list[str]:
    """All recordings."""
    return sorted(name[:-5] for name in os.listdir(FOLDER))


def threads(*states: str) -> list[list[Any]]:
    """What SHOW PROCESSLIST prints of an applier and its worker, and of a client."""
    rows: list[list[Any]] = table(*({"Id": number, "User": user, "State": state} for number, (user, state) in enumerate(
        [("system user", state) for state in states] + [("me", "init")], 5)))
    return rows


def changed(told: dict[str, Any], server: str, statement: str, column: str, value: str, at: int = -1) -> dict[str, Any]:
    """The same run except for one value of one answer to a statement."""
    told = copy.deepcopy(told)
    answer = told["run"]["answers"][server][statement][at]
    lines = [line.split("\t") for line in answer[0].split("\n")]
    lines[1][lines[0].index(column)] = value
    answer[0] = "\n".join("\t".join(line) for line in lines)
    return told


class Replays(unittest.TestCase):
    """Recorded runs again."""

    def setUp(self) -> None:
        os.environ["REPLICATION_PASSWORD"] = "secret"

    def played(self, told: dict[str, Any], way: str = "run", words: list[str] | None = None) -> tuple[int, str, str, list[tuple[str, str]]]:
        """A recorded run again: its status, what it prints, and what it sends that changes a server."""
        part = told[way]
        status, out, err, client = ran(follow, part["answers"], part["words"] if words is None else words, told["plan"])
        return status, out, err, [(server[-4:], statement) for server, statement in client.changing()]

    def test_each_run_ends_as_it_did_and_prints_the_same(self) -> None:
        for name in all_names():
            told = recorded(name)
            with self.subTest(name=name, server=told["server"]):
                for way in ("dry", "run"):
                    status, out, err, _ = self.played(told, way)
                    self.assertEqual((status, out, err), (told[way]["status"], told[way]["out"], told[way]["err"]))

    def test_each_run_is_there(self) -> None:
        wanted = names_of(DONE + tuple(STOPS), GTID_DONE + tuple(GTID_STOPS) + ("old_master_without_login",))
        self.assertEqual(sorted(wanted), all_names())

    def test_a_run_that_is_done_says_so(self) -> None:
        for name in names_of(DONE, GTID_DONE):
            status, out, err, sent = self.played(recorded(name))
            self.assertEqual((name, status, err, out.endswith("carried out\n"), bool(sent)), (name, 0, "", True, True))

    def test_a_run_that_stops_says_where_and_why(self) -> None:
        stops = [("%s_%s" % (kind, name), stop) for kind in KINDS for name, stop in STOPS.items()]
        for name, (line, words) in stops + [("mysql_gtids_" + name, stop) for name, stop in GTID_STOPS.items()]:
            status, out, err, _ = self.played(recorded(name))
            self.assertEqual((name, status), (name, 1))
            self.assertTrue(err.startswith("orch follow: stopped at line %d: " % line), err)
            self.assertIn(words, err)
            self.assertIn("to undo, in this order:\n", err)
            self.assertNotIn("carried out", out)

    def test_a_detached_server_is_not_to_be_started(self) -> None:
        """The source of the server that moves up is detached, and was stopped: its threads would run, to no source."""
        told = recorded("mysql_move_up")
        many = len(told["run"]["answers"]["127.0.0.1:3312"]["SHOW REPLICA STATUS"])
        for at in range(many):
            told = changed(told, "127.0.0.1:3312", "SHOW REPLICA STATUS", "Source_Host", "//127.0.0.1", at)
        status, _, err, _ = self.played(told)
        self.assertEqual((status, err.split("to undo, in this order:\n")[1]), (1, "  127.0.0.1:3313: START REPLICA\n"), err)

    def test_a_drain_ends_if_only_a_part_of_a_transaction_is_left(self) -> None:
        """The chosen one has received a part of a transaction when its source dies: its applier finds nothing more to execute."""
        told = recorded("mysql_recovered")
        state = "Replica has read all relay log; waiting for more updates"
        for column, value in (("Read_Source_Log_Pos", "2000"), ("Replica_SQL_Running_State", state), ("Replica_SQL_Running", "Yes")):
            told = changed(told, "127.0.0.1:3313", "SHOW REPLICA STATUS", column, value, 1)
        answers = told["run"]["answers"]["127.0.0.1:3313"]
        answers["SHOW REPLICA STATUS"][1:2] = answers["SHOW REPLICA STATUS"][1:2] * 5
        answers["SHOW PROCESSLIST"] = threads(state, "Applying batch of row changes") + threads(state, "Waiting for an event from Coordinator")
        with unittest.mock.patch.object(follow, "STILL", 0), unittest.mock.patch.object(follow, "PAUSE", 0):
            status, out, err, sent = self.played(told)
        self.assertEqual((status, err, sent), (0, "", self.played(recorded("mysql_recovered"))[3]))
        self.assertIn("7 127.0.0.1:3313: it has received a part of a transaction, up to mysql-bin.000001:2000, which is never executed\n", out)

    def test_a_drain_goes_on_while_the_applier_works(self) -> None:
        told = changed(recorded("mysql_recovered"), "127.0.0.1:3313", "SHOW REPLICA STATUS", "Read_Source_Log_Pos", "2000", 1)
        told = changed(told, "127.0.0.1:3313", "SHOW REPLICA STATUS", "Replica_SQL_Running", "Yes", 1)
        told = changed(told, "127.0.0.1:3313", "SHOW REPLICA STATUS", "Replica_SQL_Running_State", "Reading event from the relay log", 1)
        told["run"]["answers"]["127.0.0.1:3313"]["SHOW REPLICA STATUS"][2:] = []
        with unittest.mock.patch.object(follow, "STILL", 0), unittest.mock.patch.object(follow, "PAUSE", 0):
            status, _, err, _ = self.played(told, words=[*told["run"]["words"], "--wait", "0"])
        self.assertEqual((status, "stopped at line 7: 127.0.0.1:3313 doesn't come so far" in err), (1, True), err)

    # ---- a dry run

    def test_a_dry_run_sends_nothing_and_shows_no_coordinate(self) -> None:
        for name in all_names():
            status, out, err, sent = self.played(recorded(name), "dry")
            with self.subTest(name=name):
                self.assertEqual(sent, [])
                self.assertTrue(out.endswith(DRY) if status == 0 else err)
                self.assertNotRegex(out + err, r"-bin\.\d+:\d|LOG_POS=\d|LOG_FILE='")
                self.assertNotRegex(out, r"secret|repl'")

    def test_a_dry_run_shows_names_of_what_will_be_noted(self) -> None:
        for name, word in (("mysql_move_up", "SOURCE"), ("mariadb_move_up", "MASTER")):
            out = self.played(recorded(name), "dry")[1]
            self.assertRegex(out, r"8 127\.0\.0\.1:3313> CHANGE .* %s_LOG_FILE=:B\.exec\.file, %s_LOG_POS=:B\.exec\.pos, .*; -- "
                                  r"only where A is below B at B\.end, stopped" % (word, word))

    def test_a_dry_run_sees_what_is_wrong_already(self) -> None:
        err = self.played(recorded("mysql_gtids_purged"), "dry")[2]
        self.assertIn("stopped at line 5: 127.0.0.1:3312 has purged what 127.0.0.1:3313 hasn't executed", err)
        out = self.played(recorded("mysql_gtids_old_master_without_login"), "dry")[1]
        self.assertIn("before it is executed: 127.0.0.1:3311 has no source, and so no login", out)
        told = recorded("mysql_move_up")
        told["run"] = told["dry"]
        told = changed(told, "127.0.0.1:3312", "SHOW REPLICA STATUS", "Source_Port", "3319")
        status, _, err, sent = self.played(told)
        self.assertEqual((status, sent), (1, []))
        self.assertIn("stopped at line 3: 127.0.0.1:3312 is below 127.0.0.1:3319", err)

    # ---- what is sent

    def test_a_plan_is_sent_in_the_words_of_the_server(self) -> None:
        sent = self.played(recorded("mariadb_move_up"))[3]
        self.assertEqual([(server, re.sub(r"\d{6}'|POS=\d+", "..", text)) for server, text in sent], [
            ("3313", "STOP SLAVE"), ("3312", "STOP SLAVE"), ("3313", "START SLAVE UNTIL MASTER_LOG_FILE='mysql-bin..., MASTER_LOG_.."), ("3313", "STOP SLAVE"),
            ("3313", "CHANGE MASTER TO MASTER_HOST='127.0.0.1', MASTER_PORT=3311, MASTER_LOG_FILE='mysql-bin..., MASTER_LOG_.., MASTER_USE_GTID=no"),
            ("3313", "START SLAVE"), ("3312", "START SLAVE")])

    def test_the_old_word_is_taken_for_execute(self) -> None:
        told = recorded("mysql_move_up")
        self.assertEqual(self.played(told, words=["--carry-out", "--wait", "20"])[:3], self.played(told)[:3])

    def test_a_former_master_gets_a_login_and_the_replicas_tries(self) -> None:
        for kind, tries in (("mysql", True), ("mariadb", False)):
            status, out, _, sent = self.played(recorded(kind + "_takeover"))
            change = next(text for server, text in sent if server == "3311" and text.startswith("CHANGE"))
            self.assertEqual("SOURCE_RETRY_COUNT=86400" in change, tries)
            self.assertIn("_USER='repl', ", change)
            self.assertNotIn("secret", out)

    def test_a_replica_keeps_its_tries_and_its_login(self) -> None:
        for name in names_of(("move_up", "recovered"), ("moved_by_set", "recovered_by_sets")):
            self.assertFalse([text for _, text in self.played(recorded(name))[3] if "RETRY" in text or "_USER=" in text])

    def test_a_server_without_a_source_gets_a_login_by_sets_too(self) -> None:
        sent = self.played(recorded("mysql_gtids_old_master"))[3]
        self.assertIn("SOURCE_AUTO_POSITION=1, SOURCE_USER='repl', SOURCE_PASSWORD='secret', GET_SOURCE_PUBLIC_KEY=1, SOURCE_RETRY_COUNT=86400", sent[1][1])

    def test_without_a_login_nothing_is_sent(self) -> None:
        status, _, err, sent = self.played(recorded("mysql_gtids_old_master_without_login"))
        self.assertEqual((status, sent), (2, []))
        self.assertIn("127.0.0.1:3311 has no source, and so no login for its new one: give --replication-user", err)
        status, _, err, sent = self.played(recorded("mysql_takeover"), words=["--execute"])
        self.assertEqual((status, sent), (2, []))

    def test_one_by_auto_position_is_detached_and_back_by_its_host_alone(self) -> None:
        for name, host in (("detached_auto", "//127.0.0.1"), ("reattached_auto", "127.0.0.1")):
            sent = self.played(recorded("mysql_gtids_" + name))[3]
            change = "CHANGE REPLICATION SOURCE TO SOURCE_HOST='%s', SOURCE_PORT=3311" % host
            self.assertEqual(sent[:2], [("3313", "STOP REPLICA"), ("3313", change)])

    def test_one_by_auto_position_keeps_it_where_the_plan_has_a_coordinate(self) -> None:
        for name, host in (("detached", "//127.0.0.1"), ("reattached", "127.0.0.1")):
            told = recorded("mysql_" + name)
            for at in range(len(told["run"]["answers"]["127.0.0.1:3313"]["SHOW REPLICA STATUS"])):
                for column, value in (("Auto_Position", "1"), ("Relay_Source_Log_File", ""), ("Exec_Source_Log_Pos", "0")):
                    told = changed(told, "127.0.0.1:3313", "SHOW REPLICA STATUS", column, value, at)
            change = "CHANGE REPLICATION SOURCE TO SOURCE_HOST='%s', SOURCE_PORT=3312" % host
            told["run"]["answers"]["127.0.0.1:3313"][change] = [["", "", 0]]
            status, _, err, sent = self.played(told)
            self.assertEqual((status, err, sent[:2]), (0, "", [("3313", "STOP REPLICA"), ("3313", change)]))

    def test_a_line_by_auto_position_wants_it(self) -> None:
        for name in ("detached_auto", "reattached_auto"):
            told = recorded("mysql_gtids_" + name)
            for at in range(len(told["run"]["answers"]["127.0.0.1:3313"]["SHOW REPLICA STATUS"])):
                told = changed(told, "127.0.0.1:3313", "SHOW REPLICA STATUS", "Auto_Position", "0", at)
            status, _, err, sent = self.played(told)
            self.assertEqual((status, sent), (1, [("3313", "STOP REPLICA")]))
            self.assertIn("127.0.0.1:3313 doesn't go by auto position", err)

    def test_a_detached_server_that_runs_is_stopped_first(self) -> None:
        for kind, word in (("mysql", "REPLICA"), ("mariadb", "SLAVE")):
            told = recorded(kind + "_reattached")
            told["plan"] = told["plan"].replace("1 A STOP REPLICA; ", "1 A ")
            for answers in told["run"]["answers"]["127.0.0.1:3313"].values():
                answers.insert(0, answers[0])
            status, out, err, sent = self.played(told)
            self.assertEqual((status, err, sent[0]), (0, "", ("3313", "STOP " + word)))
            self.assertIn("1 127.0.0.1:3313: its threads run, as a restart starts them: they are stopped first\n", out)

    def test_a_place_by_hand_is_sent_and_without_it_nothing(self) -> None:
        for kind in KINDS:
            told = recorded(kind + "_by_hand")
            place = told["run"]["words"][1].split("=")[1]
            sent = self.played(told)[3]
            self.assertTrue(any("_LOG_FILE='%s', " % place.split(":")[0] in text and "_LOG_POS=%s, " % place.split(":")[1] in text for _, text in sent))
            status, _, err, sent = self.played(told, words=["--execute"])
            self.assertEqual((status, sent), (2, []))
            self.assertIn("line 16 is by hand (note B.match, by hand: the place in the log of C behind the last transaction", err)

    # ---- what stops

    def test_a_server_that_runs_stops_the_plan(self) -> None:
        told = recorded("mysql_move_up")
        for at in range(-4, 0):
            told = changed(told, "127.0.0.1:3313", "SHOW REPLICA STATUS", "Replica_IO_Running", "Yes", at)
        looks = told["run"]["answers"]["127.0.0.1:3313"]["SHOW REPLICA STATUS"]
        stopped = next(at for at, answer in enumerate(looks) if at > 2 and "\tNo\tNo\t" in answer[0])
        for at in range(stopped, len(looks)):
            told = changed(told, "127.0.0.1:3313", "SHOW REPLICA STATUS", "Replica_IO_Running", "Yes", at)
        status, _, err, _ = self.played(told)
        self.assertEqual(status, 1)
        self.assertRegex(err, r"stopped at line 8: 127\.0\.0\.1:3313 runs \(receiver Yes, applier off\)")
        self.assertIn("to undo, in this order:\n  127.0.0.1:3313: START REPLICA\n  127.0.0.1:3312: START REPLICA\n", err)

    def test_a_purged_file_stops_the_plan(self) -> None:
        told = recorded("mysql_move_up")
        told["run"]["answers"]["127.0.0.1:3311"]["SHOW BINARY LOGS"] = [["Log_name\tFile_size\nmysql-bin.000009\t400\n", "", 0]]
        status, _, err, sent = self.played(told)
        self.assertEqual((status, len(sent)), (1, 4))
        self.assertIn("stopped at line 8: 127.0.0.1:3311 doesn't keep mysql-bin.", err)

    def test_a_statement_that_is_refused_stops_the_plan(self) -> None:
        told = recorded("mysql_move_up")
        told["run"]["answers"]["127.0.0.1:3312"]["STOP REPLICA"] = [["", "ERROR 1227 (42000) at line 1: Access denied", 1]]
        status, _, err, _ = self.played(told)
        self.assertEqual(status, 1)
        self.assertIn("ERROR 1227", err)
        self.assertTrue(err.endswith("to undo, in this order:\n  127.0.0.1:3313: START REPLICA\n"))

    def test_a_takeover_that_stops_tells_who_refuses_writes_and_the_way_back(self) -> None:
        told = recorded("mysql_takeover")
        for text in [text for text in told["run"]["answers"]["127.0.0.1:3311"] if text.startswith("CHANGE")]:
            told["run"]["answers"]["127.0.0.1:3311"][text] = [["", "ERROR 1210 (HY000) at line 1: Incorrect arguments", 1]]
        status, _, err, _ = self.played(told)
        self.assertEqual(status, 1)
        self.assertRegex(err, r"127\.0\.0\.1:3312: it has no source any more; it was below 127\.0\.0\.1:3311 at mysql-bin\.\d{6}:\d+: back by CHANGE")
        self.assertIn("  127.0.0.1:3311: SET PERSIST super_read_only=OFF", err)

    def test_a_recovery_that_stops_behind_the_reset_goes_on_by_hand(self) -> None:
        told = recorded("mysql_recovered")
        told["run"]["answers"]["127.0.0.1:3313"]["SET PERSIST super_read_only=OFF"] = [["", "ERROR 1227 (42000) at line 1: Access denied", 1]]
        status, _, err, _ = self.played(told)
        self.assertEqual(status, 1)
        self.assertIn("  127.0.0.1:3313: it has no source any more, and its old one isn't reached: go on by hand from line 21\n", err)
        self.assertNotIn("START REPLICA", err)


class Mistakes(unittest.TestCase):
    """What a newcomer gets wrong first: a message with the reason, and nothing is sent."""

    def answered(self, plan: str, words: list[str], answers: dict[str, Any] | None = None) -> tuple[int, str, str]:
        """The status and what is printed."""
        status, out, err, client = ran(follow, answers or {}, words, plan)
        self.assertEqual(client.changing(), [])
        return status, out, err

    def test_a_scenario_or_another_text_is_no_plan(self) -> None:
        for text, words in (
                ('{"version": 1, "servers": []}',
                 "line 1 is JSON: this is a scenario, and no plan. `orch -c COMMAND -i HOST:PORT --plan < SCENARIO` prints one"),
                ("", "no plan: the text is empty"), ("refused 2 UnknownInstance\n", "line 1 is a refusal, and no plan: refused 2 UnknownInstance"),
                ("hello\n", "line 1 is no line of a plan, which is NUMBER LETTER STATEMENTS; -- CONDITIONS: hello"),
                ("# x\nserver A a:1\n1 A STOP REPLICA;\n2 A DROP TABLE d.t;\n", "line 4 (line 2 of the plan): a plan has no such statement: DROP TABLE d.t"),
                ("# x\nserver A a:1\n2 A STOP REPLICA;\n", "line 1 of the plan is missing: 2 comes in its place")):
            self.assertEqual(self.answered(text, ["--execute"]), (2, "", "orch follow: %s\n" % words))

    def test_a_plan_without_lines_is_done(self) -> None:
        for text in ("# Rehearsed on a model: ..\n", "# Rehearsed on a model: ..\nserver A a:3306\n"):
            for words in ([], ["--execute"]):
                self.assertEqual(self.answered(text, words), (0, "the plan has no lines: there is nothing to do\n", ""))

    def test_a_server_that_is_not_reached_sends_nothing(self) -> None:
        status, out, err = self.answered("server A db1:3306\n1 A STOP REPLICA;\n", ["--execute"])
        self.assertEqual((status, out), (3, ""))
        self.assertEqual(err, "orch follow: nothing was sent: db1:3306 isn't reached: ERROR 2003 (HY000): Can't connect to server on 'db1:3306'\n")

    def test_a_client_that_is_not_installed_is_told(self) -> None:
        err = io.StringIO()
        with unittest.mock.patch("sys.stdin", io.StringIO("server A db1:3306\n1 A STOP REPLICA;\n")), contextlib.redirect_stderr(err):
            status = follow.run(arguments_of(follow, ["--client", "/no/such/client"]))
        self.assertEqual((status, err.getvalue()), (3, "orch follow: nothing was sent: the client /no/such/client can't be run (No such file or directory): "
                                                       "install it, or name another one by --client\n"))

    def test_wrong_arguments_are_told(self) -> None:
        for words, reason in ((["--alias", "db1:abc=db2"], "db1:abc: a server is HOST or HOST:PORT, with a port from 1 to 65535"),
                              (["--alias", "db1"], "db1: an alias is HOST:PORT=HOST:PORT"),
                              (["--place", "db1=5"], "db1=5: a place is HOST:PORT=FILE:POSITION, with a file such as binlog.000007")):
            err = io.StringIO()
            with contextlib.redirect_stderr(err), self.assertRaises(SystemExit) as ended:
                arguments_of(follow, words)
            self.assertEqual(ended.exception.code, 2)
            self.assertIn(reason, err.getvalue())


if __name__ == "__main__":
    unittest.main()
