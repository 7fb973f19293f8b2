"""The reports of the wrapper: outage, sweep, compare, then, draw and runbook, on a shop's topology."""
from __future__ import annotations

import json
import os
import tempfile
import unittest
import xml.dom.minidom

from wrapped import HERE, SHOP, TOP, WrapperTest

from orch_tools import clusters, runbook, runbook_words, scenario
from orch_tools.deaths import dying
from orch_tools.plan import read_plan
from orch_tools.program import BUILT, Answer, NoAnswer, Program
from rehearsal.recovery_plan import plan_text

DEAD = ('{"version":1,"gtid":true,"servers":[{"name":"m","history":[["m",100,3]]},{"name":"a","source":"m","executed":2,"auto":true},'
        '{"name":"b","source":"m","executed":2,"auto":true,"version":"5.7.44"}]}')

NIGHT = ('{"version":1,"servers":[{"name":"db1","history":[["db1",100,5]]},{"name":"db2","source":"db1","executed":4,'
         '"read":"mysql-bin.000001:504"},{"name":"db3","source":"db1","executed":4},{"name":"db4","source":"db1","executed":3}]}')
NIGHT_BY_GTIDS = NIGHT.replace('"version":1,', '"version":1,"gtid":true,')


def plan_in(name: str) -> str:
    """A recorded plan."""
    with open(os.path.join(HERE, "recorded", name), encoding="utf-8") as file:
        return file.read()


class OutageTest(WrapperTest):
    """What becomes of a topology if a server dies."""

    def test_the_report_of_a_master(self) -> None:
        """Promoted, lost, gone, to do, what would help, and the versions."""
        told = self.told(0, "outage", "db1", SHOP)
        self.assert_lines(
            told.out, "db1:3306 dies.", "promoted     db2:3306", "follow       none",
            "lost         db3:3306, behind mysql-bin.000001:2004, detached; db6:3306 stays below it",
            "             db4:3306, ahead mysql-bin.000001:2804, detached", "             db5:3306, behind mysql-bin.000001:1204, detached",
            "gone         2 transactions that db1:3306 had and db2:3306 lacks",
            "             number 7 of db1:3306, mysql-bin.000001:2404 to mysql-bin.000001:2804: on db4:3306 (detached); db5:3306 had received it; "
            "its relay log is dropped",
            "             number 8 of db1:3306, mysql-bin.000001:2804 to mysql-bin.000001:3204: on no other server",
            "would help   no replica lags", "               -> promoted db3:3306, 2 follow, 1 lost, 0 transactions gone",
            "look at      db2:3306 (8.4) takes the place of db1:3306 (8.0): another version")

    def test_the_same_as_json(self) -> None:
        """With the numbers of the transactions, and the changes with their own outcomes."""
        told = self.told(0, "outage", "--json", "db1:3306", SHOP).json
        self.assertEqual((told["promoted"], told["gone"], told["cut_off"]), ("db2:3306", 2, ["db6:3306"]))
        self.assertEqual([(row["first"], row["on"], row["received_by"]) for row in told["transactions"]],
                         [(7, ["db4:3306"], ["db5:3306"]), (8, [], [])])
        self.assertEqual(told["changes"][0]["change"], "no replica lags")

    def test_transactions_have_their_gtids(self) -> None:
        """With GTIDs a transaction is named by its own, and a follower of a lower version is warned of."""
        told = self.told(0, "outage", "--no-changes", "m", given=DEAD)
        self.assert_lines(told.out, "promoted     a:3306", "follow       b:3306, below a:3306", "lost         none",
                          "gone         1 transaction that m:3306 had and a:3306 lacks",
                          "             00000000-0000-0000-0000-000000000001:3: on no other server")
        self.assertIn("b:3306 (5.7) follows a:3306 (8.0): MySQL doesn't support", told.out)

    def test_an_intermediate_master_and_a_leaf(self) -> None:
        """A successor, and nobody."""
        self.assert_lines(self.told(0, "outage", "db3", SHOP).out, "successor    db1:3306", "gone         none")
        self.assert_lines(self.told(0, "outage", "db6", SHOP).out, "promoted     nobody: no replica is below db6:3306",
                          "gone         none: db3:3306 has them")

    def test_no_answer_has_its_reason(self) -> None:
        """An unknown server, no file, and a scenario with a fault, which is explained."""
        self.assertIn("no server is called db11:3306. Did you mean `db1:3306`?", self.told(3, "outage", "db11", SHOP).err)
        self.assertIn("./none.json: No such file or directory", self.told(3, "outage", "db1", "./none.json").err)
        told = self.told(3, "outage", "m", given='{"version":1,"servers":[{"name":"m","sorce":"x"}]}')
        self.assertIn("standard input:1:37: there is no key `sorce` here. Did you mean `source`?", told.err)

    @unittest.skipUnless(os.path.exists(BUILT), "the program isn't built")
    def test_real_topologies(self) -> None:
        """The examples that the import made: what is gone is bytes of the log, and the notes are beside the files."""
        real = os.path.join(TOP, "examples", "real")
        told = self.told(0, "outage", "db1", os.path.join(real, "flat.json"), ORCH=BUILT)
        self.assert_lines(told.out, "promoted     db2:3306", "follow       db5:3306, below db2:3306", "gone         none")
        self.assertRegex(told.out, r"db3:3306: [\d,]+ bytes of the binary log behind db2:3306")
        self.assertIn("note: no GTIDs: ", told.err)
        told = self.told(0, "outage", "db1", os.path.join(real, "trouble.json"), ORCH=BUILT)
        self.assertRegex(told.out, r"(?m)^gone         [\d,]+ bytes of the binary log that db1:3306 had and db2:3306 lacks$")
        self.assertIn("db2:3306 had received them; its relay log is dropped", told.out)
        self.assertRegex(self.told(0, "sweep", os.path.join(real, "two-centres.json"), ORCH=BUILT).out, "(?m)^ams1:3306 promoted ams2:3306, 1 follow, 0 lost$")

    def test_several_orchestrators(self) -> None:
        """Turns of several orchestrators are no answer; without such turns they are as one."""
        self.assertIn("the turns of this scenario are those of several orchestrators",
                      self.told(3, "outage", "m", os.path.join(TOP, "examples", "two-nodes.json")).err)
        self.assertIn("promoted     a:3306", self.told(0, "outage", "--no-changes", "m", given=DEAD.replace('"gtid":true', '"gtid":true,"nodes":2')).out)

    def test_notes_of_the_import_are_repeated(self) -> None:
        """Those of servers that the answer names, and those of all."""
        rows = [{"code": "no operator's data", "server": None, "text": "no rules were given", "repeat": True},
                {"code": "order only", "server": "db6:3306", "text": "only its order is known", "repeat": True},
                {"code": "dead server", "server": "db9:3306", "text": "not named here", "repeat": True},
                {"code": "settings", "server": "db2:3306", "text": "binlog_format is STATEMENT", "repeat": True}]
        with tempfile.NamedTemporaryFile("w", suffix=".json", encoding="utf-8") as file:
            json.dump({"version": 1, "way": "light", "notes": rows}, file)
            file.flush()
            told = self.told(0, "outage", "--no-changes", "--notes", file.name, "db1", SHOP)
        self.assert_lines(told.err, "note: no rules were given", "note: db6:3306: only its order is known")
        self.assertNotIn("not named here", told.err)
        self.assertIn("db2:3306: binlog_format is STATEMENT", told.out)


class SweepTest(WrapperTest):
    """Each death, and each pair."""

    def policy(self, rules: list[dict[str, object]]) -> str:
        """A policy's file."""
        with tempfile.NamedTemporaryFile("w", suffix=".json", delete=False, encoding="utf-8") as file:
            json.dump({"version": 1, "rules": rules}, file)
        self.addCleanup(os.unlink, file.name)
        return file.name

    def test_a_line_for_each_death(self) -> None:
        """Of every server."""
        told = self.told(0, "sweep", SHOP)
        self.assertEqual(len(told.out.splitlines()), 6)
        self.assert_lines(told.out, "db1:3306 promoted db2:3306, 0 follow, 3 lost (db3 behind; db4 ahead; db5 behind), 1 more below them, "
                          "2 transactions gone", "db2:3306 no replica is below it: nothing to recover",
                          "db3:3306 successor db1:3306, 0 follow, 1 lost (db6 behind)")

    def test_pairs(self) -> None:
        """Each two of a cluster, and with --worse those that cost more."""
        self.assertEqual(len(self.told(0, "sweep", "--pairs", SHOP).out.splitlines()), 6 + 6 * 5)
        worse = self.told(0, "sweep", "--pairs", "--worse", SHOP).out
        self.assert_lines(worse, "db1:3306 with db2:3306 promoted db3:3306, 0 follow, 2 lost (db4 ahead; db5 behind), 3 transactions gone")
        self.assertNotIn("db1:3306 with db6:3306", worse)

    def test_a_policy_that_isn_t_kept(self) -> None:
        """The status is 1, and each failure has its line."""
        path = self.policy([{"name": "nobody is lost", "lost": 0, "promotes_in": ["fra"]}, {"name": "somebody", "promotes": True}])
        told = self.told(1, "sweep", "--policy", path, SHOP)
        self.assert_lines(told.out, "policy: nobody is lost: db1:3306: db2:3306 is in `ams`, not in fra; 4 lost, at most 0", "policy: 1 failure")
        self.assertEqual(self.told(1, "sweep", "--json", "--policy", path, SHOP).json["failures"][0]["server"], "db1:3306")

    def test_a_policy_that_is_kept(self) -> None:
        """The status is 0."""
        path = self.policy([{"deaths": "intermediates", "promotes": True}, {"servers": ["db1"], "gone": 2}])
        self.assertIn("policy: kept", self.told(0, "sweep", "--policy", path, "--server", "db1", "--server", "db3", SHOP).out)

    def test_a_policy_of_pairs(self) -> None:
        """Pairs are tried where a rule speaks of them."""
        path = self.policy([{"name": "two deaths", "deaths": "pairs", "servers": ["db3"], "promotes": True}])
        self.assertIn("policy: two deaths: db3:3306 with db1:3306: nobody is promoted: refused 26 NoCandidate",
                      self.told(1, "sweep", "--policy", path, SHOP).out)

    def test_a_policy_with_a_fault(self) -> None:
        """The status is 2, and the rule is named."""
        for rule, says in (({"lots": 0}, "rule 1: there is no key `lots`. Did you mean `lost`?"), ({"lost": "0"}, 'rule 1: `lost` can\'t be "0"'),
                           ({"deaths": "master"}, "Did you mean `masters`?")):
            self.assertIn(says, self.told(2, "sweep", "--policy", self.policy([rule]), SHOP).err)

    def test_clusters_are_told_apart(self) -> None:
        """Each cluster's scenario has its servers with what their places decided, and its turns."""
        data = {"version": 1, "servers": [{"name": "m"}, {"name": "x"}, {"name": "r", "source": "m"}], "turns": [["write", "x", 1], ["polls"]]}
        parts = clusters.parts_of(data)
        self.assertEqual([(row["name"], row["server_id"]) for row in parts["r:3306"]["servers"]], [("m", 1), ("r", 3)])
        self.assertEqual((parts["m:3306"]["turns"], parts["x:3306"]["turns"]), ([["polls"]], [["write", "x", 1], ["polls"]]))
        whole = {**data, "turns": [["job", 1]]}
        self.assertIs(clusters.parts_of(whole)["m:3306"], whole)


class CompareTest(WrapperTest):
    """What differs."""

    def test_before_and_after_a_command(self) -> None:
        """The status is 1 where something differs."""
        told = self.told(1, "compare", "--command", "-c move-below -i db2 -d db3", SHOP)
        self.assert_lines(told.out, "~ db2:3306", "    source    db1:3306 -> db3:3306")
        self.assertRegex(told.out.splitlines()[-1], r"\d of 6 servers differ")

    def test_two_files(self) -> None:
        """The same ones differ in nothing; a server may be new or gone."""
        self.assertEqual(self.told(0, "compare", SHOP, SHOP).out, "nothing differs\n")
        with tempfile.NamedTemporaryFile("w", suffix=".json", encoding="utf-8") as file:
            json.dump({"version": 1, "servers": [{"name": "db1", "history": [["db1", 400, 8]]}, {"name": "new", "source": "db1", "executed": 8}]}, file)
            file.flush()
            told = self.told(1, "compare", SHOP, file.name)
            self.assert_lines(told.out, "- db2:3306", "+ new:3306 below db1:3306", "6 of 7 servers differ")
            self.assertEqual([row["sign"] for row in self.told(1, "compare", "--json", SHOP, file.name).json["servers"]], ["-"] * 5 + ["+"])

    def test_wrong_arguments(self) -> None:
        """One file without a command, and a command that isn't one."""
        self.assertIn("1 scenario given; two are wanted", self.told(2, "compare", SHOP).err)
        self.assertIn("Did you mean `recover`?", self.told(2, "compare", "--command", "recoverr -i db1", SHOP).err)
        self.assertIn("refused 2 UnknownInstance", self.told(3, "compare", "--command", "recover -i db11", SHOP).err)


class ThenTest(WrapperTest):
    """Commands one after another."""

    WINDOW = ("--command", "move-below -i db2 -d db3", "--command", "-c graceful-master-takeover -i db1 -d db3")

    def test_the_state_is_handed_on(self) -> None:
        """The scenario ends where the last command left it, and what each answered is on standard error."""
        told = self.told(0, "then", *self.WINDOW, SHOP)
        self.assert_lines(told.err, "ok  move-below -i db2 -d db3".replace("ok  ", "ok  -c "), "    db2:3306<db3:3306",
                          "ok  -c graceful-master-takeover -i db1 -d db3", "    promoted db3:3306")
        self.assertEqual(told.json["turns"][0], ["command", "move-below", {"i": "db2:3306", "d": "db3:3306"}])
        self.assertIn("promoted     db3:3306", self.told(0, "then", *self.WINDOW, SHOP, "--json").out.replace("promoted db3", "promoted     db3"))

    def test_it_stops_at_the_first_that_isn_t_carried_out(self) -> None:
        """With the status 1."""
        told = self.told(1, "then", "--command", "move-up -i db2", *self.WINDOW, SHOP)
        self.assert_lines(told.err, "NOT -c move-up -i db2", "    refused 11 SourceHasNoSource")
        self.assertNotIn("move-below", told.err)

    def test_jobs_that_ended_before(self) -> None:
        """Turns of the same job number before the command aren't taken for its own."""
        given = ('{"version":1,"servers":[{"name":"m","history":[["m",100,3]]},{"name":"a","source":"m","executed":2},'
                 '{"name":"b","source":"m","executed":3}],"turns":[["job",1],["job",1]]}')
        data = self.told(0, "then", "--command", "move-below -i a -d b", given=given).json
        told = self.told(1, "compare", "--ignore", "end", "--command", "move-below -i a -d b", given=given[:-len(',"turns":[["job",1],["job",1]]}')] + "}")
        self.assertEqual(data["turns"].count(["job", 1]) - 2, data["turns"].count(["round"]))
        self.assertIn("source    m:3306 -> b:3306", told.out)

    def test_a_list_and_a_flat_scenario(self) -> None:
        """A file of commands; the rules go on."""
        with tempfile.NamedTemporaryFile("w", encoding="utf-8") as file:
            file.write("# tonight\n\nmove-below -i db2 -d db3\n")
            file.flush()
            told = self.told(0, "then", "--list", file.name, "--flat", SHOP)
        servers = {server["name"]: server for server in told.json["servers"]}
        self.assertEqual((servers["db2:3306"]["source"], servers["db3:3306"]["rule"], told.json["turns"]), ("db3:3306", "prefer", []))

    def test_a_flat_scenario_is_what_the_program_dumps(self) -> None:
        """`--dump` prints the servers that the command leaves, which `dump` prints after its turns."""
        words = ("-c", "move-below", "-i", "db2", "-d", "db3")
        alone = self.told(0, *words, "--dump", "--scenario", SHOP)
        self.assertEqual(alone.err, "db2:3306<db3:3306\n")
        flat = self.told(0, "then", "--command", " ".join(words), "--flat", SHOP).json
        bare = [{key: value for key, value in server.items() if key != "rule"} for server in flat["servers"]]
        self.assertEqual({**flat, "servers": bare}, alone.json)
        turned = self.told(0, "then", "--command", " ".join(words), SHOP)
        self.assertEqual(self.told(0, "-c", "dump", given=turned.out).json, alone.json)

    def test_a_flat_scenario_after_a_refusal(self) -> None:
        """It has the servers before the command, with the status 1 of the list and 7 of the program."""
        told = self.told(1, "then", "--command", "move-up -i db2", *self.WINDOW, "--flat", SHOP)
        self.assert_lines(told.err, "NOT -c move-up -i db2", "    refused 11 SourceHasNoSource")
        alone = self.told(7, "-c", "move-up", "-i", "db2", "--dump", "--scenario", SHOP)
        self.assertEqual((alone.err, alone.out), ("refused 11 SourceHasNoSource\n", self.told(0, "-c", "dump", "--scenario", SHOP).out))
        self.assertEqual(told.json["servers"][1]["source"], "db1:3306")

    def test_wrong_arguments(self) -> None:
        """No command, and one that isn't known."""
        self.assertIn("no command is given", self.told(2, "then", SHOP).err)
        self.assertIn("`run` is no command that follows another", self.told(2, "then", "--command", "run", SHOP).err)


class DrawTest(WrapperTest):
    """Pictures."""

    def test_two_panels(self) -> None:
        """Both trees, in 800 pixels, with lags and what was changed."""
        told = self.told(0, "draw", "--command", "move-below -i db2 -d db3", SHOP)
        picture = xml.dom.minidom.parseString(told.out).documentElement
        self.assertEqual(picture.getAttribute("width"), "800")
        texts = [node.firstChild.data for node in picture.getElementsByTagName("text")]
        self.assertEqual(texts.count("db1"), 2)
        for text in ("now", "after move-below -i db2 -d db3", "applier off, executed 3", "5 behind", "takes writes, executed 8"):
            self.assertIn(text, texts)
        boxes = [node for node in picture.getElementsByTagName("rect") if node.getAttribute("x")]
        self.assertLess(max(float(node.getAttribute("x")) + float(node.getAttribute("width")) for node in boxes), 801)

    def test_the_same_as_json(self) -> None:
        """Each server with its depth and its kind."""
        told = self.told(0, "draw", "--json", SHOP).json
        rows = [(box["name"], box["depth"], box["kind"]) for box in told["panels"][0]["servers"]]
        self.assertEqual(rows, [("db1:3306", 0, "writes"), ("db2:3306", 1, "replicates"), ("db3:3306", 1, "replicates"),
                                ("db6:3306", 2, "replicates"), ("db4:3306", 1, "replicates"), ("db5:3306", 1, "stopped")])

    def test_a_refused_command_is_no_picture(self) -> None:
        """The status is 3."""
        self.assertIn("refused 11 SourceHasNoSource", self.told(3, "draw", "--command", "move-up -i db2", SHOP).err)


class RunbookTest(WrapperTest):
    """Plans for a hand."""

    def test_a_takeover(self) -> None:
        """Statements, conditions before and after, and checks; no coordinate of the scenario."""
        told = self.told(0, "runbook", "--takeover", "db3", "db1", SHOP)
        self.assert_lines(told.out, "2. db1:3306: Refuse writes.", "     db1> SET PERSIST super_read_only=ON;",
                          "     check:  SELECT @@super_read_only answers 1.",
                          "     before: Leave this step out if exec of db3:3306 is at or after end of db1:3306 already.",
                          "     db3> START REPLICA UNTIL SOURCE_LOG_FILE=<db1:3306 end file>, SOURCE_LOG_POS=<db1:3306 end pos>;")
        self.assertNotIn("mysql-bin", told.out)
        self.assertIn("server A db1:3306\n", self.told(0, "runbook", "--plan", "--takeover", "db3", "db1", SHOP).out)
        self.assertEqual(self.told(0, "runbook", "--json", "--takeover", "db3", "db1", SHOP).json["servers"]["A"], "db1:3306")

    def test_a_recovery_is_planned_by_the_program(self) -> None:
        """The runbook of a death: the failed server first, the choice, a line by hand, a loss, the way back that ends."""
        told = self.told(0, "runbook", "db1", given=NIGHT)
        self.assert_lines(
            told.out, "Runbook: orch -c recover -i db1:3306", "A server that is reached again hasn't failed: don't go on.",
            "Servers: db1:3306, db2:3306, db3:3306, db4:3306",
            "1. db1:3306: Read.", "     before: Try to reach it, now. Stop if it answers: a server that is reached hasn't failed.",
            "2. db2:3306: Stop the receiver.", "     db2> STOP REPLICA IO_THREAD;",
            "14. db2:3306: Nothing is sent; only compare.", "     before: It is chosen, and not db3:3306.",
            "     before: Go on only if exec of db2:3306 is at or after exec of db3:3306.",
            "16. db3:3306: Give it its source, at a coordinate.",
            "18. db4:3306: Nothing is sent; only compare.",
            "19. db4:3306: Stop both threads. Read. Detach: with // in front of its source's host nobody starts it by mistake.",
            "20. db2:3306: Stop both threads. Take its source away. From here on there is no way back: go on to the end.",
            "21. db2:3306: Take writes.")
        self.assertNotIn("mysql-bin", told.out)

    def test_recoveries_and_regroups_as_the_second_hand_plans_them(self) -> None:
        """--plan prints the program's plan, which is the one that is written anew, and which `orch follow` reads."""
        for given in (NIGHT, NIGHT_BY_GTIDS):
            data = json.loads(given)
            for words, command, turned in (([], "recover", dying(data, ("db1:3306",))), (["--regroup"], "regroup-replicas", data)):
                told = self.told(0, "runbook", "--plan", *words, "db1", given=given)
                self.assertEqual(told.out, plan_text(command, "db1:3306", None, json.dumps(turned)))
                self.assertEqual(read_plan(told.out).is_recovery, command == "recover")

    def test_a_recovery_as_json(self) -> None:
        """Each step with its statements, its conditions and their explanation."""
        steps = self.told(0, "runbook", "--json", "db1", given=NIGHT_BY_GTIDS).json["steps"]
        self.assertEqual(len(steps), 22)
        self.assertEqual((steps[15]["server"], steps[15]["conditions"]),
                         ("db3:3306", ["only where C.gtids are in B.gtids, stopped", "only where B.purged is in C.gtids"]))

    def test_a_regroup_is_planned_by_the_program(self) -> None:
        """Nobody dies for it, and nobody is detached or reset."""
        told = self.told(0, "runbook", "--regroup", "db1", given=NIGHT)
        self.assert_lines(told.out, "Runbook: orch -c regroup-replicas -i db1:3306", "1. db2:3306: Stop the receiver.",
                          "13. db2:3306: Nothing is sent; only compare.", "18. db4:3306: Start both threads.", "19. db2:3306: Start both threads.")
        self.assertNotIn("RESET", told.out)
        self.assertNotIn("no way back", told.out)

    def test_a_recovery_that_is_refused(self) -> None:
        """The death of a server without replicas is no recovery: no answer, with the program's line."""
        self.assertIn("refused 20 NotActionable", self.told(3, "runbook", "db4", given=NIGHT).err)

    def test_a_recovery_in_a_recorded_plan(self) -> None:
        """A recorded plan of a recovery, step by step."""
        plan = runbook.plan_of(plan_in("recover.plan.txt"))
        text = "\n".join(runbook.text_of(plan, ["-c", "recover", "-i", "m"]))
        self.assert_lines(text, "1. m:3306: Read.", "     before: Try to reach it, now. Stop if it answers: a server that is reached hasn't failed.",
                          "14. b:3306: Nothing is sent; only compare.", "     before: It is chosen, and not a:3306.",
                          "     before: Go on only if exec of b:3306 is after exec of a:3306.",
                          "20. b:3306: Stop both threads. Take its source away. From here on there is no way back: go on to the end.")

    def test_every_condition_and_statement_is_known(self) -> None:
        """The plans of the repository's cases."""
        with open(os.path.join(TOP, "cases", "plans.table"), encoding="utf-8") as file:
            lines = file.read().replace("\\n", "\n").splitlines() + plan_in("recover.plan.txt").splitlines()
        for found in filter(None, map(runbook.LINE.match, lines)):
            for condition in (found[4] or "").split("; ") if found[4] else []:
                self.assertTrue(any(form.fullmatch(condition) for form, _ in runbook_words.FORMS), condition)
            self.assertTrue(not found[3] or runbook_words.purposes(found[3].split("; ")) or "BINLOG EVENTS" in found[3], found[3])

    def test_a_program_with_and_without_such_plans(self) -> None:
        """If the program prints none, it answers `usage`, and there is no answer, with the reason."""
        words = ["-c", "recover", "-i", "m"]
        self.assertEqual(runbook.printed_plan(Printing(Answer(0, "a plan", "")), {}, words), "a plan")
        for answer, says in ((Answer(1, "", "usage\n"), "this build of the program prints no plan of `recover`"),
                             (Answer(7, "", "refused 26 NoCandidate\n"), "refused 26 NoCandidate")):
            with self.assertRaisesRegex(NoAnswer, says):
                runbook.printed_plan(Printing(answer), {}, words)


class Printing(Program):
    """A program that always gives one answer."""

    def __init__(self, answer: Answer) -> None:
        super().__init__(["orch_cli"])
        self.answer = answer

    def ask(self, _scenario: object, *_words: str) -> Answer:
        """That answer."""
        return self.answer


class ScenarioTest(WrapperTest):
    """Notes beside a scenario."""

    def test_notes_beside_the_file(self) -> None:
        """They are read without being named."""
        with tempfile.TemporaryDirectory() as folder:
            path = os.path.join(folder, "now.json")
            for name, value in ((path, {"version": 1, "servers": [{"name": "m"}]}), (os.path.join(folder, "now.notes.json"), {
                    "version": 1, "way": "light", "notes": [{"code": "order only", "server": "m:3306", "text": "x", "repeat": True}]})):
                with open(name, "w", encoding="utf-8") as file:
                    json.dump(value, file)
            self.assertEqual(scenario.read(path).repeated({"m:3306"}), ["m:3306: x"])
            self.assertEqual(scenario.read(path).repeated({"r:3306"}), [])
