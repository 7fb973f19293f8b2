"""What no server knows: data centres, promotion rules, downtimes, filters, block periods and hooks, from the operator's files."""
from __future__ import annotations

import json
import os
import shutil
import tempfile
import unittest
from typing import Any

from fake import HERE, ran
from servers import replica_row, server

from orch_tools import importing
from rehearsal.answers import PROGRAM, answer, is_built

OWN = {
    "servers": {"/^db[0-9]-ams/": {"dc": "ams"}, "db3-fra": {"dc": "fra", "rule": "must_not"},
                "db2-ams": {"rule": "prefer", "downtime": {"duration": "2h", "owner": "ann", "reason": "upgrade"}}},
    "filters": {"master": ["db1"], "intermediate": ["*"]}, "block": 600, "blocks": {"db1-ams:3306": 60}, "aliases": {"db1-ams:3306": "shop"},
    "hooks": {"pre_failover": ["page {failedHost} {failureDescription}"], "post_failover": [["dns {successorHost}", 0], ["mail", 1]]}}

ORCHESTRATORS = {
    "RecoverMasterClusterFilters": ["db1"], "RecoveryPeriodBlockSeconds": 900, "PreFailoverProcesses": ["echo '{failureType} on {failureCluster}'"],
    "PostFailoverProcesses": ["echo {successorHost}"], "PostMasterFailoverProcesses": ["echo master"],
    "PostIntermediateMasterFailoverProcesses": ["echo middle"],
    "PostUnsuccessfulFailoverProcesses": [], "PromotionIgnoreHostnameFilters": ["-fra"], "DataCenterPattern": "^db[0-9]-([a-z]+)",
    "ClusterNameToAlias": {"^db1": "shop"}, "PreventCrossDataCenterMasterFailover": True, "MySQLTopologyUser": "orchestrator"}

ANSWERS = {"db1-ams:3306": server(1, end=5000), "db2-ams:3306": server(2, replica_row("db1-ams", 4000)), "db3-fra:3306": server(3, replica_row("db1-ams",
                                                                                                                                               5000))}


class OperatorTest(unittest.TestCase):
    """Imports with an operator's file."""

    def setUp(self) -> None:
        self.folder = tempfile.mkdtemp()
        self.addCleanup(shutil.rmtree, self.folder)

    def file(self, what: Any, name: str = "mine.json") -> str:
        """A file that has this, as JSON or as a text."""
        path = os.path.join(self.folder, name)
        with open(path, "w", encoding="utf-8") as file:
            file.write(what if isinstance(what, str) else json.dumps(what))
        return path

    def imported(self, *words: str) -> tuple[int, Any, str]:
        """The import's status, scenario or none, and standard error."""
        status, out, err, _ = ran(importing, ANSWERS, [*ANSWERS, "--only-named", *words])
        return status, json.loads(out) if out else None, err

    def told(self, *words: str) -> tuple[Any, str]:
        """The scenario and standard error of an import that succeeds; the scenario is valid by the schema, and the program reads it."""
        status, scenario, err = self.imported(*words)
        self.assertEqual(status, 0, err)
        if is_built():
            self.assertEqual(answer(PROGRAM, scenario, ["-c", "run"])[0], 0)
        return scenario, err

    def test_a_file_of_his_own(self) -> None:
        scenario, err = self.told("--operator", self.file(OWN))
        servers = {one["name"]: one for one in scenario["servers"]}
        self.assertEqual([(one.get("dc"), one.get("rule")) for one in servers.values()], [("ams", None), ("ams", "prefer"), ("fra", "must_not")])
        self.assertEqual({key: scenario[key] for key in ("block", "blocks", "aliases", "filters")}, {key: OWN[key] for key in ("block", "blocks", "aliases",
                                                                                                                               "filters")})
        self.assertEqual(scenario["hooks"], {"pre_failover": [["page {failedHost} {failureDescription}", 0]], "post_failover": [["dns {successorHost}", 0],
                                                                                                                                ["mail", 1]]})
        self.assertEqual(scenario["turns"], [["command", "begin-downtime", {"i": "db2-ams:3306", "duration": "2h", "owner": "ann", "reason": "upgrade"}]])
        self.assertNotIn("not given", err)
        self.assertIn("no value for {failureDescription}: these words of hooks stay as they are", err)

    def test_orchestrators_configuration(self) -> None:
        path = self.file(ORCHESTRATORS, "orchestrator.conf.json")
        scenario, err = self.told("--operator", path)
        servers = {one["name"]: one for one in scenario["servers"]}
        self.assertEqual([(one.get("dc"), one.get("rule")) for one in servers.values()], [("ams", None), ("ams", None), ("fra", "must_not")])
        self.assertEqual((scenario["block"], scenario["filters"], scenario["aliases"]), (900, {"master": ["db1"], "intermediate": []},
                                                                                         {"db1-ams:3306": "shop"}))
        self.assertEqual(scenario["hooks"], {"pre_failover": [["echo '{failureType} on {failureCluster}'", 0]], "post_failover": [["echo master", 0],
                                                                                                                                  ["echo {successorHost}", 0]]})
        self.assertIn("has PreventCrossDataCenterMasterFailover, PostIntermediateMasterFailoverProcesses: a scenario's recoveries don't look at it", err)
        self.assertIn("no hook runs in a scenario", err)

    def test_both_and_arguments(self) -> None:
        """Later files win over earlier ones, and arguments over files."""
        scenario, _ = self.told("--operator", self.file(ORCHESTRATORS, "a.json"), "--operator", self.file(OWN), "--rule", "db3-fra=prefer_not", "--dc",
                                "db1-ams=par")
        self.assertEqual([(one.get("dc"), one.get("rule")) for one in scenario["servers"]], [("par", None), ("ams", "prefer"), ("fra", "prefer_not")])
        self.assertEqual(scenario["block"], 600)

    def test_what_is_absent_is_said(self) -> None:
        _, err = self.told("--rule", "db2-ams=prefer")
        self.assertIn("not given: data centres, filters of recoveries and a block period (--operator FILE, --rule, --dc)", err)

    def test_a_name_that_is_none_of_the_servers_is_said(self) -> None:
        _, err = self.told("--operator", self.file({"servers": {"db22-ams": {"rule": "prefer"}}}), "--rule", "db1-ams=prefer")
        self.assertIn("note: db22-ams is none of the servers", err)

    def test_what_is_wrong_is_named(self) -> None:
        for what, reason in ((
                "{", "mine.json: Expecting property name"), ([], "an object is wanted"), ({"server": {}}, "unknown key server; there are servers, filters"),
                ({"servers": {"db1": {"role": "x"}}}, "mine.json: db1: unknown key role; there are dc, rule, downtime"),
                ({"servers": {"db1": {"rule": "best"}}}, "mine.json: db1: rule: one of prefer, neutral, prefer_not, must_not"),
                ({"servers": {"/(/": {"dc": "x"}}}, "no pattern: ("), ({"servers": {"db1": {"downtime": "2h"}}}, "db1: downtime: an object as"),
                ({"block": "1h"}, "mine.json: block: a number is wanted"), ({"hooks": {"pre": []}}, "hooks: unknown key pre; there are pre_failover"),
                ({"hooks": {"pre_failover": [3]}}, "a hook is a text, or a text and its exit"), ({"filters": {"master": "x"}},
                                                                                                 "filters: master: a list of texts is wanted")):
            with self.subTest(what=what):
                status, scenario, err = self.imported("--operator", self.file(what))
                self.assertEqual((status, scenario), (2, None))
                self.assertIn(reason, err)
        self.assertEqual(self.imported("--rule", "db1-ams=best")[0], 2)

    def test_the_schema_takes_it(self) -> None:
        try:
            import jsonschema
        except ImportError:
            self.skipTest("no jsonschema")
        with open(os.path.join(HERE, "..", "..", "docs", "scenario.schema.json"), encoding="utf-8") as file:
            jsonschema.Draft7Validator(json.load(file)).validate(self.told("--operator", self.file(OWN))[0])


if __name__ == "__main__":
    unittest.main()
