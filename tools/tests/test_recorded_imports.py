#!/usr/bin/env python3
"""Both ways of the import over what real servers answered, recorded by tools/rehearsal/record.py, which notes their versions.

    tools/tests/test_recorded_imports.py --write

writes what the import makes of the recorded answers now into the recordings.
"""
from __future__ import annotations

import copy
import glob
import json
import os
import re
import sys
import tempfile
import unittest
from typing import Any

from fake import HERE, ran

from orch_tools import importing
from rehearsal.answers import PROGRAM, answer, differences, is_built

FOLDER = os.path.join(HERE, "recorded", "import")
# How many commands each recorded topology is asked besides the deaths.
MANY = int(os.environ.get("QUESTIONS", "6"))
# Read while a client wrote: the two ways read it at two moments.
MOVING = ("mysql_loaded", "mysql_gtids_loaded", "mariadb_loaded")

Told = dict[str, Any]


def names() -> list[str]:
    """The recorded set-ups: the kind of servers, whether these have GTIDs, and the name of the set-up."""
    return sorted(os.path.basename(path)[:-5] for path in glob.glob(os.path.join(FOLDER, "*.json")))


def recorded(name: str) -> Told:
    """A recorded set-up."""
    with open(os.path.join(FOLDER, name + ".json"), encoding="utf-8") as file:
        told: Told = json.load(file)
        return told


def again(way: Told, *words: str) -> Told:
    """The same import over the recorded answers, with some arguments more."""
    with tempfile.TemporaryDirectory() as folder:
        out = os.path.join(folder, "now.json")
        status, _, err, client = ran(importing, way["answers"], [*way["words"], *words, "--out", out])
        if client.changing():
            raise AssertionError("sent %s" % client.changing())
        found: Told = {"status": status, "err": err}
        for key, path in (("scenario", out), ("map", out[:-5] + ".map.json"), ("notes", out[:-5] + ".notes.json")):
            if status == 0:
                with open(path, encoding="utf-8") as file:
                    found[key] = json.load(file)
        return found


def server_of(way: Told, name: str) -> Told:
    """A server of a scenario."""
    found: Told = next(server for server in way["scenario"]["servers"] if server["name"] == name)
    return found


def asked(way: Told, *words: str) -> str:
    """What the program answers to a single command."""
    status, out, err = answer(PROGRAM, way["scenario"], list(words))
    return out if status == 0 else err


class RecordedTest(unittest.TestCase):
    """Every recorded set-up."""

    def test_each_import_makes_the_same_again(self) -> None:
        self.assertGreaterEqual(len(names()), 38)
        for name in names():
            told = recorded(name)
            for way in ("light", "exact", "found"):
                if way in told:
                    with self.subTest(name=name, way=way):
                        self.assertEqual(again(told[way]), {key: value for key, value in told[way].items() if key not in ("answers", "words")})

    def test_recordings_have_their_versions_and_no_traces_of_a_machine(self) -> None:
        for name in names():
            with open(os.path.join(FOLDER, name + ".json"), encoding="utf-8") as file:
                text = file.read()
            self.assertRegex(recorded(name)["server"], r"(MySQL|MariaDB) \d+\.\d+\.\d+")
            self.assertEqual(re.findall(r"/(?:tmp|home|work|root|usr)/[^\"\\ ]*", text), [])

    @unittest.skipUnless(is_built(), "no built program")
    def test_both_ways_answer_the_same(self) -> None:
        """If both have a scenario: each death, and some commands, with coordinates as the servers have them."""
        compared = 0
        for name in names():
            told = recorded(name)
            if "exact" in told and told["exact"]["status"] == 0 and name not in MOVING:
                compared += 1
                with self.subTest(name=name):
                    loosely = "places" if name.startswith("mariadb") else "replicas" if name.endswith("purged_files") else ""
                    self.assertEqual(list(differences(told["light"], told["exact"], MANY, loosely)), [])
        self.assertGreaterEqual(compared, 20)

    def test_what_is_found_from_one_server_is_what_was_named(self) -> None:
        """But a replica whose receiver is off."""
        for name in names():
            told = recorded(name)
            if "found" in told:
                stopped = {server["name"] for server in told["light"]["scenario"]["servers"] if server.get("io") is False}
                found = {server["name"] for server in told["found"]["scenario"]["servers"]}
                self.assertEqual({server["name"] for server in told["light"]["scenario"]["servers"]} - found - stopped, set(), name)


class LettersTest(unittest.TestCase):
    """Each way in which an import was wrong in silence, or stopped for a wrong reason."""

    def test_a_dead_master_without_gtids_is_told_by_coordinates_or_refused(self) -> None:
        told = recorded("mysql_dead_master")
        letters = told["letters"]
        self.assertEqual(told["exact"]["status"], 3)
        self.assertIn("has no GTIDs in its log: what a dead source had can't be derived from it; read it without --exact", told["exact"]["err"])
        executed = {letter: server_of(told["light"], letters[letter])["executed"] for letter in "bcde"}
        self.assertTrue(executed["c"] == executed["e"] > executed["b"] > executed["d"])
        if is_built():
            self.assertEqual(asked(told["light"], "-c", "recover", "-i", letters["a"]).split("\n")[0], "promoted %s" % letters["c"])

    def test_a_dead_master_with_gtids_leaves_the_mode_and_its_uuid(self) -> None:
        told = recorded("mysql_gtids_dead_master")
        for way in (told["light"], told["exact"]):
            self.assertTrue(way["scenario"]["gtid"])
            self.assertEqual({server.get("auto") for server in way["scenario"]["servers"] if server.get("up", True)}, {True})
            dead = server_of(way, told["letters"]["a"])
            self.assertEqual((dead["up"], len(dead["uuid"])), (False, 36))
            if is_built():
                self.assertNotIn("detached", asked(way, "-c", "recover", "-i", dead["name"]))

    def test_auto_position_that_never_ran_stands_where_its_set_says(self) -> None:
        told = recorded("mysql_gtids_never_ran")
        c, b = told["letters"]["c"], told["letters"]["b"]
        for way in (told["light"], told["exact"]):
            self.assertEqual(way["status"], 0, way["err"])
            whole = sum(run[2] for run in server_of(way, told["letters"]["a"])["history"])
            self.assertEqual((server_of(way, c)["source"], whole - server_of(way, c)["executed"]), (b, 2))

    def test_two_roots_of_one_history_are_of_one_cluster(self) -> None:
        for name, own in (("mysql_gtids_old_master_back", 1), ("mysql_gtids_clean_master_back", 0)):
            told = recorded(name)
            for way in (told["light"], told["exact"]):
                self.assertEqual(way["status"], 0, way["err"])
                self.assertEqual(len({server["cluster"] for server in way["scenario"]["servers"]}), 1)
                if is_built():
                    status, _, err = answer(PROGRAM, way["scenario"], ["-c", "move-gtid", "-i", told["letters"]["a"], "-d", told["letters"]["b"]])
                    self.assertEqual((status, err.startswith("refused 18 Errant")), (7, True) if own else (0, False), err)

    def test_a_dead_intermediate_master_goes_below_whom_the_operator_says(self) -> None:
        told = recorded("mysql_gtids_dead_intermediate")
        a, b = told["letters"]["a"], told["letters"]["b"]
        for way in (told["light"], told["exact"]):
            self.assertEqual((way["status"], server_of(way, b)["source"], server_of(way, b)["up"]), (0, a, False))
            if is_built():
                self.assertEqual(asked(way, "-c", "recover", "-i", b).split("\n")[0], "successor %s" % a)
        without = copy.deepcopy(told["light"])
        without["words"] = [word for word in without["words"] if word != "--below" and "=" not in word]
        self.assertIn("its source isn't known: taken for a master", again(without)["err"])

    def test_a_server_that_goes_away_while_its_logs_are_listed_is_named(self) -> None:
        told = recorded("mysql_three_levels")["exact"]
        for statement in ("SHOW BINARY LOGS", "SHOW BINLOG EVENTS IN 'mysql-bin.000001'", "SHOW REPLICA STATUS"):
            for number in (2, 3):
                way, name = copy.deepcopy(told), "127.0.0.1:331%d" % number
                way["answers"][name][statement] = [["", "ERROR 2013 (HY000) at line 1: Lost connection to server during query", 1]]
                found = again(way)
                self.assertEqual((found["status"], "scenario" in found), (3, False))
                self.assertIn("no scenario: %s: it went away while it was read" % name, found["err"])

    def test_a_broken_applier_is_told_only_if_that_is_asked_for(self) -> None:
        for name in ("mysql_broken_applier", "mariadb_broken_applier"):
            told = recorded(name)
            broken = told["letters"]["d"]
            self.assertEqual(told["light"]["status"], 0)
            self.assertIn("note: %s: its applier met error 1146" % broken, told["light"]["err"])
            self.assertIn("note: %s: a delayed replica (60 seconds)" % told["letters"]["c"], told["light"]["err"])
            way = dict(told["light"], words=[word for word in told["light"]["words"] if word != "--broken-ok"])
            found = again(way)
            self.assertEqual(found["status"], 3)
            self.assertIn("no scenario: %s: its applier met error 1146" % broken, found["err"])

    def test_what_coordinates_do_not_show_is_said(self) -> None:
        told = recorded("mysql_errant_unseen")
        self.assertIn("no GTIDs: a replica's own transactions aren't seen", told["light"]["err"])
        self.assertIn("%s: its log is no prefix of that of" % told["letters"]["b"], told["exact"]["err"])


def write() -> None:
    """Writes what the import makes of all recorded answers."""
    for name in names():
        told = recorded(name)
        for way in ("light", "exact", "found"):
            if way in told:
                told[way] = {**{key: told[way][key] for key in ("answers", "words")}, **again(told[way])}
        with open(os.path.join(FOLDER, name + ".json"), "w", encoding="utf-8") as file:
            file.write(json.dumps(told, indent=0, sort_keys=True) + "\n")


if __name__ == "__main__":
    if sys.argv[1:] == ["--write"]:
        write()
    else:
        unittest.main()
