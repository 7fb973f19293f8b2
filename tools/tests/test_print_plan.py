"""The plans of print_plan.py are those of the program: cases/plans.table has the program's, which .ci/tables runs it for."""
from __future__ import annotations

import json
import os
import shlex
import sys
import unittest
from collections.abc import Iterator

TOOLS = os.path.dirname(os.path.dirname(os.path.abspath(__file__)))
sys.path.insert(0, TOOLS)

from orch_tools.client import full
from rehearsal.print_plan import NoPlan, plan_text, sources_in

TABLE = os.path.join(os.path.dirname(TOOLS), "cases", "plans.table")


def rows() -> Iterator[tuple[int, list[str], str, str]]:
    """For each command that has a plan: its number in the table, its arguments, its scenario and its plan."""
    with open(TABLE, encoding="utf-8") as file:
        for number, line in enumerate(file.read().split("\n"), 1):
            if line and not line.startswith("#"):
                words, scenario, status, _, plan = (line.split("\t") + [""] * 2)[:5]
                if status == "0":
                    yield number, shlex.split(words), scenario, plan.replace("\\n", "\n") + "\n"


def told(words: list[str], scenario: str) -> str | None:
    """The plan of print_plan.py, if it has one."""
    if json.loads(scenario).get("pseudo"):
        return None
    named = {word: full(words[at + 1]) for at, word in enumerate(words) if word in ("-i", "-d")}
    try:
        return plan_text(words[words.index("-c") + 1], named["-i"], named.get("-d"), *sources_in(scenario))
    except ValueError:
        return None


class Plans(unittest.TestCase):
    """Both printers of plans."""

    def test_both_tell_the_same(self) -> None:
        compared = 0
        for number, words, scenario, plan in rows():
            text = told(words, scenario)
            if text is not None:
                compared += 1
                self.assertEqual(text, plan, "cases/plans.table:%d" % number)
        self.assertGreaterEqual(compared, 25)

    def test_a_way_goes_over_a_detached_server(self) -> None:
        """a over b, b over c, which is detached, c over e. b over d."""
        source = {"a:3306": None, "b:3306": "a:3306", "c:3306": "b:3306", "d:3306": "b:3306", "e:3306": "c:3306"}
        plan = plan_text("relocate", "e:3306", "d:3306", source, {"c:3306"}) or ""
        self.assertIn("server A e:3306\nserver B c:3306\nserver C b:3306\nserver D d:3306\n", plan)
        with self.assertRaises(NoPlan):
            plan_text("relocate", "e:3306", "c:3306", dict(source, **{"e:3306": "d:3306"}), {"c:3306"})


if __name__ == "__main__":
    unittest.main()
