"""The plans of recovery_plan.py are those of the program: cases/plans.table has the program's, which .ci/tables runs it for."""
from __future__ import annotations

import os
import shlex
import sys
import unittest

TOOLS = os.path.dirname(os.path.dirname(os.path.abspath(__file__)))
sys.path.insert(0, TOOLS)

from orch_tools.client import full
from rehearsal.recovery_plan import Unwritten, plan_text

TABLE = os.path.join(os.path.dirname(TOOLS), "cases", "plans.table")


class Plans(unittest.TestCase):
    """Each row of the table that has a plan which is written anew."""

    def test_both_print_the_same(self) -> None:
        """At least 25 rows are compared."""
        compared = 0
        with open(TABLE, encoding="utf-8") as file:
            lines = file.read().split("\n")
        for number, line in enumerate(lines, 1):
            words, scenario, status, _, plan = (line.split("\t") + [""] * 4)[:5]
            if line.startswith("#") or status != "0" or "-i" not in words:
                continue
            words = shlex.split(words)
            named = {word: full(words[at + 1]) for at, word in enumerate(words) if word in ("-i", "-d")}
            try:
                text = plan_text(words[words.index("-c") + 1], named["-i"], named.get("-d"), scenario)
            except Unwritten:
                continue
            compared += 1
            self.assertEqual(text, plan.replace("\\n", "\n") + "\n", "cases/plans.table:%d" % number)
        self.assertGreaterEqual(compared, 25)


if __name__ == "__main__":
    unittest.main()
