"""How costs grow: the rows are all of the format's, the program takes them, and the table marks what grows too fast."""
import contextlib
import io
import json
import os
import re
import stat
import sys
import tempfile
import unittest
import unittest.mock

HERE = os.path.dirname(os.path.abspath(__file__))
TOP = os.path.dirname(os.path.dirname(HERE))
sys.path.insert(0, os.path.dirname(HERE))

import grow
import grow_rows
from orch_tools import table

BUILT = os.path.join(TOP, "crates", "orch_cli", "out", "orch_cli")
# A program that counts turns and refuses none.
FAKE = """#!%s
import json, sys
turns = len(json.load(sys.stdin)["turns"])
print("turns %%d refused %%d failed 0" %% (turns, "refuse" in sys.argv))
"""


def words_of(kind: str) -> set[str]:
    """The names of the rows of a kind, one by one."""
    return {word for row in grow_rows.ROWS if row.kind == kind for word in row.name.split(", ")}


def told(*words: str) -> tuple[int, str]:
    """The status and the output of the tool."""
    out = io.StringIO()
    with contextlib.redirect_stdout(out), contextlib.redirect_stderr(io.StringIO()):
        try:
            status = grow.main(list(words))
        except SystemExit as ended:
            status = int(ended.code or 0)
    return status, out.getvalue()


class Rows(unittest.TestCase):
    """The generators."""

    def test_every_command(self) -> None:
        self.assertEqual({command.name for command in table.COMMANDS}, words_of("command"))

    def test_every_turn(self) -> None:
        with open(os.path.join(TOP, "docs", "SCENARIO.md"), encoding="utf-8") as file:
            cells = [line.split(" | ")[0] for line in file if line.startswith("| `[")]
        turns = {turn for cell in cells for turn in re.findall(r'\["([a-z-]+)"', cell)}
        self.assertGreater(len(turns), 15)
        self.assertEqual(turns - words_of("turn"), set())

    def test_every_list(self) -> None:
        with open(os.path.join(TOP, "docs", "scenario.schema.json"), encoding="utf-8") as file:
            properties = json.load(file)["properties"]
        lists = {"servers", "turns", "blocks", "aliases", "history", "flushes"}
        lists |= {"%s.%s" % (key, name) for key in ("filters", "hooks") for name in properties[key]["properties"]}
        self.assertEqual(lists - words_of("list"), set())

    def test_they_grow(self) -> None:
        for row in grow_rows.ROWS:
            with self.subTest(row.name):
                start = min(row.start, 16384)
                sizes = [len(json.dumps(dataclass_of(row, count))) for count in (start, 2 * start, 4 * start)]
                self.assertLessEqual(4 * row.start, row.most)
                self.assertTrue(sizes[0] < sizes[1] < sizes[2] or row.name == "generate", sizes)

    @unittest.skipUnless(os.path.exists(BUILT), "the program isn't built")
    def test_the_program_takes_them(self) -> None:
        with tempfile.TemporaryDirectory() as folder:
            for row in grow_rows.ROWS:
                with self.subTest(row.name):
                    self.assertIsNotNone(grow.ran_once(BUILT, grow.prepared(row, min(row.start, 24), folder), folder, 60))


def dataclass_of(row: grow_rows.Row, count: int) -> object:
    """What a row asks with so many, as JSON can have it."""
    asked = row.make(count)
    return [asked.words, asked.scenario]


class Table(unittest.TestCase):
    """The table."""

    def setUp(self) -> None:
        self.folder = tempfile.TemporaryDirectory()
        self.program = os.path.join(self.folder.name, "fake")
        with open(self.program, "w", encoding="ascii") as file:
            file.write(FAKE % sys.executable)
        os.chmod(self.program, os.stat(self.program).st_mode | stat.S_IXUSR)

    def tearDown(self) -> None:
        self.folder.cleanup()

    def test_growths(self) -> None:
        self.assertEqual(grow.growths([0.1, 0.2, 0.8], 0.05), [2.0, 4.0])
        self.assertEqual(grow.growths([0.01, 0.02, None], 0.05), [None, None])
        self.assertTrue(grow.is_marked([2.0, 2.5]))
        self.assertFalse(grow.is_marked([2.2, None]))
        self.assertFalse(grow.is_marked([2.6, 1.7]))
        self.assertFalse(grow.is_marked([None, None]))
        self.assertEqual(grow.least(grow.Run(1, 30), grow.Run(2, 20)), grow.Run(1, 20))
        self.assertEqual(grow.least(None, grow.Run(2, 20)), grow.Run(2, 20))

    def test_a_line(self) -> None:
        row = grow_rows.Row("turn", "tick", "turns", 1, 4, lambda count: grow_rows.summary([], []))
        line, marked = grow.line_of(row, 1, [grow.Run(0.1, 10), grow.Run(0.2, 30), grow.Run(0.4, 90)], 14)
        self.assertTrue(marked)
        self.assertRegex(line, r"^turn +tick +1 +0\.10 +0\.20 +0\.40 +<15 +30 +90 +2\.0 2\.0 3\.0 3\.0 \*  turns$")

    def test_what_multiplies_is_marked(self) -> None:
        """A program that takes time with the square of the turns, whatever the machine does beside it."""
        def squared(_program: str, _asked: grow_rows.Asked, folder: str, _seconds: float) -> grow.Run:
            with open(os.path.join(folder, "scenario"), encoding="ascii") as file:
                return grow.Run((len(json.load(file)["turns"]) / 6000) ** 2, 10)

        with unittest.mock.patch.object(grow, "ran_once", squared):
            status, out = told(self.program, "--only", "tick", "--seconds", "20")
        self.assertEqual(status, 0)
        self.assertRegex(out, r"(?m)^turn +tick .* \*  turns$")
        self.assertTrue(out.endswith("1 rows, 1 of them grow more than 2.2 times by a doubling\n"), out)

    def test_what_is_refused_is_said(self) -> None:
        asked = grow_rows.summary([], [])
        with self.assertRaises(grow.Unexpected):
            grow.check(asked, 0, b"turns 1 refused 1 failed 0\n")
        with self.assertRaises(grow.Unexpected):
            grow.check(asked, 2, b"")
        grow.check(grow_rows.summary([], [], None), 7, b"turns 1 refused 1 failed 0\n")

    def test_a_run_that_is_too_long(self) -> None:
        status, out = told(self.program, "--only", "write", "--seconds", "0.1")
        self.assertEqual(status, 0)
        self.assertRegex(out, r"(?m)^turn +write .* -   .* turns$")

    def test_no_program(self) -> None:
        self.assertEqual(told("/nowhere/orch")[0], 2)
        self.assertEqual(told("--list")[0], 0)


if __name__ == "__main__":
    unittest.main()
