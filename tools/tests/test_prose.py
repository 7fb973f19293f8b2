"""Documents: what is reported of their sentences, terms, links, names and commands."""
import contextlib
import io
import os
import stat
import sys
import tempfile
import unittest
from typing import Dict, List

sys.path.insert(0, os.path.dirname(os.path.dirname(os.path.abspath(__file__))))

import prose

LONG = "Each of " + "many " * 30 + "servers is up."
PROGRAM = """#!/bin/sh
case "$*" in
  *topology*) echo "m:3306 [ok,8.0.36,rw]" ;;
  *recover*) echo "refused 20 NotActionable NoProblem" >&2; exit 7 ;;
  *) cat ;;
esac
"""


def found_in(text: str) -> List[str]:
    """The sentences and cells of a document that are too long."""
    return [what for _, what in prose.lengths(prose.blocks_of(text))]


def ruled_out_in(text: str) -> List[str]:
    """What a document has for which there is another term."""
    return [what for _, what in prose.ruled_out(prose.blocks_of(text))]


class Texts(unittest.TestCase):
    """Texts, without a repository."""

    def test_sentences(self) -> None:
        self.assertEqual(len(found_in(LONG)), 1)
        self.assertEqual(found_in("A short one. " * 20), [])
        self.assertEqual(len(found_in("A short one.\n\n- " + LONG)), 1)
        self.assertEqual(found_in("```text\n" + LONG + "\n```"), [], "code is free")
        self.assertEqual(found_in("`" + LONG + "` is one word."), [])

    def test_cells(self) -> None:
        self.assertEqual(len(found_in("| a | b |\n|---|---|\n| %s | `x|y` |" % ("word " * 26))), 1)
        self.assertEqual(found_in("| a | b |\n|---|---|\n| %s | c |" % ("word " * 25)), [])

    def test_cells_of_rows_with_code(self) -> None:
        self.assertEqual(prose.cells_of("| `a|b` | c |"), ["`a|b`", "c"])
        self.assertEqual(prose.cells_of("|---|:--|"), [])

    def test_ruled_out_words(self) -> None:
        self.assertEqual(len(ruled_out_in("It stands behind it.")), 2)
        self.assertEqual(ruled_out_in("It prints `behind` and `keeper fault`."), [])
        self.assertEqual(len(ruled_out_in("It fails, where it is down.")), 1)
        self.assertEqual(len(ruled_out_in("All but one. Since then.")), 2)

    def test_anchors(self) -> None:
        self.assertEqual(prose.anchor_of("refused 20 NotActionable"), "refused-20-notactionable")
        self.assertEqual(prose.anchor_of("`live`, and more"), "live-and-more")

    def test_commands_and_outputs(self) -> None:
        self.assertEqual(prose.commands_of("$ a\nb\n$ c \\\nd\ne"), [("a", "b"), ("c \\\nd", "e")])
        self.assertTrue(prose.is_output("a\n..\nd", "a\nb\nc\nd\n"))
        self.assertFalse(prose.is_output("a\nb", "a\nc"))
        self.assertFalse(prose.is_output("a.b", "axb"))


class Repository(unittest.TestCase):
    """A small repository in a folder of its own."""

    def setUp(self) -> None:
        self.folder = tempfile.TemporaryDirectory()
        self.top = self.folder.name
        self.write({
            "README.md": "# A\n\nText.\n", "CONTRIBUTING.md": "# B\n", "CHANGELOG.md": "# C\n\n## 1.0.0\n", "VERSION": "1.0.0\n",
            "docs/REFUSALS.md": "### refused 2 UnknownInstance\n\n### failed Running\n\n### analysis DeadMaster\n\n### lost ahead\n\n"
                                "### scenario fault 1 TooLong\n",
            "crates/commands/src/refusal.rt": "Refusal::UnknownInstance => 2,\n",
            "crates/orch_base/src/code.rt": 'Code::DeadMaster =>\n    "DeadMaster",\n',
            "crates/orch_base/src/recovery.rt": 'CauseName::Running => "Running",\n',
            "crates/report_text/src/line.rt": 'Lost::Ahead(coord) => {\n    out.extend_from_slice(b" ahead ")?;\n',
            "crates/top_call/src/fault.rt": 'FaultCode::TooLong => b"1 TooLong",\n',
            "examples/tour/one.json": "{}", "examples/tour/one.json.args": "-c\ntopology\n",
            "examples/tour/one.json.stdout": "m:3306 [ok,8.0.36,rw]\n",
            "program": PROGRAM,
        })
        self.program = os.path.join(self.top, "program")
        os.chmod(self.program, os.stat(self.program).st_mode | stat.S_IXUSR)

    def tearDown(self) -> None:
        self.folder.cleanup()

    def write(self, files: Dict[str, str]) -> None:
        """Makes files of the repository."""
        for name, text in files.items():
            os.makedirs(os.path.dirname(os.path.join(self.top, name)), exist_ok=True)
            with open(os.path.join(self.top, name), "w", encoding="utf-8") as file:
                file.write(text)

    def reported(self, *files: str) -> str:
        """What is reported, with the program."""
        said = io.StringIO()
        before = os.environ.get("ORCH")
        os.environ["ORCH"] = self.program
        try:
            with contextlib.redirect_stdout(said):
                prose.main(list(files), self.top)
        finally:
            os.environ.pop("ORCH") if before is None else os.environ.update(ORCH=before)
        return said.getvalue()

    def test_nothing_to_report(self) -> None:
        self.assertIn(" 0 findings", self.reported())

    def test_links(self) -> None:
        self.write({"README.md": "# A\n\n[a](docs/REFUSALS.md#lost-ahead) [b](#a) [c](https://x.y/z)\n"})
        self.assertIn(" 0 findings", self.reported())
        self.write({"README.md": "# A\n\n[a](docs/NONE.md) [b](docs/REFUSALS.md#no)\n"})
        self.assertIn(" 2 findings", self.reported())

    def test_names(self) -> None:
        self.write({"docs/REFUSALS.md": "### refused 2 UnknownInstance\n\n### failed Walking\n"})
        said = self.reported("docs/REFUSALS.md")
        for name in ("not explained: failed Running", "not explained: analysis DeadMaster", "not explained: lost ahead",
                     "not explained: scenario fault 1 TooLong", "doesn't print: failed Walking"):
            self.assertIn(name, said)

    def test_names_of_sources(self) -> None:
        self.write({"docs/PROVED.md": "# P\n\n`no_such_law` and `UnknownInstance`, `commands/src/refusal.rt` and `commands/specs/None`.\n"})
        said = self.reported("docs/PROVED.md")
        self.assertIn("no such name in the sources: no_such_law", said)
        self.assertIn("no such file of a crate: commands/specs/None", said)
        self.assertIn(" 2 findings", said)

    def test_outputs(self) -> None:
        text = ("# A\n\n```json x.json\n{}\n```\n\n```console\n$ orch -c topology < x.json\nm:3306 [ok,8.0.36,rw]\n"
                "$ orch -c recover; echo $?\nrefused 20 NotActionable NoProblem\n7\n$ orch < x.json\n{}\n```\n")
        self.write({"README.md": text})
        self.assertIn(" 0 findings", self.reported())
        self.write({"README.md": text.replace("rw]", "ro]")})
        self.assertIn("m:3306 [ok,8.0.36,rw]", self.reported())

    def test_a_file_of_the_repository(self) -> None:
        text = "# A\n\n```json examples/tour/one.json\n%s\n```\n"
        self.write({"examples/tour/one.json": "{}\n", "README.md": text % "{}"})
        self.assertIn(" 0 findings", self.reported("README.md"))
        self.write({"README.md": text % "{1}"})
        self.assertIn("isn't the file examples/tour/one.json", self.reported("README.md"))

    def test_commands_that_would_not_be_run(self) -> None:
        self.write({"README.md": "# A\n\n```sh\norch -c run < examples/a.json\n```\n"})
        self.assertIn("outside a `console` block", self.reported("README.md"))

    def test_tour_and_version(self) -> None:
        self.write({"examples/tour/one.json.stdout": "n:3306\n", "VERSION": "1.0.1\n"})
        said = self.reported()
        self.assertIn("examples/tour/one.json", said)
        self.assertIn("VERSION is 1.0.1", said)


if __name__ == "__main__":
    unittest.main()
