"""Comments: what is reported of those of crates and of the tools."""
import contextlib
import io
import os
import sys
import tempfile
import unittest
from typing import List

sys.path.insert(0, os.path.dirname(os.path.dirname(os.path.abspath(__file__))))

import comments

LONG = "many " * 31
CODE = """//! Coordinates.

/// A coordinate of a binary log.
#[derive(Clone)]
pub struct Coord {
    /// The number of the file, from 1 on.
    pub file: u32,
}

impl Coord {
    /// The start of a file.
    pub fn new(file: u32) -> Coord {
        Coord { file }
    }
}
"""


def found_in(name: str, text: str) -> List[str]:
    """What is reported of a file with this name and text."""
    with tempfile.TemporaryDirectory() as top:
        path = os.path.join(top, name)
        os.makedirs(os.path.dirname(path), exist_ok=True)
        with open(path, "w", encoding="utf-8") as file:
            file.write(text)
        return comments.check(name, top)


class Crates(unittest.TestCase):
    """Files of crates."""

    def test_nothing_to_report(self) -> None:
        self.assertEqual(found_in("crates/a/src/lib.rt", CODE), [])
        self.assertEqual(found_in("crates/a/specs/A.antt", "-- A place of `held`.\nheld : Nat → Nat\n"), [])

    def test_sentences(self) -> None:
        self.assertEqual(len(found_in("crates/a/specs/A.antt", "-- A %s\n-- b.\n" % ("many " * 15 + "\n-- " + "many " * 15))), 1, "over several lines")
        self.assertEqual(found_in("crates/a/specs/A.antt", "-- A %s.\n-- B %s.\n" % ("many " * 20, "many " * 20)), [])
        self.assertEqual(found_in("crates/a/specs/A.antt", "-- a %s\nb : Nat\n-- c %s\n" % ("many " * 20, "many " * 20)), [], "code is between")
        self.assertEqual(found_in("crates/a/src/lib.rt", 'let a = b"%s";\n' % LONG), [], "texts of the program are free")

    def test_words(self) -> None:
        self.assertEqual(found_in("crates/a/proofs/A.antt", "-- it stands\n"), ["crates/a/proofs/A.antt:1: `stands`: write is in, is at, exists, holds"])
        self.assertEqual(len(found_in("crates/a/src/lib.rt", "fn a() {\n    // It fails, where it is told.\n}\n")), 2)
        self.assertEqual(len(found_in("crates/a/specs/A.antt", "-- ---- what is told\n")), 1, "a heading")
        self.assertEqual(found_in("crates/a/src/lib.rt", 'print(" -- only where it stands");\n'), [], "no comment")

    def test_columns(self) -> None:
        self.assertEqual(len(found_in("crates/a/specs/A.antt", "-- %s\n" % ("x" * 118))), 1)
        self.assertEqual(found_in("crates/a/specs/A.antt", "-- %s\nuse %s\n" % ("x" * 117, "x" * 200)), [])

    def test_errors(self) -> None:
        code = "/// The place of a coordinate.%s\npub fn place(\n    c: Coord,\n) -> %s\n    ensures { result \u2261 c }\n{\n"
        self.assertEqual(found_in("crates/a/src/a.rt", code % ("", "Result<u64, Memory>")), ["crates/a/src/a.rt:2: the `///` lines name no error: place"])
        self.assertEqual(found_in("crates/a/src/a.rt", code % (" `Err` means out of memory.", "Result<u64, Memory>")), [])
        self.assertEqual(found_in("crates/a/src/a.rt", code % ("", "u64")), [])
        self.assertEqual(found_in("crates/a/src/a.rt", "/// A place.\npub fn place(c: Coord) -> u64 {\n    read(|x| -> Result<u64, Memory> { x })\n}\n"), [])

    def test_public_items(self) -> None:
        self.assertEqual(found_in("crates/a/src/a.rt", CODE.replace("    /// The start of a file.\n", "")), ["crates/a/src/a.rt:11: no `///` line: fn new"])
        self.assertEqual(found_in("crates/a/src/a.rt", CODE.replace("/// A coordinate of a binary log.", "// A note.")),
                         ["crates/a/src/a.rt:5: no `///` line: struct Coord"])
        self.assertEqual(found_in("crates/a/src/a.rt", CODE.replace("    /// The start of a file.\n    pub fn", "    fn")), [], "a private one")


class Tools(unittest.TestCase):
    """Python files."""

    def test_docstrings_and_comments(self) -> None:
        self.assertEqual(len(found_in("tools/a.py", '"""It stands."""\n# It stands behind.\n')), 3)
        self.assertEqual(len(found_in("tools/a.py", '"""A."""\n\n\ndef a():\n    """It is %s."""\n' % LONG)), 1)
        self.assertEqual(found_in("tools/a.py", '"""A.\n\n    tools/a.py [--behind]\n    tools/a.py --told\n\nIt reads.\n"""\n'), [], "examples")

    def test_error_texts(self) -> None:
        for code in ('raise ValueError("%s stands" % a)', 'print("it stands", file=sys.stderr)', 'parser.error("it " + "stands")', 'raise A(f"{a} stands")'):
            self.assertEqual(len(found_in("tools/a.py", code + "\n")), 1, code)
        self.assertEqual(found_in("tools/a.py", 'print("it stands")\na = "behind"\n'), [])

    def test_folders(self) -> None:
        with tempfile.TemporaryDirectory() as top:
            for folder in ("tools/tests", "tools/other", "crates/a/src/b", "crates/a/out"):
                os.makedirs(os.path.join(top, folder))
                for name in ("a.py", "a.rt", "a.txt"):
                    with open(os.path.join(top, folder, name), "w", encoding="utf-8") as file:
                        file.write("// It stands.\n" if name == "a.rt" else "")
            self.assertEqual(comments.files(top, ("tools/tests",), ("src",)), ["crates/a/src/b/a.rt", "tools/tests/a.py"])
            self.assertEqual(comments.files(top, ("tools/tests",), ()), ["tools/tests/a.py"])

    def test_status(self) -> None:
        with tempfile.TemporaryDirectory() as top, contextlib.redirect_stdout(io.StringIO()) as printed:
            for name, text in (("good.py", '"""It is."""\n'), ("bad.py", '"""It stands."""\n')):
                with open(os.path.join(top, name), "w", encoding="utf-8") as file:
                    file.write(text)
            self.assertEqual(comments.main(["good.py"], top), 0)
            self.assertEqual(comments.main(["good.py", "bad.py"], top), 1)
        self.assertIn("comments: 2 files, 1 findings", printed.getvalue())


if __name__ == "__main__":
    unittest.main()
