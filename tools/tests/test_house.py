"""The house: what an edit of a crate proves again, and the longest chain."""
import os
import sys
import tempfile
import unittest

sys.path.insert(0, os.path.dirname(os.path.dirname(os.path.abspath(__file__))))

import house

CRATES = "# a comment\nlow: itoa\nmid: low   # another\nside: low\ntop: mid side\nleaf: mid\n"
SIZE = {"low": 10, "mid": 5, "side": 7, "top": 1, "leaf": 2}


class House(unittest.TestCase):
    """A house of five crates."""

    def test_libraries(self) -> None:
        self.assertEqual(house.libraries(CRATES), {"low": [], "mid": ["low"], "side": ["low"], "top": ["mid", "side"], "leaf": ["mid"]})

    def test_proved_again(self) -> None:
        self.assertEqual(house.proved_again(house.libraries(CRATES), SIZE), {"low": 25, "mid": 8, "side": 8, "top": 1, "leaf": 2})

    def test_longest_chain(self) -> None:
        self.assertEqual(house.longest_chain(house.libraries(CRATES), SIZE), ["low", "side", "top"])

    def test_lines(self) -> None:
        with tempfile.TemporaryDirectory() as folder:
            for name, lines in (("src/lib.rt", 3), ("proofs/f/Answers.antt", 2), ("src/notes.md", 9), ("must-fail/a.edit", 4)):
                os.makedirs(os.path.dirname(os.path.join(folder, name)), exist_ok=True)
                with open(os.path.join(folder, name), "w", encoding="utf-8") as file:
                    file.write("x\n" * lines)
            self.assertEqual(house.lines_in(folder), 5)
            self.assertEqual(house.seconds_of(folder), 12)
            with open(os.path.join(folder, "src", "lib.rt"), "w", encoding="utf-8") as file:
                file.write("pub fn a() {}\n\nimpl X {\n    pub(crate) fn b(&self) {}\n    fn c() {}\n}\n// fn d\n")
            self.assertEqual(house.seconds_of(folder), 19)

    def test_this_house(self) -> None:
        self.assertEqual(house.main(["report_text"]), 0)
        self.assertEqual(house.main(["no_crate"]), 1)


if __name__ == "__main__":
    unittest.main()
