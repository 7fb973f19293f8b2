#!/usr/bin/env python3
"""The topologies of examples/real are what `orch import` makes of recorded answers of MySQL 9.7.

    tools/tests/test_examples.py --write

writes them anew. The recordings have the servers as 127.0.0.1:3311 to 3315; --alias gives them the names of the examples.
"""
from __future__ import annotations

import dataclasses
import json
import os
import sys
import tempfile
import unittest
from typing import Any

from fake import HERE, TOOLS, ran

from orch_tools import importing
from rehearsal.answers import PROGRAM, answer, is_built

FOLDER = os.path.join(os.path.dirname(TOOLS), "examples", "real")
KINDS = (".json", ".notes.json", ".map.json")


@dataclasses.dataclass
class Example:
    """A file of examples/real: the recording, the names of its servers, and the arguments of the import besides."""
    name: str
    recording: str
    servers: list[str]
    words: list[str]


EXAMPLES = [
    Example("flat", "mysql_flat", ["db1", "db2", "db3", "db4", "db5"], []),
    Example("two-centres", "mysql_gtids_example_two_centres", ["ams1", "ams2", "fra1", "fra2", "fra3"], ["--operator", "two-centres.operator.json"]),
    Example("trouble", "mysql_example_trouble", ["db1", "db2", "db3", "db4", "db5"], ["--rule", "db2=prefer"]),
]


def recorded(example: Example) -> Any:
    """The recorded answers by the example's names."""
    with open(os.path.join(HERE, "recorded", "import", example.recording + ".json"), encoding="utf-8") as file:
        answers = json.load(file)["light"]["answers"]
    return {"%s:3306" % name: answers["127.0.0.1:%d" % (3310 + number)] for number, name in enumerate(example.servers, 1)}


def words_of(example: Example, out: str) -> list[str]:
    """The arguments of the import."""
    aliases = [word for number, name in enumerate(example.servers, 1) for word in ("--alias", "127.0.0.1:%d=%s" % (3310 + number, name))]
    return [*example.servers, "--only-named", *aliases, *example.words, "--out", out]


def made(example: Example, folder: str) -> str:
    """Imports an example into a folder, and gives what was said on standard error."""
    before = os.getcwd()
    os.chdir(FOLDER)
    try:
        status, _, err, _ = ran(importing, recorded(example), words_of(example, os.path.join(folder, example.name + ".json")))
    finally:
        os.chdir(before)
    if status != 0:
        raise AssertionError(err)
    return err


def text_of(path: str) -> str:
    """What a file has."""
    with open(path, encoding="utf-8") as file:
        return file.read()


class ExamplesTest(unittest.TestCase):
    """Each example."""

    def test_the_import_makes_them_again(self) -> None:
        for example in EXAMPLES:
            with self.subTest(example.name), tempfile.TemporaryDirectory() as folder:
                made(example, folder)
                for kind in KINDS:
                    self.assertEqual(text_of(os.path.join(folder, example.name + kind)), text_of(os.path.join(FOLDER, example.name + kind)))

    @unittest.skipUnless(is_built(), "no built program")
    def test_the_program_reads_them(self) -> None:
        promoted = []
        for example in EXAMPLES:
            scenario = json.loads(text_of(os.path.join(FOLDER, example.name + ".json")))
            master = "%s:3306" % example.servers[0]
            status, out, err = answer(PROGRAM, scenario, ["-c", "recover", "-i", master], [["fail", master], ["polls"]])
            self.assertEqual(status, 0, err)
            promoted.append(out.split("\n")[0])
        self.assertEqual(promoted, ["promoted db2:3306", "promoted ams2:3306", promoted[2]])

    def test_the_schema_takes_them(self) -> None:
        try:
            import jsonschema
        except ImportError:
            self.skipTest("no jsonschema")
        validator = jsonschema.Draft7Validator(json.loads(text_of(os.path.join(HERE, "..", "..", "docs", "scenario.schema.json"))))
        for example in EXAMPLES:
            validator.validate(json.loads(text_of(os.path.join(FOLDER, example.name + ".json"))))


if __name__ == "__main__":
    if sys.argv[1:] == ["--write"]:
        for one in EXAMPLES:
            print(made(one, FOLDER))
    else:
        unittest.main()
