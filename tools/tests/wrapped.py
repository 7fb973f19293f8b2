"""Runs tools/orch as a person does, with recorded answers of the program: in this process, or as a process of its own."""
from __future__ import annotations

import contextlib
import dataclasses
import io
import json
import os
import subprocess
import sys
import unittest
import unittest.mock
from collections.abc import Iterator
from typing import Any

from player import played

HERE = os.path.dirname(os.path.abspath(__file__))
TOP = os.path.dirname(os.path.dirname(HERE))
WRAPPER = os.path.join(TOP, "tools", "orch")
SHOP = os.path.join(HERE, "recorded", "shop.json")
PLAYER = "%s -S -E %s" % (sys.executable, os.path.join(HERE, "player.py"))
sys.path.insert(0, os.path.join(TOP, "tools"))

from orch_tools import handing_on, program, wrapper  # noqa: E402
from orch_tools.scenario import Scenario  # noqa: E402


@dataclasses.dataclass
class Told:
    """What the wrapper wrote."""
    status: int
    out: str
    err: str

    @property
    def both(self) -> str:
        """Both streams."""
        return self.out + self.err

    @property
    def json(self) -> Any:
        """Standard output as JSON."""
        return json.loads(self.out)


def asked(_program: program.Program, scenario: Any, *words: str) -> program.Answer:
    """What a subcommand gets for the program's answer."""
    row = played(list(words), program.as_bytes(scenario))
    return program.Answer(row["status"], row["out"], row["err"])


def handed(words: list[str], scenario: Scenario | None, _explains: bool, _tees: bool) -> tuple[int, bytes, handing_on.Tee]:
    """What a command line that is explained gets for the program's answer."""
    row, tee = played(words[len(program.located()):], scenario.text if scenario else b""), handing_on.Tee()
    tee.keep(row["out"].encode())
    sys.stdout.write(row["out"])
    return row["status"], row["err"].encode(), tee


@contextlib.contextmanager
def in_folder(folder: str) -> Iterator[None]:
    """In another folder."""
    before = os.getcwd()
    os.chdir(folder)
    try:
        yield
    finally:
        os.chdir(before)


def inside(*words: str, given: bytes = b"") -> Told:
    """Runs the wrapper in this process, in the folder of the tests."""
    out, err = (io.TextIOWrapper(io.BytesIO(), encoding="utf-8", errors="backslashreplace", write_through=True) for _ in range(2))
    standard = io.TextIOWrapper(io.BytesIO(given), encoding="utf-8")
    with in_folder(HERE), unittest.mock.patch.multiple(sys, stdin=standard, stdout=out, stderr=err), \
            unittest.mock.patch.object(program.Program, "ask", asked), unittest.mock.patch.object(handing_on, "ran", handed), \
            unittest.mock.patch.dict(os.environ, {"ORCH": PLAYER}):
        try:
            status = wrapper.main(list(words))
        except SystemExit as ended:
            status = int(ended.code or 0)
    return Told(status, out.buffer.getvalue().decode("utf-8", "replace"), err.buffer.getvalue().decode("utf-8", "replace"))


def outside(*words: str, given: bytes = b"", **environment: str) -> Told:
    """Runs the wrapper as a process of its own, in the folder of the tests."""
    done = subprocess.run([sys.executable, "-B", "-S", WRAPPER, *words], input=given, capture_output=True, cwd=HERE,
                          env={**os.environ, "ORCH": PLAYER, **environment}, check=False)
    return Told(done.returncode, done.stdout.decode("utf-8", "replace"), done.stderr.decode("utf-8", "replace"))


class WrapperTest(unittest.TestCase):
    """A test of what the wrapper prints."""

    maxDiff = None

    def told(self, status: int, *words: str, given: str | bytes = b"", **environment: str) -> Told:
        """The wrapper's answer, which must have this status. A command line that is given to the program unexplained, and one with an
        environment of its own, has its own process."""
        text = given.encode() if isinstance(given, str) else given
        is_own = bool(environment) or (words[:1] == ("-c",) and "--explain" not in words and "--help" not in words)
        told = outside(*words, given=text, **environment) if is_own else inside(*words, given=text)
        self.assertEqual(told.status, status, told.both)
        return told

    def assert_lines(self, text: str, *lines: str) -> None:
        """That these lines are in a text, in this order."""
        rest = [line.rstrip() for line in text.splitlines()]
        for line in lines:
            self.assertIn(line, rest, text)
            rest = rest[rest.index(line) + 1:]
