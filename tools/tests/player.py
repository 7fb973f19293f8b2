"""Takes the program's place in the tests: answers what it was recorded to answer to the same arguments and the same input.

With ORCH_REAL=PROGRAM and ORCH_RECORDS=FOLDER it asks the program, and keeps the answer as a file of that folder.
"""
from __future__ import annotations

import functools
import hashlib
import json
import os
import subprocess
import sys
from typing import Any

RECORDED = os.path.join(os.path.dirname(os.path.abspath(__file__)), "recorded", "program.json")


def key_of(words: list[str], given: bytes) -> str:
    """By which an answer is found."""
    return hashlib.sha256("\0".join(words).encode() + b"\0\0" + given).hexdigest()[:20]


def reads_input(words: list[str]) -> bool:
    """Whether standard input is the scenario."""
    return not any(word.startswith("--scenario") for word in words) and "generate" not in words


@functools.lru_cache(maxsize=None)
def rows() -> dict[str, Any]:
    """The recorded answers by their keys."""
    with open(RECORDED, encoding="ascii") as file:
        return json.load(file)


def recorded_anew(words: list[str], given: bytes) -> dict[str, Any]:
    """The program's own answer, kept as a file."""
    done = subprocess.run([os.environ["ORCH_REAL"], *words], input=given, capture_output=True, check=False)
    row = {"words": words, "input": given.decode("utf-8", "surrogateescape"), "status": done.returncode, "out": done.stdout.decode(),
           "err": done.stderr.decode()}
    with open(os.path.join(os.environ["ORCH_RECORDS"], key_of(words, given) + ".json"), "w", encoding="ascii") as file:
        json.dump(row, file)
    return row


def played(words: list[str], given: bytes) -> dict[str, Any]:
    """The answer to these arguments and this input: its status, and what it wrote."""
    given = given if reads_input(words) else b""
    if "ORCH_RECORDS" in os.environ:
        return recorded_anew(words, given)
    return rows().get(key_of(words, given)) or {"status": 99, "out": "", "err": "not recorded: %s\n" % words}


def main() -> int:
    """Writes the answer, and gives its status."""
    words = sys.argv[1:]
    row = played(words, sys.stdin.buffer.read() if reads_input(words) else b"")
    sys.stdout.write(row["out"])
    sys.stdout.flush()
    sys.stderr.write(row["err"])
    return row["status"]


if __name__ == "__main__":
    sys.exit(main())
