#!/usr/bin/env python3
"""Records anew what the program answers to the tests:  tools/tests/record.py PROGRAM

Then look at the change of tools/tests/recorded/program.json: each answer that differs is one that the program gives differently.
"""
from __future__ import annotations

import json
import os
import subprocess
import sys
import tempfile

from player import RECORDED


def main(program: str) -> int:
    """Runs the tests on the program, and keeps its answers."""
    top = os.path.dirname(os.path.dirname(os.path.dirname(RECORDED)))
    with tempfile.TemporaryDirectory() as folder:
        environment = {**os.environ, "ORCH_REAL": os.path.abspath(program), "ORCH_RECORDS": folder}
        done = subprocess.run([sys.executable, "-B", "-m", "unittest", "discover", "-s", "tools/tests", "-p", "test_wrapper*.py"],
                              cwd=os.path.dirname(top), env=environment, check=False)
        rows = {}
        for name in sorted(os.listdir(folder)):
            with open(os.path.join(folder, name), encoding="ascii") as file:
                rows[name[:-5]] = json.load(file)
    remove_logs()
    with open(RECORDED, "w", encoding="ascii") as file:
        json.dump(rows, file, indent=0, sort_keys=True)
        file.write("\n")
    print("%d answers recorded" % len(rows))
    return done.returncode


def remove_logs() -> None:
    """Takes away the empty logs that the program leaves beside a file that is no database."""
    folder = os.path.dirname(os.path.abspath(__file__))
    for name in os.listdir(folder):
        if name.endswith("-wal"):
            os.unlink(os.path.join(folder, name))


if __name__ == "__main__":
    sys.exit(main(sys.argv[1]) if len(sys.argv) == 2 else __doc__)
