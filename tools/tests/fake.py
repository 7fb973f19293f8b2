"""A command line client that answers from texts: in this process, and as a program in a folder of its own."""
from __future__ import annotations

import argparse
import contextlib
import copy
import io
import json
import os
import shutil
import stat
import sys
import tempfile
import unittest.mock
from types import ModuleType
from typing import Any

HERE = os.path.dirname(os.path.abspath(__file__))
TOOLS = os.path.dirname(HERE)
sys.path.insert(0, TOOLS)

from orch_tools.client import Client

Answers = dict[str, Any]

SCRIPT = """#!%s
import json, os, sys
folder = os.path.dirname(os.path.abspath(__file__))
words = sys.argv
asked = words[words.index("-h") + 1] + ":" + words[words.index("-P") + 1], sys.stdin.read().strip().rstrip(";")
with open(folder + "/answers") as file:
    answers = json.load(file)
if asked[0] not in answers:
    sys.exit("ERROR 2003 (HY000): Can't connect to server on '%%s'" %% asked[0])
found = answers[asked[0]].get(asked[1])
if found is None:
    sys.exit("ERROR 1064 (42000) at line 1: no answer to %%s" %% asked[1])
out, err, status = found[0]
sys.stdout.write(out)
sys.stderr.write(err)
sys.exit(status)
""" % sys.executable


def recorded(name: str) -> Any:
    """Answers of real servers: server to statement to one answer after another, each with standard error and the status."""
    with open(os.path.join(HERE, "recorded", name + ".json"), encoding="utf-8") as file:
        return json.load(file)


def table(*rows: dict[str, Any]) -> list[list[Any]]:
    """An answer to one statement, as the client writes it with --batch."""
    lines = ["\t".join(rows[0])] + ["\t".join(str(value) for value in row.values()) for row in rows] if rows else []
    return [["".join(line + "\n" for line in lines), "", 0]]


def changed(answers: Answers, server: str, statement: str, column: str, value: str, row: int = 1) -> Answers:
    """The same answers except for one value: of a row, and of each answer to that statement."""
    answers = copy.deepcopy(answers)
    for answer in answers[server][statement]:
        lines = [line.split("\t") for line in answer[0].split("\n")]
        lines[row][lines[0].index(column)] = value
        answer[0] = "\n".join("\t".join(line) for line in lines)
    return answers


class Texts(Client):
    """The client in this process: the next of the answers that a server has for a statement, and the last one again and again."""

    def __init__(self, answers: Answers) -> None:
        Client.__init__(self, "none", "me")
        self.answers = answers
        self.asked: list[tuple[str, str]] = []
        self.counts: dict[tuple[str, str], int] = {}

    def __call__(self, *_: Any, **__: Any) -> Texts:
        return self

    def ran(self, host: str, port: int, statements: str) -> tuple[int, str, str]:
        """The next answer."""
        server = "%s:%d" % (host, port)
        self.asked.append((server, statements))
        if server not in self.answers:
            return 1, "", "ERROR 2003 (HY000): Can't connect to server on '%s'" % server
        found = self.answers[server].get(statements)
        if found is None:
            return 1, "", "ERROR 1064 (42000) at line 1: no answer to %s" % statements
        count = self.counts[server, statements] = self.counts.get((server, statements), -1) + 1
        out, err, status = found[min(count, len(found) - 1)]
        return status, out, err

    def changing(self) -> list[tuple[str, str]]:
        """What was asked that is neither SELECT nor SHOW."""
        return [one for one in self.asked if not one[1].startswith(("SELECT ", "SHOW "))]


def arguments_of(module: ModuleType, words: list[str]) -> argparse.Namespace:
    """The arguments of a subcommand as `orch` reads them."""
    parser = argparse.ArgumentParser()
    module.add_arguments(parser)
    return parser.parse_args(words)


def ran(module: ModuleType, answers: Answers, words: list[str], given: str = "") -> tuple[int, str, str, Texts]:
    """A subcommand's status, standard output and standard error over these answers, and the client."""
    client, out, err = Texts(answers), io.StringIO(), io.StringIO()
    with unittest.mock.patch("sys.stdin", io.StringIO(given)), contextlib.redirect_stdout(out), contextlib.redirect_stderr(err):
        status: int = module.run(arguments_of(module, words), client)
    return status, out.getvalue(), err.getvalue(), client


class Fake:
    """The client as a program in a folder of its own."""

    def __init__(self, answers: Answers) -> None:
        self.folder = tempfile.mkdtemp(prefix="fake.")
        self.program = os.path.join(self.folder, "client")
        with open(os.path.join(self.folder, "answers"), "w", encoding="utf-8") as file:
            json.dump(answers, file)
        with open(self.program, "w", encoding="utf-8") as file:
            file.write(SCRIPT)
        os.chmod(self.program, stat.S_IRWXU)

    def __enter__(self) -> Fake:
        return self

    def __exit__(self, *_: Any) -> None:
        shutil.rmtree(self.folder)
