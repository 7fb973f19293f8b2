"""Command lines of the program: it gets them as they are, and its bytes and its status come back."""
from __future__ import annotations

import io
import os
import subprocess
import sys
import tempfile
from typing import IO

from orch_tools import explaining, refusals
from orch_tools.answers import REPLY
from orch_tools.command_line import CommandLine
from orch_tools.program import NoAnswer, located
from orch_tools.scenario import MOST_BYTES, Scenario


class Tee:
    """Passes the program's bytes on as they come, and keeps the first refused or failed replies."""

    MOST = 3

    def __init__(self) -> None:
        self.replies: list[str] = []
        self.rest = b""

    def take(self, piece: bytes) -> None:
        """Passes a piece on."""
        view = memoryview(piece)
        while view:
            view = view[os.write(1, view):]
        self.keep(piece)

    def keep(self, piece: bytes) -> None:
        """Looks for replies in a piece."""
        lines = (self.rest + piece).split(b"\n")
        self.rest = lines.pop()
        found = [line.decode("utf-8", "replace") for line in lines if b": refused " in line or b": failed " in line]
        self.replies = (self.replies + [line for line in found if REPLY.match(line)])[:self.MOST]

    def copy(self, stream: IO[bytes]) -> None:
        """Passes all of a stream on. If standard output fails the stream is closed, so that the program has its write fault."""
        try:
            while piece := os.read(stream.fileno(), 65536):
                self.take(piece)
        except OSError:
            pass
        stream.close()


def source_of(line: CommandLine) -> tuple[bytes | None, str]:
    """The scenario that the wrapper reads in the program's place, and its name. None if the program reads it itself."""
    if not line.reads_scenario():
        return None, ""
    path = line.values.get("--scenario")
    try:
        if path is not None:
            with open(path, "rb") as file:
                return file.read(MOST_BYTES + 1), path
        if sys.stdin is None:
            return None, ""
        if sys.stdin.isatty():
            print("orch: the scenario is read from standard input (end it with Ctrl-D)", file=sys.stderr)
        return sys.stdin.buffer.read(MOST_BYTES + 1), "standard input"
    except OSError:
        return None, ""


def without_path(words: list[str]) -> list[str]:
    """The arguments without --scenario: the wrapper has read it."""
    left, skips = [], False
    for word in words:
        if not skips and not word.startswith("--scenario="):
            left += [] if word == "--scenario" else [word]
        skips = word == "--scenario" and not skips
    return left


def handed_on(words: list[str], explains: bool) -> int:
    """Runs the program with these arguments, and gives its status."""
    line = CommandLine(words)
    raw, name = source_of(line)
    scenario = Scenario(raw, name) if raw is not None else None
    given = without_path(words) if scenario else words
    if not explains:
        become([*located(), *given], scenario)
    tees = explains and line.command in ("run", "live") and "--summary" not in line.values
    status, err, tee = ran([*located(), *given], scenario, explains, tees)
    if explains:
        sys.stderr.buffer.write(err)
        sys.stderr.flush()
        said = explaining.of_answer(words, status, err.decode("utf-8", "replace"), scenario)
        for reply in tee.replies:
            said += explaining.of_refusal(reply, refusals.Sections())
        print("".join(text + "\n" for text in said), end="", file=sys.stderr)
    return status


def become(words: list[str], scenario: Scenario | None) -> None:
    """Lets the program take this process's place, so that nothing is between it and its streams and signals. It comes back only
    if there is no room for the scenario's text."""
    try:
        if scenario:
            os.dup2(holding(scenario.text), 0)
            os.set_inheritable(0, True)
    except OSError:
        return
    try:
        os.execvp(words[0], words)
    except OSError as fault:
        raise NoAnswer("%s can't be run: %s" % (words[0], fault.strerror)) from None


def holding(text: bytes) -> int:
    """A file that has this text and no name."""
    if hasattr(os, "memfd_create"):
        file = os.memfd_create("scenario")
    else:
        with tempfile.TemporaryFile() as made:
            file = os.dup(made.fileno())
    view = memoryview(text)
    while view:
        view = view[os.write(file, view):]
    os.lseek(file, 0, os.SEEK_SET)
    return file


def ran(words: list[str], scenario: Scenario | None, explains: bool, tees: bool) -> tuple[int, bytes, Tee]:
    """The program's status, what it wrote on standard error if that is kept, and what was passed on."""
    tee = Tee()
    try:
        process = subprocess.Popen(words, stdin=subprocess.PIPE if scenario else None, stdout=subprocess.PIPE if tees else None,
                                   stderr=subprocess.PIPE if explains else None, restore_signals=False)
    except OSError as fault:
        raise NoAnswer("%s can't be run: %s" % (words[0], fault.strerror)) from None
    with process:
        if scenario and process.stdin:
            fed(process.stdin, scenario.text)
        if process.stdout:
            tee.copy(process.stdout)
        err = process.stderr.read() if process.stderr else b""
        status = process.wait()
    return (status if status >= 0 else 128 - status), err, tee


def fed(stream: IO[bytes], text: bytes) -> None:
    """Gives the program its scenario. It may end before it has read all."""
    try:
        stream.write(text)
    except OSError:
        pass
    try:
        stream.close()
    except (OSError, io.UnsupportedOperation):
        pass
