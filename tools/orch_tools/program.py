"""The built program: where it is, and what it answers."""
from __future__ import annotations

import concurrent.futures
import dataclasses
import json
import os
import shlex
import shutil
import subprocess
from collections.abc import Callable, Iterable
from typing import Any

HERE = os.path.dirname(os.path.abspath(__file__))
TOP = os.path.dirname(os.path.dirname(HERE))
BUILT = os.path.join(TOP, "crates", "orch_cli", "out", "orch_cli")


class NoAnswer(Exception):
    """There is no answer, for this reason. The wrapper's status is then 3."""


@dataclasses.dataclass(frozen=True)
class Answer:
    """What one run of the program wrote."""
    status: int
    out: str
    err: str

    @property
    def has_report(self) -> bool:
        """Whether a report was written: a refused or failed reply in it makes the status 7."""
        return self.status in (0, 7)

    @property
    def reason(self) -> str:
        """The line on standard error."""
        return self.err.strip() or "status %d" % self.status


def is_program(path: str) -> bool:
    """Whether this path names a file that can be run."""
    return os.path.isfile(path) and os.access(path, os.X_OK)


def located() -> list[str]:
    """The program's command: of the environment variable ORCH, the built one beside the tools, or orch_cli on the PATH."""
    named = os.environ.get("ORCH", "")
    if named:
        return [named] if is_program(named) else shlex.split(named)
    if is_program(BUILT):
        return [BUILT]
    found = shutil.which("orch_cli")
    if found:
        return [found]
    raise NoAnswer("the program orch_cli isn't built. Build it: (cd %s && rt run -- -c run < ../../examples/catch-up.json).\n"
                   "  Or name a built one: ORCH=/path/to/orch_cli." % os.path.join(TOP, "crates", "orch_cli"))


def as_bytes(scenario: Any) -> bytes:
    """A scenario as the program reads it."""
    return scenario if isinstance(scenario, bytes) else json.dumps(scenario, separators=(",", ":")).encode()


class Program:
    """Runs the program, alone or many at once."""

    def __init__(self, words: list[str] | None = None) -> None:
        self.words = located() if words is None else words

    def ask(self, scenario: Any, *words: str) -> Answer:
        """What the program answers to these arguments, with this scenario on standard input."""
        try:
            done = subprocess.run([*self.words, *words], input=as_bytes(scenario), capture_output=True, check=False)
        except OSError as fault:
            raise NoAnswer("%s can't be run: %s" % (self.words[0], fault.strerror)) from None
        return Answer(done.returncode, done.stdout.decode("utf-8", "replace"), done.stderr.decode("utf-8", "replace"))

    def report(self, scenario: Any, *words: str) -> Answer:
        """The same, if a report is needed: a fault of the scenario or of the program is no answer."""
        answer = self.ask(scenario, *words)
        if not answer.has_report:
            raise NoAnswer(answer.reason)
        return answer


def processors() -> int:
    """How many processors this process may use."""
    return len(os.sched_getaffinity(0)) if hasattr(os, "sched_getaffinity") else os.cpu_count() or 1


def each_at_once(call: Callable[[Any], Any], items: Iterable[Any], workers: int, ended: Callable[[], None]) -> list[Any]:
    """The results of the calls in the items' order, so many of them at once. `ended` is called after each."""
    def called(item: Any) -> Any:
        result = call(item)
        ended()
        return result

    with concurrent.futures.ThreadPoolExecutor(max(1, workers)) as pool:
        return list(pool.map(called, items))
