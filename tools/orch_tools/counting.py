"""How many of a number of runs are done, on standard error where that is a terminal and the runs take more than two seconds."""
from __future__ import annotations

import threading
from types import TracebackType

from orch_tools.progress import Progress


class Count:
    """Counts what is done, from several threads."""

    def __init__(self, title: str, total: int) -> None:
        self.title, self.total, self.done = title, total, 0
        self.lock, self.progress = threading.Lock(), Progress()

    def __enter__(self) -> Count:
        return self

    def step(self) -> None:
        """One more is done."""
        with self.lock:
            self.done += 1
            self.progress.tell("%s: %d of %d" % (self.title, self.done, self.total))

    def __exit__(self, kind: type[BaseException] | None, value: BaseException | None, trace: TracebackType | None) -> None:
        self.progress.end()
