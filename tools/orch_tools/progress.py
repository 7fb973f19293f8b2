"""A line on a terminal that reports how far a long work has come."""
from __future__ import annotations

import sys
import time
from typing import TextIO


class Progress:
    """Lines over one another, from two seconds on, if the stream is a terminal; nothing is left of them at the end."""

    def __init__(self, stream: TextIO | None = None, after: float = 2.0) -> None:
        self.stream, self.after = stream or sys.stderr, after
        self.began, self.width, self.last = time.monotonic(), 0, 0.0

    def tell(self, text: str) -> None:
        """How far it has come now; at most ten times a second."""
        now = time.monotonic()
        if now - self.began >= self.after and now - self.last >= 0.1 and self.stream.isatty():
            self.last = now
            self.stream.write("\r%s" % text.ljust(self.width))
            self.stream.flush()
            self.width = len(text)

    def end(self) -> None:
        """Takes the line away."""
        if self.width:
            self.stream.write("\r%s\r" % (" " * self.width))
            self.stream.flush()
            self.width = 0
