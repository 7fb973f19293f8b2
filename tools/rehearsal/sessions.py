"""The command line client, kept open: one process a server answers one statement after another."""
from __future__ import annotations

import os
import re
import selectors
import subprocess
import threading
import time
from collections.abc import Sequence
from typing import Any

from orch_tools.client import NOT_REACHED, Client

KEPT = ("SELECT ", "SHOW ", "STOP ", "START ", "CHANGE ", "FLUSH ", "PURGE ", "CREATE ", "RESET ", "INSERT ", "SET GLOBAL ", "SET PERSIST ")


class Gone(Exception):
    """A session's server has gone away, or the session has."""


class Session:
    """One process of the client. Its answers come one after another, each with the text that ends it after it."""

    def __init__(self, words: Sequence[str], environment: dict[str, str], timeout: float) -> None:
        self.process = subprocess.Popen([*words, "--force", "--unbuffered", "--skip-reconnect"], env=environment, stdin=subprocess.PIPE,
                                        stdout=subprocess.PIPE, stderr=subprocess.PIPE, bufsize=0, start_new_session=True)
        self.timeout, self.count, self.lock = timeout, 0, threading.Lock()
        self.selector = selectors.DefaultSelector()
        for pipe in (self.process.stdout, self.process.stderr):
            assert pipe
            os.set_blocking(pipe.fileno(), False)
            self.selector.register(pipe, selectors.EVENT_READ)

    def more(self, found: dict[Any, bytes], until: float) -> None:
        """What has come after that."""
        for key, _ in self.selector.select(max(0.0, until - time.monotonic())):
            data = os.read(key.fd, 65536)
            if not data:
                raise Gone
            found[key.fileobj] += data

    def ran(self, statement: str) -> tuple[int, str, str]:
        """The answer to a statement, as a process of its own would give it."""
        self.count += 1
        words, until = "end of %d" % self.count, time.monotonic() + self.timeout
        ending = ("%s\n%s\n" % (words, words)).encode()
        out, err = self.process.stdout, self.process.stderr
        assert self.process.stdin
        found: dict[Any, bytes] = {out: b"", err: b""}
        try:
            self.process.stdin.write(("%s;\nSELECT '%s' AS '%s';\n" % (statement, words, words)).encode())
            while not found[out].endswith(ending):
                self.more(found, until)
                if time.monotonic() > until or re.search(NOT_REACHED, found[err].decode("utf-8", "replace")):
                    raise Gone
            self.more(found, time.monotonic())
        except OSError:
            raise Gone from None
        text = found[err].decode("utf-8", "replace")
        return int("ERROR " in text), found[out][:-len(ending)].decode("utf-8", "replace"), text

    def close(self) -> None:
        """Ends the process."""
        self.process.kill()
        self.process.wait(60)
        self.selector.close()
        for pipe in (self.process.stdin, self.process.stdout, self.process.stderr):
            if pipe:
                pipe.close()


class Sessions(Client):
    """A client with a session a server for single statements of some kinds. All others go by a process of their own."""

    def __init__(self, *words: Any) -> None:
        super().__init__(*words)
        self.sessions: dict[tuple[str, int], Session] = {}

    def ran(self, host: str, port: int, statements: str) -> tuple[int, str, str]:
        """The client's status, standard output and standard error."""
        told = self.by_session(host, port, statements) if statements.startswith(KEPT) and ";" not in statements else None
        return told or super().ran(host, port, statements)

    def by_session(self, host: str, port: int, statement: str) -> tuple[int, str, str] | None:
        """The same by a session; nothing if the server has gone away, which a process of its own then reports."""
        session = self.sessions.get((host, port))
        if session is None:
            session = self.sessions.setdefault((host, port), Session(self.words(host, port), self.environment, self.timeout))
        try:
            with session.lock:
                return session.ran(statement)
        except Gone:
            self.end(host, port)
            return None

    def end(self, host: str, port: int) -> None:
        """Ends the session of a server."""
        session = self.sessions.pop((host, port), None)
        if session:
            session.close()

    def close(self) -> None:
        """Ends all sessions."""
        for host, port in list(self.sessions):
            self.end(host, port)
