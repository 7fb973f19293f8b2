"""What an import couldn't know, or took for something else: lines for standard error, and a file beside the scenario for other subcommands."""
from __future__ import annotations

import dataclasses
import json
import os
import sys
from collections.abc import Iterator

# What each kind of note is about. True if an answer that is taken from the scenario may depend on it: it is repeated there.
CODES = {
    "own transactions unseen": True,
    "sizes unknown": True,
    "order only": True,
    "earlier pairs unknown": True,
    "dead server": True,
    "applier broken": True,
    "receiver broken": True,
    "delayed": True,
    "filtered": True,
    "parallel appliers": True,
    "gaps": True,
    "errant": True,
    "kin": True,
    "several moments": True,
    "pieces": True,
    "no operator's data": True,
    "operator's data": False,
    "not reached": True,
    "not found": True,
    "MariaDB GTIDs": False,
    "settings": True,
    "received in part": False,
    "matched from the end": True,
    "other": False,
}


@dataclasses.dataclass(frozen=True)
class Note:
    """One thing that the scenario doesn't have, or has otherwise. `server` is None if it is about all of them."""
    code: str
    text: str
    server: str | None = None

    @property
    def repeat(self) -> bool:
        """Whether an answer that is taken from the scenario may rest on it."""
        return CODES[self.code]

    def __str__(self) -> str:
        return "%s: %s" % (self.server, self.text) if self.server else self.text


class Notes:
    """Notes in their order, each once."""

    def __init__(self) -> None:
        self.notes: list[Note] = []

    def add(self, code: str, text: str, server: str | None = None) -> None:
        """Adds a note, if it isn't there yet. `code` is one of CODES."""
        note = Note(code, text, server)
        if code not in CODES:
            raise KeyError(code)
        if note not in self.notes:
            self.notes.append(note)

    def take(self, other: Notes) -> None:
        """All notes of another list."""
        for note in other:
            self.add(note.code, note.text, note.server)

    def __iter__(self) -> Iterator[Note]:
        return iter(self.notes)

    def about(self, *codes: str, server: str | None = None) -> list[Note]:
        """The notes of these kinds, and of one server if it is given."""
        return [note for note in self.notes if note.code in codes and server in (None, note.server)]

    def say(self) -> None:
        """A line on standard error for each."""
        for note in self.notes:
            print("note: %s" % note, file=sys.stderr)

    def write(self, path: str, way: str) -> None:
        """The file of notes. `way` is how it was read: light or exact."""
        rows = [{"code": note.code, "server": note.server, "text": note.text, "repeat": note.repeat} for note in self.notes]
        with open(path, "w", encoding="utf-8") as file:
            json.dump({"version": 1, "way": way, "notes": rows}, file, indent=1)
            file.write("\n")


def beside(scenario: str, kind: str = "notes") -> str:
    """The name of the file of notes (or of the map) beside a scenario's: now.notes.json of now.json."""
    return "%s.%s.json" % (scenario[:-5] if scenario.endswith(".json") else scenario, kind)


def read(path: str) -> Notes:
    """The notes of a file. ValueError if it isn't one."""
    notes = Notes()
    with open(path, encoding="utf-8") as file:
        told = json.load(file)
    if not isinstance(told, dict) or told.get("version") != 1:
        raise ValueError("%s has no notes of an import" % path)
    for row in told["notes"]:
        notes.add(row["code"] if row["code"] in CODES else "other", row["text"], row["server"])
    return notes


def read_beside(scenario: str) -> Notes:
    """The notes beside a scenario, none where there is no such file."""
    path = beside(scenario)
    return read(path) if os.path.exists(path) else Notes()
