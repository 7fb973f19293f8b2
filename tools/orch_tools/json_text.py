"""A JSON text with comments, and where each of its values is."""
from __future__ import annotations

import bisect
import dataclasses
import json
import re

BLANK = re.compile(r"[ \t\r\n]*")
STRING = re.compile(r'"(?:[^"\\\x00-\x1f]|\\.)*"')
OTHER = re.compile(r"[^,\]}\s]+")
COMMENT = re.compile(r'"(?:[^"\\\n]|\\.)*"|//[^\n]*', re.S)


@dataclasses.dataclass(frozen=True)
class Place:
    """The place of a value in a text: its key or the value itself begins at `start`, the value is `first` to `last`."""
    start: int
    first: int
    last: int


class Unread(Exception):
    """The text isn't JSON."""


def after_blanks(text: str, at: int) -> int:
    """The first place from here on that is no blank."""
    found = BLANK.match(text, at)
    return found.end() if found else at


class Scanner:
    """Finds the place of each value of a JSON text, by its JSON pointer."""

    def __init__(self, text: str) -> None:
        self.text, self.places = text, dict[str, Place]()

    def blank(self, at: int) -> int:
        """The first byte from here on that is no blank."""
        return after_blanks(self.text, at)

    def sign(self, at: int) -> str:
        """The character here, nothing after the text."""
        return self.text[at:at + 1]

    def value(self, at: int, path: str, start: int | None = None) -> int:
        """Reads one value, and gives where it ends. `start` is where its key begins."""
        at = self.blank(at)
        readers = {"{": self.members, "[": self.items}
        reader = readers.get(self.sign(at))
        if reader:
            end = reader(self.blank(at + 1), path)
        else:
            found = (STRING if self.sign(at) == '"' else OTHER).match(self.text, at)
            if not found:
                raise Unread(at)
            end = found.end()
        self.places[path] = Place(at if start is None else start, at, end)
        return end

    def members(self, at: int, path: str) -> int:
        """Reads the members of an object, from its first one to its bracket."""
        while self.sign(at) != "}":
            found = STRING.match(self.text, at)
            if not found:
                raise Unread(at)
            colon = self.blank(found.end())
            if self.sign(colon) != ":":
                raise Unread(colon)
            key = json.loads(found.group())
            at = self.behind(self.value(colon + 1, path + "/" + key.replace("~", "~0").replace("/", "~1"), at), "}")
        return at + 1

    def items(self, at: int, path: str) -> int:
        """Reads the items of a list, from its first one to its bracket."""
        number = 0
        while self.sign(at) != "]":
            at = self.behind(self.value(at, "%s/%d" % (path, number)), "]")
            number += 1
        return at + 1

    def behind(self, at: int, bracket: str) -> int:
        """The place at which the next member begins, or of the closing bracket."""
        at = self.blank(at)
        if self.sign(at) == ",":
            return self.blank(at + 1)
        if self.sign(at) != bracket:
            raise Unread(at)
        return at


def places_in(text: str) -> dict[str, Place]:
    """The place of each value of a text, by its JSON pointer. Unread where the text isn't JSON."""
    scanner = Scanner(text)
    scanner.value(0, "")
    return scanner.places


class Lines:
    """The lines and columns of a text, both counted from 1."""

    def __init__(self, text: str) -> None:
        self.text = text
        self.starts = [0] + [found.end() for found in re.finditer("\n", text)]

    def at(self, offset: int) -> tuple[int, int]:
        """The line and the column of an offset."""
        line = bisect.bisect_right(self.starts, offset)
        return line, offset - self.starts[line - 1] + 1

    def line(self, number: int) -> str:
        """The text of a line."""
        return self.text[self.starts[number - 1]:].split("\n", 1)[0].rstrip("\r")


def blanked(text: str) -> str:
    """Blanks in place of a text, so that all after it keeps its line and column."""
    return re.sub(r"[^\r\n]", " ", text)


def without_comments(text: str) -> str:
    """The text with blanks for each `//` comment outside of strings."""
    return COMMENT.sub(lambda found: blanked(found.group()) if found.group().startswith("//") else found.group(), text)


def without_member(text: str, key: str) -> str:
    """The text with blanks for one member of its object, and for one comma beside it. A text that isn't JSON stays as it is."""
    try:
        place = places_in(text).get("/" + key)
    except (Unread, ValueError, RecursionError):
        return text
    if place is None:
        return text
    first, last = place.start, place.last
    after = after_blanks(text, last)
    if text[after:after + 1] == ",":
        last = after + 1
    else:
        before = len(text[:first].rstrip())
        first = before - 1 if text[before - 1:before] == "," else first
    return text[:first] + blanked(text[first:last]) + text[last:]


def plain(text: str) -> str:
    """A text as the program reads it: without comments, and without `$schema` in its object."""
    bare = without_comments(text) if "//" in text else text
    return without_member(bare, "$schema") if '"$schema"' in bare else bare


def value_at(value: object, path: str) -> object:
    """The value that a JSON pointer names, None where there is none."""
    for part in path.split("/")[1:]:
        part = part.replace("~1", "/").replace("~0", "~")
        if isinstance(value, list) and part.isdigit() and int(part) < len(value):
            value = value[int(part)]
        elif isinstance(value, dict) and part in value:
            value = value[part]
        else:
            return None
    return value
