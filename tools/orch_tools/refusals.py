"""The sections of docs/REFUSALS.md: what each refusal, failure, loss, analysis code and scenario fault means, and what to do."""
from __future__ import annotations

import os
import re

from orch_tools.near import did_you_mean
from orch_tools.program import TOP

PATH = os.path.join(TOP, "docs", "REFUSALS.md")
LOST = ("ahead", "behind", "unreachable", "moved", "not logging", "must not", "purged", "NoMark", "Mismatch")


class Sections:
    """The sections of the document by their headings. There are none where the document isn't there."""

    def __init__(self, path: str = PATH) -> None:
        self.texts: dict[str, list[str]] = {}
        try:
            with open(path, encoding="utf-8") as file:
                self.read(file.read().splitlines())
        except OSError:
            pass

    def read(self, lines: list[str]) -> None:
        """Reads the sections of level 3."""
        here: list[str] | None = None
        for line in lines:
            if line.startswith("### "):
                here = self.texts.setdefault(line[4:].replace("`", "").strip(), [])
            elif line.startswith("#"):
                here = None
            elif here is not None:
                here.append(line)

    def plain(self, heading: str) -> list[str]:
        """A section as plain lines, without blank lines at its ends."""
        text = "\n".join(self.texts[heading]).strip()
        text = re.sub(r"\[([^\]]*)\]\([^)]*\)", r"\1", text)
        return re.sub(r"\*\*|(?<!`)`(?!`)", "", text).splitlines()

    def first(self, heading: str) -> list[str]:
        """A section's first paragraph."""
        lines = self.plain(heading)
        return lines[:lines.index("")] if "" in lines else lines

    def named(self, name: str) -> list[str]:
        """The headings with this name, whatever it is the name of."""
        return [heading for heading in self.texts if bare(heading).lower() == name.lower()]

    def heading_of(self, group: str, name: str) -> str | None:
        """The heading of a group with this name."""
        return next((heading for heading in self.named(name) if heading.startswith(group)), None)

    def of(self, text: str) -> list[str]:
        """The headings that a line of the program, or a name, speaks of; a heading speaks of itself."""
        own = [heading for heading in self.texts if heading.lower() == text.strip().lower()]
        found = [self.heading_of(group, name) for group, name in spoken_of(text)]
        return own or [heading for heading in dict.fromkeys(found) if heading] or self.named(text.strip())

    def names(self) -> list[str]:
        """Each name of the document."""
        return list(dict.fromkeys(bare(heading) for heading in self.texts))


def bare(heading: str) -> str:
    """The name of a heading, without its group and number."""
    return re.sub(r"^(refused|failed|lost|analysis|scenario fault)( \d+)? ", "", heading)


def spoken_of(line: str) -> list[tuple[str, str]]:
    """The groups and names of which a line of the program speaks."""
    found = re.search(r"scenario fault \d+ (\w+)", line)
    if found:
        return [("scenario fault", found[1])]
    found = re.search(r"\brefused (\d+ )?(\w+)(?: (\w+))?", line)
    if found:
        return [("refused", found[2])] + ([("analysis", found[3])] if found[2] == "NotActionable" and found[3] else [])
    found = re.search(r"\bfailed (\w+)", line)
    if found:
        return [("failed", found[1])]
    found = re.match(r"\d+ ([A-Z]\w+)", line)
    if found:
        return [("refused", found[1]), ("scenario fault", found[1])]
    found = re.search(r"\S+:\d+ (%s)\b" % "|".join(LOST), line)
    if found:
        return [("lost", found[1])]
    found = re.search(r"\S+:\d+ ([A-Z]\w+)(?: replicas| begun|$)", line)
    return [("analysis", found[1])] if found else []


def question(text: str, sections: Sections) -> str:
    """What may have been meant, if a text speaks of nothing that the document has."""
    words = re.findall(r"[A-Za-z]\w+", text)
    return next((asked for asked in (did_you_mean(word, sections.names()) for word in reversed(words)) if asked), "")
