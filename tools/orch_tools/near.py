"""What may have been meant: the nearest of known texts."""
from __future__ import annotations

import difflib
from collections.abc import Iterable


def nearest(text: str, known: Iterable[str]) -> str | None:
    """The known text that is nearest to this one, None if none is near."""
    wanted = text.lower().replace("_", "-")
    by_form = {known_text.lower().replace("_", "-"): known_text for known_text in known}
    found = difflib.get_close_matches(wanted, list(by_form), 1, 0.6)
    return by_form[found[0]] if found else None


def did_you_mean(text: str, known: Iterable[str]) -> str:
    """The question after a mistake, with the nearest known text; nothing if none is near."""
    found = nearest(text, known)
    return " Did you mean `%s`?" % found if found else ""


def listed(texts: Iterable[str], most: int = 8) -> str:
    """Texts in a row, the first ones alone where there are many."""
    every = list(texts)
    return ", ".join(every[:most]) + (", .. (%d)" % len(every) if len(every) > most else "")


def counted(number: int, noun: str) -> str:
    """A number with its noun: 1 transaction, 2 transactions."""
    return "%d %s%s" % (number, noun, "" if number == 1 else "s")
