#!/usr/bin/env python3
"""Prints how much of the house an edit of each crate proves again, in lines of src, specs and proofs and in minutes, and the longest chain of crates.

    tools/house.py [CRATE ..]

An edit proves its crate and all crates above it. Without CRATE all crates are printed, the dearest first. The minutes are an estimate, of one
processor: 12 s for a crate and 2.4 s for each of its functions (docs/SPEED.md).
"""
import functools
import os
import re
import sys
from typing import Dict, FrozenSet, Iterator, List, Set, Tuple

TOP = os.path.dirname(os.path.dirname(os.path.abspath(__file__)))


def libraries(text: str) -> Dict[str, List[str]]:
    """For each crate of crates.txt the crates of this repository that it names."""
    lines = [it.partition("#")[0].partition(":") for it in text.split("\n")]
    named = {name.split()[0]: uses.split() for name, colon, uses in lines if colon}
    return {name: [it for it in uses if it in named] for name, uses in named.items()}


def texts_in(folder: str, *parts: str) -> Iterator[str]:
    """The texts of the sources in these parts of a crate."""
    for part in parts:
        for root, _, files in os.walk(os.path.join(folder, part)):
            for name in files:
                if name.endswith((".rt", ".antt")):
                    with open(os.path.join(root, name), encoding="utf-8") as file:
                        yield file.read()


def lines_in(folder: str) -> int:
    """The lines of a crate's src, specs and proofs."""
    return sum(text.count("\n") for text in texts_in(folder, "src", "specs", "proofs"))


def seconds_of(folder: str) -> int:
    """About how long a crate's proof takes on one processor."""
    functions = sum(len(re.findall(r"(?m)^ *(?:pub(?:\([a-z]+\))? )?fn ", text)) for text in texts_in(folder, "src"))
    return round(12 + 2.4 * functions)


def proved_again(below: Dict[str, List[str]], size: Dict[str, int]) -> Dict[str, int]:
    """For each crate its own lines and those of all crates above it."""
    @functools.lru_cache(None)
    def under(name: str) -> FrozenSet[str]:
        found: Set[str] = {name}
        for it in below[name]:
            found |= under(it)
        return frozenset(found)

    return {name: sum(size[it] for it in below if name in under(it)) for name in below}


def longest_chain(below: Dict[str, List[str]], size: Dict[str, int]) -> List[str]:
    """The chain of crates with the most lines, the lowest first."""
    @functools.lru_cache(None)
    def best(name: str) -> Tuple[int, Tuple[str, ...]]:
        nothing: Tuple[int, Tuple[str, ...]] = (0, ())
        cost, chain = max((best(it) for it in below[name]), default=nothing)
        return cost + size[name], chain + (name,)

    return list(max(best(name) for name in below)[1])


def main(arguments: List[str]) -> int:
    """The command line, and its exit status."""
    with open(os.path.join(TOP, "crates.txt"), encoding="utf-8") as file:
        below = libraries(file.read())
    unknown = [it for it in arguments if it not in below]
    if unknown:
        print("no such crate: " + ", ".join(unknown), file=sys.stderr)
        return 1
    size = {name: lines_in(os.path.join(TOP, "crates", name)) for name in below}
    again = proved_again(below, size)
    minutes = proved_again(below, {name: seconds_of(os.path.join(TOP, "crates", name)) for name in below})
    for name in arguments or sorted(again, key=lambda it: -again[it]):
        print("%-20s %7d lines, an edit proves %7d again, about %d min" % (name, size[name], again[name], round(minutes[name] / 60)))
    if not arguments:
        print("%d crates, %d lines; the longest chain: %s" % (len(size), sum(size.values()), " ".join(longest_chain(below, size))))
    return 0


if __name__ == "__main__":
    sys.exit(main(sys.argv[1:]))
