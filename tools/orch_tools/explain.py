"""Explains a line of the program, or a name in it, and what to do. The name is of a refusal, a cause of failure, a reason
of a lost replica, an analysis code or a scenario fault.

  orch explain 'refused 16 VersionLower db7:3306'
  orch explain DeadMaster
  orch -c recover -i db1 < now.json 2>&1 | orch explain
"""
from __future__ import annotations

import argparse
import json
import sys

from orch_tools import refusals
from orch_tools.program import NoAnswer

HELP = "explain a refusal, a failure, a fault or a code, and what to do"


def add_arguments(parser: argparse.ArgumentParser) -> None:
    """The subcommand's arguments."""
    parser.add_argument("text", nargs="*", metavar="TEXT", help="a line of the program, or a name; without it, lines of standard input")
    parser.add_argument("--json", action="store_true", help="print the sections as JSON")


def texts_of(given: argparse.Namespace) -> list[str]:
    """What is to be explained."""
    if not given.text:
        return [line for line in sys.stdin.read().splitlines() if line.strip()]
    return [" ".join(given.text)]


def run(given: argparse.Namespace) -> int:
    """The exit status: 3 where the document has nothing of it."""
    sections = refusals.Sections()
    if not sections.texts:
        raise NoAnswer("docs/REFUSALS.md isn't beside the tools")
    texts = texts_of(given)
    headings = list(dict.fromkeys(heading for text in texts for heading in sections.of(text)))
    if not headings:
        asked = next((question for question in (refusals.question(text, sections) for text in texts) if question), "")
        raise NoAnswer("docs/REFUSALS.md has nothing of `%s`.%s" % (texts[0] if texts else "", asked))
    if given.json:
        print(json.dumps([{"name": heading, "text": "\n".join(sections.plain(heading))} for heading in headings], indent=1))
        return 0
    print("\n\n".join("\n".join([heading, *("  " + line if line else "" for line in sections.plain(heading))]) for heading in headings))
    return 0
