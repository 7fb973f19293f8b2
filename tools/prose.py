#!/usr/bin/env python3
"""Checks the documents: sentences, table cells, terms, links, names, and the commands that they print.

    tools/prose.py [--no-run] [FILE ..]

Without FILE it reads README.md, CONTRIBUTING.md, CHANGELOG.md and docs/*.md. It reports:

- a sentence that is longer than MOST_WORDS, outside of tables and code;
- a table cell that is longer than MOST_IN_CELL;
- in the documents for operators a word for which the project has another term (docs/GLOSSARY.md);
- a relative link whose file or heading doesn't exist;
- a command of a `console` block whose output is not the printed one;
- a name that the program can print and that docs/REFUSALS.md doesn't explain;
- a scenario of examples/tour whose output is not the one beside it;
- in the documents about contracts a name, or a file of a crate, that the sources don't have.

A code block `console` has commands, each after `$ `, and after each its output, standard error included. A line `..` matches any lines.
A block `json NAME` is written to the file NAME before the commands run; if NAME has a folder, the block must be that file of the repository.
The commands of one document run one after another in one folder, which has links to all of the repository. `orch` is tools/orch,
or the built program if there is no such tool. The program is $ORCH, or crates/orch_cli/out/orch_cli. If neither exists
the commands are skipped. A `sh` block is for what needs servers or the toolchain.

Exit status: 0 nothing to report; 1 something was reported.
"""
import argparse
import functools
import os
import re
import subprocess
import sys
import tempfile
from typing import Dict, Iterator, List, NamedTuple, Optional, Set, Tuple

TOP = os.path.dirname(os.path.dirname(os.path.abspath(__file__)))
MOST_WORDS, MOST_IN_CELL, SECONDS = 30, 25, 120

# The documents whose names in code are those of the sources.
OF_SOURCES = ("docs/PROVED.md", "docs/CONTRACTS.md", "docs/DEFINITIONS.md", "docs/ARCHITECTURE.md")

# The documents for operators, in which what RULED_OUT has isn't used.
PLAIN = ("README.md", "docs/START.md", "docs/COMMANDS.md", "docs/REFUSALS.md", "docs/SCENARIO.md", "docs/REAL.md", "docs/PROVED.md")
RULED_OUT = {
    r"front|beginning": "prefix",
    r"words": "arguments, command line",
    r"told|tells?|says": "prints, reports, lists",
    r"stands?": "is in, is at, exists, holds",
    r"behind": "after",
    r"spots?": "source and coordinate",
    r"sights?|shown": "observation, observed",
    r"crossings?": "reattachment",
    r"held|sound|quiet|tidy|placed": "the name of the invariant",
    r"dockets?|passages?|flights?|footing|course|kin|trim": "a term of the field",
    r"apart": "not overlapping",
    r"perhaps": "optional",
    r"since": "because",
    r"all but|none but|nothing but|but for": "except",
    r"so that none": "then no",
    r"befell|befallen": "happened to, stopped by",
    r"want of memory": "out of memory",
    r"the papers": "the specification",
    r"keepers?": "row store",
}
# The headings that are the program's own.
PRINTED = r"(refused|failed|lost|analysis|scenario fault) "
CONDITIONS = re.compile(r"(?:^|[,(] ?)where\b|(?<=[.:] )Where\b|^Where\b|(?:^|(?<=[.:] ))Of (?:a|an|the|each|all|several|two)\b")


class Block(NamedTuple):
    """A part of a document: its kind (`text`, `cell`, `heading`, `code`), its line, its text, and the text after a code's fence."""
    kind: str
    line: int
    text: str
    info: str = ""


def blocks_of(text: str) -> List[Block]:
    """The parts of a document, in order."""
    blocks: List[Block] = []
    gathered: List[str] = []
    lines, number = text.split("\n"), 0

    def end() -> None:
        if gathered:
            blocks.append(Block("text", number - len(gathered) + 1, " ".join(it.strip() for it in gathered)))
            gathered.clear()

    while number < len(lines):
        line = lines[number]
        bare = line.strip()
        if bare.startswith("```"):
            end()
            close = next((at for at in range(number + 1, len(lines)) if lines[at].strip() == "```"), len(lines))
            blocks.append(Block("code", number + 1, "\n".join(lines[number + 1:close]), bare[3:].strip()))
            number = close
        elif not bare or bare.startswith(("<", "---")):
            end()
        elif bare.startswith("|"):
            end()
            blocks.extend(Block("cell", number + 1, it) for it in cells_of(bare))
        elif bare.startswith("#"):
            end()
            blocks.append(Block("heading", number + 1, bare.lstrip("#").strip()))
        else:
            if re.match(r"([-*]|\d+\.) ", bare):
                end()
                bare = re.sub(r"^([-*]|\d+\.) ", "", bare)
            gathered.append(re.sub(r"^> ?", "", bare))
        number += 1
    end()
    return blocks


def cells_of(row: str) -> List[str]:
    """The cells of a row of a table; none of the line below its head."""
    if re.fullmatch(r"[|:\- ]+", row):
        return []
    safe = re.sub(r"`[^`]*`", lambda it: it[0].replace("|", "\0"), row)
    return [it.replace("\0", "|").strip() for it in safe.strip().strip("|").split("|")]


def plain(text: str) -> str:
    """A text as it is read: code is one word, a link its text."""
    text = re.sub(r"!\[[^\]]*\]\([^)]*\)", "", text)
    text = re.sub(r"``[^`]+``|`[^`]*`", "X", text)
    text = re.sub(r"\[([^\]]*)\]\([^)]*\)", r"\1", text)
    return re.sub(r"\*\*|(?<!\w)\*|\*(?!\w)|<[^>]*>", "", text)


def sentences_of(text: str) -> List[str]:
    """The sentences of a paragraph."""
    return [it for it in re.split(r"(?<=[.!?])[\")]?\s+(?=[A-Z0-9\"(\[])", plain(text)) if it]


def count(text: str) -> int:
    """How long a text is: the parts between blanks that have a letter or a digit."""
    return len([it for it in plain(text).split() if re.search(r"\w", it)])


def lengths(blocks: List[Block]) -> Iterator[Tuple[int, str]]:
    """The sentences and the cells that are too long."""
    for block in blocks:
        if block.kind == "text":
            for sentence in sentences_of(block.text):
                if count(sentence) > MOST_WORDS:
                    yield block.line, "%d words in a sentence: %s" % (count(sentence), sentence[:70])
        elif block.kind == "cell" and count(block.text) > MOST_IN_CELL:
            yield block.line, "%d words in a cell: %s" % (count(block.text), block.text[:70])


def ruled_out(blocks: List[Block]) -> Iterator[Tuple[int, str]]:
    """Each word for which the project has another term."""
    for block in blocks:
        if block.kind == "code" or block.kind == "heading" and re.match(PRINTED, block.text):
            continue
        text = plain(block.text)
        for words, term in RULED_OUT.items():
            for found in re.finditer(r"\b(?:%s)\b" % words, text, re.IGNORECASE):
                yield block.line, "`%s`: write %s" % (found[0], term)
        for found in CONDITIONS.finditer(text):
            yield block.line, "`%s`: write if, when or for" % found[0].strip()


def anchor_of(heading: str) -> str:
    """The anchor that a heading has."""
    text = re.sub(r"\[([^\]]*)\]\([^)]*\)", r"\1", heading).replace("`", "").lower()
    return re.sub(r"[^\w\- ]", "", text).replace(" ", "-")


def links(path: str, blocks: List[Block], top: str) -> Iterator[Tuple[int, str]]:
    """The relative links that lead nowhere."""
    for block in blocks:
        if block.kind == "code":
            continue
        for target in re.findall(r"\]\(([^)\s]+)\)", re.sub(r"`[^`]*`", "X", block.text)):
            if re.match(r"[a-z]+:", target):
                continue
            name, _, anchor = target.partition("#")
            file = os.path.normpath(os.path.join(top, os.path.dirname(path), name)) if name else os.path.join(top, path)
            if not os.path.exists(file):
                yield block.line, "no such file: " + target
            elif anchor and file.endswith(".md") and anchor not in anchors_in(file):
                yield block.line, "no such heading: " + target


def anchors_in(file: str) -> Set[str]:
    """The anchors of a document."""
    with open(file, encoding="utf-8") as opened:
        return {anchor_of(it.text) for it in blocks_of(opened.read()) if it.kind == "heading"}


def commands_of(code: str) -> List[Tuple[str, str]]:
    """The commands of a `console` block, each with the output that is printed below it."""
    found: List[Tuple[List[str], List[str]]] = []
    going_on = False
    for line in code.split("\n"):
        if line.startswith("$ "):
            found.append(([line[2:]], []))
        elif found and going_on:
            found[-1][0].append(line)
        elif found:
            found[-1][1].append(line)
        going_on = line.endswith("\\") and (line.startswith("$ ") or going_on)
    return [("\n".join(command), "\n".join(output).strip("\n")) for command, output in found]


def is_output(printed: str, got: str) -> bool:
    """Whether an output is the printed one, in which a line `..` matches any lines."""
    parts = [re.escape(it) for it in re.split(r"(?m)^\.\.$", printed.strip())]
    return re.fullmatch("(?s:.*?)".join(parts), got.strip()) is not None


class Session:
    """A folder in which a document's commands run: links to all of the repository, and `orch` on the path."""

    def __init__(self, top: str, program: str, folder: str) -> None:
        self.work = os.path.join(folder, "work")
        tools = os.path.join(folder, "bin")
        os.makedirs(self.work)
        os.makedirs(tools)
        for name in os.listdir(top):
            os.symlink(os.path.join(top, name), os.path.join(self.work, name))
        wrapper = os.path.join(top, "tools", "orch")
        target = wrapper if os.path.exists(wrapper) else program
        with open(os.path.join(tools, "orch"), "w", encoding="utf-8") as shim:
            shim.write('#!/bin/sh\nexec "%s" "$@"\n' % target)
        os.chmod(os.path.join(tools, "orch"), 0o755)
        self.environment = dict(os.environ, ORCH=program, PATH=tools + os.pathsep + os.environ["PATH"], LC_ALL="C.UTF-8")

    def run(self, command: str) -> str:
        """What a command prints."""
        try:
            ran = subprocess.run(["bash", "-c", command], cwd=self.work, env=self.environment, stdin=subprocess.DEVNULL,
                                 stdout=subprocess.PIPE, stderr=subprocess.STDOUT, timeout=SECONDS, check=False)
        except subprocess.TimeoutExpired:
            return "(no end after %d seconds)" % SECONDS
        return ran.stdout.decode("utf-8", "replace")

    def write(self, name: str, text: str) -> None:
        """Makes a file of a document's block."""
        with open(os.path.join(self.work, name), "w", encoding="utf-8") as file:
            file.write(text + "\n")


def outputs(blocks: List[Block], top: str, program: str) -> Iterator[Tuple[int, str]]:
    """The commands whose output is not the printed one."""
    with tempfile.TemporaryDirectory() as folder:
        session = Session(top, program, folder)
        for block in blocks:
            kind, _, name = block.info.partition(" ")
            if block.kind == "code" and kind == "json" and "/" in name:
                with open(os.path.join(top, name), encoding="utf-8") as file:
                    if file.read() != block.text + "\n":
                        yield block.line, "the block isn't the file " + name
            elif block.kind == "code" and kind == "json" and name:
                session.write(name, block.text)
            if block.kind != "code" or kind != "console":
                continue
            for command, printed in commands_of(block.text):
                got = session.run(command)
                if not is_output(printed, got):
                    yield block.line, "$ %s\n  printed:\n%s\n  got:\n%s" % (command, printed, got.rstrip("\n"))


def tour(top: str, program: str) -> List[str]:
    """The scenarios of the tour whose output is not the one beside them."""
    folder, found = os.path.join(top, "examples", "tour"), []
    for name in sorted(it for it in os.listdir(folder) if it.endswith(".json")):
        with open(os.path.join(folder, name + ".args"), encoding="utf-8") as args, open(os.path.join(folder, name), "rb") as scenario, \
                open(os.path.join(folder, name + ".stdout"), "rb") as expected:
            ran = subprocess.run([program, *args.read().split("\n")[:-1]], stdin=scenario, stdout=subprocess.PIPE, stderr=subprocess.DEVNULL,
                                 timeout=SECONDS, check=False)
            if ran.stdout != expected.read():
                found.append("examples/tour/%s: the program prints something else" % name)
    return found


def unrun(blocks: List[Block]) -> Iterator[Tuple[int, str]]:
    """The commands that could run and are in a block that isn't."""
    for block in blocks:
        if block.kind == "code" and not block.info.startswith(("console", "json")):
            for line in block.text.split("\n"):
                if re.match(r"(\$ )?orch .*< (examples/|\S+\.json)", line) and "examples/" in line:
                    yield block.line, "a command that could run, outside a `console` block: " + line.strip()


def names_printed(top: str) -> List[str]:
    """The headings that REFUSALS.md owes: one for each name that the program can print, out of its sources."""
    def source(path: str) -> str:
        with open(os.path.join(top, "crates", path), encoding="utf-8") as opened:
            return opened.read()

    numbers = re.findall(r"Refusal::(\w+)(?:\([^)]*\))? => (\d+),", source("commands/src/refusal.rt"))
    names = ["refused %s %s" % (number, name) for name, number in numbers]
    names += ["failed " + it for it in re.findall(r'CauseName::\w+\s*=>\s*\{?\s*"(\w+)"', source("orch_base/src/recovery.rt"))]
    names += ["analysis " + it for it in re.findall(r'\bCode::\w+\s*=>\s*\{?\s*"(\w+)"', source("orch_base/src/code.rt"))]
    names += ["lost " + it for it in losses_in(source("report_text/src/line.rt"))]
    return names + ["scenario fault " + it for it in re.findall(r'FaultCode::\w+ => b"(\d+ \w+)"', source("top_call/src/fault.rt"))]


def losses_in(text: str) -> List[str]:
    """The reasons in a lost replica's line."""
    arms = re.findall(r"Lost::\w+(?:\(\w+\))? => (.*?)(?=Lost::|\Z)", text, re.DOTALL)
    return [re.sub(r"^ | $", "", it[1]) for it in (re.search(r'b"( [a-z ]+?) ?"', arm) for arm in arms) if it]


def unexplained(top: str) -> Iterator[Tuple[int, str]]:
    """The names that REFUSALS.md doesn't explain, and the headings that are no name."""
    path = os.path.join(top, "docs", "REFUSALS.md")
    with open(path, encoding="utf-8") as opened:
        text = opened.read()
    headings = [it[4:].strip() for it in text.split("\n") if it.startswith("### ")]
    names = names_printed(top)
    for name in names:
        if name not in headings:
            yield 1, "not explained: " + name
    for heading in headings:
        if heading not in names:
            yield 1, "the program doesn't print: " + heading


@functools.lru_cache(None)
def names_in_sources(top: str) -> Set[str]:
    """The names in the crates' sources, of their files and of the crates themselves."""
    found: Set[str] = set()
    for folder, inner, files in os.walk(os.path.join(top, "crates")):
        inner[:] = [it for it in inner if it != "out"]
        found.update(inner)
        for name in files:
            if name.endswith((".rt", ".antt")):
                found.add(name.rsplit(".", 1)[0])
                with open(os.path.join(folder, name), encoding="utf-8") as opened:
                    found.update(re.findall(r"[A-Za-z_]\w*", opened.read()))
    return found


def stale(blocks: List[Block], top: str) -> Iterator[Tuple[int, str]]:
    """The names and the files of crates that the sources don't have. A word that begins or ends with `_` is an ending, and none."""
    for block in blocks:
        if block.kind == "code":
            continue
        for code in re.findall(r"`([^`]+)`", block.text):
            if re.fullmatch(r"[a-z_]+/(src|specs|proofs)/\w+(\.rt|\.antt)?", code):
                path = os.path.join(top, "crates", code)
                if not any(os.path.exists(path + it) for it in ("", ".rt", ".antt")):
                    yield block.line, "no such file of a crate: " + code
            elif re.fullmatch(r"[A-Za-z]\w*_\w+|[A-Z][a-z]+[A-Z]\w*", code) and code not in names_in_sources(top):
                yield block.line, "no such name in the sources: " + code


def version_in(top: str) -> Iterator[Tuple[int, str]]:
    """Whether the newest entry of CHANGELOG.md is the version of the file VERSION."""
    with open(os.path.join(top, "VERSION"), encoding="utf-8") as opened:
        version = opened.read().strip()
    with open(os.path.join(top, "CHANGELOG.md"), encoding="utf-8") as opened:
        newest = re.search(r"(?m)^## (\S+)", opened.read())
    if newest is None or newest[1] != version:
        yield 1, "VERSION is %s, the newest entry %s" % (version, newest[1] if newest else "missing")


def check(path: str, top: str, program: Optional[str]) -> List[str]:
    """What is wrong in one document."""
    with open(os.path.join(top, path), encoding="utf-8") as opened:
        blocks = blocks_of(opened.read())
    found = [*lengths(blocks), *links(path, blocks, top), *unrun(blocks)]
    if path in PLAIN:
        found += ruled_out(blocks)
    if program:
        found += outputs(blocks, top, program)
    if path in OF_SOURCES:
        found += stale(blocks, top)
    if path == "docs/REFUSALS.md":
        found += unexplained(top)
    if path == "CHANGELOG.md":
        found += version_in(top)
    return ["%s:%d: %s" % (path, line, what) for line, what in sorted(found)]


def documents(top: str) -> List[str]:
    """All documents, by their paths from the top."""
    docs = sorted(it for it in os.listdir(os.path.join(top, "docs")) if it.endswith(".md"))
    return ["README.md", "CONTRIBUTING.md", "CHANGELOG.md"] + ["docs/" + it for it in docs]


def program_in(top: str) -> Optional[str]:
    """The built program, if there is one."""
    path = os.environ.get("ORCH", os.path.join(top, "crates", "orch_cli", "out", "orch_cli"))
    return os.path.abspath(path) if os.access(path, os.X_OK) else None


def main(arguments: List[str], top: str = TOP) -> int:
    """The command line, and its exit status."""
    options = argparse.ArgumentParser(description=(__doc__ or "").split("\n")[0])
    options.add_argument("--no-run", action="store_true", help="don't run the commands")
    options.add_argument("files", nargs="*", metavar="FILE")
    given = options.parse_args(arguments)
    program = None if given.no_run else program_in(top)
    if program is None and not given.no_run:
        print("no built program here: commands are skipped")
    counts: Dict[str, int] = {}
    parts = {path: check(path, top, program) for path in given.files or documents(top)}
    if program and not given.files:
        parts["examples/tour"] = tour(top, program)
    for path, found in parts.items():
        counts[path] = len(found)
        for line in found:
            print(line)
    print("prose: %d documents, %d findings" % (len(counts), sum(counts.values())))
    return 1 if any(counts.values()) else 0


if __name__ == "__main__":
    sys.exit(main(sys.argv[1:]))
