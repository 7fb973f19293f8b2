#!/usr/bin/env python3
"""Checks comments by the terms and the length of sentences that tools/prose.py has: the crates' comments, the tools' docstrings and error texts.

    tools/comments.py [FILE ..]

Without FILE it reads the Python files in CHECKED and the sources in CRATES. It reports:

- a sentence that is longer than prose.MOST_WORDS, and a word for which the project has another term (docs/GLOSSARY.md);
- in a crate a comment line of more than 120 columns;
- in a crate's `src` a public item without a `///` line, or one that returns a `Result` and whose lines name no error.

What is in backticks is code, and free. An error text is a text that is raised, handed to `.error` or printed to standard error.

Exit status: 0 nothing to report; 1 something was reported.
"""
import ast
import io
import os
import re
import sys
import tokenize
from typing import Iterator, List, NamedTuple, Tuple

import prose

TOP = prose.TOP
MOST_COLUMNS = 120

# The folders of Python files that are checked, and the parts of each crate.
CHECKED: Tuple[str, ...] = (".ci", "tools", "tools/orch_tools", "tools/rehearsal", "tools/tests")
CRATES: Tuple[str, ...] = ("src", "specs", "proofs")

MARKS = {".rt": r"//[/!]?", ".antt": r"--"}
ERROR = re.compile(r"`\w+|[Mm]emory|[Ff]ault|[Rr]efus|[Ff]ail")
ITEM = re.compile(r"\s*pub (?:const |unsafe )?(fn|struct|enum|trait|type|static|const) ?(\w+)")


class Comment(NamedTuple):
    """A comment or an error text: its first line, and its text without marks."""
    line: int
    text: str


def comments_in(text: str, mark: str) -> Iterator[Comment]:
    """The comments of a crate's file. Lines that follow one another with one mark and one margin are one comment."""
    gathered: List[str] = []
    first, before = 0, ""
    for number, line in enumerate(text.split("\n") + [""], 1):
        found = re.match(r"(\s*(?:%s))(?: --+)?(.*)" % mark, line)
        if gathered and (not found or found[1] != before):
            yield Comment(first, "\n".join(gathered))
            gathered = []
        if found:
            first, before = (first, before) if gathered else (number, found[1])
            gathered.append(found[2].strip())


def comments_of_python(text: str) -> Iterator[Comment]:
    """The docstrings, comments and error texts of a Python file."""
    tree = ast.parse(text)
    for node in ast.walk(tree):
        if isinstance(node, (ast.Module, ast.ClassDef, ast.FunctionDef, ast.AsyncFunctionDef)) and ast.get_docstring(node):
            yield Comment(node.body[0].lineno, without_examples(ast.get_docstring(node) or ""))
        elif isinstance(node, ast.Raise) and node.exc is not None:
            yield from texts_in(node.exc)
        elif isinstance(node, ast.Call) and is_error(node):
            yield from texts_in(node)
    for token in tokenize.generate_tokens(io.StringIO(text).readline):
        if token.type == tokenize.COMMENT and not token.string.startswith(("#!", "# type:", "# noqa")):
            yield Comment(token.start[0], token.string.lstrip("# "))


def without_examples(text: str) -> str:
    """A docstring without its examples, which are indented and come after a blank line."""
    lines: List[str] = []
    for line in text.split("\n"):
        lines.append("" if line.startswith("  ") and not (lines and lines[-1]) else line)
    return "\n".join(lines)


def is_error(call: ast.Call) -> bool:
    """Whether a call reports an error: `.error(..)`, or a print to standard error."""
    named = call.func.attr if isinstance(call.func, ast.Attribute) else ""
    return named == "error" or any(it.arg == "file" and ast.dump(it.value).count("'stderr'") for it in call.keywords)


def texts_in(node: ast.AST) -> Iterator[Comment]:
    """The texts of an expression. What a format puts in is one word."""
    for inner in ast.walk(node):
        if isinstance(inner, ast.Constant) and isinstance(inner.value, str):
            yield Comment(inner.lineno, re.sub(r"%\(?\w*\)?[-0-9.]*[sdr]|\{\w*\}", "X", inner.value))


def findings(comment: Comment) -> Iterator[Tuple[int, str]]:
    """The sentences of a comment that are too long, and what is ruled out in it."""
    blocks = [it._replace(line=it.line + comment.line - 1) for it in prose.blocks_of(comment.text)]
    yield from prose.lengths(blocks)
    yield from prose.ruled_out(blocks)


def too_wide(text: str, mark: str) -> Iterator[Tuple[int, str]]:
    """The comment lines with too many columns."""
    for number, line in enumerate(text.split("\n"), 1):
        if re.match(r"\s*(?:%s)" % mark, line) and len(line) > MOST_COLUMNS:
            yield number, "%d columns in a comment line" % len(line)


def undocumented(text: str) -> Iterator[Tuple[int, str]]:
    """The public items of code without a `///` line, and those whose lines name no error of their `Result`."""
    said = ""
    lines = text.split("\n")
    for number, line in enumerate(lines, 1):
        bare = line.strip()
        found = ITEM.match(line)
        if found and not said:
            yield number, "no `///` line: %s %s" % (found[1], found[2])
        elif found and found[1] == "fn" and returns_result(lines[number - 1:]) and not ERROR.search(said):
            yield number, "the `///` lines name no error: " + found[2]
        if bare.startswith("///"):
            said += bare
        elif found or not bare or bare.endswith(("}", ";")) and not bare.startswith("#"):
            said = ""


def returns_result(lines: List[str]) -> bool:
    """Whether the function that begins these lines returns a `Result`."""
    head = next((at for at, line in enumerate(lines) if line.endswith("{") or re.match(r"\s*(requires|ensures|where)\b", line)), len(lines))
    return "-> Result<" in " ".join(lines[:head + 1])


def check(path: str, top: str) -> List[str]:
    """What is wrong in one file."""
    with open(os.path.join(top, path), encoding="utf-8") as opened:
        text = opened.read()
    mark = MARKS.get(os.path.splitext(path)[1], "")
    found = [it for comment in (comments_in(text, mark) if mark else comments_of_python(text)) for it in findings(comment)]
    if mark:
        found += too_wide(text, mark)
    if path.endswith(".rt") and "src" in path.split("/"):
        found += undocumented(text)
    return ["%s:%d: %s" % (path, line, what) for line, what in sorted(found)]


def is_python(path: str) -> bool:
    """Whether a file has Python, by its name or its first line."""
    if os.path.isdir(path):
        return False
    with open(path, "rb") as file:
        return path.endswith(".py") or file.readline().rstrip().endswith(b"python3")


def files(top: str, checked: Tuple[str, ...] = CHECKED, parts: Tuple[str, ...] = CRATES) -> List[str]:
    """All files that are checked, by their paths from the top: the Python files in folders, and the sources in parts of all crates."""
    found = [os.path.join(folder, name) for folder in checked for name in os.listdir(os.path.join(top, folder)) if is_python(os.path.join(top, folder, name))]
    for crate in os.listdir(os.path.join(top, "crates")) if parts else []:
        for part in parts:
            for folder, _, names in os.walk(os.path.join(top, "crates", crate, part)):
                found += [os.path.relpath(os.path.join(folder, name), top) for name in names if name.endswith(tuple(MARKS))]
    return sorted(found)


def main(arguments: List[str], top: str = TOP) -> int:
    """The command line, and its exit status."""
    paths = arguments or files(top)
    found = [line for path in paths for line in check(path, top)]
    print("".join(line + "\n" for line in found), end="")
    print("comments: %d files, %d findings" % (len(paths), len(found)))
    return 1 if found else 0


if __name__ == "__main__":
    sys.exit(main(sys.argv[1:]))
