"""One style of Python for all tools: what a linter would say, as far as these checks go."""
from __future__ import annotations

import ast
import builtins
import os
import unittest
from collections.abc import Iterator

TOOLS = os.path.dirname(os.path.dirname(os.path.abspath(__file__)))
LONGEST_FUNCTION, LONGEST_LINE = 40, 160
Function = (ast.FunctionDef, ast.AsyncFunctionDef)
SHADOWED = set(dir(builtins)) - {"__doc__", "__name__", "__file__"}


def sources() -> list[str]:
    """The tools' files."""
    found = [os.path.join(TOOLS, "orch")]
    for folder, _, names in os.walk(TOOLS):
        found += [os.path.join(folder, name) for name in sorted(names) if name.endswith(".py")]
    return found


def functions_in(tree: ast.Module) -> Iterator[tuple[ast.FunctionDef, bool, bool]]:
    """Each function of a file, whether it is a method, and whether it is inside a function."""
    def inside(node: ast.AST, in_class: bool, in_function: bool) -> Iterator[tuple[ast.FunctionDef, bool, bool]]:
        for child in ast.iter_child_nodes(node):
            if isinstance(child, Function):
                yield child, in_class, in_function
                yield from inside(child, False, True)
            else:
                yield from inside(child, isinstance(child, ast.ClassDef), in_function)
    yield from inside(tree, False, False)


def arguments_of(function: ast.FunctionDef) -> list[ast.arg]:
    """All arguments of a function."""
    given = function.args
    return [*given.posonlyargs, *given.args, *given.kwonlyargs, *filter(None, (given.vararg, given.kwarg))]


def bound_names(tree: ast.Module) -> Iterator[tuple[str, int]]:
    """Each name that is bound outside of a class, and its line. Names of methods and fields shadow nothing."""
    in_classes = {id(node) for outer in ast.walk(tree) if isinstance(outer, ast.ClassDef) for part in outer.body for node in ast.walk(part)
                  if not isinstance(part, Function)}
    methods = {id(function) for function, is_method, _ in functions_in(tree) if is_method}
    for node in ast.walk(tree):
        if isinstance(node, ast.arg):
            yield node.arg, node.lineno
        elif isinstance(node, ast.Name) and isinstance(node.ctx, ast.Store) and id(node) not in in_classes:
            yield node.id, node.lineno
        elif isinstance(node, (*Function, ast.ClassDef)) and id(node) not in methods:
            yield node.name, node.lineno
        elif isinstance(node, (ast.Import, ast.ImportFrom)):
            yield from (((alias.asname or alias.name).split(".")[0], node.lineno) for alias in node.names)


def unused_imports(tree: ast.Module, text: str) -> Iterator[tuple[str, int]]:
    """Imported names that nothing uses. A line with `noqa` is left alone."""
    used = {node.id for node in ast.walk(tree) if isinstance(node, ast.Name)}
    lines = text.splitlines()
    for node in ast.walk(tree):
        if isinstance(node, (ast.Import, ast.ImportFrom)) and "noqa" not in lines[node.lineno - 1] and getattr(node, "module", "") != "__future__":
            for alias in node.names:
                name = (alias.asname or alias.name).split(".")[0]
                if name not in used:
                    yield name, node.lineno


def faults_of_function(function: ast.FunctionDef, is_method: bool, is_inner: bool) -> Iterator[str]:
    """What is wrong with a function."""
    size = (function.end_lineno or function.lineno) - function.lineno + 1
    if size > LONGEST_FUNCTION:
        yield "%s has %d lines" % (function.name, size)
    for place, argument in enumerate(arguments_of(function)):
        if argument.annotation is None and not (is_method and place == 0):
            yield "%s: `%s` has no type" % (function.name, argument.arg)
    if function.returns is None:
        yield "%s: its result has no type" % function.name
    if not is_inner and not function.name.startswith(("_", "test_", "setUp", "tearDown")) and not ast.get_docstring(function):
        yield "%s has no docstring" % function.name


def faults_of(path: str) -> Iterator[str]:
    """What is wrong with a file."""
    with open(path, encoding="utf-8") as file:
        text = file.read()
    tree = ast.parse(text)
    if not ast.get_docstring(tree) and text.strip():
        yield "the file has no docstring"
    for function, is_method, is_inner in functions_in(tree):
        yield from ("%d: %s" % (function.lineno, fault) for fault in faults_of_function(function, is_method, is_inner))
    for node in ast.walk(tree):
        if isinstance(node, ast.ClassDef) and not node.name.startswith("_") and not ast.get_docstring(node):
            yield "%d: class %s has no docstring" % (node.lineno, node.name)
    yield from ("%d: `%s` shadows a builtin" % (line, name) for name, line in bound_names(tree) if name in SHADOWED)
    yield from ("%d: `%s` is imported and not used" % (line, name) for name, line in unused_imports(tree, text))
    yield from ("%d: more than %d characters" % (number, LONGEST_LINE) for number, line in enumerate(text.splitlines(), 1)
                if len(line) > LONGEST_LINE)


class StyleTest(unittest.TestCase):
    """Every file of the tools."""

    def test_every_file(self) -> None:
        """Types, docstrings, short functions, no shadowed builtins, no unused imports."""
        for path in sources():
            with self.subTest(os.path.relpath(path, TOOLS)):
                self.assertEqual(list(faults_of(path)), [])


if __name__ == "__main__":
    unittest.main()
