"""The code is typed, and has nothing that isn't used."""
import ast
import os
import pathlib
import subprocess

import pytest
from conftest import ROOT

CODE, TESTS = ([str(path) for path in sorted((ROOT / folder).glob("*.py"))] for folder in ("board", "board/tests"))
EDITS = str(ROOT / "board/tests/must_fail")
# The typed ones, and what they use of tools/.
SCRIPTS = ["test", *(f"cases/{name}" for name in ("compare", "questions", "streams", "unproved"))]
SCRIPTS += [f"tools/{name}" for name in ("cases", "contracts", "figures", "repeats")]
CHECKS = [("mypy", "--strict", "--scripts-are-modules", "--cache-dir", os.devnull, *CODE, EDITS, *SCRIPTS)]
CHECKS += [("pyflakes3", *CODE, *TESTS, EDITS, *SCRIPTS)]


@pytest.mark.parametrize("words", CHECKS, ids=lambda words: words[0])
def test_the_code_is_clean(words):
    if not pathlib.Path("/usr/bin", words[0]).exists():
        pytest.skip(f"test_the_code_is_clean: {words[0]} is missing")
    ended = subprocess.run(words, cwd=ROOT, capture_output=True, text=True)
    assert ended.returncode == 0, ended.stdout


def constants_of(path):
    """The names of a module that are written in capitals."""
    found = [target for node in ast.parse(pathlib.Path(path).read_text()).body for target in
             (node.targets if isinstance(node, ast.Assign) else [node.target] if isinstance(node, ast.AnnAssign) else [])]
    return {target.id for target in found if isinstance(target, ast.Name) and target.id.isupper()}


def test_a_name_is_of_one_constant():
    """In all modules but the two engines of the log, which have the same statements, each in its own words."""
    modules = {pathlib.Path(path).name: constants_of(path) for path in CODE}
    modules["engines"] = modules.pop("sqlite.py") | modules.pop("postgres.py")
    names = sorted(name for constants in modules.values() for name in constants)
    assert len(names) > 150 and [name for name in set(names) if names.count(name) > 1] == []


def test_an_assignment_has_one_value():
    """`a, b = b, a + b` is two steps in one line; only what a call gives is unpacked."""
    several = [f"{path}:{node.lineno}" for path in CODE for node in ast.walk(ast.parse(pathlib.Path(path).read_text()))
               if isinstance(node, ast.Assign) and isinstance(node.targets[0], ast.Tuple) and isinstance(node.value, ast.Tuple)]
    assert several == []
