"""The edits of must_fail can be made: each finds its words once, and names a test and the line of it that fails."""
import importlib.machinery
import importlib.util
import re

import pytest
from conftest import ROOT

LOADER = importlib.machinery.SourceFileLoader("must_fail", str(ROOT / "board/tests/must_fail"))
MUST_FAIL = importlib.util.module_from_spec(importlib.util.spec_from_loader("must_fail", LOADER))
LOADER.exec_module(MUST_FAIL)
TESTS = [path.read_text() for path in sorted((ROOT / "board/tests").glob("test_*.py"))]


@pytest.mark.parametrize("edit", MUST_FAIL.EDITS, ids=lambda edit: edit[0])
def test_an_edit_can_be_made(edit):
    _, test, line, edits = edit
    for name, old, new in edits:
        assert (ROOT / "board" / name).read_text().count(old) == 1 and new != old, name
    assert line and any(re.search(rf"^def {test.split()[0]}", text, re.M) and line in text for text in TESTS), f"no {test} has this line"


def test_each_edit_has_a_name_of_its_own():
    names = [name for name, *_ in MUST_FAIL.EDITS]
    assert len(names) == len(set(names)) > 100
