"""Each task of tasks.py is done with the presses that it says, and not more."""
import pytest
from browser import missing
from tasks import TASKS, measured


@pytest.mark.parametrize("task", TASKS, ids=[task.what for task in TASKS])
def test_a_task_is_done(request, tmp_path, task):
    if missing():
        pytest.skip(f"{request.node.name}: {missing()}")
    driver = request.getfixturevalue("chromium")
    presses, _ = measured(driver, task, task.now, tmp_path)
    assert presses <= task.most
