"""Whether a run of the tests that a signal ends leaves nothing behind: what a fixture has started, it ends."""
import os
import pathlib
import shutil
import signal
import subprocess
import sys
import time

import pytest
from programs import SECONDS, TOP

TEST = """\
import pathlib
import time
import pytest

@pytest.fixture
def started():
    pathlib.Path("started").touch()
    yield
    pathlib.Path("ended").touch()

def test_it(started):
    time.sleep(600)
"""


@pytest.mark.parametrize("number", [signal.SIGTERM, signal.SIGHUP], ids=lambda number: str(number.name))
@pytest.mark.parametrize("words", [[], ["-n", "1"]], ids=["in one process", "in a worker"])
def test_what_a_test_has_started_ends_with_it(tmp_path: pathlib.Path, words: list[str], number: signal.Signals) -> None:
    shutil.copy(TOP / "conftest.py", tmp_path)
    (tmp_path / "test_it.py").write_text(TEST, encoding="utf-8")
    call, until = [sys.executable, "-m", "pytest", *words, "."], time.monotonic() + SECONDS
    with subprocess.Popen(call, cwd=tmp_path, start_new_session=True, stdout=subprocess.DEVNULL) as running:
        while not (tmp_path / "started").exists():
            assert running.poll() is None and time.monotonic() < until, "it doesn't begin"
            time.sleep(0.05)
        os.killpg(running.pid, number)
        assert running.wait(SECONDS) == pytest.ExitCode.INTERRUPTED
    assert (tmp_path / "ended").exists()
