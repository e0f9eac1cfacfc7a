"""Whether threads without work sleep: a run in threads whose workers wait before each step uses little of a
processor."""
import os
import pathlib
import subprocess
import sys
import time

import pytest
from programs import TOP

pytestmark = pytest.mark.measures

# The most processor time that a run may use beyond its work, as a share of what a loop beside it gets meanwhile: a
# thread that spins gets about as much as the loop, on an idle machine and on a busy one, and half as much where it
# yields each time.
MOST = 0.15

# How long each step waits, in milliseconds: so long that the work of the run is little beside what the loop gets.
PAUSE = 600

# The least time that the run takes, in seconds. Its steps one after another take longer.
LEAST = 3.0

TEXT = TOP / "examples" / "token_ring.txt"


def sleeps(file: pathlib.Path, text: pathlib.Path) -> None:
    """Sees that the run takes its time and leaves the processors alone."""
    work, _ = run(file, 0, text)
    with subprocess.Popen([sys.executable, "-c", "while True: pass"]) as loop:
        try:
            used, took = run(file, PAUSE, text)
        finally:
            loop.kill()
        share = (used - work) / processor_time(loop)
    assert took >= LEAST
    assert share < MOST


def run(file: pathlib.Path, pause: int, text: pathlib.Path) -> tuple[float, float]:
    """The processor time of a run, which agrees, and the time that it takes."""
    began = time.monotonic()
    with subprocess.Popen([file, "slow", str(pause), text], stdout=subprocess.PIPE) as running:
        assert running.stdout
        output = running.stdout.read()
        used = processor_time(running)
    assert (running.returncode, output) == (0, b"the run agrees\n")
    return used, time.monotonic() - began


def processor_time(running: subprocess.Popen[bytes]) -> float:
    """The seconds of a processor that a process took, once it has ended."""
    _, status, used = os.wait4(running.pid, 0)
    running.returncode = os.waitstatus_to_exitcode(status)
    return float(used.ru_utime + used.ru_stime)


def test_workers_that_wait(bench_calls: pathlib.Path) -> None:
    sleeps(bench_calls, TEXT)


def test_a_relay_that_naps(bench_calls: pathlib.Path, tmp_path: pathlib.Path) -> None:
    """The links have room enough for relays to nap before they sleep."""
    version, processes, *steps = TEXT.read_text(encoding="ascii").splitlines(keepends=True)
    roomy = tmp_path / "roomy.txt"
    roomy.write_text("".join([version, processes, "cap 64\n", *steps]))
    sleeps(bench_calls, roomy)
