"""What the tests of the calls from Python share."""

from __future__ import annotations

import os
import subprocess
import sys
import threading
from typing import Callable

from wullaphi import Note, Probe

# The most processor time that a program may use as it waits, as a share of what a loop beside it gets meanwhile.
MOST = 0.15


def observed(probe: Probe, tag: int = 0) -> Note:
    """The note of a condition that holds, where there must be one."""
    note = probe.observe(True, tag)
    assert note is not None
    return note


def run_together(*bodies: Callable[[], object]) -> None:
    """Runs each in a thread of its own, and waits for their ends."""
    threads = [threading.Thread(target=body) for body in bodies]
    for thread in threads:
        thread.start()
    for thread in threads:
        thread.join()


def ignore(_: object) -> None:
    """Takes a note or a line, and keeps nothing."""


def share_of_a_loop(begin: "Callable[[], subprocess.Popen[str]]") -> float:
    """The processor time that a program has used as it waited, which it prints, as a share of what a loop beside it
    gets meanwhile."""
    with subprocess.Popen([sys.executable, "-c", "while True: pass"]) as loop:
        try:
            with begin() as running:
                assert running.stdout is not None
                used = float(running.stdout.read())
        finally:
            loop.kill()
        _, status, times = os.wait4(loop.pid, 0)
        loop.returncode = os.waitstatus_to_exitcode(status)
    return used / float(times.ru_utime + times.ru_stime)
