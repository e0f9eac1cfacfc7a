#!/usr/bin/env python3
"""What the calls of the Python module cost, in nanoseconds of the processor's time: the best of five rounds of 100,000
of each."""

import os
import sys
import time
from collections.abc import Callable

sys.path.insert(0, os.path.join(os.path.dirname(os.path.abspath(__file__)), "..", "bindings", "python"))

import wullaphi  # noqa: E402

CALLS = 100_000


def best(call: Callable[[], object]) -> float:
    times = []
    for _ in range(5):
        start = time.process_time_ns()
        for _ in range(CALLS):
            call()
        times.append((time.process_time_ns() - start) / CALLS)
    return min(times)


def main() -> None:
    quiet = wullaphi.Probe(0, 0, 16)
    sender, receiver = wullaphi.Probe(0, 0, 16), wullaphi.Probe(0, 1, 16)

    def note() -> None:
        sender.stamp(1)
        sender.observe(True)

    print(f"observe that emits nothing {best(lambda: quiet.observe(False)):.0f} ns")
    print(f"stamp {best(lambda: sender.stamp(1)):.0f} ns")
    print(f"stamp and receive {best(lambda: receiver.receive(sender.stamp(1))):.0f} ns")
    print(f"stamp and observe with its note {best(note):.0f} ns")


main()
