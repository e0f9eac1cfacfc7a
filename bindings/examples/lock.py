"""Three processes hold a lock in turn, which goes from queue to queue, and a fourth has the checkers.

With the word `keep`, process 1 still works under the lock when it has passed it on. Run it as
`python3 lock.py` or `python3 lock.py keep`.
"""

from __future__ import annotations

import itertools
import multiprocessing
import os
import sys
from typing import Any

sys.path.insert(0, os.path.join(os.path.dirname(os.path.abspath(__file__)), "..", "python"))

import wullaphi  # noqa: E402

PROCESSES = 3
ROUNDS = 4
WATCH = 20


def tell(notes: multiprocessing.Queue[wullaphi.Note], note: wullaphi.Note | None) -> None:
    if note is not None:
        notes.put(note)


def work(process: int, locks: list[multiprocessing.Queue[bytes | None]], notes: multiprocessing.Queue[wullaphi.Note],
         keeps: bool) -> None:
    """Holds the lock `ROUNDS` times. A message is the stamp that comes with the lock, or None for the first."""
    probe = wullaphi.Probe(WATCH, process, PROCESSES)
    following = (process + 1) % PROCESSES
    for turn in range(ROUNDS):
        stamp = locks[process].get()
        if stamp is not None:
            probe.receive(stamp)
        tell(notes, probe.observe(True))
        if turn < ROUNDS - 1 or process < PROCESSES - 1:
            locks[following].put(probe.stamp(following))
            tell(notes, probe.observe(keeps))
    tell(notes, probe.close())


def check(notes: multiprocessing.Queue[wullaphi.Note], answers: multiprocessing.Queue[Any]) -> None:
    """Takes all notes, and answers the cut of each two processes that held the lock at once."""
    pairs = list(itertools.combinations(range(PROCESSES), 2))
    checkers = [wullaphi.Checker(WATCH, PROCESSES, pair) for pair in pairs]
    closed = 0
    while closed < PROCESSES:
        note = notes.get()
        for checker in checkers:
            checker.take(note)
        closed += wullaphi.is_last(note)
    answers.put([(pair, checker.report()) for pair, checker in zip(pairs, checkers)])


def main(keeps: bool) -> None:
    locks: list[multiprocessing.Queue[bytes | None]] = [multiprocessing.Queue() for _ in range(PROCESSES)]
    notes: multiprocessing.Queue[wullaphi.Note] = multiprocessing.Queue()
    answers: multiprocessing.Queue[Any] = multiprocessing.Queue()
    processes = [
        multiprocessing.Process(target=work, args=(process, locks, notes, keeps and process == 1))
        for process in range(PROCESSES)
    ] + [multiprocessing.Process(target=check, args=(notes, answers))]
    for process in processes:
        process.start()
    locks[0].put(None)
    found = [(pair, report.cut) for pair, report in answers.get(timeout=60) if report.known == "found"]
    for process in processes:
        process.join()
    for (one, other), cut in found:
        print(f"processes {one} and {other} held the lock at once, "
              f"{one} after {cut[one]} of its messages and {other} after {cut[other]}")
    if not found:
        print("no two processes ever held the lock at once")


if __name__ == "__main__":
    main(sys.argv[1:] == ["keep"])
