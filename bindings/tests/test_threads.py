"""Calls that threads make at the same time on one checker and on one probe."""

from __future__ import annotations

import struct
import threading
from typing import Callable

import pytest
from shared import observed, run_together

import wullaphi
from wullaphi import Checker, Note, Probe

THREADS = 2
ROUNDS = 100000


@pytest.fixture(autouse=True)
def many_switches(switch_every: Callable[[float], None]) -> None:
    switch_every(1e-5)


def number_of(note: bytes) -> int:
    """How many snapshots of its process came before this note."""
    return int(struct.unpack_from("=I", note, 16)[0])


def events_of(stamp: bytes, process: int) -> int:
    """How many events of the process the stamp knows of."""
    return int(struct.unpack_from("=I", stamp, 24 + 4 * process)[0])


def in_threads(work: Callable[[int], None]) -> list[wullaphi.Refused]:
    """Runs `work` in each thread, which passes it its number, and answers the refusals."""
    refusals: list[wullaphi.Refused] = []
    start = threading.Barrier(THREADS)

    def run(number: int) -> None:
        start.wait()
        try:
            work(number)
        except wullaphi.Refused as refusal:
            refusals.append(refusal)

    run_together(*(lambda number=number: run(number) for number in range(THREADS)))
    return refusals


def notes_of(process: int) -> list[Note]:
    probe = Probe(9, process, THREADS + 1)
    notes = []
    for _ in range(ROUNDS):
        notes.append(observed(probe))
        probe.stamp(THREADS)
    return notes


def test_one_checker() -> None:
    """Each thread takes the notes of a process of its own; the last process tells nothing, so that all are kept."""
    notes = [notes_of(process) for process in range(THREADS)]
    checker = Checker(9, THREADS + 1)

    def take(number: int) -> None:
        for note in notes[number]:
            checker.take(note)
            checker.report()

    assert in_threads(take) == [], "no take is refused"
    for process in range(THREADS):
        assert checker.taken(process) == ROUNDS, f"all of process {process} are taken"
    assert checker.report().known == "undecided", "the report"
    checker.end()


def test_one_probe() -> None:
    """The threads are one process: its notes are numbered in turn, and no two stamps are the same."""
    probe = Probe(9, 0, 2)
    notes: list[list[Note]] = [[] for _ in range(THREADS)]
    stamps: list[list[bytes]] = [[] for _ in range(THREADS)]

    def step(number: int) -> None:
        for _ in range(ROUNDS):
            note = probe.observe(True)
            if note is not None:
                notes[number].append(note)
            stamps[number].append(probe.stamp(1))

    assert in_threads(step) == [], "no call of the probe is refused"
    numbers = sorted(number_of(note) for given in notes for note in given)
    assert numbers == list(range(len(numbers))), "each note is given once"
    assert number_of(probe.close()) == len(numbers), "the last note counts those before it"
    events = sorted(events_of(stamp, 0) for given in stamps for stamp in given)
    assert events == list(range(1, THREADS * ROUNDS + 1)), "each stamp is given once"
    for given in notes:
        assert all(number_of(one) < number_of(later) for one, later in zip(given, given[1:])), "each thread's in order"
