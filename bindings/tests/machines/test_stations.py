"""Stations in one process and over a pipe: what is refused, what a step does, and which notes go out when."""

from __future__ import annotations

import multiprocessing
import time
from multiprocessing.connection import Connection
from typing import Callable

import pytest
from shared import ignore, run_together

import wullaphi
from wullaphi.station import Direct, Interrupted, OtherRun, OverPipe, Station, notes_from

NAMES = ["ada", "ben"]
WATCH = wullaphi.Watch(7, NAMES)


def test_messages() -> None:
    notes: list[wullaphi.Note] = []
    ada, ben = (Station(WATCH, name, Direct(notes.append)) for name in NAMES)
    ada.observe(True, tag=5)
    header = ada.stamp("ben")
    ben.receive(header)
    ben.observe(True)
    told = [(note.process, note.number, note.clock, note.tag) for note in notes]
    assert told == [(0, 0, (0, 0), 5), (1, 0, (1, 1), 0)], "the notes"
    assert header.isascii() and len(header) < 160 and "\n" not in header, "the header is short text"
    with pytest.raises(wullaphi.NotMine):
        ada.receive(header)
    with pytest.raises(wullaphi.NoStamp):
        ben.receive("no stamp")
    with pytest.raises(OtherRun):  # a stamp of some server
        ben.receive(header + ".a-run")
    with pytest.raises(wullaphi.OutOfRange):
        ada.stamp("nobody")


def test_the_end() -> None:
    notes: list[wullaphi.Note] = []
    ada, ben = (Station(WATCH, name, Direct(notes.append)) for name in NAMES)
    ada.close(tag=5)
    assert (ada.is_closed, ben.is_closed) == (True, False)
    assert [(note.is_last, note.tag) for note in notes] == [(True, 5)], "the last note and its tag"
    with pytest.raises(wullaphi.Closed):
        ada.observe(True)


def fail(_: wullaphi.Note) -> None:
    raise KeyError("the note doesn't go out")


def test_a_note_that_does_not_go_out() -> None:
    broken = Station(WATCH, "ada", Direct(fail))
    with pytest.raises(KeyError):
        broken.observe(True)
    with pytest.raises(Interrupted):  # it can't go on
        broken.observe(False)
    with pytest.raises(RuntimeError):  # nor resume
        broken.resume()


def test_no_batch() -> None:
    with pytest.raises(ValueError):
        Station(WATCH, "ada", Direct(ignore), batch=0)


def test_notes_that_wait() -> None:
    """Notes wait for each other, and a stamp, an end or a step takes them along."""
    notes: list[wullaphi.Note] = []
    ada = Station(WATCH, "ada", Direct(notes.append), flag_of_sends=True, batch=3)
    ada.observe(True)
    assert len(notes) == 0, "one waits"
    ada.stamp("ben")
    assert len(notes) == 1, "a stamp takes it along"
    ada.observe(True)
    with ada.step():
        pass
    assert len(notes) == 2, "a step takes it along"
    ada.stamp("ben")
    ada.observe(True)
    ada.flush()
    ada.close()
    assert [note.number for note in notes] == [0, 1, 2, 3], "the end"


@pytest.mark.parametrize(("kind", "to", "error"), [
    ("given up", "ben", KeyError), ("nested", "ben", RuntimeError), ("refused", "nobody", wullaphi.OutOfRange)])
def test_a_step_that_does_nothing(kind: str, to: str, error: type[Exception]) -> None:
    """It is given up, or refused, and the station goes on."""
    notes: list[wullaphi.Note] = []
    ada = Station(WATCH, "ada", Direct(notes.append))
    before = repr(ada)
    with pytest.raises(error), ada.step():
        if kind == "nested":
            with ada.step():
                pass
        ada.observe(True)
        ada.stamp(to)
        raise KeyError("given up")
    assert (repr(ada), notes) == (before, [])
    ada.observe(True)
    assert len(notes) == 1, "it goes on"


def test_what_lasts() -> None:
    """What lasts is true in each interval, until it is observed anew."""
    notes: list[wullaphi.Note] = []
    ada, ben = (Station(WATCH, name, Direct(notes.append), lasts=True) for name in NAMES)
    ada.observe(True, tag=3)
    with pytest.raises(KeyError), ada.step():  # it is given up
        ada.observe(False)
        raise KeyError
    ben.receive(ada.stamp("ben"))
    ada.receive(ben.stamp("ada"))
    told = [(note.process, note.clock[0], note.tag) for note in notes]
    assert told == [(0, 0, 3), (0, 1, 3), (0, 2, 3)], "each interval"
    ada.observe(False)
    ada.stamp("ben")
    assert len(notes) == 3, "no longer"


def tell(connection: Connection) -> None:
    station = Station(WATCH, "ada", OverPipe(connection), batch=2)
    for _ in range(5):
        station.observe(True)
        station.stamp("ben")
    station.close()


def test_a_pipe() -> None:
    reader, writer = multiprocessing.Pipe(duplex=False)
    process = multiprocessing.get_context("fork").Process(target=tell, args=(writer,))
    process.start()
    writer.close()
    told = [(note.number, note.is_last) for note in notes_from(reader)]
    assert told == [(number, number == 5) for number in range(6)]
    process.join()


def test_many_notes_in_a_message() -> None:
    """Three notes in one message of a pipe are three notes."""
    reader, writer = multiprocessing.Pipe(duplex=False)
    ada, ben = Station(WATCH, "ada", OverPipe(writer), batch=4), Station(WATCH, "ben", Direct(ignore))
    for _ in range(3):
        ada.observe(True)
        ada.receive(ben.stamp("ada"))
    ada.flush()
    writer.close()
    assert [note.number for note in notes_from(reader)] == [0, 1, 2]


def test_many_threads(switch_every: Callable[[float], None]) -> None:
    """Eight threads share a station: each of its stamps is an event of its own, and its notes go out in their order."""
    switch_every(1e-6)
    notes: list[wullaphi.Note] = []
    headers: list[str] = []

    def keep(note: wullaphi.Note) -> None:
        notes.append(note)
        time.sleep(0)  # other threads go on meanwhile

    station = Station(WATCH, "ada", Direct(keep))

    def talk() -> None:
        for _ in range(300):
            station.observe(True)
            headers.append(station.stamp("ben"))

    run_together(*[talk] * 8)
    assert len(set(headers)) == 2400, "stamps of eight threads"
    assert [note.number for note in notes] == list(range(len(notes))), "their notes"
