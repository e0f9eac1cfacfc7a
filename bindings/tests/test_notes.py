"""What notes say, and pickles and copies of notes, probes and checkers."""

from __future__ import annotations

import copy
import pickle
import sys

import pytest
from shared import observed

import wullaphi
from wullaphi import Checker, Note, Probe, Watch

# The first word of a note of version 1, and where the clock of today's begins.
MAGIC_1 = (0x57434E31).to_bytes(4, sys.byteorder)
HEAD = 40


def test_what_a_note_says() -> None:
    probe = Probe(2 ** 64 - 1, 1, 3)
    probe.stamp(0)
    note = observed(probe, 2 ** 63)
    assert isinstance(note, bytes) and len(note) == wullaphi.NOTE_SIZE, "a note is bytes"
    told = (note.watch, note.processes, note.process, note.number, note.clock, note.tag, note.is_last, note.is_watched)
    assert told == (2 ** 64 - 1, 3, 1, 0, (0, 1, 0), 2 ** 63, False, True), "what a note says"
    last = probe.close(tag=9)
    assert (last.number, last.clock, last.tag, last.is_last) == (1, (), 9, True), "what a last note says"
    assert observed(Probe(1, 0, 2)).tag == 0, "no tag is 0"
    assert not Probe(1, 0, 2, watched=False).close().is_watched, "a process without a condition"
    for it in (note, last):
        assert Note(bytes(it)) == it == Note(it) and type(Note(it)) is Note, "a note from bytes"


def test_bytes_that_are_no_note() -> None:
    probe = Probe(2 ** 64 - 1, 1, 3)
    note = observed(probe)
    for bad in (b"", note[:-1], note + b"x", bytes(len(note)), note[:24] + bytes(80)[:79], probe.to_bytes()[:104]):
        with pytest.raises(wullaphi.NoNote, match="."):
            Note(bad)


def test_notes_of_version_1() -> None:
    note = observed(Probe(2 ** 64 - 1, 1, 3))
    of_version_1 = MAGIC_1 + note[4:20] + bytes(4) + note[HEAD:]
    assert len(of_version_1) == 88, "the size of a note of version 1"
    for bad in (of_version_1, of_version_1 + bytes(16), MAGIC_1 + note[4:]):
        with pytest.raises(wullaphi.NoNote, match="."):
            Note(bad)
        with pytest.raises(wullaphi.NoNote, match="."):
            Checker(2 ** 64 - 1, 3).take(bad)


def test_tags_of_a_cut() -> None:
    watch = Watch(42, ["api", "worker1", "idle"])
    api, worker = watch.probe("api"), watch.probe("worker1")
    checker = watch.checker(["api", "worker1"])
    with pytest.raises(wullaphi.NotInCut, match="."):
        checker.tag("api")
    for turn in range(300):  # the token goes to and fro, so each tag is soon in no cut
        checker.take(observed(api, tag=1000 + turn))
        worker.receive(api.stamp("worker1"))
        checker.take(observed(worker, tag=turn % 2))
        api.receive(worker.stamp("api"))
        assert checker.report().known == "undecided", "they never have it at once"
    checker.take(observed(worker))  # which it has passed on
    checker.take(observed(api, tag=77))
    assert checker.report().cut == (600, 600, None), "a cut"
    assert (checker.tag("api"), checker.tag("worker1"), checker.tag(1)) == (77, 0, 0), "its tags"
    with pytest.raises(wullaphi.NotInCut, match="."):
        checker.tag("idle")
    with pytest.raises(wullaphi.OutOfRange, match="."):
        checker.tag("nobody")
    with pytest.raises(wullaphi.OutOfRange, match="."):
        checker.tag(2 ** 32)
    checker.end()
    with pytest.raises(wullaphi.NoChecker, match="."):
        checker.tag("api")


PROTOCOLS = range(2, pickle.HIGHEST_PROTOCOL + 1)


@pytest.fixture
def probe() -> Probe:
    """A probe of a process with a name, which has sent a message."""
    probe = Watch(42, ["api", "worker1"]).probe("api", flag_of_sends=True)
    probe.stamp("worker1")
    return probe


@pytest.mark.parametrize("protocol", PROTOCOLS)
def test_a_pickle_of_a_probe(probe: Probe, protocol: int) -> None:
    again = pickle.loads(pickle.dumps(probe, protocol))
    assert again.to_bytes() == probe.to_bytes() and again.watch == probe.watch
    assert again.stamp("worker1") == copy.copy(probe).stamp(1), "which goes on"
    assert pickle.loads(pickle.dumps(probe.watch, protocol)) == probe.watch, "a watch"


@pytest.mark.parametrize("protocol", PROTOCOLS)
def test_a_pickle_of_a_note(probe: Probe, protocol: int) -> None:
    note = observed(probe, tag=7)
    again = pickle.loads(pickle.dumps(note, protocol))
    assert again == note and again.tag == 7


def test_that_a_probe_from_bytes_has_no_names(probe: Probe) -> None:
    for other in (Watch(43, 2), Watch(42, 3)):
        with pytest.raises(wullaphi.Stranger, match="."):
            Probe.from_bytes(probe.to_bytes(), other)
    assert Probe.from_bytes(probe.to_bytes()).watch == Watch(42, 2)


@pytest.fixture
def checker(probe: Probe) -> Checker:
    """A checker of pairs, which has taken a note."""
    checker = Checker(probe.watch, pairs=True)
    checker.take(observed(probe, tag=7))
    return checker


@pytest.mark.parametrize("protocol", PROTOCOLS)
def test_a_pickle_of_a_checker(checker: Checker, protocol: int) -> None:
    again = pickle.loads(pickle.dumps(checker, protocol))
    assert again.save() == checker.save() and again.watch == checker.watch


def test_that_a_copy_of_a_checker_goes_on_alone(checker: Checker) -> None:
    again = copy.copy(checker)
    again.lose("api")
    assert again.save() != checker.save()
    assert repr(again) == "Checker(Watch(42, ['api', 'worker1']), watched=['api', 'worker1'])", "a pair is shown"
