"""Each call of a probe and each of its refusals."""

from __future__ import annotations

import struct

import pytest
from shared import observed

import wullaphi
from wullaphi import Probe
from wullaphi._library import library

WORD = 2 ** 32


@pytest.mark.parametrize(("watch", "process", "processes"), [
    (1, 2, 2), (1, 0, 17), (1, 0, WORD + 2), (-1, 0, 2), (1, WORD, 2), (2 ** 64, 0, 2)])
def test_a_probe_that_is_out_of_range(watch: int, process: int, processes: int) -> None:
    with pytest.raises(wullaphi.OutOfRange):
        Probe(watch, process, processes)


def test_what_observing_emits() -> None:
    probe = Probe(7, 0, 2)
    assert probe.observe(False) is None, "a false condition emits nothing"
    note = probe.observe(True)
    assert note is not None and len(note) == wullaphi.NOTE_SIZE, "a note"
    assert probe.observe(True) is None, "the flag is up"
    assert probe.next() is None, "nothing is pending"


@pytest.mark.parametrize("process", [0, 2])
def test_no_process_to_stamp_for(process: int) -> None:
    with pytest.raises(wullaphi.NoSuch):
        Probe(7, 0, 2).stamp(process)


def test_messages() -> None:
    a, b = Probe(7, 0, 2), Probe(7, 1, 2)
    stamp = a.stamp(1)
    with pytest.raises(wullaphi.NotMine):
        a.receive(stamp)
    for other in (Probe(8, 1, 2), Probe(7, 1, 3)):
        with pytest.raises(wullaphi.Stranger):
            other.receive(stamp)
    b.receive(stamp)
    answer = b.stamp(0)
    with pytest.raises(wullaphi.Ahead):
        Probe(7, 0, 2).receive(answer)
    a.receive(answer)


def test_what_is_no_stamp() -> None:
    stamp = Probe(7, 0, 2).stamp(1)
    for bad in (stamp[:-1], bytes(len(stamp))):
        with pytest.raises(wullaphi.NoStamp):
            Probe(7, 1, 2).receive(bad)


def test_a_probe_from_bytes() -> None:
    probe, other = Probe(7, 1, 2), Probe(7, 0, 2)
    probe.receive(other.stamp(1))
    assert Probe.from_bytes(probe.to_bytes()).to_bytes() == probe.to_bytes()
    probe.close()
    assert Probe.from_bytes(probe.to_bytes()).to_bytes() == probe.to_bytes(), "a closed one"
    for bad in (bytes(112), b""):
        with pytest.raises(wullaphi.NoProbe):
            Probe.from_bytes(bad)


def test_a_closed_probe() -> None:
    probe = Probe(7, 0, 2)
    note, last = observed(probe), probe.close()
    assert wullaphi.is_last(last) and not wullaphi.is_last(note), "last notes"
    with pytest.raises(wullaphi.Closed):
        probe.observe(True)
    with pytest.raises(wullaphi.Closed):
        probe.stamp(1)
    with pytest.raises(wullaphi.Closed):
        probe.close()


def test_open_messages() -> None:
    """Messages for whichever process takes them."""
    a, b, c = (Probe(7, process, 3) for process in range(3))
    stamp = a.stamp()
    before = a.to_bytes()
    a.receive(stamp)
    assert a.to_bytes() == before, "a process that takes back its own message has changed nothing"
    c.receive(stamp)
    assert c.to_bytes()[48:60] == struct.pack("=3I", 1, 0, 1), "who takes it knows what the sender knew"
    b.receive(c.stamp())
    answer = b.stamp()
    assert len({stamp, answer}) == 2, "each stamp has the clock of its send"
    with pytest.raises(wullaphi.Ahead):
        Probe(7, 2, 3).receive(answer)
    with pytest.raises(wullaphi.Stranger):
        Probe(8, 1, 3).receive(stamp)
    with pytest.raises(wullaphi.NoSuch):
        a.stamp(0xFFFF_FFFF)
    a.close()
    with pytest.raises(wullaphi.Closed):
        a.stamp()
    with pytest.raises(wullaphi.Closed):
        a.receive(answer)


def test_a_process_that_is_not_watched() -> None:
    assert Probe(1, 0, 2, watched=False).observe(True) is None


def test_a_flag_that_only_sends_reset() -> None:
    sends, other = Probe(1, 0, 2, flag_of_sends=True), Probe(1, 1, 2)
    assert sends.observe(True) is not None, "the first note"
    sends.receive(other.stamp(0))
    assert sends.observe(True) is None, "a receive leaves the flag up"
    sends.stamp(1)
    assert sends.observe(True) is not None, "a send resets the flag"


def test_a_note_that_c_code_left_pending() -> None:
    probe = Probe(1, 0, 2)
    library.wcp_probe_observe(probe._at, 1)
    with pytest.raises(wullaphi.Backlog):
        probe.stamp(1)
    with pytest.raises(wullaphi.Backlog):
        probe.close()
    assert probe.next() is not None, "the pending note"


def test_the_end_of_a_clock() -> None:
    probe, other = Probe(1, 0, 2), Probe(1, 1, 2)
    stamp = other.stamp(0)
    probe._memory.clock[0] = 4294967294
    with pytest.raises(wullaphi.ClockEnd):
        probe.stamp(1)
    with pytest.raises(wullaphi.ClockEnd):
        probe.receive(stamp)
    probe._memory.clock[0] = 4294967295
    with pytest.raises(wullaphi.NoProbe):
        probe.observe(True)


def test_a_stamp_of_which_a_byte_is_damaged() -> None:
    """Each byte in turn: it is refused, or harmless."""
    stamp = Probe(7, 0, 3).stamp(1)
    for place in range(len(stamp)):
        damaged = stamp[:place] + bytes([stamp[place] ^ 0x80]) + stamp[place + 1:]
        probe = Probe(7, 1, 3)
        try:
            probe.receive(damaged)
        except wullaphi.Refused:
            pass
        assert probe.observe(True) is not None, f"the probe goes on after a stamp that is damaged at {place}"


def test_numbers_that_c_would_cut() -> None:
    """They are refused, and no refused send is counted."""
    probe = Probe(1, 0, 2)
    for process in (WORD + 1, 1 - WORD):
        with pytest.raises(wullaphi.OutOfRange):
            probe.stamp(process)
    with pytest.raises(wullaphi.OutOfRange):
        probe.observe(True, 2 ** 64)
    with pytest.raises(wullaphi.OutOfRange):
        probe.close(-1)
    assert probe.observe(WORD) is not None, "what is true holds, also a number that C would cut to 0"  # type: ignore
    assert Probe(1, 0, 2, watched=WORD).observe(True) is not None, "any true value watches"  # type: ignore[arg-type]
    assert probe.to_bytes()[48:] == Probe(1, 0, 2).to_bytes()[48:], "no refused send was counted"


def test_the_largest_number_of_a_watch() -> None:
    assert Probe(2 ** 64 - 1, 0, 2).stamp(1) != Probe(0, 0, 2).stamp(1)
