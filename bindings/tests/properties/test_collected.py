"""Stations that send messages, and a collector: whatever is interrupted, lost or replaced, and wherever the collector
is stopped, its answer is that of brute force over what durably happened, or a refusal. It never says a wrong `found`,
nor a wrong `none`."""

from typing import Any, Dict, List, Optional
from unittest import mock

import pytest
import wullaphi.collect
from hypothesis import given
from hypothesis import strategies as st
from wullaphi.collect import Gap

from .collector_machine import LOST_AFTER, CollectorMachine, clock, processes
from .model_faults import Fault
from .site import faults

acts = st.lists(st.tuples(st.sampled_from(["observe", "observe", "send", "start", "close"]), processes), max_size=8)
asks = st.sampled_from(["all", "pairs", "two"])
lates = st.lists(processes, max_size=2)


@pytest.fixture(autouse=True, scope="module", name="model_time")
def model_time_of_the_collector() -> Any:
    with mock.patch.object(wullaphi.collect, "time", clock):
        yield


TestCollected = CollectorMachine.TestCase


def begun(late: List[int], **words: Any) -> CollectorMachine:
    """A machine of which these processes come late."""
    told: Dict[str, Any] = {"save": None, "trim": False, "lost_after": None, "save_every": 0.0, **words}
    machine = CollectorMachine()
    machine.begin(told, False, late)
    return machine


def act(machine: CollectorMachine, words: Any) -> None:
    """Processes do something, and come for that where they haven't yet."""
    for word, at in words:
        if machine.stations[at] is None or word == "start":
            machine.restart_process(at)
        if word == "observe":
            machine.observe(at, True, 1, None)
        elif word == "send":
            machine.send(at, (at + 1) % 3, None)
        elif word == "close":
            machine.close(at, None)


@given(asked=asks, late=lates, first=acts, then=acts, fault=faults)
def test_a_poll_is_interrupted(asked: str, late: List[int], first: Any, then: Any, fault: Optional[Fault]) -> None:
    """A poll that is interrupted at any command loses nothing of what it was about to read."""
    machine = begun(late, asked=asked)
    act(machine, first)
    machine.come_to_rest()
    act(machine, then)
    machine.poll(fault)
    machine.come_to_rest()


@given(asked=asks, first=acts, gone=processes, trim=st.booleans(), then=acts)
def test_what_was_saved_is_lost(asked: str, first: Any, gone: int, trim: bool, then: Any) -> None:
    """What was saved counts only where the server has the notes that went into it."""
    machine = begun([], asked=asked, save="here", trim=trim)
    act(machine, first)
    machine.come_to_rest()
    machine.is_gone = True
    machine.site.server.run(b"DEL", machine.site.keys.notes(gone).encode())
    machine.restart_collector()
    machine.come_to_rest()
    act(machine, then)
    machine.come_to_rest()


@given(first=acts, at=processes, data=st.data())
def test_a_note_is_gone(first: Any, at: int, data: Any) -> None:
    """Where a note is gone from a stream there is no report."""
    machine = begun([], asked="pairs")
    act(machine, [*first, ("observe", at)])
    entries = machine.entries(at)
    gone = data.draw(st.sampled_from([entry for entry, _ in entries]))
    machine.site.server.run(b"XDEL", machine.site.keys.notes(at).encode(), b"%d-%d" % gone)
    with pytest.raises(Gap):
        machine.rest(machine.started())


@given(asked=asks, first=acts, then=acts, alive=st.lists(processes, max_size=2))
def test_called_lost(asked: str, first: Any, then: Any, alive: List[int]) -> None:
    """Of a process that was called lost no more notes are taken."""
    machine = begun([], asked=asked, lost_after=LOST_AFTER)
    act(machine, first)
    machine.come_to_rest()
    for _ in range(2):
        machine.time_passes(alive)
        machine.come_to_rest()
    act(machine, then)
    machine.come_to_rest()
