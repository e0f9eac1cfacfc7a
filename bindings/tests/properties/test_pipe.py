"""Notes over a pipe: whatever a batch puts into one message, all of them come, in their order."""

import multiprocessing
from typing import List

from hypothesis import given
from hypothesis import strategies as st
from wullaphi import Watch
from wullaphi.station import OverPipe, Station, notes_from

from .durable import Close, Deed, Observe, Process, Send


@given(batch=st.integers(1, 5), works=st.lists(st.sampled_from(["true", "false", "send", "flush"]), max_size=20))
def test_all_notes_come(batch: int, works: List[str]) -> None:
    reader, writer = multiprocessing.Pipe(duplex=False)
    station = Station(Watch(1, 2), 0, OverPipe(writer), batch=batch)
    deeds: List[Deed] = []
    for number, word in enumerate(works):
        if word == "flush":
            station.flush()
        elif word == "send":
            station.stamp(1)
            deeds.append(Send(number))
        else:
            station.observe(word == "true", number)
            deeds.append(Observe(word == "true", number))
    station.close(99)
    writer.close()
    notes = list(notes_from(reader))
    told = Process((*deeds, Close(99))).notes
    assert [note.number for note in notes] == list(range(len(told)))
    assert [(note.tag, note.is_last) for note in notes] == [(it.tag, it.is_last) for it in told]
    assert [note.clock[0] for note in notes[:-1]] == [it.interval for it in told[:-1]]
