"""A station that resumes by itself, whose server is away in the middle of its close: at each command in turn the line
is lost, or the reply comes too late. Once the server is back, the close is kept, once, and nothing says any more that
something was left untold."""

import itertools
import time
from typing import Any, Callable

import pytest
import wullaphi.resuming
from wullaphi import Closed
from wullaphi._note import Note
from wullaphi.collect import Collector
from wullaphi.redis import open_station
from wullaphi.resuming import Resuming

from .model_faults import Fault, Kind
from .site import WATCH, Site

ADA, BEN = 0, 1
SECONDS = 60
# A close has more commands than this, and so has a station that is resumed.
FEW = 3

AWAY = [Kind.LOST_BEFORE, Kind.LOST_BEHIND, Kind.DEAF, Kind.LATE]
kinds = pytest.mark.parametrize("kind", AWAY, ids=[kind.name.lower() for kind in AWAY])


@pytest.fixture(autouse=True)
def tried_at_once(monkeypatch: pytest.MonkeyPatch) -> None:
    """The server is tried again without a pause."""
    monkeypatch.setattr(wullaphi.resuming, "FIRST_PAUSE", 0.0)


def until(holds: Callable[[], object]) -> None:
    """Waits until this holds."""
    end = time.monotonic() + SECONDS
    while not holds():
        assert time.monotonic() < end, "it doesn't come to this"
        time.sleep(0.001)


def begun(site: Site) -> Resuming:
    """Ada's station, which has told of a state."""
    process = Resuming(open_station(site.server.url, site.watch, ADA, beat=None))
    process.observe(True)
    return process


def has_met(site: Site) -> bool:
    """Whether the fault came, and no other one from now on."""
    it, site.server.fault = site.server.fault is None, None
    return it


def assert_that_all_was_told(site: Site, process: Resuming) -> None:
    until(lambda: not process.is_away)
    assert process.is_whole and process.station.is_closed
    stream: Any = site.server.data.values[site.keys.notes(ADA).encode()]
    assert [Note(fields[1]).is_last for _, fields in stream.entries] == [False, True]
    conditions: Any = site.server.data.values[site.keys.conditions.encode()]
    assert site.keys.untold(ADA).encode() not in conditions, "the mark has come back"
    open_station(site.server.url, site.watch, BEN, beat=None).close()
    collector = Collector(site.server.url, WATCH)
    until(lambda: collector.poll() or collector.is_done)
    assert collector.questions[0].known == "nothing"


@kinds
def test_a_close_that_is_interrupted(kind: Kind) -> None:
    for at in itertools.count():
        site = Site(["ada", "ben"])
        process = begun(site)
        site.server.fault = Fault(kind, at)
        process.close()
        until(lambda: not process.is_away)
        is_last = not has_met(site)
        assert_that_all_was_told(site, process)
        if is_last:
            break
    assert at > FEW


@kinds
def test_a_close_that_goes_on_behind_that(kind: Kind, monkeypatch: pytest.MonkeyPatch) -> None:
    """The server is back before the call that found it away goes on."""
    go_away = Resuming._go_away

    def slowly(process: Resuming) -> None:
        go_away(process)
        until(lambda: not process.is_away)

    monkeypatch.setattr(Resuming, "_go_away", slowly)
    for at in itertools.count():
        site = Site(["ada", "ben"])
        process = begun(site)
        site.server.fault = Fault(kind, at)
        process.close()
        is_last = not has_met(site)
        assert_that_all_was_told(site, process)
        with pytest.raises(Closed):
            process.close()
        if is_last:
            break
    assert at > FEW


@kinds
def test_a_close_that_waits(kind: Kind) -> None:
    """The process is closed while the server is away, which is away once more when it is told of that."""
    for at in itertools.count():
        site = Site(["ada", "ben"])
        process = begun(site)
        site.server.is_replica = True
        process.stamp("ben")
        process.observe(False)
        process.close()
        assert process.is_away
        site.server.fault = Fault(kind, at)
        site.server.is_replica = False
        until(lambda: not process.is_away)
        is_last = not has_met(site)
        assert_that_all_was_told(site, process)
        if is_last:
            break
    assert at > 2 * FEW


def test_a_process_that_has_ended_comes_again() -> None:
    """Nothing that it does now belongs to the watch."""
    site = Site(["ada", "ben"])
    begun(site).close()
    assert_that_all_was_told(site, Resuming(open_station(site.server.url, site.watch, ADA, beat=None)))
