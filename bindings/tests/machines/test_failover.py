"""A server whose replica takes over, and which is a primary again later: it was never started anew, and lacks its last
writes. What stations, stamps and collectors make of that."""

from __future__ import annotations

from typing import Any, Iterator

import pytest
from pairs import NAMES, NONE, Pair, none_after
from server import Server, collected, poll_until, until

import wullaphi
from wullaphi._line import Replica
from wullaphi.collect import Anew, Collector
from wullaphi.redis import open_station
from wullaphi.station import Interrupted, OtherRun

SAVING: dict[str, Any] = {"save": "x", "trim": True, "save_every": 0}
REPLACED = "the server's data were replaced, or may have been"
LAGS = "the server is a replica, which lags behind its primary; give the address of the primary"


def failed_over(primary: Server, replica: Server) -> None:
    """The replica has all that the primary has, and is a primary too from now on; what the first one still gets is
    lost."""
    until(lambda: replica.has_all_of(primary))
    replica.promote()


def failed_back(primary: Server, replica: Server) -> None:
    """The first primary takes the data of its replica, and is the primary again."""
    primary.follow(replica)
    primary.promote()
    replica.follow(primary)


class FollowedPair(Pair):
    """Two stations over a primary that has a replica."""

    def __init__(self, primary: Server, replica: Server) -> None:
        replica.follow(primary)
        super().__init__(primary)
        self.primary, self.replica = primary, replica
        self.run_id = primary.client.info("server")["run_id"]

    def found_after(self) -> tuple[int | str, list[str]]:
        """What the history is in which both hold at once, and tell each other only behind that."""
        for station, other in ((self.ada, "ben"), (self.ben, "ada")):
            station.observe(True)
            station.stamp(other)
            station.observe(False)
            station.close()
        return self.collected()[:2]


@pytest.fixture
def pair(server: Server) -> Iterator[FollowedPair]:
    with Server() as replica:
        yield FollowedPair(server, replica)


FOUND = (0, ["found ada 0 tag 0, ben 0 tag 0", "notes ada 2, ben 2"])


def test_a_stamp_of_a_lost_event_in_memory(pair: FollowedPair) -> None:
    """The connections live on, and ben knows of an event that is lost."""
    failed_over(pair.primary, pair.replica)
    pair.ben.receive(pair.ada.stamp("ben"))
    failed_back(pair.primary, pair.replica)
    assert pair.primary.client.info("server")["run_id"] == pair.run_id, "it was never started anew"
    for _ in range(2):
        with pytest.raises(Interrupted):  # not from memory
            pair.ben.observe(True)
    pair.ben.resume()
    pair.ada = pair.open("ada")
    assert pair.found_after() == FOUND, "both held"


def test_both_stations_go_on(pair: FollowedPair) -> None:
    """Both go on, and what ada did is lost; who waits learns it too."""
    failed_over(pair.primary, pair.replica)
    pair.ada.observe(True)
    pair.ada.observe(False)
    pair.ada.stamp("ben")
    failed_back(pair.primary, pair.replica)
    with pytest.raises(Interrupted):  # ada
        pair.ada.observe(True)
    with pytest.raises(Interrupted):  # ben, who waits
        pair.ben.check()
    pair.ada.resume()
    pair.ben.resume()
    assert pair.found_after() == FOUND, "both held"


def test_a_stamp_that_comes_after_both_have_resumed(pair: FollowedPair) -> None:
    """The stamp of a lost event comes by HTTP, after both have resumed."""
    failed_over(pair.primary, pair.replica)
    header = pair.ada.stamp("ben")
    failed_back(pair.primary, pair.replica)
    for station in (pair.ada, pair.ben):
        with pytest.raises(Interrupted):  # interrupted
            station.check()
        station.resume()
    with pytest.raises(OtherRun):  # an event that is lost
        pair.ben.receive(header)
    pair.ben.receive(pair.ada.stamp("ben"))
    with pytest.raises(OtherRun):  # of an earlier version
        pair.ben.receive(f"{header[:120]}.{pair.run_id}")
    pair.ben.observe(True)
    assert pair.ben._probe.clock == (1, 1), "it goes on"


def test_a_replica(pair: FollowedPair) -> None:
    """Nobody reads from a replica, nor writes; a primary that becomes one is left."""
    with pytest.raises(Interrupted):  # a station
        open_station(pair.replica.url, pair.watch, "ada", beat=None)
    with pytest.raises(Replica):  # a collector
        Collector(pair.replica.url, pair.watch.number).poll()
    assert collected(pair.replica, "--watch", pair.watch.number) == (2, [], f"wcpcollect: {LAGS}\n"), "the command"
    assert collected(pair.replica, "--logs", "logs") == (2, [], f"wcpcollect: {LAGS}\n"), "logs"
    collector = Collector(pair.primary.url, pair.watch.number)
    poll_until(collector, lambda _: collector.questions)
    failed_over(pair.primary, pair.replica)
    pair.primary.follow(pair.replica)
    with pytest.raises(Interrupted):  # a step
        pair.ada.observe(True)
    with pytest.raises(Interrupted):  # nor again
        pair.ada.resume()
    with pytest.raises(Replica):  # a read
        collector.poll()
    with pytest.raises(Replica):  # and again
        collector.poll()
    pair.primary.promote()
    pair.ada.resume()
    assert poll_until(collector, len) == [Anew(REPLACED)], "a primary once more"


@pytest.mark.parametrize("lives_on", [True, False], ids=["the connection lives on", "it is cut"])
@pytest.mark.parametrize("saving", [{}, SAVING], ids=["nothing saved", "saved"])
def test_a_collector(pair: FollowedPair, lives_on: bool, saving: dict[str, Any]) -> None:
    """It has taken a note which is then lost."""
    collector = Collector(pair.primary.url, pair.watch.number, **saving)
    poll_until(collector, lambda _: collector.questions)
    failed_over(pair.primary, pair.replica)
    pair.ada.observe(True)
    poll_until(collector, lambda _: collector.taken.get("ada"))
    failed_back(pair.primary, pair.replica)
    if not lives_on:
        pair.primary.client.client_kill_filter(_type="normal", skipme=True)
    none_after(*map(pair.open, NAMES))
    assert pair.collected()[:2] == NONE, "one that reads all"
    assert poll_until(collector, lambda events: events and collector.is_done) == [Anew(REPLACED)]
    assert collector.taken == {"ada": 2, "ben": 2}
    assert [question.known for question in collector.questions] == ["nothing"]
    assert pair.collected(*(["--save", saving["save"]] if saving else []))[:2] == NONE, "later"


def test_what_was_saved_at_the_replica(pair: FollowedPair) -> None:
    """What was saved counts at the replica that takes over, which has the notes that went into it."""
    collector = Collector(pair.primary.url, pair.watch.number, **SAVING)
    pair.ada.observe(True)
    poll_until(collector, lambda _: collector.taken.get("ada"))
    failed_over(pair.primary, pair.replica)
    pair.ben.observe(True)
    poll_until(collector, lambda _: collector.taken["ben"])
    other = Collector(pair.replica.url, pair.watch.number, **SAVING)
    poll_until(other, lambda _: other.questions)
    assert (other.taken, other.questions[0].known) == ({"ada": 1, "ben": 0}, "undecided"), "from what was saved"
    pair.primary.follow(pair.replica)
    pair.primary.promote()
    poll_until(collector, lambda events: events and collector.questions)
    assert collector.taken == {"ada": 1, "ben": 0}, "what was not saved there is lost"


def test_the_first_replica(server: Server) -> None:
    """A server that gets its first replica can't be told from another one: who goes on resumes, and nothing is lost."""
    watch = wullaphi.Watch(7, NAMES)
    ada, ben = (open_station(server.url, watch, name, beat=None) for name in NAMES)
    ada.observe(True)
    with Server() as replica:
        replica.follow(server)
        for station in (ada, ben):
            with pytest.raises(Interrupted):  # once
                station.check()
            station.resume()
        ben.receive(ada.stamp("ben"))
        ada.close()
        assert ben._probe.clock == (1, 1), "nothing is lost"
