"""A ring of workers over a Redis server. Workers, collector and server are killed at random, each started again: the
report is that of the run without kills. In every other pair of runs the collector saves what it knows on the server,
and deletes the notes behind it."""

from __future__ import annotations

import pytest
from ring_run import WORKERS, Ring, report_without_kills
from server import Server, collected, until

KILLS = 100
SEEDS = 10


@pytest.fixture(scope="module")
def wanted() -> dict[bool, list[str]]:
    """The report without kills, of the ring and of the mistaken one."""
    return {mistake: report_without_kills(mistake) for mistake in (False, True)}


def test_the_ring_without_kills(wanted: dict[bool, list[str]]) -> None:
    known = [sorted({line.split()[0] for line in wanted[mistake]}) for mistake in (False, True)]
    assert known == [["none", "notes"], ["found", "none", "notes"]]


@pytest.mark.parametrize("seed", range(SEEDS))
def test_kills(server: Server, wanted: dict[bool, list[str]], seed: int) -> None:
    mistake, saves = seed % 2 == 1, seed % 4 >= 2
    with Ring(server, mistake, seed, saves) as ring:
        assert ring.run(KILLS) == wanted[mistake], ring.kills
        assert (ring.notes() > 0) == (not saves), "whether notes are left"


def test_a_worker_that_stays_dead(server: Server) -> None:
    """It is lost, and the report is never none."""
    with Ring(server, False) as ring:
        until(lambda: server.client.exists(f"wullaphi:{{1}}:notes:{WORKERS - 1}"))
        ring.workers[2].kill()
        ring.workers[2].wait()
        status, output, errors = collected(server, "--watch", 1, "--pairs", "--lost-after", 30, "--patience", 60)
    assert (status, [line for line in output if line.startswith("lost")]) == (3, ["lost worker2"])
    assert not any(line.startswith("none") for line in output)
    assert "worker2 showed no sign of life" in errors
