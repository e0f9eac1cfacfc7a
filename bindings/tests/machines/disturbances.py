"""What a storm does to a run of the mesh: each kind of disturbance, how often it comes, and which refusals it allows.

Somebody is killed, stopped or cut off; and the server's data are replaced: by what a kill has left of them, by those of
another server, by nothing, or by those of another run. A refusal says that there is no answer, and why.
"""

from __future__ import annotations

import contextlib
import signal
import time
from typing import TYPE_CHECKING, Callable, Dict, Iterator

from replicas import Replicated, client_of

if TYPE_CHECKING:
    from mesh_run import Run

# The least size of the file that a loss leaves, and the most that it takes.
LEAST_BYTES, MOST_BYTES = 3_000, 40_000
# The streams that are replaced have so many notes each, and those in their place more; unless that takes too long.
NOTES, LONGER_SECONDS = 20, 5


def kill_worker(run: Run) -> None:
    run.random_worker().kill()


def stop_worker(run: Run) -> None:
    """It goes on later; half of the time somebody has started another of its name meanwhile."""
    worker = run.random_worker()
    run.stop(worker, run.random.uniform(0.3, 2))
    if run.random.random() < 0.5:
        run.replace(worker)
        run.done["twin"] += 1


def resume(run: Run) -> None:
    """It goes on from what is saved, as after a lost connection."""
    run.random_worker().signal(signal.SIGUSR1)


def kill_collector(run: Run) -> None:
    run.collector.kill()


def stop_collector(run: Run) -> None:
    run.stop(run.collector, run.random.uniform(0.2, 1.5))


def cut(run: Run) -> None:
    run.proxy.cut()


def hold_up(run: Run) -> None:
    with run.proxy.held_up():
        time.sleep(run.random.uniform(0.1, 1.5))


def kill_server(run: Run) -> None:
    run.server.kill()
    time.sleep(run.random.random() * 0.2)
    run.server.start()


def stop_server(run: Run) -> None:
    run.server.process.send_signal(signal.SIGSTOP)
    time.sleep(run.random.uniform(0.1, 1))
    run.server.process.send_signal(signal.SIGCONT)


def lose_writes(run: Run) -> None:
    """The server is killed, and the end of its file is lost."""
    size = run.server.size()
    if size > 2 * LEAST_BYTES:
        run.server.lose(size - run.random.randrange(1, min(size - LEAST_BYTES, MOST_BYTES)))


def replicated_of(run: Run) -> Replicated:
    """The two servers of a run that has a replica."""
    assert run.replicated is not None
    return run.replicated


def fail_over(run: Run) -> None:
    replicated_of(run).fail_over(run.random.uniform(0, 0.4), kills=run.random.random() < 0.3)


def fail_back(run: Run) -> None:
    """In place; or there and back, which a collector that is stopped doesn't see."""
    with maybe_unseen(run):
        if run.random.random() < 0.6:
            replicated_of(run).fail_back(run.random.uniform(0, 0.4), cuts=run.random.random() < 0.5)
        else:
            replicated_of(run).fail_over(run.random.uniform(0, 0.3))
            time.sleep(run.random.uniform(0, 0.5))
            replicated_of(run).fail_over(run.random.uniform(0, 0.3))


def flush(run: Run) -> None:
    """All is deleted, and the run begins again."""
    with maybe_unseen(run):
        client_of(run.server).flushall()


def swap(run: Run) -> None:
    """The data are those of another run of the same number, which goes on; the first time there are none."""
    with maybe_unseen(run):
        client_of(run.server).swapdb(0, 1)


@contextlib.contextmanager
def maybe_unseen(run: Run) -> Iterator[None]:
    """Mostly the collector is stopped meanwhile, until each stream is longer than it was: it doesn't meet a stream that
    is shorter than what it has read."""
    run.wait_until_longer([NOTES] * len(run.workers), LONGER_SECONDS)
    if run.random.random() < 0.3:
        yield
        return
    before = run.lengths()
    collector = run.collector
    collector.signal(signal.SIGSTOP)
    try:
        yield
        run.wait_until_longer(before, LONGER_SECONDS)
    finally:
        collector.signal(signal.SIGCONT)


def evict(run: Run) -> None:
    """Some keys of one process are gone, and maybe some of the watch, as by `allkeys-lru` or a cleaning script."""
    keys = run.keys
    worker = run.random.randrange(len(run.workers))
    of_worker = [key(worker) for key in (keys.notes, keys.probe, keys.owner, keys.beat)]
    gone = of_worker if run.random.random() < 0.5 else [it for it in of_worker if run.random.random() < 0.5]
    gone += [it for it in (keys.names, keys.conditions, keys.saved("storm")) if run.random.random() < 0.2]
    client_of(run.server).delete(*gone or of_worker)


Disturbance = Callable[["Run"], None]
# What comes in each run, and how often.
COMMON: Dict[Disturbance, int] = {kill_worker: 5, stop_worker: 2, resume: 3, kill_collector: 2, stop_collector: 1,
                                  cut: 1, hold_up: 1, kill_server: 1, stop_server: 1}
# Those that leave the collector and its server alone.
OF_WORKERS = (kill_worker, stop_worker, resume, cut, hold_up)
# What replaces the data, so that workers and collector have to go on from what there is.
REPLACING: Dict[str, Disturbance] = {"lost": lose_writes, "failover": fail_over, "failback": fail_back,
                                     "flush": flush, "swap": swap}
# What may be refused, and by which names.
REFUSALS = {"evict": {"Spoilt", "Gap", "TakenOver", "silent"}}
