"""Notes a second over a Redis server, whose persistence is off: four workers, each a process, beside plain `XADD` of
the same bytes. `bench/machines.py [NOTES]`: so many of each worker. For /usr/bin/python3 with python3-redis."""
import multiprocessing
import os
import pathlib
import resource
import statistics
import sys
import time
from collections.abc import Callable

TOP = pathlib.Path(__file__).resolve().parent.parent
sys.path[:0] = [str(TOP / "bindings" / "python"), str(TOP / "bindings" / "tests" / "machines")]

import redis  # type: ignore[import]  # noqa: E402
import wullaphi  # noqa: E402
from server import Server  # noqa: E402
from wullaphi.collect import Collector  # noqa: E402
from wullaphi.log import HostLog, stream  # noqa: E402
from wullaphi.redis import open_station  # noqa: E402
from wullaphi.station import Station  # noqa: E402

# What a worker runs: the server, its process, how many notes, and the watch.
Run = Callable[[str, int, int, int], None]

WORKERS = 4
TIMES = 3
BATCH = 100
NOTE, PROBE = b"n" * 104, b"p" * 112
MESSAGE = {"stamp": b"s" * 161, "order": b"o" * 20}
LINE = '{"host":"worker0","clock":{"worker0":12345},"event":"holds the lock of the store"}'


def station_of(url: str, watch: int, process: int) -> Station:
    return open_station(url, wullaphi.Watch(watch, WORKERS), process, beat=None)


def plain_each(url: str, process: int, count: int, _: int) -> None:
    client = redis.Redis.from_url(url)
    for number in range(count):
        client.xadd(f"plain:{process}", {"note": NOTE}, id=f"{number + 1}-0")


def plain_batches(url: str, process: int, count: int, _: int) -> None:
    client = redis.Redis.from_url(url)
    for first in range(0, count, BATCH):
        with client.pipeline(transaction=False) as pipe:
            for number in range(first, first + BATCH):
                pipe.xadd(f"plain:{process}", {"note": NOTE}, id=f"{number + 1}-0")
            pipe.execute()


def plain_steps(url: str, process: int, count: int, _: int) -> None:
    client = redis.Redis.from_url(url)
    for number in range(count):
        with client.pipeline(transaction=True) as pipe:
            pipe.xadd(f"plain:{process}", {"note": NOTE}, id=f"{number + 1}-0")
            pipe.set(f"probe:{process}", PROBE)
            pipe.xadd(f"inbox:{process}", MESSAGE)
            pipe.execute()


def station_each(url: str, process: int, count: int, watch: int) -> None:
    station = station_of(url, watch, process)
    for _ in range(count):
        with station.step():
            station.observe(True)
            station.stamp((process + 1) % WORKERS)


def station_batches(url: str, process: int, count: int, watch: int) -> None:
    station = station_of(url, watch, process)
    for _ in range(0, count, BATCH):
        with station.step():
            for _ in range(BATCH):
                station.observe(True)
                station.stamp((process + 1) % WORKERS)


def station_steps(url: str, process: int, count: int, watch: int) -> None:
    station = station_of(url, watch, process)
    for _ in range(count):
        with station.step() as pipe:
            station.observe(True)
            pipe.xadd(f"inbox:{process}", {"stamp": station.stamp((process + 1) % WORKERS), "order": b"o" * 20})


def plain_lines(url: str, process: int, count: int, _: int) -> None:
    client = redis.Redis.from_url(url)
    for _ in range(count):
        client.xadd("lines", {"line": LINE})


def host_log(url: str, process: int, count: int, _: int) -> None:
    log = HostLog(f"worker{process}", stream(redis.Redis.from_url(url), "lines"))
    for _ in range(count):
        log.event("holds the lock of the store")


def server_seconds(server: Server) -> float:
    """The processor time that the server has taken."""
    told = pathlib.Path(f"/proc/{server.process.pid}/stat").read_text().rpartition(")")[2].split()
    return (int(told[11]) + int(told[12])) / os.sysconf("SC_CLK_TCK")


def worker_seconds() -> float:
    """The processor time of all workers that have ended."""
    used = resource.getrusage(resource.RUSAGE_CHILDREN)
    return used.ru_utime + used.ru_stime


def measured(run: Run, count: int) -> tuple[float, float, float]:
    """How long the workers take, over a server of their own; the processor time of workers and server; and how long a
    collector takes to read the notes."""
    with Server(keeps=False) as server:
        workers = [multiprocessing.Process(target=run, args=(server.url, process, count, 1))
                   for process in range(WORKERS)]
        start, used = time.perf_counter(), worker_seconds()
        for worker in workers:
            worker.start()
        for worker in workers:
            worker.join()
        taken = time.perf_counter() - start
        used = worker_seconds() - used + server_seconds(server)
        return taken, used, collecting(server, count) if run is station_batches else 0.0


def collecting(server: Server, count: int) -> float:
    """How long a new collector takes to read all notes."""
    collector = Collector(server.url, 1, [["0", "1"]])
    start = time.perf_counter()
    while sum(collector.taken.values()) < WORKERS * count:
        collector.poll(0.1)
    return time.perf_counter() - start


def main(count: int = 5000) -> None:
    print(f"{WORKERS} workers, {count} notes of each, the middle of {TIMES} runs")
    for plain, ours in ((plain_each, station_each), (plain_batches, station_batches), (plain_steps, station_steps),
                        (plain_lines, host_log)):
        # In turn, since other work on the machine comes and goes.
        runs = [(measured(plain, count), measured(ours, count)) for _ in range(TIMES)]
        for at, run in enumerate((plain, ours)):
            taken, used, read = (statistics.median(it[at][what] for it in runs) for what in range(3))
            print(f"{run.__name__:16} {WORKERS * count / taken:8.0f} a second, "
                  f"{1e6 * used / (WORKERS * count):6.1f} us of processor time each")
            if read:
                print(f"{'collector':16} {WORKERS * count / read:8.0f} a second")
        for name, what in (("time", 0), ("processor time", 1)):
            ratio = statistics.median(ours_took[what] / plain_took[what] for plain_took, ours_took in runs)
            print(f"{'':16} {ratio:8.2f} times the {name}", flush=True)


if __name__ == "__main__":
    main(*map(int, sys.argv[1:]))
