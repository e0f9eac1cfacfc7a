"""A run of the ring of workers over a server of its own, and what its collector reports, whoever is killed."""

from __future__ import annotations

import contextlib
import os
import pathlib
import random
import subprocess
import sys
import time
from typing import Iterable

from server import TOP, Server

HERE = pathlib.Path(__file__).resolve().parent
WORKERS = 4
HOPS = 1501
ENVIRONMENT = {**os.environ, "PYTHONPATH": str(TOP / "bindings" / "python")}

# A run that takes longer has hung.
RUN_SECONDS = 1500


class Ring:
    """A run of the ring. With a mistake two hold once at once; one that saves has its notes deleted."""

    def __init__(self, server: Server, mistake: bool, seed: int | None = None, saves: bool = False) -> None:
        self.server, self.number, self.mistake = server, 1, mistake
        self.saves = ["--save", "ring", "--trim"] if saves else []
        self.random = random.Random(seed)
        self.kills = dict.fromkeys(("server", "collector", "worker"), 0)
        self.workers = [self.start_worker(it) for it in range(WORKERS)]
        self.collector = self.start_collector()
        self.end = time.monotonic() + RUN_SECONDS

    def start_worker(self, process: int) -> subprocess.Popen[bytes]:
        words = [self.server.url, self.number, WORKERS, process, HOPS, int(self.mistake)]
        return subprocess.Popen([sys.executable, HERE / "ring.py", *map(str, words)], stderr=subprocess.DEVNULL,
                                env=ENVIRONMENT)

    def start_collector(self) -> subprocess.Popen[str]:
        return subprocess.Popen([sys.executable, "-m", "wullaphi.wcpcollect", "--redis", self.server.url, "--watch",
                                 str(self.number), "--pairs", "--follow", *self.saves], text=True, env=ENVIRONMENT,
                                stdout=subprocess.PIPE, stderr=subprocess.DEVNULL)

    def kill_one(self) -> None:
        """Kills somebody: the server one time in eight, the collector two times, else a worker."""
        lot = self.random.randrange(8)
        alive = [worker for worker in self.workers if worker.poll() is None]
        if lot == 0:
            self.kills["server"] += 1
            self.server.kill()
            time.sleep(self.random.random() * 0.2)
            self.server.start()
        elif lot < 3:
            self.kills["collector"] += 1
            self.collector.kill()
            self.collector.communicate()
            self.collector = self.start_collector()
        elif alive:
            self.kills["worker"] += 1
            self.random.choice(alive).kill()

    def start_again(self, ended: Iterable[int | None] = (None, 0)) -> bool:
        """Starts again who was killed or has ended before its time. Whether all workers have ended well."""
        if self.collector.poll() not in (None, 0, 1):
            self.collector.communicate()
            self.collector = self.start_collector()
        for process, worker in enumerate(self.workers):
            if worker.poll() not in ended:
                self.workers[process] = self.start_worker(process)
        return all(worker.poll() == 0 for worker in self.workers)

    def run(self, kills: int) -> list[str]:
        """The report, after so many kills."""
        while not self.start_again() or sum(self.kills.values()) < kills:
            if time.monotonic() > self.end:
                return ["hung"]
            if sum(self.kills.values()) < kills:
                self.kill_one()
            time.sleep(self.random.random() * 0.12)
        while self.collector.poll() is None and time.monotonic() < self.end:
            time.sleep(0.05)
        self.start_again()
        with contextlib.suppress(subprocess.TimeoutExpired):
            output = self.collector.communicate(timeout=max(1, self.end - time.monotonic()))[0].splitlines()
            return sorted(after_last_anew(output))
        return ["hung"]

    def notes(self) -> int:
        """How many notes are left on the server."""
        client = self.server.client
        return sum(client.xlen(f"wullaphi:{{{self.number}}}:notes:{process}") for process in range(WORKERS))

    def __enter__(self) -> Ring:
        return self

    def __exit__(self, *_: object) -> None:
        for worker in self.workers:
            worker.kill()
            worker.communicate()
        self.collector.kill()
        self.collector.communicate()


def after_last_anew(lines: list[str]) -> list[str]:
    """What counts of these lines: the collector says by "anew" that it reads all again."""
    return lines[max((at + 1 for at, line in enumerate(lines) if line == "anew"), default=0):]


def report_without_kills(mistake: bool) -> list[str]:
    with Server() as server, Ring(server, mistake) as ring:
        return ring.run(0)
