"""A run of the mesh over servers of its own: its workers and its collector, each started again where it ends before its
time, until all workers have closed and the collector has told its report."""

from __future__ import annotations

import collections
import contextlib
import json
import os
import pathlib
import random
import signal
import subprocess
import sys
import time
from typing import TYPE_CHECKING, Any

import mesh
from oracle import History, Impossible
from proxy import Proxy
from replicas import Replicated, client_of
from ring_run import after_last_anew
from server import TOP, Server

from wullaphi._line import Keys

if TYPE_CHECKING:
    from storm import Setting

HERE = pathlib.Path(__file__).resolve().parent
ENVIRONMENT = {**os.environ, "PYTHONPATH": str(TOP / "bindings" / "python")}
# What a collector says by its end, and the name of that.
ENDS = {"is missing from the stream": "Gap", "is no note": "Gap", "is another note": "Gap", "a newer collector":
        "TakenOver", "replica": "Replica", "READONLY": "Replica", "UNBLOCKED": "Replica", "MASTERDOWN": "Replica"}

# A collector that doesn't wait has hung after so long.
AGAIN_SECONDS = 200


def has_closed(log: list[tuple[Any, ...]]) -> bool:
    """Whether this is the log of a worker that has come to its end."""
    return log[-1:] == [("close",)]


def counting(lines: list[str]) -> list[str]:
    """What counts of what a collector has printed, in the order of the alphabet."""
    return sorted(line for line in after_last_anew(lines) if not line.startswith("notes"))


class Call:
    """A process, with a file of what it prints and one of what it says."""

    def __init__(self, path: pathlib.Path, words: list[object]) -> None:
        self.output, self.errors = path.with_suffix(".output"), path.with_suffix(".errors")
        with open(self.output, "wb") as output, open(self.errors, "ab") as errors:
            self.process = subprocess.Popen([sys.executable, *map(str, words)], stdout=output, stderr=errors,
                                            env=ENVIRONMENT)

    def lines(self) -> list[str]:
        return self.output.read_text().splitlines()

    def last_said(self) -> str:
        return (self.errors.read_text().splitlines() or [""])[-1]

    def signal(self, number: int) -> None:
        with contextlib.suppress(ProcessLookupError):
            self.process.send_signal(number)

    def kill(self) -> None:
        self.process.kill()
        self.process.wait()


class Run:
    """Started at once, and ended at the end of the block."""

    def __init__(self, setting: Setting, folder: str) -> None:
        self.setting, self.folder = setting, pathlib.Path(folder)
        self.random = random.Random(setting.seed)
        self.names = mesh.names_of(setting.workers)
        self.keys = Keys(mesh.NUMBER)
        saving = ["--save", "storm", "--trim"] if setting.saves else []
        self.words: list[object] = ["--watch", mesh.NUMBER, "--pairs", *saving]
        self.done = collections.Counter[str]()
        self.refusals: set[str] = set()
        self.faults: list[str] = []
        self._calls: list[Call] = []
        self._stopped: list[tuple[float, Call]] = []
        self._stack = contextlib.ExitStack()

    def __enter__(self) -> Run:
        with contextlib.ExitStack() as stack:
            self._server = stack.enter_context(Server())
            self.proxy = stack.enter_context(Proxy(self._server.port))
            self.replicated: Replicated | None = None
            if self.setting.is_replicated:
                self.replicated = Replicated(self.proxy, self._server, stack.enter_context(Server()))
            stack.callback(self._kill_all)
            self.workers = [self._start_worker(it) for it in range(self.setting.workers)]
            self.collector = self._start_collector()
            self._stack = stack.pop_all()
        return self

    def __exit__(self, *_: object) -> None:
        self._stack.close()

    def _kill_all(self) -> None:
        for call in self._calls:
            call.kill()

    @property
    def server(self) -> Server:
        """The server that is used."""
        return self.replicated.used if self.replicated else self._server

    def _start(self, name: str, words: list[object]) -> Call:
        call = Call(self.folder / name, words)
        self._calls.append(call)
        return call

    def _start_worker(self, worker: int) -> Call:
        words = ["lasts"] * self.setting.lasts + ["mistaken"] * (worker in self.setting.mistaken)
        return self._start(f"worker{worker}", [HERE / "mesh.py", self.proxy.url, self.folder, self.setting.workers,
                                               worker, *words])

    def _start_collector(self) -> Call:
        return self._start(f"collector{len(self._calls)}", ["-m", "wullaphi.wcpcollect", "--redis", self.proxy.url,
                                                            "--follow", *self.words])

    def random_worker(self) -> Call:
        """Half of the time one that holds, if one does; else one that runs; or any."""
        running = [it for it in self.workers if it.process.poll() is None] or self.workers
        holding = [it for it in running if self._holds(it)] if self.random.random() < 0.5 else []
        return self.random.choice(holding or running)

    def _holds(self, worker: Call) -> bool:
        raw = client_of(self.server).get(mesh.key("state", self.workers.index(worker)))
        return bool(raw) and json.loads(raw)["holds"]

    def replace(self, worker: Call) -> None:
        """Starts another worker of this name, though this one hasn't ended."""
        number = self.workers.index(worker)
        self.workers[number] = self._start_worker(number)

    def stop(self, call: Call, seconds: float) -> None:
        """Stops a process for so long."""
        call.signal(signal.SIGSTOP)
        self._stopped.append((time.monotonic() + seconds, call))

    def go_on(self, at_once: bool = False) -> None:
        """Those that were stopped go on, if it is time."""
        for until, call in list(self._stopped):
            if at_once or until < time.monotonic():
                self._stopped.remove((until, call))
                call.signal(signal.SIGCONT)

    def look_after(self, after_loss: bool = False) -> None:
        """Starts again who has ended before its time. After a loss that may be one who had come to its end."""
        self.go_on()
        for number, worker in enumerate(self.workers):
            status = worker.process.poll()
            if status in (mesh.AGAIN, -signal.SIGKILL, -signal.SIGUSR1) or (after_loss and status == mesh.DONE):
                self.workers[number] = self._start_worker(number)
            elif status == mesh.REFUSED:
                self.refusals.add(worker.last_said().partition(":")[0])
            elif status not in (None, mesh.DONE):
                self.faults.append(f"{self.names[number]} ended with status {status}: {worker.last_said()}")
        status = self.collector.process.poll()
        if status == 2:
            said = self.collector.last_said()
            name = next((name for part, name in ENDS.items() if part in said), said)
            self.done[f"collector's {name}"] += 1
            if name in self.setting.refusals:
                self.refusals.add(name)
        if status in (2, -signal.SIGKILL):
            self.collector = self._start_collector()
        elif status not in (None, 0, 1, 4):
            self.faults.append(f"the collector ended with status {status}: {self.collector.last_said()}")

    def logs(self) -> list[list[tuple[Any, ...]]]:
        """What each worker durably did."""
        client = client_of(self.server)
        return [[tuple(json.loads(it)) for it in client.lrange(mesh.key("log", worker), 0, -1)]
                for worker in range(len(self.workers))]

    def report(self) -> list[str]:
        """What counts of what the collector has printed."""
        return counting(self.collector.lines())

    def read_again(self) -> list[str]:
        """What counts of what a new collector prints, which doesn't wait for more."""
        self.collector.kill()
        call = self._start("again", ["-m", "wullaphi.wcpcollect", "--redis", self.server.url, *self.words])
        try:
            status = call.process.wait(AGAIN_SECONDS)
        except subprocess.TimeoutExpired:
            return ["hung"]
        return counting(call.lines()) if status in (0, 1, 4) else [f"status {status}: {call.last_said()}"]

    def wrongly_found(self) -> list[str]:
        """What the collector has found, and what was done up to now doesn't have."""
        told = [line for line in self.report() if line.startswith("found")]
        if not told:
            return []
        try:
            wanted = History(self.logs(), self.setting.lasts).report(self.names)
        except Impossible as error:
            return [str(error)]
        return [line for line in told if line not in wanted]

    def lengths(self) -> list[int]:
        """How many notes each worker has given."""
        client = client_of(self.server)
        keys = [self.keys.notes(worker) for worker in range(len(self.workers))]
        return [int(client.xinfo_stream(key)["last-generated-id"].partition(b"-")[0]) if client.exists(key) else 0
                for key in keys]

    def wait_until_longer(self, lengths: list[int], seconds: float) -> None:
        """Waits until each worker that may hold has given more notes than this, but not too long."""
        end = time.monotonic() + seconds
        while any(now <= then for now, then in list(zip(self.lengths(), lengths))[:-1]) and time.monotonic() < end:
            self.look_after(after_loss=True)
            time.sleep(0.05)

    def go_some_way(self, most: int, seconds: float) -> None:
        """Waits until all together have done some more things, at random, but not too long."""
        client, start = client_of(self.server), time.monotonic()
        keys = [mesh.key("log", worker) for worker in range(len(self.workers))]
        wanted = sum(map(client.llen, keys)) + self.random.randrange(most)
        while sum(map(client.llen, keys)) < wanted and time.monotonic() < start + seconds:
            self.look_after()
            time.sleep(0.02)
        self.look_after()

    def is_finished(self) -> bool:
        """Whether all have closed, durably. One that has ended and hasn't, since that was lost, is started again."""
        self.look_after()
        for number, log in enumerate(self.logs()):
            if self.workers[number].process.poll() == mesh.DONE and not has_closed(log):
                self.workers[number] = self._start_worker(number)
        return self.have_closed() and all(worker.process.poll() == mesh.DONE for worker in self.workers)

    def have_closed(self) -> bool:
        """Whether each worker has, durably."""
        return all(map(has_closed, self.logs()))

    def ends(self) -> list[tuple[int | None, str]]:
        """With which status each worker and the collector has ended, and what each said last."""
        return [(call.process.poll(), call.last_said()) for call in [*self.workers, self.collector]]

    def said(self) -> collections.Counter[str]:
        """What workers have said, by the first word."""
        lines = [line for call in set(it.errors for it in self._calls) for line in call.read_text().splitlines()]
        return collections.Counter(line.partition(":")[0] for line in lines if ":" in line)
