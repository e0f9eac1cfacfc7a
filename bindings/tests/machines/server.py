"""A Redis server of a test's own: on a free port, in a folder of its own, and killed and started again at will. And
calls of the collector over it."""

from __future__ import annotations

import contextlib
import os
import pathlib
import random
import shutil
import socket
import subprocess
import sys
import tempfile
import time
from typing import Callable, Iterable, Iterator, Protocol

TOP = pathlib.Path(__file__).resolve().parents[3]
sys.path.insert(0, str(TOP / "bindings" / "python"))

import redis  # type: ignore[import]  # noqa: E402
from wullaphi._line import Unreachable  # noqa: E402
from wullaphi.collect import Collector, Event  # noqa: E402

# What takes longer has hung.
SECONDS = 600


def free_port() -> int:
    """A port of this machine that nobody uses now, and that no connection is given by itself."""
    first = int(pathlib.Path("/proc/sys/net/ipv4/ip_local_port_range").read_text().split()[0])
    while True:
        with contextlib.suppress(OSError), socket.socket() as it:
            it.bind(("127.0.0.1", random.SystemRandom().randrange(first // 2, first)))
            port: int = it.getsockname()[1]
            return port


class PortTaken(Exception):
    """Somebody else uses the port meanwhile."""


def until(holds: Callable[[], object]) -> None:
    """Waits until this holds."""
    end = time.monotonic() + SECONDS
    while not holds():
        if time.monotonic() > end:
            raise RuntimeError("it doesn't come to this")
        time.sleep(0.01)


class Server:
    """It keeps each write before it answers (`appendfsync always`), so that a kill loses nothing. It doesn't start over
    a file that ends in the middle of a step (`aof-load-truncated no`)."""

    def __init__(self, keeps: bool = True, more: Iterable[str] = ()) -> None:
        self.folder = tempfile.mkdtemp(prefix="wullaphi-redis-")
        self._words = ["--appendonly", "yes", "--appendfsync", "always", "--aof-load-truncated", "no",
                       "--auto-aof-rewrite-percentage", "0"] if keeps else ["--appendonly", "no"]
        self._words += more
        while True:
            self.port = free_port()
            with contextlib.suppress(PortTaken):
                self._start()
                break
        self.url = f"redis://127.0.0.1:{self.port}"

    def start(self) -> None:
        """Starts it over its files at the port that it had, and waits until it answers."""
        end = time.monotonic() + SECONDS
        while True:
            try:
                self._start()
                return
            except PortTaken:
                if time.monotonic() > end:
                    raise
                time.sleep(0.1)

    def _start(self) -> None:
        log = open(f"{self.folder}/log", "ab")
        since = log.tell()
        self.process = subprocess.Popen(
            ["redis-server", "--port", str(self.port), "--bind", "127.0.0.1", "--dir", self.folder, "--save", "",
             "--repl-diskless-sync-delay", "0",
             *self._words], stdout=log, stderr=log)
        log.close()
        end = time.monotonic() + SECONDS
        while not self._answers():
            if self.process.poll() is not None and "Address already in use" in self.said(since):
                raise PortTaken(self.port)
            if time.monotonic() > end or self.process.poll() is not None:
                raise RuntimeError(f"redis-server didn't start: {self.said(since)}")
            time.sleep(0.01)

    def _answers(self) -> bool:
        """Whether it has read its files; another server at its port doesn't count."""
        try:
            with socket.create_connection(("127.0.0.1", self.port), timeout=1) as it:
                it.sendall(b"PING\r\nINFO server\r\nQUIT\r\n")
                said = b"".join(iter(lambda: it.recv(65536), b""))
                return said.startswith(b"+PONG\r\n") and b"\r\nprocess_id:%d\r\n" % self.process.pid in said
        except OSError:
            return False

    def said(self, since: int = 0) -> str:
        """The end of its log, of what was written behind so many bytes."""
        return pathlib.Path(self.folder, "log").read_bytes()[since:].decode(errors="replace")[-2000:]

    def kill(self) -> None:
        self.process.kill()
        self.process.wait()

    @property
    def client(self) -> redis.Redis:
        """A new client of the package `redis`."""
        return redis.Redis.from_url(self.url)

    def follow(self, primary: Server) -> None:
        """It becomes a replica of another one, whose data replace its own; the answer comes once they have."""
        self.client.replicaof("127.0.0.1", primary.port)
        until(lambda: self.has_all_of(primary))

    def has_all_of(self, primary: Server) -> bool:
        """Whether it has all that the one has which it follows."""
        told, wanted = self.client.info("replication"), primary.client.info("replication")
        return (told.get("master_link_status"), told.get("slave_repl_offset")) == ("up", wanted["master_repl_offset"])

    def promote(self) -> None:
        """It follows nobody from now on."""
        self.client.replicaof("NO", "ONE")

    def file(self) -> pathlib.Path:
        """The file to which it appends what is written."""
        return max(pathlib.Path(self.folder, "appendonlydir").glob("*.incr.aof"), key=os.path.getmtime)

    def size(self) -> int:
        return self.file().stat().st_size

    def lose(self, size: int) -> None:
        """The server dies, and when it starts again it has lost all that it had acknowledged beyond these bytes of its
        file. A step that is cut in two there is taken from the file, as an administrator does it."""
        self.kill()
        os.truncate(self.file(), size)
        manifest = f"{self.folder}/appendonlydir/appendonly.aof.manifest"
        subprocess.run(["redis-check-aof", "--fix", manifest], input=b"y\n", capture_output=True, check=True)
        self.start()

    def __enter__(self) -> Server:
        return self

    def __exit__(self, *_: object) -> None:
        self.kill()
        shutil.rmtree(self.folder)


class HasAddress(Protocol):
    """A server, or an address of one."""

    url: str


@contextlib.contextmanager
def collector(server: HasAddress, *words: object) -> Iterator[subprocess.Popen[str]]:
    """A call of `wcpcollect` that runs. It is over at the end of the block, whatever happens there."""
    with subprocess.Popen([sys.executable, "-m", "wullaphi.wcpcollect", "--redis", server.url, *map(str, words)],
                          env={**os.environ, "PYTHONPATH": str(TOP / "bindings" / "python")},
                          stdout=subprocess.PIPE, stderr=subprocess.PIPE, text=True) as call:
        try:
            yield call
        finally:
            call.kill()


def collected(server: HasAddress, *words: object) -> tuple[int | str, list[str], str]:
    """The status of a call of `wcpcollect`, what it prints, and what it says."""
    with collector(server, *words) as call:
        try:
            output, errors = call.communicate(timeout=SECONDS)
        except subprocess.TimeoutExpired:
            return "hung", [], ""
    return call.returncode, output.splitlines(), errors


def poll_until(here: Collector, is_enough: Callable[[list[Event]], object]) -> list[Event]:
    """Polls a collector of this process until this holds of what was new. The answer is that."""
    events: list[Event] = []
    end = time.monotonic() + SECONDS
    while not is_enough(events) and time.monotonic() < end:
        try:
            events += here.poll(0.1)
        except Unreachable:
            time.sleep(0.05)
    return events
