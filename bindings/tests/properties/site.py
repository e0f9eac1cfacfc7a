"""A model of a server with the stations of a watch, and what its processes durably did: a deed counts from the write of
the server that keeps it, and is lost with that."""

import contextlib
from typing import Callable, Dict, FrozenSet, Iterator, List, Optional, Tuple, Type

import redis  # type: ignore[import]
from hypothesis import strategies as st

from wullaphi._line import Keys
from wullaphi._opening import EPOCH_SIZE
from wullaphi._watch import Watch
from wullaphi.station import Interrupted

from .durable import Deed, Deeds, Process
from .model_faults import Fault, Kind
from .model_server import ModelServer

WATCH = 7
LATEST_COMMAND = 14

# After these a call that meets them can't end well. Behind the last look the others show in the next call.
SHOWN = [Kind.LOST_BEFORE, Kind.LOST_BEHIND, Kind.DEAF, Kind.LATE, Kind.STOPPED_SENDING, Kind.STOPPED_READING,
         Kind.RESTARTED_BEFORE, Kind.RESTARTED_BEHIND, Kind.FAILED_BACK, Kind.LOADING]
LATER = [Kind.FLUSHED, Kind.DELETED]

kinds = st.sampled_from([*SHOWN, Kind.FLUSHED])
losses = st.integers(0, 4)
faults = st.one_of(st.none(), st.builds(Fault, kinds, st.integers(0, LATEST_COMMAND), losses, st.just(b"")))


class Site:
    """The server, the watch, and what the processes do. Deeds of a process lie in `doing` while a call does them, and
    in `waiting` once a call that ended well has left them for a later write."""

    def __init__(self, names: List[str], flag_of_sends: bool = False) -> None:
        self.watch = Watch(WATCH, names)
        self.keys = Keys(WATCH)
        self.flag_of_sends = flag_of_sends
        nothing: Tuple[Deeds, ...] = ((),) * len(names)
        self.server = ModelServer(beside=nothing)
        self.server.witness = self._witness
        self.doing: Dict[int, List[Deed]] = {}
        self.waiting: Dict[int, List[Deed]] = {at: [] for at in range(len(names))}
        self.is_foreign = False
        self.steps = 0

    def _witness(self, touched: FrozenSet[bytes]) -> None:
        if self.is_foreign:
            return
        if not self.server.data.values:
            self.server.beside = ((),) * self.watch.processes
            return
        for process in range(self.watch.processes):
            key = self.keys.probe(process).encode()
            probe = self.server.data.values.get(key)
            if key in touched and probe is not None and len(probe) == EPOCH_SIZE:
                self._keep(process, ())  # it has come, and told nothing
            elif {key, self.keys.notes(process).encode(), self.log(process)} & touched and probe is not None:
                self._step(process)

    @staticmethod
    def log(process: int) -> bytes:
        """Where the program of a process writes in its steps."""
        return b"log:%d" % process

    def _step(self, process: int) -> None:
        self._keep(process, (*self.durable(process), *self.waiting[process], *self.doing.get(process, ())))
        self.waiting[process], self.doing[process] = [], []
        self.steps += 1

    def _keep(self, process: int, deeds: Deeds) -> None:
        beside = list(self.server.beside)
        beside[process] = deeds
        self.server.beside = tuple(beside)

    def durable(self, process: int) -> Deeds:
        """What a process did, as far as the server has it."""
        deeds: Deeds = self.server.beside[process]
        return deeds

    def come_to(self, process: int) -> Process:
        """What a process has durably come to."""
        return Process(self.durable(process), self.flag_of_sends)

    def in_memory(self, process: int) -> Process:
        """What it has come to with all that waits for a write."""
        return Process((*self.durable(process), *self.waiting[process]), self.flag_of_sends)

    @contextlib.contextmanager
    def foreign(self) -> Iterator[None]:
        """What is written in the block is no step of a station."""
        self.is_foreign = True
        yield
        self.is_foreign = False

    def attempt(self, process: int, fault: Optional[Fault], call: Callable[[], None]) -> Optional[BaseException]:
        """Makes a call, which may meet a fault. The answer is what it raised."""
        self.server.fault = fault
        self.doing[process] = []
        error: Optional[BaseException] = None
        try:
            call()
            self.waiting[process] += self.doing[process]
        except (Exception, KeyboardInterrupt) as raised:  # pylint: disable=broad-exception-caught
            error = raised
        finally:
            self.doing[process] = []
            self.has_met = fault is not None and self.server.fault is None
            self.server.fault, self.server.loading = None, 0
        return error


def allowed(fault: Fault) -> Tuple[Type[BaseException], ...]:
    """What a call may raise that meets this fault."""
    if fault.kind in (Kind.STOPPED_SENDING, Kind.STOPPED_READING):
        return (KeyboardInterrupt,)
    return (Interrupted,)


def is_out_of_memory(error: Optional[BaseException]) -> bool:
    """Whether the server's memory is full."""
    return isinstance(error, redis.ResponseError) and str(error).startswith("OOM")
