"""A watch: its number, and its processes by number or by name."""

from typing import TYPE_CHECKING, Iterable, Optional, Sequence, Tuple, TypeVar, Union

from ._library import MAX_PROCESSES, many, word
from ._refusals import OutOfRange

if TYPE_CHECKING:
    from ._checker import Checker
    from ._probe import Probe

Process = Union[int, str]
It = TypeVar("It")


class Watch:
    """The watch with the number `number`. Its processes have these names, or are as many as a number says.

    Give each run a number of its own: stamps and notes that an earlier run left behind are then refused. Where a call
    takes the number of a process, its name is fine too.

    >>> watch = Watch(42, ["api", "worker1"])
    >>> api, worker1 = watch.probe("api"), watch.probe("worker1")
    >>> worker1.receive(api.stamp("worker1"))
    >>> checker = watch.checker()
    >>> checker.taken("api")
    0
    >>> watch
    Watch(42, ['api', 'worker1'])
    """

    def __init__(self, number: int, processes: Union[int, Sequence[str]]) -> None:
        self.number = many(number)
        self.names: Optional[Tuple[str, ...]] = None if isinstance(processes, int) else _named(processes)
        self.processes: int = processes if isinstance(processes, int) else len(processes)
        if not 0 < self.processes <= MAX_PROCESSES:
            raise OutOfRange(f"a watch has 1 to {MAX_PROCESSES} processes, and not {self.processes}")
        if self.names is not None and len(set(self.names)) < len(self.names):
            raise ValueError("two processes have the same name")

    def number_of(self, process: Process) -> int:
        """The number of a process, which is given by its name or its number."""
        number = self._told(process)
        if number >= self.processes:
            raise OutOfRange()
        return number

    def _told(self, process: Process) -> int:
        """The number that the library is told for a process; it refuses one that is too large."""
        if not isinstance(process, str):
            return word(process)
        if self.names is None or process not in self.names:
            raise OutOfRange(f"no process is called {process!r}")
        return self.names.index(process)

    def name_of(self, process: int) -> Process:
        """The name of the process with this number; where the processes have no names, its number."""
        number = self.number_of(process)
        return number if self.names is None else self.names[number]

    def probe(self, process: Process, watched: bool = True, flag_of_sends: bool = False) -> "Probe":
        """The probe of a process."""
        from ._probe import Probe  # pylint: disable=import-outside-toplevel
        return Probe(self, process, watched=watched, flag_of_sends=flag_of_sends)

    def checker(self, watched: Optional[Sequence[Process]] = None) -> "Checker":
        """A checker of these processes, or of all."""
        from ._checker import Checker  # pylint: disable=import-outside-toplevel
        return Checker(self, watched=watched)

    def __eq__(self, other: object) -> bool:
        return isinstance(other, Watch) and vars(self) == vars(other)

    def __hash__(self) -> int:
        return hash((self.number, self.processes, self.names))

    def __repr__(self) -> str:
        return f"Watch({self.number}, {self.processes if self.names is None else list(self.names)})"


def listed(them: Iterable[It], what: str) -> Tuple[It, ...]:
    """A list. A text is refused, since it would be the list of its characters."""
    if isinstance(them, (str, bytes)):
        raise TypeError(f"{what} are given as a list, as [{them!r}], and not as the text {them!r}")
    return tuple(them)


def _named(processes: Sequence[str]) -> Tuple[str, ...]:
    """The names of the processes."""
    names = listed(processes, "the names of the processes")
    for name in names:
        if not isinstance(name, str):
            raise TypeError(f"the name of a process is a text, and not {name!r}")
    return names


def watch_of(watch: Union[int, Watch], processes: Optional[int]) -> Watch:
    """The watch that is given whole, or by its number and the number of its processes."""
    if isinstance(watch, Watch):
        if processes is not None and processes != watch.processes:
            raise OutOfRange()
        return watch
    if processes is None:
        raise TypeError("how many processes the watch has is missing")
    return Watch(watch, processes)
