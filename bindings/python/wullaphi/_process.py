"""A thread, or a task, that is a process of a watch, and the marks that it leaves and takes."""

from typing import TYPE_CHECKING, Any, Callable, List, NamedTuple, Optional, Tuple

from ._library import DONE_WITH_NOTE, answer, library
from ._places import Visit
from ._refusals import Refused
from .log import HostLog

if TYPE_CHECKING:
    from ._watching import Watching


class Mark(NamedTuple):
    """An open stamp: the number of its watch, who left it, how many events that process had made, the bytes, and what
    goes along with it in the log."""

    watch: int
    sender: int
    events: int
    stamp: bytes
    header: str


Marks = Tuple[Mark, ...]
NONE: Marks = ()


class Process:
    """A process of the watch, which its own thread alone calls.

    No call raises, since a lock that can't be let go would be worse than a watch that can't tell: what is refused makes
    the report undecided. Once the process or the watch has ended, the calls do nothing.
    """

    def __init__(self, watch: "Watching", process: int, log: Optional[HostLog]) -> None:
        self.watch = watch
        self.number = watch.number
        self.name = watch.names[process]
        self.is_open = True
        # A task's condition counts only where the task waits.
        self.waits = False
        # Whether a condition of it ever held.
        self.has_held = False
        self._process = process
        self._probe = watch.watch.probe(self.name)
        self._clock = self._probe._memory.clock
        self._log = log
        # What holds, and the tag of its place, the outermost first.
        self._held: List[Tuple[object, int]] = []
        # Its visit to the place where it meets others, while it stands there.
        self._visit: Optional[Visit] = None
        self._say("begins")

    def leave(self, what: str) -> Marks:
        """The process lets something go: what it knows goes along."""
        if not self.is_open or self.watch.is_over:
            return NONE
        if self._visit is not None:
            self._visit.go()
        probe = self._probe
        if self._is_refused(library.wcp_probe_stamp_open(probe._at, probe._stamp_at)):
            return NONE
        header = "" if self._log is None else self._logged(lambda log: log.send(what)) or ""
        mark = Mark(self.number, self._process, self._clock[self._process], bytes(probe._stamp), header)
        if self._held:
            self._go_on()
        return (mark,)

    def take(self, marks: Marks, what: str) -> None:
        """The process got what carries these marks."""
        for mark in marks:
            # Who knows of that event of the sender knows all that the sender knew then.
            if mark.watch == self.number and self._clock[mark.sender] < mark.events and self._is_on():
                self._receive(mark, what)
                self._go_on()

    def _receive(self, mark: Mark, what: str) -> None:
        if self._visit is not None:
            self._visit.go()
        try:
            self._probe.receive(mark.stamp)
        except Refused as refusal:
            self.watch.spoil(f"a call of {self.name} was refused: {refusal}")
        if mark.header:
            self._logged(lambda log: log.receive(mark.header, what))

    def _is_on(self) -> bool:
        return self.is_open and not self.watch.is_over

    def _go_on(self) -> None:
        """A condition that holds goes on to hold, whatever is let go or got: each of these ends an interval."""
        if self._held and not self.waits:
            self._tell(self._held[-1][1])

    def hold(self, what: object, tag: int) -> None:
        """A condition holds from now on, whose place has this tag."""
        if self._is_on():
            if self._visit is not None:
                self._visit.go()
            self._held.append((what, tag))
            self.has_held = True
            if not self.waits:
                self._tell(tag)
                if len(self._held) == 1:
                    self._say_place("holds")

    def let_go(self, what: object) -> None:
        """It holds no more. One that began before it may."""
        try:
            self.come()
        finally:
            own = [at for at, (it, _) in enumerate(self._held) if it is what]
            if own and self._is_on():
                if len(self._held) == 1 and not self.waits:
                    self._say_place("ends")
                del self._held[own[-1]]

    def come(self) -> None:
        """The process is about to call something that may end its interval: where it holds something, it waits here
        for those that it is to meet."""
        meeting = self.watch.meeting
        if meeting is None:
            return
        if self._visit is not None:
            # A signal's handler or a finalizer calls as it stands at its place: from here on it is there no longer.
            self._visit.go()
        elif not self.waits:
            visit = self.visit()
            if visit is not None:
                try:
                    meeting.meet(visit)
                finally:
                    self._visit = None

    def visit(self) -> Optional[Visit]:
        """Its visit to its place, where it stands there now. `go_away` ends it."""
        meeting = self.watch.meeting
        if meeting is None or not self._held or not self._is_on():
            return None
        visit = self._visit = Visit(self.name)
        held = [self.watch.label_and_place(tag) for _, tag in self._held]
        place = meeting.place_of(self.name, self._clock[self._process], held)
        if place is None:
            self._visit = None
            return None
        visit.place = place
        return visit

    def go_away(self) -> None:
        """The process goes on from its place."""
        visit, self._visit = self._visit, None
        if visit is not None and self.watch.meeting is not None:
            self.watch.meeting.leave(visit)

    def suspend(self) -> None:
        """The task is about to wait: what holds now holds while others run."""
        if self._held and self._is_on():
            self._tell(self._held[-1][1])
            self._say_place("holds")

    def resume(self) -> None:
        """The task has waited, and runs alone again."""
        if self._held and self._is_on():
            self._say_place("ends")

    def end(self) -> Marks:
        """The process ends, and with it what held. Whoever joins it takes what this leaves."""
        try:
            self.come()
        finally:
            marks = self._end()
        return marks

    def _end(self) -> Marks:
        if self._held and not self.waits:
            self._say_place("ends")
        self._held = []
        marks = self.leave("is done")
        if self._is_on():
            self.is_open = False
            if not self._is_refused(library.wcp_probe_close(self._probe._at)):
                self._pass_on(0)
        if self.watch.meeting is not None:
            self.watch.meeting.end(self.name)
        return marks

    def _tell(self, tag: int) -> None:
        if not self._is_refused(library.wcp_probe_observe(self._probe._at, 1)):
            self._pass_on(tag)

    def _pass_on(self, tag: int) -> None:
        """The probe's note, where it has one, goes to the checker."""
        probe = self._probe
        if library.wcp_probe_next(probe._at, tag, probe._note_at) == DONE_WITH_NOTE:
            with self.watch.lock:
                self._is_refused(library.wcp_checker_take(self.watch.checker._at, probe._note_at))

    def _is_refused(self, answered: int) -> bool:
        """Whether a call was refused, which the report then says."""
        if answered <= DONE_WITH_NOTE:
            return False
        try:
            answer(answered)
        except (Refused, MemoryError) as refusal:
            self.watch.spoil(f"a call of {self.name} was refused: {refusal or 'there is no memory'}")
        return True

    def _logged(self, call: Callable[[HostLog], Any]) -> Any:
        """What a call of the log answers; `None` where there is none, or it can't be taken, which the report says."""
        try:
            return None if self._log is None else call(self._log)
        except (Refused, ValueError) as refusal:
            self.watch.spoil(f"an event of {self.name} isn't in the log: {refusal}")
            return None

    def _say(self, text: str) -> None:
        self._logged(lambda log: log.event(text))

    def _say_place(self, word: str) -> None:
        if self._log is not None:
            self._say(f"{word} {self.watch.place_of(self._held[-1][1])}")
