"""Did it happen? A program is run until a moment is found, and again until its processes meet there."""

import collections
import os
from typing import Any, Callable, Collection, Counter, Dict, NamedTuple, Optional, Sequence, Union

from ._holding import watching
from ._meeting import Meeting
from ._places import Place, Where, checked_patience, moment
from ._watch import Process as Name
from ._watching import Outcome, Watching

# Where the processes of a moment meet, in turn: in its intervals, at its places, wherever they hold something.
WAYS: Sequence[Callable[[Place], Where]] = (lambda it: it.interval, lambda it: it.at, lambda it: None)

# A program; or a function that opens the watch by itself, with the meeting that it is given, and answers with it.
Program = Callable[..., Any]


class Confirmed(NamedTuple):
    """What `confirm` tells: the moment that was found, and in which run; `met`, the place of each process in the moment
    that happened, or `None`; how many runs there were; and why they didn't meet, with the number of runs for each
    reason.

    >>> found = Outcome("found", {"ada": Place(0, "pay"), "ben": Place(0, "pay")}, "")
    >>> print(Confirmed(found, 1, found.moment, 3, {}))
    met in run 3: ada at pay, ben at pay
    >>> print(Confirmed(Outcome("nothing", {}, ""), 0, None, 20, {}))
    no moment was found in 20 runs, of which the last tells none
    """

    outcome: Outcome
    found_in: int
    met: Optional[Dict[str, Place]]
    runs: int
    why: Dict[str, int]

    def __str__(self) -> str:
        if self.met is not None:
            return f"met in run {self.runs}: {moment(self.met)}"
        if not self.found_in:
            return f"no moment was found in {self.runs} runs, of which the last tells {self.outcome}"
        if self.found_in == self.runs:
            return f"found in run {self.runs}, the last one, so that no run was left to meet in"
        why = ", ".join(f"{why} ({count} times)" for why, count in self.why.items())
        return f"not met in {self.runs} runs: {why}; either an order isn't stamped or the runs never came there"


def confirm(program: Program, names: Optional[Sequence[str]] = None, runs: int = 20, patience: float = 0.2, *,
            pairs: bool = False, questions: Optional[Sequence[Collection[Name]]] = None,
            log: Union[str, "os.PathLike[str]", None] = None) -> Confirmed:
    """Runs a program up to so many times. Once a run has found a moment, its processes meet there in the next ones: in
    its intervals, at its places, and wherever they hold something, in turn, with so many seconds of patience. That ends
    with the first run in which they have met. Its log is written to `log`.

    Each run is within a watch of these names, for which `pairs` and `questions` are as in `watching`; the first of its
    questions that finds a moment counts. Without names the program is called with the meeting, which is `None` while a
    moment is looked for. It opens its watch by `watching(.., meeting=meeting)`, with `logs=True` where a log is wanted,
    and returns that watch, once it is over.

    Less than one run, a patience that isn't above 0, a program that returns a watch without the meeting, and one
    without a log where that is wanted are a `ValueError`; a program that returns no watch, and `pairs` or `questions`
    without names a `TypeError`. What the program raises is raised.

    >>> from wullaphi import threading
    >>> def program():
    ...     def work():
    ...         with holding("work"):
    ...             pass
    ...     threads = [threading.Thread(target=work, name=name) for name in ("ada", "ben")]
    ...     for thread in threads:
    ...         thread.start()
    ...     for thread in threads:
    ...         thread.join()
    >>> confirmed = confirm(program, ["ada", "ben"], patience=600)
    >>> confirmed.found_in, confirmed.runs, sorted(confirmed.met)
    (1, 2, ['ada', 'ben'])
    """
    if runs < 1:
        raise ValueError(f"a program is run at least once, and not {runs} times")
    if names is None and (pairs or questions is not None):
        raise TypeError("pairs and questions are for a watch of names; a program without names opens its own")
    patience = checked_patience(patience)

    def run(meeting: Optional[Meeting]) -> Watching:
        if names is None:
            return _own_watch(program(meeting), meeting, log is not None)
        with watching(names, pairs=pairs, questions=questions, logs=log is not None, meeting=meeting) as watch:
            program()
        return watch

    found: Optional[Outcome] = None
    found_in = 0
    why: Counter[str] = collections.Counter()
    for number in range(1, runs + 1):
        if found is None:
            outcome = _first_found(run(None))
            if outcome.known == "found":
                found, found_in = outcome, number
            continue
        way = WAYS[(number - found_in - 1) % len(WAYS)]
        meeting = Meeting({name: way(place) for name, place in found.moment.items()}, patience)
        watch = run(meeting)
        if meeting.met is not None:
            if log is not None:
                watch.write_log(log)
            return Confirmed(found, found_in, meeting.met, number, dict(why))
        why[meeting.why] += 1
    return Confirmed(found or outcome, found_in, None, runs, dict(why))


def _first_found(watch: Watching) -> Outcome:
    """What the first question tells that found a moment; where none did, what one tells that isn't sure, or any."""
    outcomes = list(watch.reports().values())
    return min(outcomes, key=lambda it: ("found", "undecided", "nothing").index(it.known))


def _own_watch(watch: Any, meeting: Optional[Meeting], logs: bool) -> Watching:
    """The watch that a program opened by itself."""
    if not isinstance(watch, Watching):
        raise TypeError(f"a program without names returns its watch, and not {watch!r}")
    if watch.meeting is not meeting:
        raise ValueError("the watch of the program is without the meeting: open it by watching(.., meeting=meeting)")
    if logs and not watch.keeps_log:
        raise ValueError("the watch of the program keeps no log: open it with logs=True")
    return watch
