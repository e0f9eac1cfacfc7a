"""The law of unseen order, on small random computations of which some messages and receives aren't seen: what happened
before by what is seen happened before, and each satisfying cut is, by its observations, one of what is seen."""
import itertools
import random
from collections.abc import Iterator
from dataclasses import dataclass

# A process, and which of its intervals between two events.
State = tuple[int, int]
Pairs = set[tuple[State, State]]


@dataclass(frozen=True)
class Step:
    """A step of a process: `observe` with what it found, `send`, or `receive` with the place of the send."""

    kind: str
    process: int
    found: bool = False
    sent: int = -1

    @property
    def is_event(self) -> bool:
        return self.kind != "observe"


def random_computation(rng: random.Random, processes: int, length: int) -> list[Step]:
    """So many steps; each message is received at most once, behind its send."""
    steps: list[Step] = []
    waiting: list[int] = []
    for place in range(length):
        process, kind = rng.randrange(processes), rng.choice(["observe", "send", "receive"])
        if kind == "observe":
            steps.append(Step(kind, process, found=rng.random() < 0.6))
        elif kind == "send" or not waiting:
            steps.append(Step("send", process))
            waiting.append(place)
        else:
            steps.append(Step(kind, process, sent=waiting.pop(rng.randrange(len(waiting)))))
    return steps


def random_part(rng: random.Random, steps: list[Step]) -> list[int]:
    """The places that are seen: each true observation, some sends, and some of the receives of these."""
    seen: set[int] = set()
    for place, step in enumerate(steps):
        if step.kind == "observe":
            is_seen = step.found or rng.random() < 0.5
        elif step.kind == "send":
            is_seen = rng.random() < 0.7
        else:
            is_seen = step.sent in seen and rng.random() < 0.8
        if is_seen:
            seen.add(place)
    return sorted(seen)


def part_of(steps: list[Step], places: list[int]) -> list[Step]:
    """The computation that is seen at these places."""
    number = {place: at for at, place in enumerate(places)}
    seen = (steps[place] for place in places)
    return [Step(step.kind, step.process, step.found, number.get(step.sent, -1)) for step in seen]


def intervals(steps: list[Step], processes: int) -> tuple[list[int], list[int]]:
    """The interval in which the process of each step is before it, and behind it."""
    now, before, behind = [0] * processes, [], []
    for step in steps:
        before.append(now[step.process])
        now[step.process] += step.is_event
        behind.append(now[step.process])
    return before, behind


def happened_before(steps: list[Step], processes: int) -> Pairs:
    """The pairs of states of which one happened before the other."""
    before, behind = intervals(steps, processes)
    edges: Pairs = set()
    for place, step in enumerate(steps):
        if step.is_event:
            edges.add(((step.process, before[place]), (step.process, behind[place])))
        if step.kind == "receive":
            edges.add(((steps[step.sent].process, before[step.sent]), (step.process, behind[place])))
    pairs = set(edges)
    while True:
        more = {(s, u) for s, t in pairs for t2, u in edges if t == t2} - pairs
        if not more:
            return pairs
        pairs |= more


def satisfying_cuts(steps: list[Step], processes: int, pairs: Pairs) -> Iterator[tuple[int, ...]]:
    """The observations of each satisfying cut: one true one of each process, by their places."""
    before, _ = intervals(steps, processes)
    held = [
        [place for place, step in enumerate(steps) if step.process == process and step.found]
        for process in range(processes)
    ]
    for cut in itertools.product(*held):
        states = [(steps[place].process, before[place]) for place in cut]
        if not any((s, t) in pairs for s, t in itertools.permutations(states, 2)):
            yield cut


def compare(rng: random.Random) -> tuple[int, int]:
    """How many satisfying cuts of a computation are ones of what is seen, and how many pairs were compared."""
    processes = rng.choice([2, 3])
    steps = random_computation(rng, processes, rng.randrange(4, 16))
    places = random_part(rng, steps)
    seen = part_of(steps, places)
    whole_pairs, seen_pairs = happened_before(steps, processes), happened_before(seen, processes)
    whole_before, _ = intervals(steps, processes)
    seen_before, _ = intervals(seen, processes)
    compared = 0
    for one, other in itertools.permutations(range(len(seen)), 2):
        s, t = seen[one].process, seen[other].process
        if ((s, seen_before[one]), (t, seen_before[other])) in seen_pairs:
            compared += 1
            if ((s, whole_before[places[one]]), (t, whole_before[places[other]])) not in whole_pairs:
                raise AssertionError(f"{steps}\nseen {places}\nsteps {one}, {other}")
    cuts = list(satisfying_cuts(steps, processes, whole_pairs))
    kept = set(satisfying_cuts(seen, processes, seen_pairs))
    for cut in cuts:
        if tuple(places.index(place) for place in cut) not in kept:
            raise AssertionError(f"{steps}\nseen {places}\ncut {cut}")
    return len(cuts), compared
