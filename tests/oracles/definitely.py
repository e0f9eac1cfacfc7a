"""Whether conditions must have held at once, with each order of the events tried.

The orders are those of the hosts with conditions: an event comes after all that its clock counts. A log may go on, and
what is known of it is so whatever follows. What follows can do most against an answer where it ends a condition and
knows nothing new, so it is enough to try that."""
import functools
import itertools
import random
from typing import NamedTuple

from programs import Answer, Word
from trace_logs import Event, events, in_other_order, text_of, without_some

from . import asked
from .hosts import WORDS, Watched, between, earliest, expected

KINDS = frozenset(["definitely", "possibly", "none", "no host"])


class Step(NamedTuple):
    """An event of a host with a condition: its place in the log, how many events of each such host it knows, itself
    among them, and whether the condition holds from it on."""

    at: int
    knows: tuple[int, ...]
    holds: bool


class Run(NamedTuple):
    """The first step of a run, and the one at which it is over, if there is one: their numbers among the host's."""

    begin: int
    over: int | None


def conditions(rng: random.Random, names: list[str]) -> tuple[list[str], list[Watched]]:
    """The words of the command line, and the hosts with their conditions, whose states all last."""
    words: list[str] = []
    watched: list[Watched] = []
    spans = sorted(rng.random() < 0.4 for _ in names)
    for name, is_span in zip(names, spans):
        if is_span:
            words += ["--from", name + "=takes|busy", "--until", name + "=gives|idle"]
            watched.append((name, between, True))
        else:
            words += ["--while", name + "=idle|takes"]
            watched.append((name, lambda texts: ["idle" in text or "takes" in text for text in texts], True))
    return words, watched


def steps_of(log: list[Event], watched: list[Watched]) -> list[list[Step]]:
    names = [name for name, _, _ in watched]
    mine = {name: [at for at, event in enumerate(log) if event[0] == name] for name in names}

    def counted(at: int, name: str) -> int:
        number = log[at][1].get(name, 0)
        return sum(log[other][1][name] <= number for other in mine[name])

    return [[Step(at, tuple(counted(at, name) for name in names), held)
             for at, held in zip(mine[own], holds([log[at][2] for at in mine[own]]))]
            for own, holds, _ in watched]


def must_hold(steps: list[list[Step]]) -> bool:
    """Whether along each order the conditions hold somewhere."""
    hosts = range(len(steps))
    top = tuple(map(len, steps))

    def can_come(cut: tuple[int, ...], host: int) -> bool:
        if cut[host] == top[host]:
            return False
        knows = steps[host][cut[host]].knows
        return all(knows[other] <= cut[other] for other in hosts if other != host)

    @functools.cache
    def is_avoided(cut: tuple[int, ...]) -> bool:
        if all(cut[host] and steps[host][cut[host] - 1].holds for host in hosts):
            return False
        return cut == top or any(is_avoided(cut[:host] + (cut[host] + 1,) + cut[host + 1:])
                                 for host in hosts if can_come(cut, host))

    return not is_avoided((0,) * len(steps))


def is_known(steps: list[list[Step]]) -> bool:
    """Whether the conditions must hold at once whatever follows."""
    def ended(host: int) -> list[Step]:
        knows = steps[host][-1].knows
        return steps[host] + [Step(-1, knows[:host] + (knows[host] + 1,) + knows[host + 1:], False)]

    if not all(steps):
        return False
    return all(must_hold([ended(host) if is_ended else lane for host, (lane, is_ended) in enumerate(zip(steps, ends))])
               for ends in itertools.product([False, True], repeat=len(steps)))


def runs_of(lane: list[Step]) -> list[Run]:
    runs = []
    for number, step in enumerate(lane):
        if step.holds and (number == 0 or not lane[number - 1].holds):
            over = next((later for later in range(number, len(lane)) if not lane[later].holds), None)
            runs.append(Run(number, over))
    return runs


def least_runs(steps: list[list[Step]]) -> list[Run]:
    """A run of each host, of which each begins before any other one is over, and none later than in another choice."""
    def overlap(choice: tuple[Run, ...]) -> bool:
        return all(run.over is None or steps[host][run.over].knows[other] > begun.begin
                   for host, run in enumerate(choice) for other, begun in enumerate(choice) if other != host)

    choices = [choice for choice in itertools.product(*map(runs_of, steps)) if overlap(choice)]
    assert choices, "they must have held at once exactly if such runs are there"
    least = [min(runs) for runs in zip(*choices)]
    assert tuple(least) in choices, "there are least runs"
    return least


def told(form: str, log: list[Event], watched: list[Watched], steps: list[list[Step]]) -> Answer:
    lines = ["definitely"]
    for (name, _, _), lane, run in zip(watched, steps, least_runs(steps)):
        begin = lane[run.begin].at
        line = asked.line_of(form, begin)
        until = "line %d on" % line
        if run.over is not None:
            until = "lines %d to %d" % (line, asked.line_of(form, lane[run.over].at))
        lines.append("%s %s %s" % (name, until, log[begin][2]))
    return Answer(0, "".join(line + "\n" for line in lines))


def first_certain(log: list[Event], watched: list[Watched]) -> int | None:
    """After how many events it is known that the conditions must hold at once, whatever follows."""
    return next((count for count in range(1, len(log) + 1) if is_known(steps_of(log[:count], watched))), None)


def decided(form: str, log: list[Event], words: list[str], watched: list[Watched]) -> Answer:
    count = first_certain(log, watched)
    if count is not None:
        return told(form, log, watched, steps_of(log[:count], watched))
    steps = steps_of(log, watched)
    if must_hold(steps):
        return told(form, log, watched, steps)
    answer = expected(form, log, words, watched)
    if earliest(log, watched) is None:
        return answer
    return Answer(1, answer.output.replace("found\n", "possibly\n", 1))


def small(rng: random.Random) -> tuple[list[Event], list[str]]:
    """A log of at most five hosts, and those with a condition."""
    names = ["a", "b", "c", "d", "e"][: rng.randint(1, 5)]
    log = list(events(rng, names, rng.randint(0, 18), WORDS))
    log = in_other_order(rng, without_some(rng, log, rng.choice([0, 0, 0.3])))
    return log, rng.sample(names, rng.randint(1, min(4, len(names))))


def compare(program: Word, rng: random.Random) -> str:
    log, names = small(rng)
    form = asked.form(rng)
    words, watched = conditions(rng, names)
    wanted = decided(form, log, words, watched)
    got = asked.answer_to(program, ["--definitely", "--form", form, *words], text_of(form, log))
    assert got == wanted, asked.difference(words, text_of(form, log), got, wanted)
    return wanted.output.partition("\n")[0] or "no host"
