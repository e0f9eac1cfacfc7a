"""Each sentence of `--explain`, looked up in the log.

Where there is a moment the sentences are worked out from the log alone, of the events that were read until it was
known. Where there is none, each is looked up: the state, the event at which it is over, what that event knows, and that
each state before that event is ruled out too; and they are the states of one host, each once and in their order."""
import random
import re

from programs import Answer, Word
from trace_logs import Event, events, in_other_order, text_of, without_some

from . import asked
from .hosts import WORDS, Watched, conditions, earliest, expected, first_known

KINDS = frozenset(asked.STATUSES)
OVER = re.compile(r"(\w+) line (\d+) is over at line (\d+) of (\w+), which knows (\w+) up to line (\d+)")


class Read:
    """The events of a log that were read, as a reader of the page sees them."""

    def __init__(self, form: str, log: list[Event], watched: list[Watched]) -> None:
        self.log, self.watched = log, watched
        self.lines = [asked.line_of(form, at) for at in range(len(log))]
        self.mine = {name: [at for at, event in enumerate(log) if event[0] == name] for name, _, _ in watched}
        self.held = {name: dict(zip(self.mine[name], holds([log[at][2] for at in self.mine[name]])))
                     for name, holds, _ in watched}
        self.lasts = {name: lasts for name, _, lasts in watched}

    def number(self, at: int, name: str) -> int:
        return self.log[at][1].get(name, 0)

    def known(self, at: int, name: str) -> int | None:
        """The line of the last event of a host that an event knows."""
        known = [other for other in self.mine[name] if self.number(other, name) <= self.number(at, name)]
        return self.lines[known[-1]] if known else None

    def is_over(self, name: str, at: int, other: int) -> bool:
        """Whether the state that begins with an event is over at one of another host."""
        mine = self.mine[name]
        ends = mine[mine.index(at) + 1 :] if self.lasts[name] else [at]
        return bool(ends) and self.number(ends[0], name) <= self.number(other, name)

    def states(self, name: str) -> list[int]:
        return [at for at in self.mine[name] if self.held[name][at]]

    def ruled_out(self) -> set[int]:
        """The states that elimination rules out, in any order."""
        left = {name: self.states(name) for name in self.mine}
        out: set[int] = set()
        while True:
            firsts = {name: states[0] for name, states in left.items() if states}
            over = [(name, at) for name, at in firsts.items() for other in firsts
                    if name != other and self.is_over(name, at, firsts[other])]
            if not over:
                return out
            out.add(over[0][1])
            left[over[0][0]].pop(0)

    def span(self, name: str, at: int) -> str:
        mine, held = self.mine[name], self.held[name]
        if not self.lasts[name]:
            return "%s's state is the event at line %d" % (name, self.lines[at])
        begun = ended = mine.index(at)
        while begun > 0 and held[mine[begun - 1]]:
            begun -= 1
        while ended < len(mine) and held[mine[ended]]:
            ended += 1
        until = "until line %d" % self.lines[mine[ended]] if ended < len(mine) else "on"
        return "%s's condition holds from line %d %s" % (name, self.lines[mine[begun]], until)

    def pair(self, name: str, at: int, other: str) -> str:
        known = self.known(at, other)
        about = "knows %s up to line %d" % (other, known) if known else "knows no line of %s" % other
        return "%s at line %d %s" % (name, self.lines[at], about)

    def why_found(self, moment: list[int]) -> list[str]:
        names = [name for name, _, _ in self.watched]
        said = ["why:"] + [self.span(name, at) for name, at in zip(names, moment)]
        return said + [self.pair(name, at, other)
                       for name, at in zip(names, moment) for other in names if other != name]

    def bad_none(self, said: list[str]) -> str | None:
        """What is wrong with the sentences of a log without a moment, if anything is."""
        if said[0].endswith("'s condition holds at no event"):
            name = said[0][len("why: ") : -len("'s condition holds at no event")]
            return "it holds" if self.states(name) or len(said) > 1 else None
        head = re.fullmatch("why: no state of (.*) is left", said[0])
        matches = [match for match in map(OVER.fullmatch, said[1:]) if match]
        if head is None or len(matches) < len(said[1:]):
            return "no sentence of this kind"
        name = head[1]
        states = self.states(name)
        if not states or [self.lines[at] for at in states] != [int(match[2]) for match in matches]:
            return "not each state once"
        out = self.ruled_out()
        for state, match in zip(states, matches):
            first, _, at_line, other, second, known = match.groups()
            at = self.lines.index(int(at_line))
            if not first == second == name != other or at not in self.states(other):
                return "line %s is no state of another host" % at_line
            if not self.is_over(name, state, at) or self.known(at, name) != int(known):
                return "the state of line %d isn't over so" % self.lines[state]
            if not all(before in out for before in self.states(other) if before < at):
                return "a state before line %s is left" % at_line
        return None


def case(rng: random.Random) -> tuple[list[Event], list[str]]:
    names = ["a", "b", "c", "d", "e", "f"][: rng.randint(2, 6)]
    log = list(events(rng, names, rng.randint(1, 40), WORDS))
    log = in_other_order(rng, without_some(rng, log, rng.choice([0, 0, 0.3])))
    logging = sorted({event[0] for event in log})
    names = logging if len(logging) > 1 and rng.random() < 0.9 else names
    return log, rng.sample(names, rng.randint(2, min(4, len(names))))


def difference(form: str, log: list[Event], words: list[str], watched: list[Watched], got: Answer) -> str | None:
    """How an answer differs from what is wanted; None where it doesn't."""
    status, output, errors = got
    wanted_status, wanted, wanted_errors = expected(form, log, words, watched)
    if (status, errors) != (wanted_status, wanted_errors) or not output.startswith(wanted):
        return "wanted %s" % wanted
    said = output[len(wanted) :].splitlines()
    if status == 2:
        return None if not said else "wanted nothing more"
    moment = earliest(log, watched)
    if moment is None:
        return Read(form, log, watched).bad_none(said)
    known = first_known(log, watched)
    why = Read(form, log if known is None else log[:known], watched).why_found(moment)
    return None if said == why else "wanted %s" % why


def compare(program: Word, rng: random.Random) -> str:
    log, names = case(rng)
    form = asked.form(rng)
    words, watched = conditions(rng, names)
    got = asked.answer_to(program, ["--explain", "--form", form, *words], text_of(form, log))
    bad = difference(form, log, words, watched, got)
    assert bad is None, asked.difference(words, text_of(form, log), got, bad)
    return asked.STATUSES[got.status]
