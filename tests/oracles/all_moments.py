"""Each moment of named hosts, one behind the other, with each choice of events tried behind the last one."""
import random
from collections.abc import Iterator

from programs import Answer, Word
from trace_logs import Event, text_of

from . import asked
from .hosts import Holds, Watched, conditions, earliest, expected, small

KINDS = frozenset(["found", "several", "none", "no host"])


def behind(holds: Holds, name: str, log: list[Event], at: int) -> Holds:
    """The condition of a host, which no longer holds up to the event at this place of the log."""
    passed = sum(event[0] == name for event in log[: at + 1])
    return lambda texts: [held and place >= passed for place, held in enumerate(holds(texts))]


def all_moments(log: list[Event], watched: list[Watched]) -> Iterator[list[int]]:
    """The places of the events of each moment, one behind the other."""
    while (moment := earliest(log, watched)) is not None:
        yield moment
        watched = [(name, behind(holds, name, log, at), lasts) for (name, holds, lasts), at in zip(watched, moment)]


def answer(form: str, log: list[Event], words: list[str], watched: list[Watched]) -> Answer:
    moments = list(all_moments(log, watched))
    if not moments:
        return expected(form, log, words, watched)
    lines = []
    for moment in moments:
        lines.append("found")
        for (name, _, _), at in zip(watched, moment):
            lines.append("%s line %d %s" % (name, asked.line_of(form, at), log[at][2]))
    lines.append("moments %d" % len(moments))
    return Answer(0, "".join(line + "\n" for line in lines))


def compare(program: Word, rng: random.Random) -> str:
    log, _ = small(rng)
    names = sorted({event[0] for event in log}) if log and rng.random() < 0.9 else ["a", "b", "c", "d", "e", "f"]
    words, watched = conditions(rng, rng.sample(names, rng.randint(1, min(4, len(names)))))
    form = asked.form(rng)
    wanted = answer(form, log, words, watched)
    got = asked.answer_to(program, ["--all", "--form", form, *words], text_of(form, log))
    assert got == wanted, asked.difference(words, text_of(form, log), got, wanted)
    return "several" if wanted.output.count("found\n") > 1 else asked.STATUSES[wanted.status]
