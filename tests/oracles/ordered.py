"""Schedules of `--order`: all events that lead to a moment, worked out from the clocks alone.

Each whole output is compared. Beside that each schedule that is written is read back, and looked up in the clocks."""
import random
from typing import NamedTuple

from programs import Answer, Word
from trace_logs import Clock, Event, in_other_order, text_of

from . import any_two, asked, hosts

KINDS = frozenset([*asked.STATUSES, "no order"])
NO_ORDER = "wcptrace: line %d: an event counts this one, and no more events than this one does\n"


def counts(event: Event, other: Event) -> bool:
    """Whether an event counts another one: this happened before it, or is it."""
    name, clock, _ = other
    return event[1].get(name, 0) >= clock[name]


def past(log: list[Event], moment: list[int]) -> list[int]:
    """The places of the events that happened before those of a moment, and of these, as the log has them."""
    return [at for at, event in enumerate(log) if any(counts(log[member], event) for member in moment)]


def schedule(log: list[Event], moment: list[int]) -> list[int]:
    """The past of a moment by how many events each one counts."""
    return sorted(past(log, moment), key=lambda at: sum(log[at][1].values()))


def first_late(log: list[Event], order: list[int]) -> int | None:
    """The first event of an order that an earlier one counts, if there is one."""
    return next((at for place, at in enumerate(order)
                 if any(counts(log[earlier], log[at]) for earlier in order[:place])), None)


def in_order(form: str, log: list[Event], moment: list[int], answer: Answer) -> Answer:
    """An answer `found`, with the schedule of the moment, of the events that were read, in place of its lines."""
    order = schedule(log, moment)
    late = first_late(log, order)
    if late is not None:
        return Answer(2, "", NO_ORDER % asked.line_of(form, late))
    lines = ["%s line %d %s\n" % (log[at][0], asked.line_of(form, at), log[at][2]) for at in order]
    behind = answer.output.splitlines(keepends=True)[1 + len(moment):]
    return answer._replace(output="".join(["found\n", *lines, *behind]))


def bad_schedule(form: str, log: list[Event], moment: list[int], lines: list[str]) -> str | None:
    """What is wrong with the lines of a schedule, if anything is."""
    place_of = {"%s line %d %s" % (event[0], asked.line_of(form, at), event[2]): at for at, event in enumerate(log)}
    if not all(line in place_of for line in lines):
        return "a line is of no event"
    order = [place_of[line] for line in lines]
    if len(set(order)) < len(order):
        return "an event stands there twice"
    if set(order) != set(past(log, moment)):
        return "these aren't the events that lead to the moment"
    if first_late(log, order) is not None:
        return "an event stands behind one that counts it"
    last = {log[at][0]: at for at in order}
    if any(last[log[member][0]] != member for member in moment):
        return "a member isn't the last event of its host"
    return None


def forgetful(rng: random.Random, log: list[Event]) -> list[Event]:
    """The same events, of which some forget a part of what they have learned of other hosts."""
    told: list[Event] = []
    known: dict[str, Clock] = {}
    for name, clock, text in log:
        before = known.get(name, {})
        kept = {other: before.get(other, 0) if other != name and rng.random() < 0.5 else number
                for other, number in clock.items()}
        known[name] = {other: number for other, number in kept.items() if number}
        told.append((name, known[name], text))
    return told


class Case(NamedTuple):
    """A log, the words that ask, the answer without a schedule, after how many events it is known, and where the moment
    is."""
    log: list[Event]
    words: list[str]
    plain: Answer
    known: int | None
    moment: list[int]


def drawn(rng: random.Random, log: list[Event]) -> list[Event]:
    return forgetful(rng, log) if rng.random() < 0.5 else log


def of_hosts(rng: random.Random, form: str) -> Case:
    """A question about hosts by their names."""
    log, names = hosts.small(rng)
    log = drawn(rng, log)
    words, watched = hosts.conditions(rng, names)
    plain = hosts.expected(form, log, words, watched)
    moment = hosts.earliest(log, watched) if plain.status == 0 else None
    return Case(log, words, plain, hosts.first_known(log, watched), moment or [])


def of_two(rng: random.Random, form: str) -> Case:
    """A question about any two hosts."""
    log, asks = drawn(rng, any_two.small(rng)), rng.choice(list(any_two.HOSTS))
    begins = any_two.HOSTS[asks]
    words, holds, lasts = any_two.condition(rng, asks)
    plain = any_two.expected(form, log, asks, begins, holds, lasts)
    names = any_two.in_order(log, begins)
    found = any_two.answer(log, names, holds, lasts)
    known, _ = any_two.first_two_known(log, names, holds, lasts)
    return Case(log, words, plain, known, found[1] if found else [])


def of_one(rng: random.Random, form: str) -> Case:
    """A question about a host that counts an event, and none of those that this one counts."""
    works = rng.randint(0, 3)
    log = [("c", {"c": number + 1}, "works") for number in range(works)]
    log.append(("b", {"b": 1, "c": works} if works else {"b": 1}, "sends a message"))
    log = in_other_order(rng, [*log, ("a", {"a": 1, "b": 1}, "is idle")])
    words, watched = hosts.conditions(rng, ["a"])
    plain = hosts.expected(form, log, words, watched)
    return Case(log, words, plain, hosts.first_known(log, watched), hosts.earliest(log, watched) or [])


def compare(program: Word, rng: random.Random) -> str:
    form = asked.form(rng)
    case = rng.choices([of_hosts, of_two, of_one], [5, 3, 2])[0](rng, form)
    log, read = text_of(form, case.log), case.log[:case.known]
    wanted = in_order(form, read, case.moment, case.plain) if case.plain.status == 0 else case.plain
    got = asked.answer_to(program, ["--order", "--form", form, *case.words], log)
    assert got == wanted, asked.difference(case.words, log, got, wanted)
    if got.status == 0:
        bad = bad_schedule(form, read, case.moment, got.output.splitlines()[1:])
        assert bad is None, asked.difference(case.words, log, got, bad)
    return "no order" if "counts this one" in got.errors else asked.STATUSES[got.status]
