"""Questions about any two hosts, with each choice of events of each two hosts tried; and, of twelve hosts, with a
question about each two of them.

Which two hosts are told, and by which event, is found by trying each prefix of the log. The hosts of a log come late
where their first lines stand behind those of others."""
import itertools
import random

from programs import Answer, Word
from trace_logs import Event, events, in_other_order, text_of, without_some

from . import asked
from .hosts import WORDS, Holds, between, earliest, first_known

KINDS = frozenset(asked.STATUSES)
HOSTS = {"^a": "a", "^[ab]": "ab", "[0-9]$": "abxy", "^[^x]": "aby", "^z": ""}


def condition(rng: random.Random, hosts: str) -> tuple[list[str], Holds, bool]:
    """The words of the command line, what holds at which of a host's events, and whether it lasts."""
    if rng.random() < 0.4:
        words = ["--any-two-from", hosts + "=takes|busy", "--any-two-until", "gives|idle"]
        return words, between, True
    return ["--any-two", hosts + "=idle"], (lambda texts: ["idle" in text for text in texts]), True


def in_order(log: list[Event], begins: str) -> list[str]:
    """The hosts that match, in the order of their first events."""
    return [name for name in dict.fromkeys(event[0] for event in log) if name[0] in begins]


def first_two_known(log: list[Event], names: list[str], holds: Holds, lasts: bool) -> tuple[
        int | None, dict[tuple[str, str], int | None]]:
    """After how many events the moment of two hosts is known first, None where the end of the log is needed; and after
    how many that of each two."""
    pairs = itertools.combinations(names, 2)
    known = {pair: first_known(log, [(name, holds, lasts) for name in pair]) for pair in pairs}
    return min((count for count in known.values() if count is not None), default=None), known


def answer(log: list[Event], names: list[str], holds: Holds, lasts: bool) -> tuple[tuple[str, str], list[int]] | None:
    """The two hosts of the moment that is told, and the places of its events in the log; or None."""
    first, known = first_two_known(log, names, holds, lasts)
    for pair, count in known.items():
        if count != first:
            continue
        moment = earliest(log[:first], [(name, holds, lasts) for name in pair])
        if moment is not None:
            return pair, moment
    return None


def expected(form: str, log: list[Event], hosts: str, begins: str, holds: Holds, lasts: bool) -> Answer:
    names = in_order(log, begins)
    if not names:
        return Answer(2, "", "wcptrace: nohost %s\n" % hosts)
    found = answer(log, names, holds, lasts)
    lines = ["found" if found else "none"]
    if found:
        lines += ["%s line %d %s" % (name, asked.line_of(form, at), log[at][2]) for name, at in zip(*found)]
    else:
        for name in names:
            held = holds([event[2] for event in log if event[0] == name])
            lines.append("%s events %d matched %d" % (name, len(held), sum(held)))
    return Answer(0 if found else 1, "".join(line + "\n" for line in lines))


def one_after_another(rng: random.Random, log: list[Event]) -> list[Event]:
    """The same events with some hosts late: the lines of a host may stand behind all of those before it."""
    hosts = sorted({event[0] for event in log})
    late = set(rng.sample(hosts, min(len(hosts), rng.randint(0, 2))) if len(log) > 8 else [])
    return [event for event in log if event[0] not in late] + [event for event in log if event[0] in late]


def small(rng: random.Random) -> list[Event]:
    """A log of two to six hosts."""
    names = rng.sample(["a1", "a2", "a3", "b1", "b2", "x1", "x2", "y1"], rng.randint(2, 6))
    log = list(events(rng, names, rng.randint(0, 24), WORDS))
    log = in_other_order(rng, without_some(rng, log, rng.choice([0, 0, 0.3])))
    return one_after_another(rng, log) if rng.random() < 0.5 else log


def run(program: Word, words: list[str], log: list[Event], form: str) -> Answer:
    return asked.answer_to(program, ["--form", form, *words], text_of(form, log))


def check_each_two(program: Word, rng: random.Random) -> None:
    """Twelve hosts, which hold a lease now and then: the answer is one of those to each two of them, and the first."""
    names = ["host%d" % number for number in range(12)]
    words = ["holds the lease"] + ["works"] * rng.choice([8, 30, 90])
    log = list(events(rng, names, rng.randint(50, 400), words))
    got = run(program, ["--any-two", "^host=^holds"], log, "lines")
    pairs = list(itertools.combinations(in_order(log, "h"), 2))
    single = [run(program, ["--while", first + "=^holds", "--while", second + "=^holds"], log, "lines")
              for first, second in pairs]

    def holds(texts: list[str]) -> list[bool]:
        return [text.startswith("holds") for text in texts]

    known = [first_known(log, [(name, holds, True) for name in pair]) if one.status == 0 else None
             for pair, one in zip(pairs, single)]
    counts = [count for count in known if count is not None]
    moments = [one for one, count in zip(single, known) if one.status == 0 and (not counts or count == min(counts))]
    if moments:
        assert got == moments[0], (log, got, moments[0])
    else:
        assert got.status == 1 and got.output.startswith("none\n"), (log, got)


def compare(program: Word, rng: random.Random) -> str:
    if rng.random() < 0.01:
        check_each_two(program, rng)
        return "twelve hosts"
    log, form, hosts = small(rng), asked.form(rng), rng.choice(list(HOSTS))
    words, holds, lasts = condition(rng, hosts)
    wanted = expected(form, log, hosts, HOSTS[hosts], holds, lasts)
    got = run(program, words, log, form)
    assert got == wanted, asked.difference(words, text_of(form, log), got, wanted)
    return asked.STATUSES[wanted.status]
