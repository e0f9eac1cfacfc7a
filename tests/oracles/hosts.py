"""Questions about named hosts, with each choice of one event of each host tried."""
import itertools
import random
from collections.abc import Callable

from programs import Answer, Word
from trace_logs import Event, Host, events, in_other_order, text_of, without_some

from . import asked

# At which of a host's events, by their texts, its condition holds.
Holds = Callable[[list[str]], list[bool]]
# A host with a condition, and whether its state lasts until the next event.
Watched = tuple[str, Holds, bool]

KINDS = frozenset(asked.STATUSES)
WORDS = ["idle", "busy", "takes it", "gives it", "idle again"]


def conditions(rng: random.Random, names: list[str]) -> tuple[list[str], list[Watched]]:
    """The words of the command line, and for each watched host (name, what holds at which of its events, whether it
    lasts)."""
    words: list[str] = []
    watched: list[Watched] = []
    kinds = sorted((rng.choice(["while", "from", "at"]) for _ in names), key=["while", "from", "at"].index)
    for name, kind in zip(names, kinds):
        if kind == "from":
            words += ["--from", name + "=takes|busy", "--until", name + "=gives|idle"]
            watched.append((name, between, True))
        else:
            words += ["--" + kind, name + "=idle"]
            watched.append((name, lambda texts: ["idle" in text for text in texts], kind == "while"))
    return words, watched


def between(texts: list[str]) -> list[bool]:
    held, answers = False, []
    for text in texts:
        begins = "takes" in text or "busy" in text
        ends = "gives" in text or "idle" in text
        held = not ends if held else begins
        answers.append(held)
    return answers


def earliest(log: list[Event], watched: list[Watched]) -> list[int] | None:
    """The places in the log of the events of the earliest moment, or None."""
    states = []
    for name, holds, lasts in watched:
        mine = [at for at, event in enumerate(log) if event[0] == name]
        held = holds([log[at][2] for at in mine])
        # an event, and from which of the host's own numbers on another one knows that its state is over
        over: list[int | None] = [log[at][1][name] for at in mine]
        over = over[1:] + [None] if lasts else over
        states.append([(at, end) for at, end, holding in zip(mine, over, held) if holding])
    moments = [
        [at for at, _ in choice]
        for choice in itertools.product(*states)
        if not any(
            end is not None and end <= log[other][1].get(name, 0)
            for place, ((_, end), (name, _, _)) in enumerate(zip(choice, watched))
            for other in [at for at, _ in choice[:place] + choice[place + 1 :]]
        )
    ]
    if not moments:
        return None
    least = [min(places) for places in zip(*moments)]
    assert least in moments, "there is an earliest moment"
    return least


def expected(form: str, log: list[Event], words: list[str], watched: list[Watched]) -> Answer:
    for name, holds, _ in watched:
        if not any(event[0] == name for event in log):
            return Answer(2, "", "wcptrace: nohost %s\n" % name)
    found = earliest(log, watched)
    lines = ["found" if found else "none"]
    for place, (name, holds, _) in enumerate(watched):
        texts = [event[2] for event in log if event[0] == name]
        if found:
            at = found[place]
            lines.append("%s line %d %s" % (name, asked.line_of(form, at), log[at][2]))
        else:
            lines.append("%s events %d matched %d" % (name, len(texts), sum(holds(texts))))
    return Answer(0 if found else 1, "".join(line + "\n" for line in lines))


def is_known(log: list[Event], watched: list[Watched]) -> bool:
    """Whether the earliest moment of a log stays the earliest whatever follows: no later event of a host can end its
    state before another state of the moment begins."""
    moment = earliest(log, watched)
    if moment is None:
        return False
    for (name, _, lasts), at in zip(watched, moment):
        is_last = not any(event[0] == name for event in log[at + 1 :])
        if lasts and is_last and any(log[other][1].get(name, 0) > log[at][1][name] for other in moment if other != at):
            return False
    return True


def first_known(log: list[Event], watched: list[Watched]) -> int | None:
    """After how many events the moment is known; None where the end of the log is needed."""
    return next((count for count in range(1, len(log) + 1) if is_known(log[:count], watched)), None)


def small(rng: random.Random) -> tuple[list[Event], list[str]]:
    """A log of at most six hosts, and those with a condition."""
    names = ["a", "b", "c", "d", "e", "f"][: rng.randint(1, 6)]
    log = list(events(rng, names, rng.randint(0, 24), WORDS))
    log = in_other_order(rng, without_some(rng, log, rng.choice([0, 0, 0.3])))
    return log, rng.sample(names, rng.randint(1, len(names)))


def wide(rng: random.Random) -> tuple[list[Event], list[str]]:
    """A log of two hundred hosts with a condition each, of which a few have more than one event."""
    hosts = [Host("h%d" % number) for number in range(200)]
    first, *others = rng.sample(hosts, len(hosts))
    log = [first.event("takes it, idle")]
    log += [host.event("takes it, idle", dict(first.clock) if rng.random() < 0.005 else None) for host in others]
    for _ in range(rng.randint(0, 6)):
        sender, receiver = rng.sample(hosts, 2)
        log.append(receiver.event(rng.choice(["idle again", "takes it, idle"]), dict(sender.clock)))
    return log, [host.name for host in rng.sample(hosts, len(hosts))]


def compare(program: Word, rng: random.Random) -> str:
    log, names = wide(rng) if rng.random() < 0.01 else small(rng)
    form = asked.form(rng)
    words, watched = conditions(rng, names)
    wanted = expected(form, log, words, watched)
    got = asked.answer_to(program, ["--form", form, *words], text_of(form, log))
    assert got == wanted, asked.difference(words, text_of(form, log), got, wanted)
    return asked.STATUSES[wanted.status]
