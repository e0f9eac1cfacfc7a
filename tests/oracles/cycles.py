"""Faults of clocks, in logs with one forged number, by their definition; and what is said of events that forget, in
logs whose hosts pass over what some messages know. Honest logs are read too, and have no fault."""
import random

from programs import Word, ask
from trace_logs import Clock, Event, events, in_other_order, text_of, without_some

from . import asked

KINDS = frozenset(["honest", "order", "falls", "forged, and no fault", "forgets", "forgets nothing"])


def fault_of(log: list[Event]) -> tuple[int, str] | None:
    """The place and the kind of the first fault of a log, or None."""
    last: dict[str, Clock] = {}
    for at, (host, clock, _) in enumerate(log):
        own, before = clock.get(host, 0), last.get(host, {})
        if own == 0:
            return at, "own"
        if own <= before.get(host, 0):
            return at, "order"
        if any(clock.get(name, 0) < number for name, number in before.items()):
            return at, "falls"
        others = [(name, last[name]) for name in clock if name != host and name in last]
        if any(known[name] <= clock[name] and own <= known.get(host, 0) for name, known in others):
            return at, "cycle"
        last[host] = clock
    return None


def forgotten_in(log: list[Event]) -> list[tuple[int, int]]:
    """The places of the events that know the last event of another host, but not all that this knew, each with the
    first place of such an event. Only numbers count that are others than in the clock of the host's event before."""
    last: dict[str, tuple[int, Clock]] = {}
    found = []
    for at, (host, clock, _) in enumerate(log):
        before: Clock = last[host][1] if host in last else {}
        learned = [name for name in clock if before.get(name) != clock[name]]
        for name in learned:
            if name == host or name not in last or last[name][1][name] != clock[name]:
                continue
            if any(clock.get(one, 0) < number for one, number in last[name][1].items()):
                found.append((at, last[name][0]))
                break
        last[host] = at, clock
    return found


def forgetting(rng: random.Random, log: list[Event]) -> list[Event]:
    """The log as hosts write it that take over the sender's own number alone of some messages."""
    clocks: dict[str, Clock] = {}
    written = []
    for host, clock, text in log:
        mine = dict(clocks.get(host, {}))
        if text.startswith("gets") and rng.random() < 0.8:
            risen = [name for name in clock if name != host and clock[name] > mine.get(name, 0)]
            for name in rng.sample(risen, min(rng.randint(1, 2), len(risen))):
                mine[name] = clock[name]
        else:
            for name, number in clock.items():
                mine[name] = max(number, mine.get(name, 0))
        mine[host] = clock[host]
        clocks[host] = mine
        written.append((host, mine, text))
    return written


def forged(rng: random.Random, log: list[Event]) -> list[Event]:
    """The log with another number in one clock."""
    at = rng.randrange(len(log))
    host, clock, text = log[at]
    name = rng.choice(sorted({event[0] for event in log}))
    clock = dict(clock)
    clock[name] = rng.randint(0, 6) if rng.random() < 0.5 else clock.get(name, 0) + rng.randint(1, 3)
    return log[:at] + [(host, clock, text)] + log[at + 1 :]


def spelled(rng: random.Random, log: list[Event]) -> list[Event]:
    """The same clocks with every name in each, or with the names in any order."""
    names = sorted({event[0] for event in log})
    if rng.random() < 0.5:
        return [(host, {name: clock.get(name, 0) for name in names}, text) for host, clock, text in log]
    return [(host, dict(rng.sample(sorted(clock.items()), len(clock))), text) for host, clock, text in log]


def clock_line(form: str, at: int) -> int:
    """The line of the clock of the event at this place."""
    return {"lines": at + 1, "shiviz": 2 * at + 1, "shiviz-reversed": 2 * at + 2}[form]


def compare_forgotten(program: Word, rng: random.Random) -> str:
    """Compares what is said of events that forget, and which of them `--check` refuses."""
    names = ["a", "b", "c", "d", "e", "f"][: rng.randint(3, 6)]
    honest = list(events(rng, names, rng.randint(10, 80), ["works"]))
    log = spelled(rng, forgetting(rng, honest) if rng.random() < 0.8 else honest)
    if fault_of(log):
        return "a fault"
    form = asked.form(rng)
    lines = [(asked.line_of(form, at), asked.line_of(form, first)) for at, first in forgotten_in(log)]
    words = ["--form", form, "--while", log[0][0] + "=never"]
    got = ask(program, words, text_of(form, log))
    said = [line for line in got.errors.splitlines() if "not all that this knew" in line]
    wanted = [": %d, first line %d of line %d;" % (len(lines), *lines[0])] if lines else []
    assert got.status == 1 and len(said) == len(wanted), (form, log, wanted, got)
    assert all(one in line for one, line in zip(wanted, said)), (form, log, wanted, said)
    got = ask(program, [*words, "--check"], text_of(form, log))
    fault = "line %d: forgets: it knows the event of line %d," % lines[0] if lines else ""
    assert got.status == (2 if lines else 1) and fault in got.errors, (form, log, fault, got)
    return "forgets" if lines else "forgets nothing"


def compare_fault(program: Word, rng: random.Random) -> str:
    """Compares the first fault of a log in which a clock is forged, or of an honest one."""
    names = ["a", "b", "c", "d", "e"][: rng.randint(2, 5)]
    honest = without_some(rng, list(events(rng, names, rng.randint(2, 24), ["works"])), rng.choice([0, 0, 0.3]))
    honest = in_other_order(rng, honest)
    is_forged = bool(honest) and rng.random() < 0.8
    log = spelled(rng, forged(rng, honest) if is_forged else honest)
    form = asked.form(rng)
    got = ask(program, ["--form", form, "--while", "nobody=x"], text_of(form, log))
    fault = fault_of(log)
    assert is_forged or fault is None, log
    said = got.errors.partition("\n")[0].removeprefix("wcptrace: ").split(": ")
    wanted = ["line %d" % clock_line(form, fault[0]), fault[1]] if fault else ["nohost nobody"]
    if not log:
        wanted = ["the log has no event"]
    assert got.status == 2 and said[: len(wanted)] == wanted, (form, log, wanted, got)
    if fault:
        return fault[1]
    return "forged, and no fault" if is_forged else "honest"


def compare(program: Word, rng: random.Random) -> str:
    return rng.choice([compare_fault, compare_forgotten])(program, rng)
