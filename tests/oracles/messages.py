"""Logs without clocks, with the answers to the same log with clocks.

The clocks are counted here, for each event from the set of those that happened before it. In the place of a line that
waits to the end the log with clocks has one of a host that no question asks about. Where lines wait, and there is no
moment without them, the answer isn't known: the line is named whose message no line sends, or the first of all."""
import json
import random

from programs import Answer, Word
from trace_logs import Clock, Exchange, Id, in_other_order, without_some

from . import asked
from .hosts import WORDS, conditions

KINDS = frozenset([*asked.STATUSES, "unknown", "sent twice"])


def computation(rng: random.Random, names: list[str], turns: int) -> list[Exchange]:
    """Events as they happen: (host, text, the ids that are received, the ids that are sent)."""
    sent: list[Id] = []
    events: list[Exchange] = []
    for _ in range(turns):
        host = rng.choice(names)
        received: list[Id] = []
        while sent and rng.random() < 0.4:
            received.append(rng.choice(sent))
        if rng.random() < 0.03:
            received.insert(rng.randint(0, len(received)), "lost")
        ids: list[Id] = []
        while rng.random() < 0.35:
            number = len(sent) + len(ids)
            ids.append(number if rng.random() < 0.3 else "m%d" % number)
        events.append((host, rng.choice(WORDS), received, ids))
        sent += ids
    return events


def line_of(rng: random.Random, event: Exchange) -> str:
    """An event as a JSON line. A whole number counts as the text of its digits, and one id may stand alone."""
    host, text, received, sent = event
    members: dict[str, object] = {"host": host, "event": text}
    for name, given in ("recv", received), ("send", sent):
        ids = [str(one) if rng.random() < 0.2 else one for one in given]
        if ids:
            members[name] = ids[0] if len(ids) == 1 and rng.random() < 0.7 else ids
        elif rng.random() < 0.1:
            members[name] = rng.choice([[], None])
    items = list(members.items())
    rng.shuffle(items)
    return json.dumps(dict(items))


def ordered(log: list[Exchange]) -> set[int]:
    """The places of the events that can be ordered: those whose host's events before can be, and each event that sends
    what they receive."""
    senders = {str(name): at for at, event in enumerate(log) for name in event[3]}
    found: set[int] = set()
    while True:
        more = {
            at
            for at, (host, _, received, _) in enumerate(log)
            if at not in found
            and all(before in found for before in range(at) if log[before][0] == host)
            and all(senders.get(str(one)) in found for one in received)
        }
        if not more:
            return found
        found |= more


def clocks(log: list[Exchange], found: set[int]) -> dict[int, Clock]:
    """The clock of each event that can be ordered: of each host how many of its events happened before, or are it."""
    senders = {str(name): at for at, event in enumerate(log) for name in event[3]}
    pasts: dict[int, set[int]] = {}

    def past(at: int) -> set[int]:
        if at not in pasts:
            host, _, received, _ = log[at]
            before = [other for other in range(at) if log[other][0] == host][-1:]
            before += [senders[str(one)] for one in received]
            pasts[at] = {at}.union(*[past(other) for other in before])
        return pasts[at]

    answers: dict[int, Clock] = {}
    for at in found:
        answers[at] = {}
        for other in past(at):
            answers[at][log[other][0]] = answers[at].get(log[other][0], 0) + 1
    return answers


def with_clocks(log: list[Exchange]) -> tuple[str, list[int]]:
    """The log as JSON lines with clocks, and the places of the lines that wait to the end."""
    found = ordered(log)
    known = clocks(log, found)
    lines, waits = [], []
    for at, (host, text, _, _) in enumerate(log):
        if at in found:
            lines.append({"host": host, "clock": known[at], "event": text})
        else:
            waits.append(at)
            lines.append({"host": "nobody", "clock": {"nobody": len(waits)}, "event": "waits"})
    return "".join(json.dumps(line) + "\n" for line in lines), waits


def unknown(log: list[Exchange], waits: list[int]) -> Answer:
    """The answer where these lines of the log wait."""
    sent = {str(name) for event in log for name in event[3]}
    heads: dict[str, int] = {}
    for at in waits:
        heads.setdefault(log[at][0], at)
    lost = {at: [one for one in log[at][2] if str(one) not in sent] for at in heads.values()}
    first = min([at for at in lost if lost[at]] or lost)
    known = ordered(log)
    senders = {str(name): at for at, event in enumerate(log) for name in event[3]}
    late = [one for one in log[first][2] if senders.get(str(one)) not in known]
    name = (lost[first] or late)[0]
    return Answer(2, "unknown\nline %d waits for %s\nlines that wait: %d\n" % (first + 1, name, len(waits)))


def assumed(log: list[Exchange]) -> list[Exchange]:
    """The log in which nothing is received that no event sends."""
    sent = {str(name) for event in log for name in event[3]}
    return [
        (host, text, [one for one in received if str(one) in sent], ids) for host, text, received, ids in log
    ]


def random_log(rng: random.Random) -> tuple[list[str], list[Exchange]]:
    """The lines of the hosts in any order, each host's in its own, and some of them lost."""
    names = ["a", "b", "c", "d", "e", "f"][: rng.randint(2, 6)]
    log = computation(rng, names, rng.randint(0, 24))
    log = without_some(rng, log, rng.choice([0, 0, 0.05, 0.3]))
    return names, list(in_other_order(rng, log))


def with_second_send(rng: random.Random, log: list[Exchange]) -> str | None:
    """The log with an id that is sent a second time, and the fault; None where no id is sent."""
    sends = [at for at, event in enumerate(log) if event[3]]
    if not sends or len(log) < 2:
        return None
    first = rng.choice(sends)
    again = rng.randrange(first, len(log))
    host, text, received, ids = log[again]
    name = rng.choice(log[first][3])
    log[again] = host, text, received, ids + [name]
    return 'line %d: twice: "%s" is sent a second time, first in line %d' % (again + 1, name, first + 1)


def wanted_of(program: Word, words: list[str], log: list[Exchange]) -> tuple[Answer, bool]:
    """The answer to the same log with clocks; and whether it isn't known without the lines that wait."""
    same, waits = with_clocks(log)
    wanted = asked.answer_to(program, ["--form", "lines", *words], same)
    isnt_known = bool(waits) and wanted.status != 0
    return (unknown(log, waits) if isnt_known else wanted), isnt_known


def compare_twice(program: Word, rng: random.Random, log: list[Exchange], fault: str) -> str:
    """Compares the fault of a log in which an id is sent twice."""
    text = "".join(line_of(rng, event) + "\n" for event in log)
    words = ["--form", "messages", "--while", log[0][0] + "=no event says this"]
    got, wanted = asked.answer_to(program, words, text), Answer(2, "", f"wcptrace: {fault}\n")
    assert got == wanted, asked.difference(words, text, got, wanted)
    return "sent twice"


def compare(program: Word, rng: random.Random) -> str:
    names, log = random_log(rng)
    second = with_second_send(rng, log) if rng.random() < 0.1 else None
    if second is not None:
        return compare_twice(program, rng, log, second)
    text = "".join(line_of(rng, event) + "\n" for event in log)
    words, _ = conditions(rng, rng.sample(names, rng.randint(1, len(names))))
    compare_with(program, [*words, "--assume-sent"], text, wanted_of(program, words, assumed(log))[0])
    wanted, isnt_known = wanted_of(program, words, log)
    compare_with(program, words, text, wanted)
    return "unknown" if isnt_known else asked.STATUSES[wanted.status]


def compare_with(program: Word, words: list[str], text: str, wanted: Answer) -> None:
    got = asked.answer_to(program, ["--form", "messages", *words], text)
    assert got == wanted, asked.difference(words, text, got, wanted)
