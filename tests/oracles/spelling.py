"""Logs that are spelled as other programs write them, with each choice of events tried.

Of a log with a fault, the answer is compared with that of the same log in the form `lines`."""
import json
import random
import re
from collections.abc import Callable, Mapping, Sequence

from programs import Answer, Word
from trace_logs import Event, Written, text_of

from . import asked
from .hosts import conditions, expected, small

KINDS = frozenset([*asked.STATUSES, "a fault"])
JUNK = ["", "=== Execution", "INFO starting up", "{broken", '{"level": "info", "msg": "no event"}', "}", "a {", "[1]"]


class Spelled:
    """A log in another spelling: its lines, the line of each event, the words that read it, and how many lines are
    passed over."""

    def __init__(self, words: list[str]) -> None:
        self.words = words
        self.lines: list[str] = []
        self.places: list[int] = []
        self.skipped = 0

    def add(self, lines: list[str], behind: int) -> None:
        """The lines of an event, whose text begins behind so many of them."""
        self.places.append(len(self.lines) + behind + 1)
        self.lines += lines

    def skip(self, lines: list[str]) -> None:
        self.lines += lines
        self.skipped += len(lines)

    def text(self) -> str:
        return "".join(line + "\n" for line in self.lines)


def timestamps(rng: random.Random, log: Sequence[Written]) -> Spelled:
    """GoVector with timestamps, as TSViz reads it."""
    spelled = Spelled(["--parser", r"(?<timestamp>\d+) (?<host>\S+) (?<clock>{.*})\n(?<event>.*)"])
    for at, (host, clock, text) in enumerate(log):
        spelled.add(["%d %s %s" % (1573430291391000000 + at * rng.randint(1, 9), host, json.dumps(clock)), text], 1)
    return spelled


def merged(rng: random.Random, log: Sequence[Written]) -> Spelled:
    """A merged file of ShiViz, with the parser in its first line, a blank line, and lines between runs."""
    parser = r"(?<host>\S*) (?<clock>{.*})\n(?<event>.*)"
    spelled = Spelled(["--parser", parser, "--skip-unmatched"])
    spelled.skip([parser, ""])
    for host, clock, text in log:
        if rng.random() < 0.3:
            spelled.skip(rng.choices(JUNK, k=rng.randint(1, 3)))
        spelled.add([host + " " + json.dumps(clock), text], 1)
    return spelled


def reversed_lines(rng: random.Random, log: Sequence[Written]) -> Spelled:
    spelled = Spelled(["--parser", r"(?<event>.*)\n(?<host>\S*) (?<clock>{.*})"])
    for host, clock, text in log:
        spelled.add([text, host + " " + json.dumps(clock)], 0)
    return spelled


def one_line(rng: random.Random, log: Sequence[Written]) -> Spelled:
    spelled = Spelled(["--parser", rng.choice([r"^(?<host>\S*) (?<clock>{[^}]*}) (?<event>.*)$",
                                               r"(?<host>[^ ]{1,}) (?<clock>\{.*?\}) (?<event>.*)"])])
    for host, clock, text in log:
        spelled.add(["%s %s %s" % (host, json.dumps(clock), text)], 0)
    return spelled


def three_lines(rng: random.Random, log: Sequence[Written]) -> Spelled:
    """Events in three lines, which the expression may tell, or a word."""
    spelled = Spelled(rng.choice([
        ["--parser", r"^at (?<host>\S+)\n(?<event>.*)\n(?<clock>{.*})$"],
        ["--parser", r"^at (?<host>\S+)\s(?<event>.*)\s(?<clock>{.*})$", "--event-lines", "3"],
    ]))
    if rng.random() < 0.5:
        spelled.words.append("--skip-unmatched")
    for host, clock, text in log:
        if "--skip-unmatched" in spelled.words and rng.random() < 0.3:
            spelled.skip(rng.choices(JUNK, k=rng.randint(1, 4)))
        spelled.add(["at " + host, text, json.dumps(clock)], 1)
    return spelled


def members(rng: random.Random, log: Sequence[Written], words: list[str],
            object_of: Callable[[str, Mapping[str, object], str], Mapping[str, object]]) -> Spelled:
    """A JSON line for each event, perhaps with lines between them that have none."""
    spelled = Spelled(words)
    if rng.random() < 0.5:
        spelled.words.append("--skip-unmatched")
    for event in log:
        if "--skip-unmatched" in spelled.words and rng.random() < 0.3:
            spelled.skip(rng.choices(JUNK, k=rng.randint(1, 3)))
        entries = list(object_of(*event).items())
        rng.shuffle(entries)
        spelled.add([json.dumps(dict(entries))], 0)
    return spelled


def zap(rng: random.Random, log: Sequence[Written]) -> Spelled:
    return members(rng, log, ["--host-field", "logger", "--event-field", "msg"], lambda host, clock, text: {
        "level": "info", "ts": 1573430291.39, "logger": host, "msg": text, "clock": clock})


def ecs(rng: random.Random, log: Sequence[Written]) -> Spelled:
    """The fields of ECS, where a name with dots may stand as it is; the clock is a text."""
    def object_of(host: str, clock: Mapping[str, object], text: str) -> Mapping[str, object]:
        where: dict[str, object] = {"host": {"name": host}} if rng.random() < 0.5 else {"host.name": host}
        labels = {"labels": {"clock": json.dumps(clock), "more": None}}
        return {"@timestamp": "2019-11-10T23:58:11Z", "log.level": "info", "message": text, **where, **labels}
    return members(rng, log, ["--host-field", "host.name", "--clock-field", "labels.clock", "--event-field", "message"],
                   object_of)


SPELLINGS = [timestamps, merged, reversed_lines, one_line, three_lines, zap, ecs]


def damaged(rng: random.Random, log: list[Event]) -> list[Written]:
    """The log, with a number that falls or that is none."""
    at = rng.randrange(len(log))
    host, clock, text = log[at]
    number: object = rng.choice([0, 0, -3, "2", None])
    return [*log[:at], (host, {**clock, rng.choice(sorted(clock)): number}, text), *log[at + 1 :]]


def placed(answer: Answer, places: list[int]) -> Answer:
    """An answer in the form `lines`, with the lines of the events in another spelling."""
    status, output, errors = answer

    def place(found: re.Match[str]) -> str:
        return "%s%d" % (found[1], places[int(found[2]) - 1])

    return Answer(status, re.sub(r"(?m)^(\S+ line )(\d+)", place, output),
                  re.sub(r"(?m)^(wcptrace: line )(\d+)", place, errors))


def without_count(answer: Answer) -> tuple[Answer, int]:
    """An answer without the line that counts the lines that were passed over, and their number."""
    found = re.search(r"(?m)^wcptrace: lines that are no event: (\d+)(?:, which are all)?\n", answer.errors)
    if not found:
        return answer, 0
    return answer._replace(errors=answer.errors.replace(found[0], "")), int(found[1])


def compare(program: Word, rng: random.Random) -> str:
    log, names = small(rng)
    words, watched = conditions(rng, names)
    is_faulty = bool(log) and rng.random() < 0.1
    written: Sequence[Written] = log
    if is_faulty:
        written = damaged(rng, log)
    spelled = rng.choice(SPELLINGS)(rng, written)
    if is_faulty:
        plain = asked.answer_to(program, ["--form", "lines", *words], text_of("lines", written))
    else:
        plain = expected("lines", log, words, watched)
    wanted = placed(plain, spelled.places)
    got, skipped = without_count(asked.answer_to(program, [*spelled.words, *words], spelled.text()))
    assert got == wanted, asked.difference([*spelled.words, *words], spelled.text(), got, wanted)
    if wanted.status == 1:
        assert skipped == spelled.skipped, asked.difference(spelled.words, spelled.text(), skipped, spelled.skipped)
    return "a fault" if is_faulty else asked.STATUSES[wanted.status]
