"""Pages made without the program: a log, its conditions and its moment become the words and the data of a page.

A log is a list of events in the order of its lines, each with its host, its clock and its text. The moment is found
from the definition: the earliest choice of one state of each watched host such that none is over where another
begins."""
import functools
import json
import pathlib
import random
import re
import subprocess
import sys
import tempfile
from dataclasses import dataclass, field
from typing import Any

TOP = pathlib.Path(__file__).resolve().parent.parent
OPENING = '<script type="application/json" id="data">'

# The data of a page, or of a part of it.
Data = dict[str, Any]

# Of each host its rule and its expression.
Conditions = dict[str, tuple[str, str]]

# The program that writes the pages, where there is one.
writer: pathlib.Path | None = None


@dataclass(frozen=True)
class Event:
    """An event of a log: the line of its text, its host, its clock by names, and its text."""

    line: int
    host: str
    clock: dict[str, int]
    text: str


Log = list[Event]


@dataclass(frozen=True)
class Options:
    """The conditions, by hosts: a rule and an expression; how many events are shown; and the name of the log."""

    conditions: Conditions = field(default_factory=dict)
    shown: int | None = None
    title: str = ""


def read_shiviz(path: pathlib.Path) -> Log:
    """The events of a log of two lines for each event, the clock first."""
    lines = pathlib.Path(path).read_text(encoding="utf-8").splitlines()
    found = []
    for number in range(0, len(lines), 2):
        host, clock = lines[number].split(" ", 1)
        found.append(Event(number + 2, host, json.loads(clock), lines[number + 1]))
    return found


def is_before(one: Event, other: Event) -> bool:
    """Whether one event came before another, by their clocks."""
    if one.host == other.host:
        return one.clock[one.host] < other.clock[one.host]
    return other.clock.get(one.host, 0) >= one.clock[one.host]


def moment_of(log: Log, conditions: Conditions) -> list[int] | None:
    """The places of the earliest moment's events, one for each host with a condition, or None."""
    queues = {}
    for host, (rule, expression) in conditions.items():
        own = [place for place, event in enumerate(log) if event.host == host]
        ends: list[int | None] = [*own[1:], None] if rule == "while" else [*own]
        queues[host] = [(place, end) for place, end in zip(own, ends) if re.search(expression, log[place].text)]
    heads = dict.fromkeys(queues, 0)
    while queues and all(heads[host] < len(queues[host]) for host in queues):
        states = {host: queues[host][heads[host]] for host in queues}
        late = next((host for host, (_, end) in states.items() for other, (begin, _) in states.items()
                     if host != other and end is not None
                     and log[begin].clock.get(host, 0) >= log[end].clock[host]), None)
        if late is None:
            return [states[host][0] for host in queues]
        heads[late] += 1
    return None


def words_of(log: Log, conditions: Conditions, moment: list[int] | None) -> str:
    """What the program prints."""
    if moment:
        return "found\n" + "".join(f"{log[it].host} line {log[it].line} {log[it].text}\n" for it in moment)
    text = "none\n"
    for host, (_, expression) in conditions.items():
        own = [event for event in log if event.host == host]
        text += f"{host} events {len(own)} matched {sum(bool(re.search(expression, it.text)) for it in own)}\n"
    return text


def data_of(log: Log, options: Options) -> Data:
    """The data of a page as the program gives it, as a dictionary."""
    moment = moment_of(log, options.conditions)
    last = max(moment) + 1 + (options.shown or 0) // 4 if moment else len(log)
    first = max(0, min(last, len(log)) - options.shown) if options.shown else 0
    if not options.shown:
        last = len(log)
    far = [it for it in moment or [] if it < first]
    places = far + list(range(first, min(last, len(log))))
    names = list(dict.fromkeys(log[it].host for it in places))
    numbers = {name: number for number, name in enumerate(names)}
    asked = {name: {"rule": rule, "condition": expression} for name, (rule, expression) in options.conditions.items()}
    hosts = [{"name": name} | asked.get(name, {}) for name in names]
    events = []
    for place in places:
        event = log[place]
        shown: Data = {
            "host": numbers[event.host], "line": event.line, "text": event.text,
            "clock": [[numbers[name], value] for name, value in event.clock.items() if name in numbers and value]}
        if event.host in options.conditions and re.search(options.conditions[event.host][1], event.text):
            shown["holds"] = True
        if place in far:
            shown["far"] = True
        events.append(shown)
    answer = "found" if moment else "none"
    return {"program": "wcptrace", "title": options.title, "unit": "line", "asks": "all", "answer": answer,
            "words": words_of(log, options.conditions, moment), "hosts": hosts, "events": events,
            "moment": [places.index(it) for it in moment] if moment else None, "over": [],
            "left_out": {"before": first, "after": 0, "more": last < len(log)}}


def reply_of(name: str, log: Log, options: Options) -> Data:
    """Another question about a log, by its name, as the data of a page has it."""
    data = data_of(log, options)
    asked = [{key: host[key] for key in ("rule", "condition")} if "rule" in host else None for host in data["hosts"]]
    holds = [place for place, event in enumerate(data["events"]) if event.get("holds")]
    answered = {key: data[key] for key in ("asks", "answer", "words")}
    members = {key: data[key] for key in ("moment", "over")}
    return {"question": name, **answered, "watches": asked, "holds": holds, **members}


def data_of_several(log: Log, questions: dict[str, Conditions], title: str = "") -> Data:
    """The data of a page of all events of a log, of which several questions are asked."""
    (name, conditions), *others = questions.items()
    return {**data_of(log, Options(conditions, title=title)), "question": name,
            "others": [reply_of(it, log, Options(asked)) for it, asked in others]}


def words_in(data: Data) -> str:
    """The words of an answer; or of several, each behind the name of its question."""
    told = [data, *data.get("others", [])]
    return "".join(f"{it['question']}: {it['words']}" for it in told) if len(told) > 1 else str(data["words"])


@functools.cache
def parts() -> tuple[str, str, str]:
    """What stands before the words of a page, between them and its data, and behind that, from the script that also
    writes the program's literals."""
    script = "import runpy, json; print(json.dumps(runpy.run_path('.ci/page')['parts']()))"
    ran = subprocess.run([sys.executable, "-c", script], cwd=TOP, capture_output=True, check=True)
    head, middle, scripts = json.loads(ran.stdout)
    return head, middle, "".join(scripts.values())


def page_with(data: Data) -> str:
    """The page with this data."""
    text = json.dumps(data, ensure_ascii=False, separators=(",", ":")).replace("<", "\\u003c")
    text = text.replace("\u2028", "\\u2028").replace("\u2029", "\\u2029")
    head, middle, tail = parts()
    words = words_in(data).replace("&", "&amp;").replace("<", "&lt;")
    return head + words + middle + text + tail


def text_of(log: Log) -> tuple[str, str]:
    """The text of a log and its form: an object in each line, or, where the lines say so, two lines for each event."""
    if all(event.line == 2 * place for place, event in enumerate(log, 1)):
        return "".join(f"{it.host} {json.dumps(it.clock)}\n{it.text}\n" for it in log), "shiviz"
    return "".join(json.dumps({"host": it.host, "clock": it.clock, "event": it.text}) + "\n" for it in log), "lines"


def page_by(program: pathlib.Path, log: Log, options: Options) -> str:
    """The page that a program like `wcptrace` writes of a log."""
    text, form = text_of(log)
    words = ["--page", "--form", form, *(["--events", str(options.shown)] if options.shown else [])]
    for host, (rule, expression) in options.conditions.items():
        words.append(f"--{rule}={host}={expression}")
    with tempfile.TemporaryDirectory() as room:
        file = pathlib.Path(room) / (options.title or "a.log")
        file.write_text(text, encoding="utf-8", newline="")
        with file.open("rb") as given:
            ended = subprocess.run([program, *words, *([file.name] if options.title else [])], cwd=room, stdin=given,
                                   capture_output=True, timeout=600, check=False)
    if ended.returncode not in (0, 1) or ended.stderr:
        raise OSError(f"{program} {' '.join(words)}: {ended.returncode} {ended.stderr.decode(errors='replace')}")
    return ended.stdout.decode("utf-8")


def page_of(log: Log, options: Options) -> str:
    """The page of a log: by the program where there is one, or by this helper, which alone shows a log that nothing is
    asked of."""
    if writer and options.conditions:
        return page_by(writer, log, options)
    return page_with(data_of(log, options))


def data_in(page: str) -> Data:
    """The data of a page."""
    data: Data = json.loads(page.partition(OPENING)[2].partition("</script>")[0])
    return data


def differences(page: str, log: Log) -> list[str]:
    """What of the events in a page isn't as the log has it, event by event, in words. One from far back may have no
    clock."""
    data = data_in(page)
    names = [host["name"] for host in data["hosts"]]
    by_line = {event.line: event for event in log}
    wrong = []
    for shown in data["events"]:
        event = by_line.get(shown["line"])
        if event is None:
            wrong.append(f"line {shown['line']} isn't the line of an event")
            continue
        if names[shown["host"]] != event.host or shown["text"] != event.text:
            wrong.append(f"line {shown['line']}: {names[shown['host']]!r} {shown['text']!r}")
        clock = {name: value for name, value in event.clock.items() if name in names and value}
        is_unknown = shown.get("far") and not shown["clock"]
        if not is_unknown and {names[number]: value for number, value in shown["clock"]} != clock:
            wrong.append(f"line {shown['line']}: clock {shown['clock']}")
    left = data["left_out"]
    near = [shown["line"] for shown in data["events"] if not shown.get("far")]
    lines = [event.line for event in log]
    if near and near != lines[left["before"]:left["before"] + len(near)]:
        wrong.append("the events shown aren't those right behind the ones left out")
    if near and left["more"] is False and near[-1] != lines[-1]:
        wrong.append("the log goes on behind the last event shown")
    return wrong


def random_log(seed: int, count: int, hosts: int = 8, names: list[str] | None = None, chatty: float = 0.6,
               hold: float = 0.2) -> Log:
    """A log of events that send, receive and work, by chance."""
    chance = random.Random(seed)
    names = names or [f"host{number}" for number in range(hosts)]
    clocks: dict[str, dict[str, int]] = {name: {} for name in names}
    boxes: dict[str, list[tuple[str, dict[str, int]]]] = {name: [] for name in names}
    log = []
    for number in range(count):
        name = chance.choice(names)
        clock = clocks[name]
        clock[name] = clock.get(name, 0) + 1
        if boxes[name] and chance.random() < 0.7:
            sender, sent = boxes[name].pop(chance.randrange(len(boxes[name])))
            for other, value in sent.items():
                clock[other] = max(clock.get(other, 0), value)
            text = f"receives from {sender}"
        elif len(names) > 1 and chance.random() < chatty:
            to = chance.choice([other for other in names if other != name])
            boxes[to].append((name, dict(clock)))
            text = f"sends to {to}"
        else:
            text = f"work {number}"
        if chance.random() < hold:
            text += ", holds"
        log.append(Event(number + 1, name, dict(clock), text))
    return log


def ring_log(hosts: int = 16, rounds: int = 100) -> Log:
    """A token that goes round a ring, and two that hold it for a while without having it."""
    names = [f"node{number}" for number in range(hosts)]
    clocks: dict[str, dict[str, int]] = {name: {} for name in names}
    log: Log = []

    def happens(name: str, text: str) -> None:
        clocks[name][name] = clocks[name].get(name, 0) + 1
        log.append(Event(len(log) + 1, name, dict(clocks[name]), text))
    for turn in range(rounds):
        for number, name in enumerate(names):
            after = names[(number + 1) % hosts]
            happens(name, f"holds the token, round {turn}")
            if turn == rounds // 2 and number == 3:
                happens(names[11], "holds the token, made anew")
                happens(names[11], "drops it")
            happens(name, f"sends the token to {after}")
            for other, value in clocks[name].items():
                clocks[after][other] = max(clocks[after].get(other, 0), value)
            happens(after, f"receives the token from {name}")
    return log
