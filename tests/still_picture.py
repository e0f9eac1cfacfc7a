"""What a still picture of a log shows, and what the clocks of the log say that it should show."""
import itertools
import json
import re
import xml.etree.ElementTree as xml
from typing import Iterator

from page_helper import Conditions, Event, Log, is_before

# The lines of two events.
Lines = tuple[int, int]

SVG = "{http://www.w3.org/2000/svg}"

# How far apart columns stand, and how wide a letter is at most, in pixels.
COLUMN = 44
LETTER = 8


def shiviz(log: Log) -> str:
    """A log in two lines for each event, the text last."""
    return "".join(f"{it.host} {json.dumps(it.clock)}\n{it.text}\n" for it in log)


def in_two_lines(log: Log) -> Log:
    """The same events with the lines of their texts in that form."""
    return [Event(2 * place + 2, it.host, it.clock, it.text) for place, it in enumerate(log)]


def conditions_of(log: Log, rule: str = "while") -> Conditions:
    """Conditions of the first two hosts."""
    hosts = list(dict.fromkeys(it.host for it in log))[:2]
    return {host: (rule, "holds") for host in hosts}


def words_for(conditions: Conditions, columns: int = 1000) -> list[str]:
    words = ["--form", "shiviz", "--svg", "--columns", str(columns)]
    for host, (rule, expression) in conditions.items():
        words += [f"--{rule}", f"{host}={expression}"]
    return words


def columns_of(log: Log, moment: list[int] | None) -> tuple[dict[int, int], int]:
    """The column of each event, and that of the line: the longest chain of events that ends with it, where all that
    isn't before the moment begins behind the line."""
    members = [log[place] for place in moment or []]
    before = [any(it is member or is_before(it, member) for member in members) for it in log]
    order = sorted(range(len(log)), key=lambda place: sum(log[place].clock.values()))
    columns: dict[int, int] = {}
    line = 0
    for half in (True, False):
        for place in (place for place in order if before[place] == half):
            chain = [columns[other] for other in columns if is_before(log[other], log[place])]
            columns[place] = 1 + max([line, *chain])
        if half:
            line = 1 + max(columns.values(), default=0)
    return columns, line


def arrows_of(log: Log) -> set[Lines]:
    """The lines of each two events of different hosts of which one comes before the other, and nothing in between."""
    both = itertools.permutations(range(len(log)), 2)
    pairs = {(one, other) for one, other in both if is_before(log[one], log[other])}
    return {(log[one].line, log[other].line) for one, other in pairs if log[one].host != log[other].host
            and not any((one, between) in pairs and (between, other) in pairs for between in range(len(log)))}


def groups(expression: str, text: str) -> tuple[str, ...]:
    """What the groups of an expression match in a text, all of which it matches."""
    found = re.fullmatch(expression, text)
    assert found, f"{text!r} isn't {expression}"
    return found.groups()


class Picture:
    """What a picture shows."""

    def __init__(self, text: str) -> None:
        self.top = xml.fromstring(text)
        self.width = int(self.top.attrib["width"])
        texts = list(self.top.iter(SVG + "text"))
        self.found = texts[0].text
        self.names = {int(it.attrib["y"]) - 4: "".join(it.itertext()) for it in texts if it.get("text-anchor") == "end"}
        self.left = min(int(it.attrib["d"].split()[0][1:]) for it in self.of_class("path", "axis"))

    def of_class(self, kind: str, name: str) -> list[xml.Element]:
        return [it for it in self.top.iter(SVG + kind) if it.get("class") == name]

    def title(self, shape: xml.Element) -> str:
        return shape.findtext(SVG + "title") or ""

    def column(self, x: str) -> float:
        return (int(x) - self.left) / COLUMN

    def events(self) -> Iterator[tuple[int, str, str, float]]:
        """Of each event its line, its text, its host and its column."""
        for dot in self.of_class("circle", "event"):
            line, text = groups(r"line (\d+): (.*)", self.title(dot))
            yield int(line), text, self.names[int(dot.attrib["cy"])], self.column(dot.attrib["cx"])

    def arrows(self) -> Iterator[tuple[Lines, Lines]]:
        """Of each arrow its two lines, as its tooltip says them and as its ends stand."""
        places = {(int(it.attrib["cx"]), int(it.attrib["cy"])): int(groups(r"line (\d+): .*", self.title(it))[0])
                  for it in self.of_class("circle", "event")}
        for arrow in self.of_class("path", "message"):
            if arrow.find(SVG + "title") is None:
                continue
            sender, receiver = map(int, groups(r"line (\d+) to line (\d+)", self.title(arrow)))
            x, y, tip, end = map(int, groups(r"M(\d+) (\d+)L(\d+) (\d+)", arrow.attrib["d"]))
            yield (sender, receiver), (places[x, y], places[tip, end])

    def lines(self) -> list[float]:
        """The columns of the lines of the moment."""
        return [self.column(it.attrib["d"].split()[0][1:]) for it in self.of_class("path", "moment") if self.title(it)]

    def members(self) -> list[str]:
        """The tooltips of the bars that are the moment's."""
        return sorted(filter(None, map(self.title, self.of_class("rect", "member"))))

    def bars(self) -> list[tuple[int, int, int]]:
        """Of each bar the line of its event and its two ends, in pixels."""
        bars = [it for kind in ("true", "member") for it in self.of_class("rect", kind) if self.title(it)]
        return sorted((int(groups(r"line (\d+): .*", self.title(it))[0]), int(it.attrib["x"]),
                       int(it.attrib["x"]) + int(it.attrib["width"])) for it in bars)

    def left_out(self) -> tuple[int, int]:
        """How many events stand left and right of the columns, as the picture says."""
        [note] = [it.text or "" for it in self.top.iter(SVG + "text") if (it.text or "").startswith("left out")]
        left, right = groups(r"left out: (\d+) events left of these columns, and (\d+) right of them", note)
        return int(left), int(right)

    def right(self) -> int:
        """The right end of the hosts' lines, in pixels."""
        [right] = {int(groups(r"M\d+ \d+H(\d+)", it.attrib["d"])[0]) for it in self.of_class("path", "axis")}
        return right

    def spills(self) -> list[str]:
        """The texts that don't lie within the picture."""
        spilled = []
        for it in self.top.iter(SVG + "text"):
            text = it.text or ""
            x, wide = int(it.attrib["x"]), LETTER * len(text)
            begin, end = (x - wide, x) if it.get("text-anchor") == "end" else (x, x + wide)
            is_note = it.get("class") in ("small", "found")
            if begin < 0 or end > self.width and not is_note:
                spilled.append(text)
        return spilled
