"""Texts, and the pictures of them that `wcpdraw` should draw, worked by hand: all of each but its style."""
from dataclasses import dataclass, field
from typing import Iterable, Iterator

# What is written, and the whole where that is shorter.
Name = str | tuple[str, str]

# A state, its two ends, and whether it is the cut's.
Bar = tuple[int, int, int, bool]

# The number of a send among the steps, and of its receive where there is one.
Messages = list[tuple[int, ...]]

# Both are true at once behind the message.
FOUND = """wcp 1
procs 2
p 0 true
p 0 send 1
p 0 true
p 1 recv 0
p 1 true
"""

# Process 0 is true before its message alone, and process 1 behind it.
NONE = """wcp 1
procs 2
p 0 true
p 0 send 1
p 1 recv 0
p 1 true
"""

# Two messages that nobody receives.
OPEN = """wcp 1
procs 2
p 0 send 1
p 1 send 0
p 1 true
"""


@dataclass
class Step:
    """A send or a receive: its line of the text, its process, what it does and with whom, and its column."""

    line: int
    p: int
    does: str
    other: int
    column: int

    def words(self) -> str:
        return f"line {self.line}: p {self.p} {self.does} {self.other}"


@dataclass
class Drawn:
    """What a picture shows, and where, in pixels: the left edge, the row of each process, and 44 for each column behind
    `base`. A name is what is written, and the whole where that is shorter. A bar is a state, its two ends, and whether
    it is the cut's. A message is the number of its send among the steps, and of its receive where there is one."""

    found: str
    names: list[Name]
    left: int
    rows: list[int]
    columns: int
    bars: list[list[Bar]]
    steps: list[Step] = field(default_factory=list)
    messages: Messages = field(default_factory=list)
    base: int = 0
    line: int | None = None
    members: list[int] = field(default_factory=list)
    left_out: tuple[int, int] | None = None

    def across(self, column: int) -> int:
        """How far right a column stands: what is beyond an edge is at the edge."""
        return self.left + 44 * min(max(column - self.base, 0), self.columns + 1)

    def right(self) -> int:
        return self.left + 44 * (self.columns + 1)

    def shows(self, column: int) -> bool:
        return self.base < column <= self.base + self.columns

    def bottom(self) -> int:
        return 2 * self.rows[-1] - self.rows[-2]

    def process(self, p: int) -> Iterator[str]:
        """The name of a process at both ends, its line, and its bars."""
        y = self.rows[p]
        name = self.names[p]
        if not isinstance(name, str):
            name = "{}<title>{}</title>".format(*name)
        yield f'<text x="{self.left - 12}" y="{y + 4}" text-anchor="end">{name}</text>'
        yield f'<text x="{self.right() + 12}" y="{y + 4}" text-anchor="start">{name}</text>'
        yield f'<path class="axis" d="M{self.left} {y}H{self.right()}"/>'
        for state, begin, end, of_cut in self.bars[p]:
            begin, end = self.across(begin), self.across(end)
            kind, top = ("member", y - 6) if of_cut else ("true", y - 4)
            looks = f'class="{kind}" x="{begin + 1}" y="{top}"'
            yield (f'<rect {looks} width="{end - begin - 2}" height="{13 if of_cut else 9}" rx="2">'
                   f"<title>interval {state}</title></rect>")

    def message(self, send: Step, receive: Step | None = None) -> Iterator[str]:
        """The arrow of a message, where one of its ends is drawn."""
        x, y = self.across(send.column), self.rows[send.p]
        if receive is None:
            end = y + (14 if send.other > send.p else -14)
            if self.shows(send.column):
                yield (f'<path class="message open" d="M{x} {y}L{x + 20} {end}"><title>{send.words()}; never received'
                       "</title></path>")
            return
        shown = [self.shows(step.column) for step in (send, receive)]
        if any(shown):
            far = "" if all(shown) else " far"
            yield (f'<path class="message{far}" d="M{x} {y}L{self.across(receive.column)} {self.rows[receive.p]}">'
                   f"<title>{send.words()}; {receive.words()}</title></path>")

    def dot(self, step: Step) -> Iterator[str]:
        if self.shows(step.column):
            yield (f'<circle class="event" cx="{self.across(step.column)}" cy="{self.rows[step.p]}" r="3">'
                   f"<title>{step.words()}</title></circle>")

    def moment(self) -> Iterator[str]:
        if self.line is not None:
            x = self.across(self.line)
            yield f'<path class="moment" d="M{x} 34V{self.bottom() - 20}"><title>the moment</title></path>'
            for y, member in zip(self.rows, self.members):
                yield f'<text class="small" x="{x + 5}" y="{y - 10}">{member}</text>'

    def entries(self) -> Iterator[tuple[str, str]]:
        """The shapes that the legend explains."""
        yield "true", "condition true"
        if self.line is not None:
            yield "member", "true at the moment"
            yield "moment", "the moment"
        yield "message", "message"
        if any(len(ends) == 1 for ends in self.messages):
            yield "message open", "never received"
        if self.left_out:
            yield "message far", "other end left out"

    def notes(self) -> Iterator[str]:
        """What is left out, and the legend: an entry takes 160 pixels, and a row 20."""
        if self.left_out:
            left, right = self.left_out
            yield (f'<text class="small" x="14" y="{self.bottom() - 4}">left out: {left} events left of these columns, '
                   f"and {right} right of them</text>")
        in_a_row = self.in_a_row()
        for place, (kind, words) in enumerate(self.entries()):
            x, y = 14 + 160 * (place % in_a_row), self.bottom() + 16 + 20 * (place // in_a_row)
            if kind in ("true", "member"):
                yield f'<rect class="{kind}" x="{x}" y="{y - 5}" width="24" height="9" rx="2"/>'
            else:
                yield f'<path class="{kind}" d="M{x} {y}h24"/>'
            yield f'<text class="small" x="{x + 32}" y="{y + 4}">{words}</text>'

    def in_a_row(self) -> int:
        return min(max(self.width() // 160, 1), 6)

    def width(self) -> int:
        return self.right() + self.left

    def height(self) -> int:
        return self.bottom() + 16 + 20 * -(-len(list(self.entries())) // self.in_a_row())

    def head(self) -> Iterator[str]:
        """The first lines, without the description and the style."""
        size = f'width="{self.width()}" height="{self.height()}" viewBox="0 0 {self.width()} {self.height()}"'
        what = ("whose conditions never could have held at one moment" if self.line is None
                else "and the first moment at which all conditions could have held")
        yield f'<svg xmlns="http://www.w3.org/2000/svg" {size} role="img">'
        yield f"<title>A computation of {len(self.names)} processes, {what}</title>"
        yield '<rect class="ground" width="100%" height="100%"/>'
        yield f'<text class="found" x="14" y="22">{self.found}</text>'

    def picture(self) -> str:
        lines = list(self.head())
        for p in range(len(self.names)):
            lines += self.process(p)
        for message in self.messages:
            lines += self.message(*(self.steps[place] for place in message))
        for step in self.steps:
            lines += self.dot(step)
        lines += [*self.moment(), *self.notes(), "</svg>"]
        return "".join(f"{line}\n" for line in lines)


# Names that are escaped. The longest has three letters, so that columns begin 48 pixels from the left edge.
ESCAPED = ["--names", "a&b,<c"]
TWO_NAMES: list[Name] = ["a&amp;b", "&lt;c"]

FOUND_PICTURE = Drawn(
    "found 1 1", TWO_NAMES, 48, [54, 100], 3, [[(0, 0, 1, False), (1, 1, 4, True)], [(1, 2, 4, True)]],
    [Step(4, 0, "send", 1, 1), Step(6, 1, "recv", 0, 2)], [(0, 1)], line=3, members=[1, 1])

NONE_PICTURE = Drawn(
    "none", TWO_NAMES, 48, [54, 100], 2, [[(0, 0, 1, False)], [(1, 2, 3, False)]],
    [Step(4, 0, "send", 1, 1), Step(5, 1, "recv", 0, 2)], [(0, 1)])

OPEN_PICTURE = Drawn(
    "none", TWO_NAMES, 48, [54, 100], 1, [[], [(1, 1, 2, False)]],
    [Step(3, 0, "send", 1, 1), Step(4, 1, "send", 0, 1)], [(0,), (1,)])

# Names of the three processes of a chain, and of nine: the first is longer than the 24 letters that are drawn.
THREE = ["ann", "ben", "cid"]
NINE = ["a" * 50] + list("bcdefghi")


def chain(messages: int, moment: int | None = None) -> str:
    """A text in which processes 0 and 1 send each other messages in turn, each when the one before it is received, so
    that each send and receive stands in a column of its own. Process 0 is true at the start. All three are true before
    this message, and never again."""
    lines = ["wcp 1", "procs 3", "p 0 true"]
    for message in range(messages):
        if message == moment:
            lines += [f"p {p} true" for p in range(3)]
        sender, receiver = message % 2, (message + 1) % 2
        lines += [f"p {sender} send {receiver}", f"p {receiver} recv {sender}"]
    return "".join(f"{line}\n" for line in lines)


def chain_steps(columns: Iterable[int], moment: int | None = None) -> tuple[list[Step], Messages]:
    """The steps of a chain whose sends stand in these columns, and each receive in the next one; and its messages."""
    steps = []
    for message, column in enumerate(columns):
        line = 4 + 2 * message + (3 if moment is not None and message >= moment else 0)
        sender, receiver = message % 2, (message + 1) % 2
        steps += [Step(line, sender, "send", receiver, column), Step(line + 1, receiver, "recv", sender, column + 1)]
    return steps, [(place, place + 1) for place in range(0, len(steps), 2)]


def wide_with_a_cut(drawn_columns: int) -> Drawn:
    """Thirty messages before the moment and thirty behind it: their columns are 1 to 60 and 62 to 121, and that of the
    line is 61. So many columns about it are drawn, half of them left of it. Each process has an event a message, so the
    moment is in interval 30 of processes 0 and 1; message 29 is sent by process 1 and received by 0, and the next goes
    back. Process 0's first true interval ends left of all that is drawn."""
    base = 61 - drawn_columns // 2 - 1
    steps, messages = chain_steps([2 * message + (1 if message < 30 else 2) for message in range(60)], 30)
    bars: list[list[Bar]] = [[(30, 60, 62, True)], [(30, 59, 63, True)], [(0, 0, 200, True)]]
    left_out = (base, 121 - base - drawn_columns)
    return Drawn("found 30 30 0", [*THREE], 48, [54, 100, 146], drawn_columns, bars, steps, messages, base, 61,
                 [30, 30, 0],
                 left_out)


def wide_with_none(messages: int, columns: int) -> Drawn:
    """Messages and no moment: of their columns so many are drawn, from the first. Process 0 is true until its first
    send."""
    more = 2 * messages - columns
    return Drawn("none", [*THREE], 48, [54, 100, 146], columns, [[(0, 0, 1, False)], [], []],
                 *chain_steps(range(1, 2 * messages, 2)), left_out=(0, more) if more else None)


def nine_processes() -> Drawn:
    """All are true, and nothing is sent: the line is in column 1. More than eight rows stand 34 pixels apart. The first
    name is shortened to 24 letters, and is whole in its tooltip."""
    names: list[Name] = [("a" * 23 + "\u2026", NINE[0]), *NINE[1:]]
    return Drawn("found" + 9 * " 0", names, 216, [54 + 34 * p for p in range(9)], 1, [[(0, 0, 2, True)]] * 9, line=1,
                 members=[0] * 9)


def nine() -> str:
    return "wcp 1\nprocs 9\n" + "".join(f"p {p} true\n" for p in range(9))


OF_THREE = ["--names", ",".join(THREE)]

# Of each case its name, the words, the text, and the status and the picture that are wanted.
PICTURES: list[tuple[str, list[str], str, int, Drawn]] = [
    ("a cut is drawn", ESCAPED, FOUND, 0, FOUND_PICTURE),
    ("a workload with no cut is drawn", ESCAPED, NONE, 1, NONE_PICTURE),
    ("messages that nobody receives", ESCAPED, OPEN, 1, OPEN_PICTURE),
    ("80 columns about a cut", OF_THREE, chain(60, 30), 0, wide_with_a_cut(80)),
    ("11 columns about a cut", [*OF_THREE, "--columns", "11"], chain(60, 30), 0, wide_with_a_cut(11)),
    ("80 columns", OF_THREE, chain(40), 1, wide_with_none(40, 80)),
    ("the first 80 columns", OF_THREE, chain(45), 1, wide_with_none(45, 80)),
    ("the first 10 columns", [*OF_THREE, "--columns=10"], chain(45), 1, wide_with_none(45, 10)),
    ("nine processes", ["--names", ",".join(NINE)], nine(), 0, nine_processes()),
]
