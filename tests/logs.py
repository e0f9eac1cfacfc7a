"""Logs with clocks, and what `wcptrace` answers to them: the tables that tests share."""
from typing import NamedTuple

from programs import TOP, Answer, label


class Row(NamedTuple):
    """The words of a call, the log that it reads, and its answer."""

    words: list[str]
    log: str
    answer: Answer


def name_of(row: Row) -> str:
    """The name of a case: its words and its answer."""
    return label(row.words, row.answer.errors or row.answer.output)


def found(*events: str) -> Answer:
    """The answer with the events of the earliest moment."""
    return Answer(0, "".join(line + "\n" for line in ("found", *events)))


def none(*hosts: str) -> Answer:
    """The answer without a moment, with the counts of each host."""
    return Answer(1, "".join(line + "\n" for line in ("none", *hosts)))


def fault(line: str) -> Answer:
    """Where there is no answer, the line that says why."""
    return Answer(2, "", f"wcptrace: {line}\n")


def no_host(host: str, *hosts: str) -> Answer:
    """Where a host logs nothing, the lines that say so, and which hosts the log has."""
    lines = ["the log has no event", f"nohost {host}"]
    if hosts:
        lines = [f"nohost {host}", f"the log has {', '.join(hosts)}"]
    return Answer(2, "", "".join(f"wcptrace: {line}\n" for line in lines))


def open_until(answer: Answer, events: int, *ends: str) -> Answer:
    """The answer to a log through a pipe of which so many events were read, none of which these ends match."""
    said = "".join(f"wcptrace: {end} matches none of the first {events} events\n" for end in ends)
    return Answer(answer.status, answer.output, answer.errors + said)


def first_lines(log: str, count: int) -> str:
    """The first lines of a log."""
    return "".join(log.splitlines(keepends=True)[:count])


def usage(why: str) -> Answer:
    """Where the words ask for nothing that the program knows, the line that says why."""
    return fault(f"usage: {why}")


# The words of the two who want the lease.
BOTH = ["--while", "ann=holds", "--while", "ben=holds"]

# Each of three knows another, and none knows what that one knew.
IN_A_RING = 'ann {"ann":1, "cy":1}\nholds\nben {"ben":1, "ann":1}\nholds\ncy {"cy":1, "ben":1}\nidle\n'
FORGETS = (
    "events that know another, but not all that this knew: 1, first line 4 of line 2; so order is missing, and found "
    "may be no possible moment"
)

# The lease of ann runs out while she still holds it, and ben gets it.
RUNS_OUT = """\
keeper {"keeper":1}
opens
ann {"ann":1}
asks for the lease
keeper {"keeper":2, "ann":1}
gives the lease to ann
ann {"ann":2, "keeper":2}
holds the lease
ben {"ben":1}
asks for the lease
keeper {"keeper":3, "ann":1, "ben":1}
the lease of ann has run out, gives it to ben
ben {"ben":2, "keeper":3, "ann":1}
holds the lease
ann {"ann":3, "keeper":2}
gives the lease back
"""

# The keeper waits until ann has given the lease back.
WAITED_FOR = """\
ann {"ann":1}
holds the lease
ann {"ann":2}
gives the lease back
keeper {"keeper":1, "ann":2}
gives the lease to ben
ben {"ben":1, "keeper":1, "ann":2}
holds the lease
ben {"ben":2, "keeper":1, "ann":2}
gives the lease back
"""

# Ben takes the lease though he knows that ann has it.
KNOWS = """\
ann {"ann":1}
holds the lease
ben {"ben":1, "ann":1}
holds the lease
ann {"ann":2}
gives the lease back
"""

# The same in one JSON object for each event.
IN_LINES = """\
{"host":"ann","clock":{"ann":1},"event":"holds"}
{"event":"holds too","host":"ben","level":3,"clock":{"ann":1,"ben":1}}
"""

# Two are leaders at once, each over several events.
TWO_LEADERS = (TOP / "examples" / "two_leaders.log").read_text(encoding="utf-8")

# The texts of ann and ben stand apart from their hosts.
APART = 'ann {"ann":1}\nben {"ben":1}\ncid {"cid":1}\nholds\nasks\ngives\n'

ANSWERS = [
    Row(BOTH, RUNS_OUT, found("ann line 8 holds the lease", "ben line 14 holds the lease")),
    Row(BOTH, WAITED_FOR, none("ann events 2 matched 1", "ben events 2 matched 1")),
    Row(BOTH, KNOWS, found("ann line 2 holds the lease", "ben line 4 holds the lease")),
    # At the events alone the same log has none.
    Row(["--at", "ann=holds", "--at", "ben=holds"], KNOWS, none("ann events 2 matched 1", "ben events 1 matched 1")),
    # The other order of the hosts, and a host with a span.
    Row(
        ["--from", "ann=holds", "--until", "ann=gives", "--while", "ben=holds"],
        RUNS_OUT,
        open_until(found("ben line 14 holds the lease", "ann line 8 holds the lease"), 7, "--until ann=gives"),
    ),
    Row(["--form", "lines", *BOTH], IN_LINES, found("ann line 1 holds", "ben line 2 holds too")),
    Row(["--form", "shiviz-reversed", "--while", "ann=holds"], 'holds\nann {"ann":1}', found("ann line 1 holds")),
    # A last line without LF is a line.
    Row(["--while", "ann=holds"], 'ann {"ann":1}\nholds', found("ann line 2 holds")),
    # A leader that sends is leader still, and no longer in the state of the event before.
    Row(
        ["--from", "n1=leader", "--until", "n1=steps", "--from", "n2=leader", "--until", "n2=steps"],
        TWO_LEADERS,
        open_until(found("n1 line 12 sends a heartbeat to n3", "n2 line 24 becomes leader"), 12,
                   "--until n1=steps", "--until n2=steps"),
    ),
    Row(
        ["--while", "n1=leader", "--while", "n2=leader"],
        TWO_LEADERS,
        none("n1 events 6 matched 1", "n2 events 4 matched 1"),
    ),
    # A line of another host between the two of an event: the text is taken for that of a third.
    Row(["--while", "cid=holds"], APART, found("cid line 4 holds")),
    Row(["--while", "cid=never"], APART, fault("line 5: text: no space behind the host: asks")),
    # A CR is no part of the JSON around a text.
    Row(
        ["--form", "lines", "--while", "ann=holds$"],
        '{"host":"ann","clock":{"ann":1},"event":"holds"}\r\n',
        found("ann line 1 holds"),
    ),
]

# The words for a log in JSON.
IN_JSON = ["--form", "lines", "--while", "ann=holds"]

NO_TEXT = "the log ends before the text of this event"
NO_STAMP = "the log ends before the host and the clock of this event"
EVENT_TWICE = 'line 1: clock: "event" twice'

FAULTS = [
    Row(BOTH, "", no_host("ann")),
    Row(BOTH, 'ann {"ann":1}\nholds\n', no_host("ben", "ann")),
    Row(BOTH, 'ann {"ann":1}\n', fault(f"line 1: text: {NO_TEXT}")),
    Row(["--form", "shiviz-reversed", *BOTH], "holds\n", fault(f"line 1: text: {NO_STAMP}")),
    Row(BOTH, "ann\nholds\n", fault("line 1: text: no space behind the host: ann")),
    Row(BOTH, "\nholds\n", fault('line 1: text: no space behind the host: ""')),
    Row(BOTH, 'ann {"ann":1} x\nholds\n', fault('line 1: clock: not JSON: {"ann":1} x')),
    Row(BOTH, 'ann {"ann":1, "ann":1}\nholds\n', fault('line 1: clock: "ann" twice')),
    Row(BOTH, "ann [1]\nholds\n", fault("line 1: clock: the clock is a list, not an object")),
    Row(BOTH, 'ann {"ann":-1}\nholds\n', fault('line 1: clock: "ann" is -1')),
    Row(BOTH, 'ann {"ann":1e3}\nholds\n', fault('line 1: clock: "ann" is 1e3, not in digits alone')),
    Row(BOTH, 'ann {"ann":4294967295}\n', fault('line 1: clock: "ann" is 4294967295, more than 4294967294')),
    Row(BOTH, 'ann {"ann":"1"}\nholds\n', fault('line 1: clock: "ann" is "1", not a number')),
    Row(BOTH, 'ann {"ben":1}\nholds\n', fault("line 1: own: no number of ann")),
    Row(BOTH, 'ann {"ann":0}\nholds\n', fault("line 1: own: ann is 0")),
    Row(BOTH, 'ann {"ann":1}\nholds\nann {"ann":1}\nholds\n', fault("line 3: order: ann is 1 again")),
    Row(
        BOTH,
        'ann {"ann":5}\nholds\nann {"ann":3}\nholds\n',
        fault("line 3: order: ann is 3 after 5, which looks like a restart of ann"),
    ),
    Row(
        BOTH,
        'ann {"ann":1, "ben":2}\nholds\nann {"ann":2}\nholds\n',
        fault("line 3: falls: ben is missing after 2 at ann"),
    ),
    Row(
        BOTH,
        'ann {"ann":1, "ben":6}\nholds\nann {"ann":2, "ben":4}\nholds\n',
        fault("line 3: falls: ben is 4 after 6 at ann"),
    ),
    # Each happened before the other: a clock that is read as JSON, and one with the names of the clock before.
    Row(
        BOTH,
        'ann {"ann":1, "ben":1}\nholds\nben {"ben":1, "ann":1}\nholds\n',
        fault("line 3: cycle: ben 1 knows ann 1, whose line 2 knows ben 1"),
    ),
    Row(
        BOTH,
        'ann {"ann":1, "ben":0}\nidle\nben {"ann":0, "ben":1}\nidle\n'
        'ann {"ann":2, "ben":3}\nholds\nben {"ann":5, "ben":2}\nholds\n',
        fault("line 7: cycle: ben 2 knows ann 5, whose line 6 knows ben 3"),
    ),
    # A cycle by way of a third host, which passes nothing on: an event forgets.
    Row(BOTH, IN_A_RING, Answer(0, found("ann line 2 holds", "ben line 4 holds").output, f"wcptrace: {FORGETS}\n")),
    Row(["--check", *BOTH], IN_A_RING,
        fault("line 4: forgets: it knows the event of line 2, but not all that this knew")),
    Row(["--check", *BOTH], RUNS_OUT, found("ann line 8 holds the lease", "ben line 14 holds the lease")),
    Row(
        ["--while", "ann=holds", "--while", "ben=("],
        RUNS_OUT,
        fault("expression of --while ben: regex parse error at 0..1: unclosed group"),
    ),
    # Of two members of one name the last counts, and a line with two has a fault in any case.
    Row(IN_JSON, '{"host":"ann","clock":{"ann":1},"event":{"n":1},"event":"holds"}\n', fault(EVENT_TWICE)),
    Row(
        IN_JSON,
        '{"host":"ann","clock":{"ann":1},"event":"holds","event":{"n":1}}\n',
        fault('line 1: text: "event" is an object, not a text'),
    ),
    Row(IN_JSON, '{"host":"ann","clock":{"ann":1},"event":"holds","event":"holds"}\n', fault(EVENT_TWICE)),
    Row(
        IN_JSON,
        '{"host":"ann","host":"ann","clock":{"ann":1},"event":"holds"}\n',
        fault('line 1: clock: "host" twice'),
    ),
    Row(
        IN_JSON,
        '{"host":"ann","clock":{"ann":1},"event":"holds","more":[{"a\\n":1,"a\\n":2}]}\n',
        fault('line 1: clock: "a\\n" twice'),
    ),
    Row(IN_JSON, "asks\n", fault("line 1: text: not JSON: asks")),
    Row(IN_JSON, "[]\n", fault("line 1: text: the line is a list, not an object")),
    Row(IN_JSON, '{"clock":{"ann":1},"event":"holds"}\n', fault('line 1: text: no member "host"')),
    Row(IN_JSON, '{"host":"ann","clock":{"ann":1}}\n', fault('line 1: text: no member "event"')),
    Row(IN_JSON, '{"host":null,"event":"holds"}\n', fault('line 1: text: "host" is null, not a text')),
    Row(IN_JSON, '{"host":"ann","event":"holds"}\n', fault('line 1: clock: no member "clock"')),
    Row(
        IN_JSON,
        '{"host":"ann","clock":true,"event":"holds"}\n',
        fault('line 1: clock: "clock" is true, not an object'),
    ),
    # A text of the log can't break the line, and the rest of a long one is left out.
    Row(
        BOTH,
        "ann\x1b[31m\r\x7f\u202e" + "é" * 60 + "\n",
        fault("line 1: text: no space behind the host: ann\\u{1b}[31m\\r\\u{7f}\\u{202e}" + "é" * 49 + "..."),
    ),
    # Of a line that is too long no more than its fault is told.
    Row(BOTH, "x" * 200_000, fault("line 1: long: more than 65536 bytes")),
]

# Ann and ben hold the lease at once, and once more.
TWICE = RUNS_OUT + """\
ben {"ben":3, "keeper":3, "ann":1}
gives the lease back
ann {"ann":4, "keeper":2}
holds the lease
ben {"ben":4, "keeper":3, "ann":1}
holds the lease
"""
FIRST = ("found", "ann line 8 holds the lease", "ben line 14 holds the lease")
SECOND = ("found", "ann line 20 holds the lease", "ben line 22 holds the lease")

# Each moment, the end of the log, and a fault behind the first moment.
ALL = [
    Row(["--all", *BOTH], TWICE, Answer(0, "\n".join((*FIRST, *SECOND, "moments 2\n")))),
    Row(["--all", *BOTH], RUNS_OUT, Answer(0, "\n".join((*FIRST, "moments 1\n")))),
    Row(["--all", *BOTH], WAITED_FOR, none("ann events 2 matched 1", "ben events 2 matched 1")),
    Row(["--all", "--while", "zoe=holds"], RUNS_OUT, no_host("zoe", "keeper", "ann", "ben")),
    Row(
        ["--all", *BOTH],
        TWICE.replace('"ben":4', '"ben":3'),
        Answer(2, "\n".join((*FIRST, "")), "wcptrace: line 21: order: ben is 3 again\n"),
    ),
]
