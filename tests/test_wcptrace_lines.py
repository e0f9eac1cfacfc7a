"""What `wcptrace` answers to logs of which it reads some lines, that are cut, or whose lines end in CR LF."""
import pathlib

import pytest
from logs import (
    BOTH, IN_LINES, KNOWS, NO_TEXT, RUNS_OUT, WAITED_FOR, Row, fault, found, name_of, no_host, none, open_until)
from programs import Answer, ask

# What is said, once, where a text that is matched against a condition ends in CR.
CR_NOTE = (
    "wcptrace: a text ends in CR, as where lines end in CR LF: an expression that ends in $ doesn't match there; "
    "write \\r?$\n"
)


def noted(answer: Answer) -> Answer:
    """This answer, with the line on texts that end in CR before what else is said."""
    return Answer(answer.status, answer.output, CR_NOTE + answer.errors)


# Logs whose lines end in CR LF.
WITH_CR = [
    Row(["--while", "ann=holds$"], 'ann {"ann":1}\r\nholds\r\n', noted(none("ann events 1 matched 0"))),
    Row(["--while", r"ann=holds\r?$"], 'ann {"ann":1}\r\nholds\r\n', noted(found("ann line 2 holds\r"))),
    Row(
        ["--while", "a=x$"],
        'a {"a":1}\r\nx\r\na {"a":2}\r\nx\r\n',
        noted(none("a events 2 matched 0")),
    ),
    Row(["--while", "a=x\\r?$"], 'a {"a":1}\r\nx\r\n', noted(found("a line 2 x\r"))),
    Row(["--from", "a=x", "--until", "a=y$"], 'a {"a":1}\r\nx\r\n',
        open_until(noted(found("a line 2 x\r")), 1, "--until a=y$")),
    Row(["--at", "a=x", "--at", "b=x"], 'a {"a":1}\nx\r\n', noted(no_host("b", "a"))),
    # The CR is in no text that is matched: that of a host without a condition, a line with a clock, a JSON object.
    Row(["--at", "a=x$"], 'b {"b":1}\r\nx\r\na {"a":1}\nx\n', found("a line 4 x")),
    Row(["--at", "a=x$"], 'a {"a":1}\r\nx\n', found("a line 2 x")),
    Row(["--at", "a=x$", "--form", "lines"], '{"host":"a","clock":{"a":1},"event":"x"}\r\n', found("a line 1 x")),
    Row(["--at", "a=x"], 'a {"a":1}\nx\ry\n', found("a line 2 x\ry")),
]

# Logs that are cut by their lines, which keep their numbers.
TWO_RUNS = RUNS_OUT + WAITED_FOR
ANN_HOLDS = ["--while", "ann=holds"]
CUT = [
    Row(["--from-line", "17", *BOTH], TWO_RUNS, none("ann events 2 matched 1", "ben events 2 matched 1")),
    Row(
        ["--from-line", "17", "--to-line", "24", *BOTH],
        TWO_RUNS,
        none("ann events 2 matched 1", "ben events 1 matched 1"),
    ),
    Row(["--from-line", "17", *ANN_HOLDS], TWO_RUNS, found("ann line 18 holds the lease")),
    Row(
        [*ANN_HOLDS, "--at", "ben=gives"],
        TWO_RUNS,
        fault("line 17: order: ann is 1 after 3, which looks like a restart of ann"),
    ),
    Row(
        ["--to-line", "16", *ANN_HOLDS, "--at", "ben=gives"],
        TWO_RUNS,
        none("ann events 3 matched 1", "ben events 2 matched 0"),
    ),
    # The moment is known with line 14 alone.
    Row(["--to-line", "14", *BOTH], RUNS_OUT, found("ann line 8 holds the lease", "ben line 14 holds the lease")),
    Row(["--to-line", "12", *BOTH], RUNS_OUT, none("ann events 2 matched 1", "ben events 1 matched 0")),
    # The log is cut between the two lines of an event, or begins with the second.
    Row(["--to-line", "13", *BOTH], RUNS_OUT, fault(f"line 13: text: {NO_TEXT}")),
    Row(["--from-line", "2", *BOTH], RUNS_OUT, fault("line 2: text: no space behind the host: opens")),
    Row(
        ["--from-line", "2", "--to-line", "2", *ANN_HOLDS],
        "what isn't\nann\nread\n",
        fault("line 2: text: no space behind the host: ann"),
    ),
    Row(["--from-line", "3", *ANN_HOLDS], 'no\nlog\nann {"ann":1}\nholds\n', found("ann line 4 holds")),
    Row(["--form", "lines", "--from-line", "2", *BOTH], IN_LINES, no_host("ann", "ben")),
    Row(["--from-line", "99", *BOTH], RUNS_OUT, no_host("ann")),
    Row(["--to-line", "99", *ANN_HOLDS], KNOWS, found("ann line 2 holds the lease")),
    Row(["--to-line", "18446744073709551615", *ANN_HOLDS], KNOWS, found("ann line 2 holds the lease")),
]

# A line that is too long is a fault before the first line too.
LONG_BEFORE = Row(["--from-line", "2", *ANN_HOLDS], "x" * 70_000 + "\n", fault("line 1: long: more than 65536 bytes"))


def cut_answer(log: str) -> Answer:
    """The answer to what is left where the log of the lease that runs out is cut."""
    lines = log.splitlines()
    if len(lines) >= 14 and "holds" in lines[13]:
        return found(f"ann line 8 {lines[7]}", f"ben line 14 {lines[13]}")
    if len(lines) % 2 == 1:
        return fault(f"line {len(lines)}: {why_cut(lines[-1])}")
    texts: dict[str, list[str]] = {"ann": [], "ben": [], "keeper": []}
    for head, text in zip(lines[::2], lines[1::2]):
        texts[head.split()[0]].append(text)
    for host in "ann", "ben":
        if not texts[host]:
            return no_host(host, *dict.fromkeys(head.split()[0] for head in lines[::2]))
    return none(*(f"{host} events {len(texts[host])} matched {count_holding(texts[host])}" for host in ("ann", "ben")))


def why_cut(line: str) -> str:
    """The fault of the last line, which has no space, or no whole clock behind it, or no text below it."""
    host, space, clock = line.partition(" ")
    if not space:
        return f"text: no space behind the host: {host}"
    if not clock.endswith("}"):
        return 'clock: not JSON: ' + (clock or '""')
    return f"text: {NO_TEXT}"


def count_holding(texts: list[str]) -> int:
    """How many events hold the lease."""
    return sum("holds" in text for text in texts)


@pytest.mark.parametrize("row", WITH_CR, ids=name_of)
def test_lines_that_end_in_cr(wcptrace: pathlib.Path, row: Row) -> None:
    assert ask(wcptrace, row.words, row.log) == row.answer


@pytest.mark.parametrize("row", [*CUT, LONG_BEFORE], ids=name_of)
def test_lines_from_and_to(wcptrace: pathlib.Path, row: Row) -> None:
    assert ask(wcptrace, row.words, row.log) == row.answer


def test_cut_at_each_byte(wcptrace: pathlib.Path) -> None:
    """The log of the lease that runs out."""
    for length in range(len(RUNS_OUT)):
        log = RUNS_OUT[:length]
        assert ask(wcptrace, BOTH, log) == cut_answer(log), f"cut at {length}"
