"""What `wcptrace` answers to logs in several files, to logs in other spellings, and about any two hosts."""
import pathlib

import pytest
from answers_in_json import says
from logs import BOTH, RUNS_OUT, TWO_LEADERS, Row, fault, found, name_of, no_host, none, open_until, usage
from programs import TOP, Answer, ask, data_of, label

HELD = found("ann line 8 holds the lease", "ben line 14 holds the lease")
FIRST = "".join(RUNS_OUT.splitlines(keepends=True)[:8])
REST = RUNS_OUT[len(FIRST):]

# Words under which the first part has no moment.
NEVER = ["--while", "ann=holds", "--while", "keeper=sleeps"]

# The parts of a log, the words, the answer, and what is said of where they begin.
PARTS: list[tuple[list[str | bytes], list[str], Answer, str]] = [
    ([RUNS_OUT], BOTH, HELD, ""),
    ([FIRST, REST], BOTH, HELD, "wcptrace: {1} begins at line 9\n"),
    # A last line without LF is a line of its own.
    ([FIRST.rstrip("\n"), REST], BOTH, HELD, "wcptrace: {1} begins at line 9\n"),
    ([FIRST, REST.encode()], BOTH, HELD, "wcptrace: - begins at line 9\n"),
    ([FIRST.encode(), REST], BOTH, HELD, "wcptrace: {1} begins at line 9\n"),
    # Empty files say nothing.
    (["", FIRST, "", REST, ""], BOTH, HELD, "wcptrace: {1} begins at line 1\nwcptrace: {3} begins at line 9\n"),
    ([FIRST, "", ""], NEVER, none("ann events 2 matched 1", "keeper events 2 matched 0"), ""),
]

# Two are leaders at once.
LEADERS = ["--from", "n1=leader", "--until", "n1=steps", "--from", "n2=leader", "--until", "n2=steps"]

# How a stored log is spelled, and the lines of the two leaders in it.
SPELLED = [
    ("timestamps", ["--parser", r"^\d+ (?<host>\S*) (?<clock>{.*})\n(?<event>.*)"], 12, 24),
    ("one_line", ["--parser", r"^(?<host>\S+) (?<clock>{.*?}) (?<event>.*)"], 6, 12),
    ("reversed", ["--parser", r"(?<event>.*)\n(?<host>\S*) (?<clock>{.*})"], 11, 23),
    ("zap", ["--host-field", "logger", "--event-field", "msg"], 6, 12),
    ("zap", ["--form", "lines", "--host-field", "logger", "--event-field", "msg"], 6, 12),
    ("ecs", ["--host-field", "host.name", "--clock-field", "labels.clock", "--event-field", "message"], 6, 12),
]

# Words on spellings that don't go together, and why.
MISFITS = [
    (["--strict"], "--strict is of --form messages"),
    (
        ["--parser", "x", "--host-field", "x"],
        "--parser and the names of members both say how events are spelled: give one of them",
    ),
    (["--parser", "x", "--form", "lines"], "--parser says how events are spelled: give no --form"),
    (["--event-lines", "2"], "--event-lines is of --parser"),
    (["--event-lines", "0", "--parser", "x"], "--event-lines takes a number from 1 to 1000"),
    (["--event-lines", "1001", "--parser", "x"], "--event-lines takes a number from 1 to 1000"),
    (
        ["--skip-unmatched"],
        "--skip-unmatched is of --parser, or of --host-field, --clock-field and --event-field",
    ),
    (
        ["--form", "shiviz", "--host-field", "x"],
        "--form shiviz says how events are spelled, and so do --parser and the names of members",
    ),
    (["--any-two", "x=y"], "--any-two asks alone: leave out the conditions of hosts"),
    (["--definitely", "--any-two", "x=y"],
     "--definitely asks about hosts by their names: give the conditions of two in place of --any-two"),
    (["--definitely", "--all"], "--definitely gives one answer: leave out --all and --explain"),
    (["--definitely", "--explain"], "--definitely gives one answer: leave out --all and --explain"),
    (["--definitely", "--questions", "x"],
     "--definitely is of one question: in the file of --questions write definitely = true"),
    (["--definitely", "--at", "x=y"],
     "--definitely is of states that last: give --while, or --from and --until, in place of --at"),
    (["--explain", "--all"],
     "--explain says why one moment stands: leave out --all"),
    (["--explain", "--svg"], "--explain says why in words: give --page in place of --svg"),
]

# Why an expression is none.
UNCLOSED = "regex parse error at 0..1: unclosed group"

# Any two of the hosts, by their names.
ANY_TWO = [
    Row(["--any-two-from", "^n.$=leader", "--any-two-until", "steps"], TWO_LEADERS, open_until(
        found("n1 line 12 sends a heartbeat to n3", "n2 line 24 becomes leader"), 12, "--any-two-until steps")),
    Row(["--any-two", "^(ann|ben)$=holds"], RUNS_OUT, HELD),
    # Two hosts whose names don't match hold it.
    Row(["--any-two", "^a=holds"], RUNS_OUT, none("ann events 3 matched 1")),
    Row(["--any-two", "=holds"], "", usage("--any-two and --any-two-from take HOSTS=REGEX")),
    Row(["--any-two", "holds"], "", usage("--any-two and --any-two-from take HOSTS=REGEX")),
    Row(["--any-two-from", "a=holds"], "", usage("--any-two-from and --any-two-until need each other")),
    Row(["--any-two-until", "holds"], "", usage("--any-two-from and --any-two-until need each other")),
    Row(["--any-two", "a=x", "--any-two-from", "a=x"], "", usage(
        "--any-two and --any-two-from are two questions: ask one of them")),
    *(Row(["--any-two", "a=x", *words], "", usage(
        "--any-two gives one answer: leave out --questions and --all; for --explain name the two hosts"))
      for words in [["--all"], ["--explain"], ["--questions", "a.toml"], ["--explain", "--page"]]),
    Row(["--any-two", "(=x"], "", fault(f"HOSTS of --any-two: {UNCLOSED}")),
    Row(["--any-two", "a=("], "", fault(f"expression of --any-two: {UNCLOSED}")),
    Row(["--any-two-from", "(=(", "--any-two-until", "("], "", fault(f"HOSTS of --any-two-from: {UNCLOSED}")),
    Row(["--any-two-from", "a=(", "--any-two-until", "("], "", fault(f"expression of --any-two-from: {UNCLOSED}")),
    Row(["--any-two-from", "a=x", "--any-two-until", "("], "", fault(f"expression of --any-two-until: {UNCLOSED}")),
    Row(["--any-two", "^zoe=x"], RUNS_OUT, no_host("^zoe", "keeper", "ann", "ben")),
]

# An expression of which some lines are no event.
SKIPPED = ["--skip-unmatched", "--parser", r"(?<host>\S*) (?<clock>{.*})\n(?<event>.*)"]


@pytest.mark.parametrize("parts, words, answer, said", PARTS, ids=[
    label(len(parts), "parts", said or "nothing is said", it) for it, (parts, _, _, said) in enumerate(PARTS)])
def test_several_files(wcptrace: pathlib.Path, tmp_path: pathlib.Path, parts: list[str | bytes], words: list[str],
                       answer: Answer, said: str) -> None:
    """It says where they begin. A part in bytes is standard input."""
    names, given = [], b""
    for number, part in enumerate(parts):
        if isinstance(part, bytes):
            names.append("-")
            given = part
        else:
            names.append(str(tmp_path / f"{number}.log"))
            pathlib.Path(names[-1]).write_text(part, encoding="utf-8")
    wanted = answer._replace(errors=said.format(*names) + answer.errors)
    assert ask(wcptrace, [*words, *names], given) == wanted


def test_a_file_that_isnt_there(wcptrace: pathlib.Path) -> None:
    """It is told before any is read."""
    status, output, errors = ask(wcptrace, [*BOTH, TOP / "examples" / "lease.log", "no.log"])
    assert (status, output) == (2, "") and errors.startswith("wcptrace: no.log: "), errors


@pytest.mark.parametrize("name, words, first, second", SPELLED, ids=[label(*it[:2]) for it in SPELLED])
def test_spelling(wcptrace: pathlib.Path, name: str, words: list[str], first: int, second: int) -> None:
    log = TOP / "examples" / "spellings" / f"{name}.log"
    moment = found(f"n1 line {first} sends a heartbeat to n3", f"n2 line {second} becomes leader")
    wanted = moment._replace(errors="wcptrace: --until n2=steps matches no event\n")
    assert ask(wcptrace, [*words, *LEADERS, log]) == wanted


def test_lines_that_are_no_event_are_counted(wcptrace: pathlib.Path) -> None:
    log = TOP / "examples" / "spellings" / "merged.log"
    wanted = Answer(0, "found\nn2 line 28 becomes leader\n", "wcptrace: lines that are no event: 4\n")
    assert ask(wcptrace, [*SKIPPED, "--while", "n2=becomes", log]) == wanted


def test_lines_that_are_no_event_are_counted_where_a_host_has_none(wcptrace: pathlib.Path) -> None:
    said = "wcptrace: nohost a\nwcptrace: the log has b\nwcptrace: lines that are no event: 1\n"
    assert ask(wcptrace, [*SKIPPED, "--while", "a=q"], 'b {"b":1}\nx\njunk\n') == Answer(2, "", said)


def test_an_event_of_1000_lines(wcptrace: pathlib.Path) -> None:
    words = ["--event-lines", "1000", "--parser", r"(?<host>\S+) (?<clock>{.*})(?:\n-){998}\n(?<event>.*)"]
    log = 'ada {"ada":1}\n' + 998 * "-\n" + "holds\n"
    assert ask(wcptrace, [*words, "--while", "ada=holds"], log) == Answer(0, "found\nada line 1000 holds\n")


def test_a_page_of_a_long_log(wcptrace: pathlib.Path) -> None:
    """It shows the last 2,000 events before the moment, and 500 behind it."""
    log = "".join(f'{{"host":"ada","clock":{{"ada":{count}}},"event":"works"}}\n' for count in range(1, 2051))
    log += '{"host":"ada","clock":{"ada":2051},"event":"holds"}\n{"host":"ben","clock":{"ben":1},"event":"holds"}\n'
    log += "".join(f'{{"host":"cleo","clock":{{"cleo":{count}}},"event":"works"}}\n' for count in range(1, 549))
    words = ["--page", "--form", "lines", "--while", "ada=holds", "--while", "ben=holds"]
    status, page, errors = ask(wcptrace, words, log)
    assert (status, errors) == (0, "")
    data = data_of(page)
    assert [event["line"] for event in data["events"]] == list(range(53, 2553))
    assert data["left_out"] == {"before": 52, "after": 0, "more": True}


@pytest.mark.parametrize("row", ANY_TWO, ids=name_of)
def test_any_two(wcptrace: pathlib.Path, row: Row) -> None:
    assert ask(wcptrace, row.words, row.log) == row.answer


@pytest.mark.parametrize("row", ANY_TWO, ids=name_of)
def test_any_two_as_json(wcptrace: pathlib.Path, row: Row) -> None:
    says(wcptrace, row.words, row.log, row.answer)


@pytest.mark.parametrize("words, why", MISFITS, ids=[label(*it) for it in MISFITS])
def test_misfits(wcptrace: pathlib.Path, words: list[str], why: str) -> None:
    assert ask(wcptrace, [*words, *BOTH]) == Answer(2, "", f"wcptrace: usage: {why}\n")


@pytest.mark.parametrize("parser, why", [
    ("(", "regex parse error at 0..1: unclosed group"),
    ("(?<host>x)(?<clock>y)", "no group (?<event>...)"),
])
def test_no_parser(wcptrace: pathlib.Path, parser: str, why: str) -> None:
    assert ask(wcptrace, ["--parser", parser, *BOTH]) == Answer(2, "", f"wcptrace: --parser: {why}\n")
