"""The mistakes that newcomers make with logs, and what `wcptrace` says of each today: whole outputs are compared."""
import gzip
import os
import pathlib
import pty
import subprocess
import tempfile
from dataclasses import dataclass, field

import pytest
from programs import SECONDS, Answer, as_text, ask

# Two hosts hold the lease one after the other: the keeper waits until ada has given it back.
LOG = """\
ada {"ada":1}
holds the lease
ada {"ada":2}
gives it back
keeper {"keeper":1, "ada":2}
lends to ben
ben {"ben":1, "keeper":1, "ada":2}
holds the lease
ben {"ben":2, "keeper":1, "ada":2}
gives it back
"""

# The same as a logger writes it that knows nothing of vector clocks' forms: JSON lines, and a time before the host.
JSON_LINES = """\
{"host": "ada", "event": "holds the lease", "clock": {"ada": 1}}
{"host": "ben", "event": "holds the lease", "clock": {"ben": 1}}
"""
TIMED = """\
2026-11-28 21:00:01,113 ada {"ada":1} holds the lease
2026-11-28 21:00:02,007 ben {"ben":1} holds the lease
"""

# Twelve hosts, each with one event.
TWELVE = "".join(f'n{number} {{"n{number}":1}}\nstarts\n' for number in range(1, 13))

# Ada gives back what she holds behind the moment.
LATE = 'ben {"ben":1}\nholds\nada {"ada":1}\nholds\nada {"ada":2}\ngives\n'

# Ben knows what the keeper has sent, but not what the keeper knew; his next event learns nothing.
UNMERGED = """\
ada {"ada":1}
holds the lease
keeper {"keeper":1, "ada":1}
lends to ben
ben {"ben":1, "keeper":1}
holds the lease
ben {"ben":2, "keeper":1}
goes on
"""
FORGETS = (
    "wcptrace: events that know another, but not all that this knew: 1, first line 6 of line 4; so order is missing, "
    "and found may be no possible moment\n"
)

# The state that lasts until it is given back.
HELD = ["--from", "ada=holds", "--until", "ada=gives", "--from", "ben=holds", "--until", "ben=gives"]

# The same of one host, beside an event of the other.
HELD_LATE = ["--while", "ben=holds", "--from", "ada=holds", "--until", "ada=gives"]

# The state that lasts, with a misspelled end.
MISSPELLED = ["--from", "ada=holds", "--until", "ada=gave", "--from", "ben=holds", "--until", "ben=gives"]

UNKNOWN_KEY = '[[question]]\nname = "lease"\nwhile = "ada=holds"\nuntill = "ada=gives"\n'

TWO_QUESTIONS = """\
[[question]]
name = "lease"
from = ["ada=holds", "ben=holds"]
until = ["ada=gave", "ben=gives"]

[[question]]
name = "dora"
while = "dora=holds"
"""

ONE_QUESTION = TWO_QUESTIONS.partition("\n\n")[0]

# Names of hosts that would forge lines of an answer.
FORGED = """\
{"host":"ada\\nben line 9 holds","clock":{"ada\\nben line 9 holds":1},"event":"starts"}
{"host":"b\\u001b[2Jen\\u0085","clock":{"b\\u001b[2Jen\\u0085":1},"event":"starts"}
"""
FORGED_NONE = r"""none
ada\nben line 9 holds events 1 matched 0
b\u{1b}[2Jen\u{85} events 1 matched 0
"""
FORGED_FOUND = r"""found
ada\nben line 9 holds line 1 starts
b\u{1b}[2Jen\u{85} line 2 starts
"""

# The events of two hosts without clocks. The id is a number in one line, and a text in another.
IDS = """\
{"host":"ben","event":"asks","send":1}
{"host":"keeper","event":"gets","recv":"1"}
"""

# A batch receives two messages, in the line before those that send them.
BATCH = """\
{"host":"keeper","event":"gets both","recv":["m1","m2"]}
{"host":"ben","event":"asks","send":"m1"}
{"host":"dora","event":"asks","send":"m2"}
"""

FOUND_LATE = (
    '{"answer":"found","moment":[{"host":"ben","line":2,"event":"holds"},'
    '{"host":"ada","line":4,"event":"holds"}]}\n'
)
FOUND_AS_JSON = (
    '{"answer":"found","moment":[{"host":"ada","line":4,"event":"gives it back"},'
    '{"host":"ben","line":8,"event":"holds the lease"}]'
)
NEVER = "wcptrace: --until ada=gave matches no event\n"
NEVER_SO_FAR = (
    "wcptrace: --until ada=gave matches none of the first 4 events\n"
    "wcptrace: --until ben=gives matches none of the first 4 events\n"
)
FOUND = "found\nada line 4 gives it back\nben line 8 holds the lease\n"
NONE = "none\nada events 2 matched 1\nben events 2 matched 1\n"
HAS_THREE = "wcptrace: the log has ada, keeper, ben\n"
MARKED = "a byte order mark stands at the beginning of the line; a log has none\n"
PARSER = r"(?<host>\S+) (?<clock>{.*}) (?<event>.*)"


@dataclass(frozen=True)
class Mistake:
    """A mistake: the words of the call, the log, and what is answered and said. `files` are made where it runs."""

    name: str
    words: list[str]
    log: str | bytes
    status: int
    output: str = ""
    errors: str = ""
    files: dict[str, str] = field(default_factory=dict)


MISTAKES = [
    Mistake("none of these", HELD, LOG, 1, NONE),
    Mistake("an end that never matches", [*MISSPELLED, "{}/lease.log"], "", 0, FOUND, NEVER, {"lease.log": LOG}),
    Mistake("the same, of a log that comes through a pipe, which isn't read behind the answer", MISSPELLED, LOG, 0,
            FOUND, NEVER_SO_FAR),
    Mistake("the same with --json", ["--json", *MISSPELLED, "{}/lease.log"], "", 0,
            FOUND_AS_JSON + ',"unmatched":["--until ada=gave"]}\n', NEVER, {"lease.log": LOG}),
    Mistake("an end that matches, with --json", ["--json", *HELD_LATE, "{}/late.log"], "", 0, FOUND_LATE, "",
            {"late.log": LATE}),
    Mistake("an end that never matches, through a pipe and with --json", ["--json", *MISSPELLED], LOG, 0,
            FOUND_AS_JSON + ',"unmatched_so_far":["--until ada=gave","--until ben=gives"]}\n', NEVER_SO_FAR),
    Mistake("two of them, of a log in two files", [*MISSPELLED[:-1], "ben=gave", "{}/one.log", "{}/two.log"], "", 0,
            FOUND,
            "wcptrace: {}/two.log begins at line 7\n" + NEVER + "wcptrace: --until ben=gave matches no event\n",
            {"one.log": LOG[:LOG.index("ben {")], "two.log": LOG[LOG.index("ben {"):]}),
    Mistake("an end that never matches, and questions through a pipe", ["--questions", "-", "{}/lease.log"],
            TWO_QUESTIONS, 2, "lease: " + FOUND,
            "wcptrace: dora: nohost dora\n" + HAS_THREE + "wcptrace: lease: --until ada=gave matches no event\n",
            {"lease.log": LOG}),
    Mistake(
        "an end that matches only behind the answer, of a log in a file",
        [*HELD_LATE, "{}/late.log"],
        "",
        0,
        "found\nben line 2 holds\nada line 4 holds\n",
        "",
        {"late.log": LATE},
    ),
    Mistake("a receive that doesn't take over the clock of the message",
            ["--while", "ada=holds", "--while", "ben=holds"], UNMERGED, 0,
            "found\nada line 2 holds the lease\nben line 6 holds the lease\n", FORGETS),
    Mistake("the same, behind the answer", ["--while", "ada=holds"], UNMERGED, 0,
            "found\nada line 2 holds the lease\n"),
    Mistake("the same, of any two", ["--any-two", "ada|ben=never"], UNMERGED, 1,
            "none\nada events 1 matched 0\nben events 2 matched 0\n", FORGETS),
    Mistake("the same, with --check", ["--check", "--while", "ada=holds", "--while", "ben=holds"], UNMERGED, 2, "",
            "wcptrace: line 6: forgets: it knows the event of line 4, but not all that this knew\n"),
    Mistake("none of these, with --check", ["--check", *HELD], LOG, 1, NONE),
    Mistake(
        "an end that matches only behind the answer, of a state that has just begun",
        HELD_LATE,
        LATE,
        0,
        "found\nben line 2 holds\nada line 4 holds\n",
        "wcptrace: --until ada=gives matches none of the first 2 events\n",
    ),
    Mistake(
        "a beginning that never matches",
        ["--from", "ada=held", "--until", "ada=gives", "--while", "ben=hold"],
        LOG,
        1,
        "none\nben events 2 matched 1\nada events 2 matched 0\n",
    ),
    Mistake(
        "a condition that never matches",
        ["--while", "ada=held", "--at", "ben=held"],
        LOG,
        1,
        "none\nada events 2 matched 0\nben events 2 matched 0\n",
    ),
    Mistake(
        "any two, with an end that never matches",
        ["--any-two-from", "^(ada|ben)$=holds", "--any-two-until", "gave", "{}/lease.log"],
        "",
        0,
        FOUND,
        "wcptrace: --any-two-until gave matches no event\n",
        {"lease.log": LOG},
    ),
    Mistake(
        "any two, with a condition that never matches",
        ["--any-two", "^(ada|ben)$=held"],
        LOG,
        1,
        "none\nada events 2 matched 0\nben events 2 matched 0\n",
    ),
    Mistake("names with control characters", ["--form", "lines", "--any-two", "[ab]=starts"], FORGED, 0, FORGED_FOUND),
    Mistake("names with control characters, and none", ["--form", "lines", "--any-two", "[ab]=never"],
            FORGED, 1, FORGED_NONE),
    Mistake("why there is none, of a name with a control character",
            ["--form", "lines", "--explain", "--while", "ada\nben line 9 holds=never"], FORGED, 1,
            "none\nada\\nben line 9 holds events 1 matched 0\n"
            "why: ada\\nben line 9 holds's condition holds at no event\n"),
    Mistake("a name with a control character that logs nothing", ["--form", "lines", "--while", "ada\nben=starts"],
            FORGED, 2, "", "wcptrace: nohost ada\\nben\n"
            "wcptrace: the log has ada\\nben line 9 holds, b\\u{1b}[2Jen\\u{85}\n"),
    Mistake("any two of no host", ["--any-two", "^n[0-9]$=holds"], LOG, 2, "",
            "wcptrace: nohost ^n[0-9]$\n" + HAS_THREE),
    Mistake(
        "questions, with an end that never matches and a host that logs nothing",
        ["--questions", "{}/two.toml", "{}/lease.log"],
        "",
        2,
        "lease: " + FOUND,
        "wcptrace: dora: nohost dora\n" + HAS_THREE + "wcptrace: lease: --until ada=gave matches no event\n",
        {"two.toml": TWO_QUESTIONS, "lease.log": LOG},
    ),
    Mistake("each moment, with an end that never matches", ["--all", *MISSPELLED, "{}/lease.log"], "", 0,
            FOUND + "moments 1\n", NEVER, {"lease.log": LOG}),
    Mistake("each moment as JSON, with an end that never matches", ["--all", "--json", *MISSPELLED, "{}/lease.log"],
            "", 0, FOUND_AS_JSON + '}\n{"moments":1}\n{"unmatched":["--until ada=gave"]}\n', NEVER, {"lease.log": LOG}),
    Mistake("the same through a pipe, of which all is read", ["--all", *MISSPELLED], LOG, 0, FOUND + "moments 1\n",
            NEVER),
    Mistake("questions as JSON, with an end that never matches", ["--json", "--questions", "{}/one.toml"], LOG, 0,
            '{"question":"lease",' + FOUND_AS_JSON[1:]
            + '}\n{"unmatched_so_far":["lease: --until ada=gave","lease: --until ben=gives"]}\n',
            NEVER_SO_FAR.replace("--until", "lease: --until"), {"one.toml": ONE_QUESTION}),
    Mistake("the same of a file", ["--json", "--questions", "{}/one.toml", "{}/lease.log"], "", 0,
            '{"question":"lease",' + FOUND_AS_JSON[1:] + '}\n{"unmatched":["lease: --until ada=gave"]}\n',
            "wcptrace: lease: --until ada=gave matches no event\n", {"one.toml": ONE_QUESTION, "lease.log": LOG}),
    Mistake("a host that logs nothing", ["--while", "n9=holds"], LOG, 2, "",
            "wcptrace: nohost n9\n" + HAS_THREE),
    Mistake("a host in capitals", ["--while", "Ada=holds"], LOG, 2, "",
            "wcptrace: nohost Ada\n" + HAS_THREE),
    Mistake(
        "a host of none of twelve",
        ["--while", "n13=starts"],
        TWELVE,
        2,
        "",
        "wcptrace: nohost n13\nwcptrace: the log has n1, n2, n3, n4, n5, n6, n7, n8, n9, n10 and 2 more\n",
    ),
    Mistake(
        "a parser that matches no line",
        ["--skip-unmatched", "--parser", PARSER, "--while", "ada=holds"],
        "ada: holds\nben: holds\n",
        2,
        "",
        "wcptrace: the log has no event\nwcptrace: nohost ada\n"
        "wcptrace: lines that are no event: 2, which are all\n",
    ),
    Mistake(
        "members that no line has",
        ["--skip-unmatched", "--host-field", "node", "--while", "ada=holds"],
        JSON_LINES,
        2,
        "",
        "wcptrace: the log has no event\nwcptrace: nohost ada\n"
        "wcptrace: lines that are no event: 2, which are all\n",
    ),
    Mistake(
        "a group that takes no part",
        ["--parser", r"(?<host>\S+) (?<clock>{.*})(?<event> late)?", "--while", "ada=holds"],
        'ada {"ada":1} holds\n',
        2,
        "",
        "wcptrace: line 1: text: the group (?<event>) takes no part in the match here\n",
    ),
    Mistake(
        "an expression that doesn't match",
        ["--parser", PARSER, "--while", "ada=holds"],
        "ada holds\n",
        2,
        "",
        "wcptrace: line 1: text: the expression has no match here\n",
    ),
    Mistake(
        "a member for the host that no line has",
        ["--host-field", "node.name", "--while", "ada=holds"],
        JSON_LINES,
        2,
        "",
        'wcptrace: line 1: text: no text "node.name"\n',
    ),
    Mistake(
        "a member for the clock that no line has",
        ["--clock-field", "v\u001bc", "--while", "ada=holds"],
        JSON_LINES,
        2,
        "",
        'wcptrace: line 1: text: no member "v\\u{1b}c"\n',
    ),
    Mistake(
        "a member for the text that is a number",
        ["--event-field", "clock.ada", "--while", "ada=holds"],
        JSON_LINES,
        2,
        "",
        'wcptrace: line 1: text: no text "clock.ada"\n',
    ),
    Mistake(
        "members, and a line that is no JSON",
        ["--event-field", "event", "--while", "ada=holds"],
        "=== run 7\n" + JSON_LINES,
        2,
        "",
        "wcptrace: line 1: text: no JSON object\n",
    ),
    Mistake("a directory", ["--while", "ada=holds", "{}"], "", 2, "", "wcptrace: {}: is a directory\n"),
    Mistake(
        "a directory among several files",
        ["--while", "ada=held", "-", "{}"],
        LOG,
        2,
        "",
        "wcptrace: {}: is a directory\n",
    ),
    Mistake(
        "no such file",
        ["--while", "ada=holds", "{}/none.log"],
        "",
        2,
        "",
        "wcptrace: {}/none.log: No such file or directory (os error 2)\n",
    ),
    Mistake(
        "JSON lines without --form",
        ["--while", "ada=holds"],
        JSON_LINES,
        2,
        "",
        "wcptrace: line 1: clock: a JSON object, which --form lines reads\n",
    ),
    Mistake(
        "times before the host, without --parser",
        ["--while", "ada=holds"],
        TIMED,
        2,
        "",
        'wcptrace: line 1: clock: not JSON: 21:00:01,113 ada {"ada":1} holds the lease\n',
    ),
    Mistake(
        "a byte order mark",
        ["--while", "ada=holds"],
        "\ufeff" + LOG,
        2,
        "",
        "wcptrace: line 1: own: " + MARKED,
    ),
    Mistake(
        "a byte order mark before JSON lines",
        ["--form", "lines", "--while", "ada=holds"],
        '\ufeff{"host":"ada","clock":{"ada":1},"event":"holds"}\n',
        2,
        "",
        "wcptrace: line 1: text: " + MARKED,
    ),
    Mistake(
        "a byte order mark before a log without clocks",
        ["--form", "messages", "--while", "ada=holds"],
        '\ufeff{"host":"ada","event":"holds"}\n',
        2,
        "",
        "wcptrace: line 1: text: " + MARKED,
    ),
    Mistake(
        "a byte order mark before a host that an expression finds",
        ["--parser", PARSER, "--while", "ada=holds"],
        '\ufeffada {"ada":1} holds\n',
        2,
        "",
        "wcptrace: line 1: own: a byte order mark stands before the host\n",
    ),
    Mistake(
        "ends of lines in CR LF",
        ["--while", "ada=lease$"],
        LOG.replace("\n", "\r\n"),
        1,
        "none\nada events 2 matched 0\n",
        "wcptrace: a text ends in CR, as where lines end in CR LF: an expression that ends in $ doesn't match there; "
        "write \\r?$\n",
    ),
    Mistake(
        "a clock that goes back",
        ["--while", "ben=never"],
        'ada {"ada":7}\nx\nada {"ada":3}\nx\n',
        2,
        "",
        "wcptrace: line 3: order: ada is 3 after 7, which looks like a restart of ada\n",
    ),
    Mistake(
        "a log twice",
        HELD,
        LOG + LOG,
        2,
        "",
        "wcptrace: line 11: order: ada is 1 after 2, which looks like a restart of ada\n",
    ),
    Mistake("a compressed log", ["--while", "ada=holds"], gzip.compress(LOG.encode(), mtime=0), 2, "",
            "wcptrace: line 1: text: not UTF-8\n"),
    Mistake("a log in UTF-16", ["--while", "ada=holds"], LOG.encode("utf-16"), 2, "",
            "wcptrace: line 1: text: not UTF-8\n"),
    Mistake("an empty log", ["--while", "ada=holds"], "", 2, "",
            "wcptrace: the log has no event\nwcptrace: nohost ada\n"),
    Mistake(
        "an expression that is none",
        ["--while", "ada=("],
        LOG,
        2,
        "",
        "wcptrace: expression of --while ada: regex parse error at 0..1: unclosed group\n",
    ),
    Mistake("half a pair", ["--from", "ada=holds"], LOG, 2, "", "wcptrace: usage: --from ada needs an --until ada\n"),
    Mistake(
        "a key that there isn't",
        ["--questions", "{}/none.toml"],
        LOG,
        2,
        "",
        'wcptrace: {}/none.toml: question 1 (lease): there is no key "untill": a question has name, and while, from, '
        "until, at and definitely, or any-two, or any-two-from and any-two-until\n",
        {"none.toml": UNKNOWN_KEY},
    ),
    Mistake(
        "an id that is sent twice",
        ["--form", "messages", "--while", "ada=never"],
        '{"host":"ada","event":"x","send":"m"}\n{"host":"ben","event":"y","send":"m"}\n',
        2,
        "",
        'wcptrace: line 2: twice: "m" is sent a second time, first in line 1\n',
    ),
    Mistake(
        "ids that are null, as where a logger writes each member in each line",
        ["--form", "messages", "--while", "ada=holds"],
        '{"host":"ada","event":"holds","send":null,"recv":null}\n',
        0,
        "found\nada line 1 holds\n",
    ),
    Mistake(
        "a list of ids in which one is null",
        ["--form", "messages", "--while", "ada=holds"],
        '{"host":"ada","event":"holds","recv":["m1",null]}\n',
        2,
        "",
        'wcptrace: line 1: text: "recv" is no id, and no list of ids: ["m1",null]\n',
    ),
    Mistake(
        "an id that is a number with a sign",
        ["--form", "messages", "--while", "ada=never"],
        '{"host":"ada","event":"holds"}\n{"host":"ada","event":"holds","send":-3}\n',
        2,
        "",
        'wcptrace: line 2: text: "send" is no id, and no list of ids: -3\n',
    ),
    Mistake(
        "an id that is an object, with a control character",
        ["--form", "messages", "--while", "ada=holds"],
        '{"host":"ada","event":"holds","send":{"id":"\\u001b\\u009b"}}\n',
        2,
        "",
        'wcptrace: line 1: text: "send" is no id, and no list of ids: {"id":"\\u001b\\u{9b}"}\n',
    ),
    Mistake(
        "a batch that receives two, whose senders happened before it",
        ["--form", "messages", "--at", "ben=asks", "--at", "keeper=gets"],
        BATCH,
        1,
        "none\nben events 1 matched 1\nkeeper events 1 matched 1\n",
    ),
    Mistake(
        "the same with the other sender",
        ["--form", "messages", "--at", "dora=asks", "--at", "keeper=gets"],
        BATCH,
        1,
        "none\ndora events 1 matched 1\nkeeper events 1 matched 1\n",
    ),
    Mistake(
        "a batch of which one message was never sent",
        ["--form", "messages", "--while", "ben=asks", "--while", "keeper=gets"],
        BATCH.replace('"send":"m2"', '"send":"m3"'),
        2,
        "unknown\nline 1 waits for m2\nlines that wait: 1\n",
    ),
    Mistake(
        "the same where the sender is assumed to log nothing",
        ["--form", "messages", "--assume-sent", "--at", "ben=asks", "--at", "keeper=gets"],
        BATCH.replace('"send":"m2"', '"send":"m3"'),
        1,
        "none\nben events 1 matched 1\nkeeper events 1 matched 1\n",
    ),
    Mistake(
        "an id that is a number in one line and a text in another, which is one id",
        ["--form", "messages", "--at", "ben=asks", "--at", "keeper=gets"],
        IDS,
        1,
        "none\nben events 1 matched 1\nkeeper events 1 matched 1\n",
    ),
]


@pytest.mark.parametrize("mistake", MISTAKES, ids=lambda it: str(it.name))
def test_mistake(wcptrace: pathlib.Path, tmp_path: pathlib.Path, mistake: Mistake) -> None:
    """Its files are made in a folder of their own, whose name stands for `{}`."""
    for name, text in mistake.files.items():
        (tmp_path / name).write_text(text, encoding="utf-8")
    words = [word.replace("{}", str(tmp_path)) if word.startswith("{}") else word for word in mistake.words]
    errors = mistake.errors.replace("wcptrace: {}", f"wcptrace: {tmp_path}")
    assert ask(wcptrace, words, mistake.log) == Answer(mistake.status, mistake.output, errors)


def test_an_end_that_never_matches_of_a_file_on_standard_input(wcptrace: pathlib.Path) -> None:
    """It is told as it is of a named file."""
    with tempfile.TemporaryFile() as log:
        log.write(LOG.encode())
        log.seek(0)
        ran = subprocess.run([wcptrace, *MISSPELLED], stdin=log, capture_output=True, timeout=SECONDS, check=False)
    assert Answer(ran.returncode, as_text(ran.stdout), as_text(ran.stderr)) == Answer(0, FOUND, NEVER)


def on_terminal(file: pathlib.Path, words: list[str], log: bytes) -> bytes:
    """What a program writes on a terminal that is called so."""
    ours, theirs = pty.openpty()
    with os.fdopen(ours, "rb", buffering=0) as shown:
        with os.fdopen(theirs, "wb", buffering=0) as terminal:
            subprocess.run([str(file), *words], input=log, stdout=terminal, stderr=subprocess.DEVNULL,
                           timeout=SECONDS, check=False)
        return shown.read(65536) or b""


def test_texts_on_a_terminal(wcptrace: pathlib.Path) -> None:
    """The control characters of a text are escaped there, but for LF and TAB. The terminal itself ends a line in CR
    LF."""
    log = b'{"host":"a","clock":{"a":1},"event":"x\\u001b[31m\\u0007\\u0085\\ty\\nz"}\n'
    assert on_terminal(wcptrace, ["--form", "lines", "--while", "a=x"], log) == (
        rb"found" b"\r\n" rb"a line 1 x\u{1b}[31m\u{7}\u{85}" b"\ty\r\nz\r\n"
    )
