"""The data of the pages that `wcptrace` writes."""
import pathlib
import subprocess
from collections.abc import Sequence
from typing import Any

import pytest
from logs import BOTH, RUNS_OUT, TWO_LEADERS, first_lines
from page_helper import random_log
from programs import SECONDS, ask, data_of, label
from still_picture import in_two_lines, shiviz

Event = dict[str, Any]


def event(host: int, line: int, text: str, clock: list[list[int]], *flags: str) -> Event:
    """An event as the data of a page has it."""
    return {"host": host, "line": line, "text": text, "clock": clock} | {flag: True for flag in flags}


# The events of RUNS_OUT.
LEASE = [
    event(0, 2, "opens", [[0, 1]]),
    event(1, 4, "asks for the lease", [[1, 1]]),
    event(0, 6, "gives the lease to ann", [[0, 2], [1, 1]]),
    event(1, 8, "holds the lease", [[1, 2], [0, 2]], "holds"),
    event(2, 10, "asks for the lease", [[2, 1]]),
    event(0, 12, "the lease of ann has run out, gives it to ben", [[0, 3], [1, 1], [2, 1]]),
    event(2, 14, "holds the lease", [[2, 2], [0, 3], [1, 1]], "holds"),
    event(1, 16, "gives the lease back", [[1, 3], [0, 2]]),
]
HOLDS = {"rule": "while", "condition": "holds"}
KEEPER = [{"name": "keeper"}, {"name": "ann"} | HOLDS, {"name": "ben"} | HOLDS]
ALL_HOLD = [{"name": "keeper"} | HOLDS, *KEEPER[1:]]
# The keeper opens before Ann does anything, and Ben isn't asked about.
OPENING = {"rule": "while", "condition": "holds|opens"}
OPENS = [{"name": "keeper"} | OPENING, {"name": "ann"} | OPENING, {"name": "ben"}]
OPENED = [LEASE[0] | {"holds": True}, *LEASE[1:6], event(2, 14, "holds the lease", [[2, 2], [0, 3], [1, 1]]), LEASE[7]]
# The member of the moment that comes before the last three events until it is known.
ANN = event(1, 8, "holds the lease", [], "holds", "far")
FOUND = "found\nann line 8 holds the lease\nben line 14 holds the lease\n"


def data(answer: str, words: str, hosts: list[dict[str, str]], events: list[Event], moment: list[int] | None,
         before: int = 0, more: bool = False, asks: str = "all", over: Sequence[int | None] = ()) -> dict[str, Any]:
    """The data of a page of a log that came on standard input."""
    return {
        "program": "wcptrace",
        "title": "",
        "unit": "line",
        "asks": asks,
        "answer": answer,
        "words": words,
        "hosts": hosts,
        "events": events,
        "moment": moment,
        "over": [*over],
        "left_out": {"before": before, "after": 0, "more": more},
    }


FAR_HOSTS = [{"name": "a", "rule": "while", "condition": "x"}, {"name": "b", "rule": "while", "condition": "^z"}]

# The moment is known at the last event but one, and its first member stands far before what is shown.
FAR_LOG = 'a {"a":1}\nx</script>\n' + "".join(f'b {{"b":{number}}}\ny\n' for number in range(1, 601))
FAR_LOG += 'b {"b":601}\nz\nb {"b":602}\ny\n'
FAR = data(
    "found",
    "found\na line 2 x</script>\nb line 1204 z\n",
    FAR_HOSTS,
    [event(0, 2, "x</script>", [], "holds", "far")]
    + [event(1, 2 * number + 2, "y", [[1, number]]) for number in range(103, 601)]
    + [event(1, 1204, "z", [[1, 601]], "holds"), event(1, 1206, "y", [[1, 602]])],
    [0, 499],
    before=103,
)
FARTHEST = data(
    FAR["answer"],
    FAR["words"],
    FAR_HOSTS,
    [FAR["events"][0], event(1, 1204, "z", [], "holds", "far"), event(1, 1206, "y", [[1, 602]])],
    [0, 1],
    before=602,
)

# Each learns of the other before its run is over, of which one isn't when this is known.
MET = 'a {"a":1}\nholds\nb {"b":1}\nholds\na {"a":2,"b":1}\nends\nb {"b":2,"a":1}\nholds on\nb {"b":3,"a":1}\nends\n'
MET_HOSTS = [{"name": name} | HOLDS for name in "ab"]
MET_EVENTS = [
    event(0, 2, "holds", [[0, 1]], "holds"),
    event(1, 4, "holds", [[1, 1]], "holds"),
    event(0, 6, "ends", [[0, 2], [1, 1]]),
    event(1, 8, "holds on", [[1, 2], [0, 1]], "holds"),
    event(1, 10, "ends", [[1, 3], [0, 1]]),
]

PAGES = [
    (["--page", *BOTH], RUNS_OUT, 0, data("found", FOUND, KEEPER, LEASE, [3, 6])),
    # The moment is known at the last event but one: so many events until then, and the one behind it.
    (["--page", "--events", "4", *BOTH], RUNS_OUT, 0, data("found", FOUND, KEEPER, LEASE[3:], [0, 3], before=3)),
    (["--page", "--events", "3", *BOTH], RUNS_OUT, 0,
     data("found", FOUND, KEEPER, [ANN, *LEASE[4:]], [0, 3], before=4)),
    # What comes behind the moment has a fault, is cut, or ends within a line.
    (["--page", *BOTH], RUNS_OUT + "ann\n", 0, data("found", FOUND, KEEPER, LEASE, [3, 6], more=True)),
    (["--page", *BOTH], first_lines(RUNS_OUT, 15), 0, data("found", FOUND, KEEPER, LEASE[:7], [3, 6], more=True)),
    (["--page", "--events", "499", "--while", "a=x", "--while", "b=^z"], FAR_LOG, 0, FAR),
    (["--page", "--events", "0", "--while", "a=x", "--while", "b=^z"], FAR_LOG, 0, FARTHEST),
    # Any two hosts: each whose name matches has the condition, and the moment is that of two.
    (["--page", "--any-two", "^(ann|ben)$=holds"], RUNS_OUT, 0,
     data("found", FOUND, KEEPER, LEASE, [3, 6], asks="two")),
    (["--page", "--any-two", ".=holds"], RUNS_OUT, 0, data("found", FOUND, ALL_HOLD, LEASE, [3, 6], asks="two")),
    (["--page", "--events", "3", "--any-two", ".=holds"], RUNS_OUT, 0,
     data("found", FOUND, ALL_HOLD, [ANN, *LEASE[4:]], [0, 3], before=4, asks="two")),
    (["--page", "--any-two", "^(keeper|ann)$=holds|opens"], RUNS_OUT, 1, data(
        "none", "none\nkeeper events 3 matched 1\nann events 3 matched 1\n", OPENS, OPENED, None, asks="two")),
    # Whether it must have been: it could have been; or it must, and each run is over in its line or isn't.
    (["--page", "--definitely", *BOTH], RUNS_OUT, 1,
     data("possible", FOUND.replace("found", "possibly"), KEEPER, LEASE, [3, 6], asks="definitely")),
    (["--page", "--definitely", "--while", "ann=opens", "--while", "ben=holds"], RUNS_OUT, 1, data(
        "none", "none\nann events 3 matched 0\nben events 2 matched 1\n",
        [KEEPER[0], {"name": "ann", "rule": "while", "condition": "opens"}, KEEPER[2]],
        [*LEASE[:3], event(1, 8, "holds the lease", [[1, 2], [0, 2]]), *LEASE[4:]], None, asks="definitely")),
    (["--page", "--definitely", "--while", "a=holds", "--while", "b=holds"], MET, 0, data(
        "definite", "definitely\na lines 2 to 6 holds\nb line 4 on holds\n", MET_HOSTS, MET_EVENTS, [0, 1],
        asks="definitely", over=[6, None])),
    (["--page", "--events", "2", "--definitely", "--while", "a=holds", "--while", "b=holds"], MET, 0, data(
        "definite", "definitely\na lines 2 to 6 holds\nb line 4 on holds\n", MET_HOSTS,
        [*(event(number, it["line"], "holds", [], "holds", "far") for number, it in enumerate(MET_EVENTS[:2])),
         *MET_EVENTS[2:]], [0, 1], before=2, asks="definitely", over=[6, None])),
]

# Any two hosts, and the same two by their names.
BY_NAME = [
    (["--any-two", "^(ann|ben)$=holds"], BOTH, RUNS_OUT, 0),
    (["--any-two-from", "^n[12]$=leader", "--any-two-until", "steps"],
     ["--from", "n1=leader", "--until", "n1=steps", "--from", "n2=leader", "--until", "n2=steps"], TWO_LEADERS, 0),
    (["--any-two", "^(keeper|ben)$=holds"], ["--while", "keeper=holds", "--while", "ben=holds"], RUNS_OUT, 1),
]


@pytest.mark.parametrize("words, log, status, wanted", PAGES,
                         ids=[label(words, wanted["left_out"]) for words, _, _, wanted in PAGES])
def test_page(wcptrace: pathlib.Path, words: list[str], log: str, status: int, wanted: dict[str, Any]) -> None:
    ended, output, errors = ask(wcptrace, words, log)
    assert (ended, errors) == (status, "")
    assert data_of(output) == wanted


@pytest.mark.parametrize("shown", ["--page", "--svg"])
@pytest.mark.parametrize("any_two, named, log, status", BY_NAME, ids=[label(*it[0]) for it in BY_NAME])
def test_any_two_as_by_their_names(wcptrace: pathlib.Path, any_two: list[str], named: list[str], log: str, status: int,
                                   shown: str) -> None:
    """The page is the same, and the picture: with the same moment, or none."""
    answer = ask(wcptrace, [shown, *any_two], log)
    assert answer.status == status
    output = answer.output.replace('"asks":"two"', '"asks":"all"')
    assert (answer.status, output) == ask(wcptrace, [shown, *named], log)[:2]


@pytest.mark.parametrize("seed", range(12))
def test_any_two_of_a_random_log(wcptrace: pathlib.Path, seed: int) -> None:
    """The words are the answer without a page and tell the moment, and each host whose name matches is judged."""
    log = in_two_lines(random_log(seed, 16 + 2 * seed, hosts=3 + seed % 4))
    words = ["--any-two", "[012]$=holds"]
    told = ask(wcptrace, words, shiviz(log))
    status, page, errors = ask(wcptrace, ["--page", *words], shiviz(log))
    assert (status, errors) == (told.status, told.errors)
    shown = data_of(page)
    assert shown["words"] == told.output
    hosts, events = shown["hosts"], shown["events"]
    members = [events[place] for place in shown["moment"] or []]
    said = [f"{hosts[it['host']]['name']} line {it['line']} {it['text']}" for it in members]
    assert said == (told.output.splitlines()[1:] if status == 0 else [])
    asked = [host["name"][-1] in "012" for host in hosts]
    assert [host.get("condition") == "holds" for host in hosts] == asked
    assert [it.get("holds", False) for it in events] == [asked[it["host"]] and "holds" in it["text"] for it in events]


def test_any_two_where_lines_wait(wcptrace: pathlib.Path) -> None:
    """The page says that the answer isn't known."""
    log = '{"host":"ada","event":"holds","recv":"m1"}\n{"host":"ben","event":"holds"}\n'
    words = ["--form", "messages", "--any-two", ".=holds"]
    told = ask(wcptrace, words, log)
    status, page, errors = ask(wcptrace, ["--page", *words], log)
    assert (status, errors) == (told.status, told.errors) and status == 2
    shown = data_of(page)
    assert (shown["answer"], shown["words"], shown["moment"]) == ("undecided", told.output, None)


def test_a_page_whose_reader_has_gone(wcptrace: pathlib.Path) -> None:
    """It ends without a word, and with the status of one that SIGPIPE has ended."""
    words = ["bash", "-c", f"set -o pipefail; {wcptrace} --page --at a=x | head -c 10"]
    log = 'a {"a":1}\n' + "x" * 60_000 + "\n" + "".join(f'a {{"a":{n}}}\n{"x" * 60_000}\n' for n in range(2, 40))
    ran = subprocess.run(words, input=log.encode(), capture_output=True, timeout=SECONDS, check=False)
    assert (ran.returncode, ran.stdout, ran.stderr) == (141, b"<!DOCTYPE ", b"")
