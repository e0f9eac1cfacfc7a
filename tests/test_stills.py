"""The still pictures of logs, `wcptrace --svg`, against what the clocks of the logs say."""
import pathlib

import pytest
from page_helper import Event, Log, moment_of, random_log
from programs import ask
from still_picture import (
    COLUMN, Picture, arrows_of, columns_of, conditions_of, in_two_lines, shiviz, words_for)

# Texts and names that would be markup if they weren't escaped, and a name that is long.
HOSTILE = "<script>x</script> & \"quoted\" <!-- ]]>"
LONG = "h" * 60


def drawn(file: pathlib.Path, log: Log, words: list[str], status: int) -> Picture:
    """The picture of a log, whose call has this status."""
    ended, output, errors = ask(file, words, shiviz(log))
    assert (ended, errors) == (status, "")
    return Picture(output)


@pytest.mark.parametrize("seed", range(40))
def test_shows_what_the_clocks_say(wcptrace: pathlib.Path, seed: int) -> None:
    """The events, the arrows and the moment of a random log."""
    log = in_two_lines(random_log(seed, 12 + 2 * seed, hosts=2 + seed % 6))
    conditions = conditions_of(log)
    moment = moment_of(log, conditions)
    picture = drawn(wcptrace, log, words_for(conditions), 0 if moment else 1)
    columns, line = columns_of(log, moment)
    assert sorted(picture.events()) == sorted((it.line, it.text, it.host, columns[n]) for n, it in enumerate(log))
    arrows = list(picture.arrows())
    assert {said for said, _ in arrows} == arrows_of(log)
    assert all(said == stands for said, stands in arrows), arrows
    members = [log[it] for it in moment or []]
    found = "found: " + ", ".join(f"{it.host} line {it.line}" for it in members)
    assert picture.found == (found if moment else "none")
    assert picture.lines() == ([line] if moment else [])
    assert picture.members() == sorted(f"line {it.line}: {it.text}" for it in members)
    assert picture.spills() == []


def bars_of(log: Log, rule: str, picture: Picture) -> list[tuple[int, int, int]]:
    """Of each event at which the condition of its host holds its line, and the two ends of its bar: a state lasts until
    the next event of its host, and what holds at an event alone is drawn about it."""
    places = {int(line): round(picture.left + COLUMN * column) for line, _, _, column in picture.events()}
    bars = []
    for number, event in enumerate(log):
        if event.host in conditions_of(log) and "holds" in event.text:
            x, later = places[event.line], [it.line for it in log[number + 1:] if it.host == event.host]
            end = places[later[0]] if later else picture.right()
            bars.append((event.line, x - 8, x + 8) if rule == "at" else (event.line, x + 1, end - 1))
    return bars


@pytest.mark.parametrize("rule", ["while", "at"])
@pytest.mark.parametrize("seed", range(50, 58))
def test_bars_are_the_states(wcptrace: pathlib.Path, seed: int, rule: str) -> None:
    log = in_two_lines(random_log(seed, 24, hosts=2 + seed % 3, hold=0.5))
    conditions = conditions_of(log, rule)
    picture = drawn(wcptrace, log, words_for(conditions), 0 if moment_of(log, conditions) else 1)
    wanted = bars_of(log, rule, picture)
    assert len(wanted) > 5
    assert picture.bars() == wanted


def test_a_member_from_far_back_is_left_out_once(wcptrace: pathlib.Path) -> None:
    """The program keeps 2,000 events before the moment, and the members from before these."""
    log = [Event(1, "a", {"a": 1}, "holds"), *(Event(1, "b", {"b": it}, "works") for it in range(1, 2600))]
    log = in_two_lines([*log, Event(1, "b", {"b": 2600}, "holds"), Event(1, "b", {"b": 2601}, "works")])
    picture = drawn(wcptrace, log, words_for(conditions_of(log), 10), 0)
    left, right = picture.left_out()
    shown = len(list(picture.events()))
    assert shown and left + right + shown == len(log)


@pytest.mark.parametrize("log, first, second", [
    (random_log(3, 200, 4), "work 1[0-9][0-9].*holds", "work 1[0-9][0-9].*holds"),
    (random_log(4, 2100, 3), "holds", "never"),
], ids=["200 events", "2,100 events without a moment"])
def test_says_what_is_left_out(wcptrace: pathlib.Path, log: Log, first: str, second: str) -> None:
    """A picture of ten columns says how many events stand left and right of these, and has the moment in the middle."""
    log = in_two_lines(log)
    conditions = {"host0": ("while", first), "host1": ("while", second)}
    moment = moment_of(log, conditions)
    picture = drawn(wcptrace, log, words_for(conditions, 10), 0 if moment else 1)
    left, right = picture.left_out()
    shown = len(list(picture.events()))
    assert shown and left + right + shown == len(log)
    assert picture.lines() == ([6] if moment else [])


def test_texts_and_names_stand_in_it_as_texts(wcptrace: pathlib.Path) -> None:
    """A long name is there by its beginning, and whole as its tooltip."""
    log = in_two_lines([Event(1, LONG, {LONG: 1}, HOSTILE + " holds"), Event(2, "b", {"b": 1}, HOSTILE + " holds")])
    picture = drawn(wcptrace, log, words_for(conditions_of(log)), 0)
    assert [text for _, text, _, _ in picture.events()] == [it.text for it in log]
    assert "h" * 23 + "\u2026" + LONG in picture.names.values()
    assert picture.spills() == []
