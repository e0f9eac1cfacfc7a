"""What `wcptrace` says of its words: those that it doesn't know, and what the others ask for."""
import pathlib

import pytest
from logs import Row, fault, found, name_of, none, open_until, usage
from programs import Answer, ask, label

# Words that the program doesn't know beside a condition, and why.
UNKNOWN = [
    (["--form", "json"], "there is no form 'json'; the forms are lines, shiviz, shiviz-reversed and messages"),
    (["--form", ""], "there is no form ''; the forms are lines, shiviz, shiviz-reversed and messages"),
    (["--form", "lines", "--form", "lines"], "the argument '--form <FORM>' cannot be used multiple times"),
    (["--while"], "a value is required for '--while <HOST=REGEX>' but none was supplied"),
    (["--while", "--at"], "a value is required for '--while <HOST=REGEX>' but none was supplied"),
    (["--events", "3"], "--events is of a page: give --page too"),
    (["--page", "--events", "x"], "--events takes a number from 0 to 4294967295, and not 'x'"),
    (["--page", "--events", "-1"], "unexpected argument '-1' found; to pass '-1' as a value, use '-- -1'"),
    (["--page", "--events", "4294967296"], "--events takes a number from 0 to 4294967295, and not '4294967296'"),
    (["--page=yes"], "unexpected value 'yes' for '--page' found; no more were expected"),
    (["--svg", "--page"], "--page and --svg are two answers: give one of them"),
    (["--svg", "--page", "--columns", "x"], "--page and --svg are two answers: give one of them"),
    (["--svg", "--events", "3"], "--events is of a page: give --page too"),
    (["--columns", "20"], "--columns is of a picture: give --svg too"),
    (["--columns", "20", "--page"], "--columns is of a picture: give --svg too"),
    (["--svg", "--columns", "9"], "--columns takes a number from 10 to 1000, and not '9'"),
    (["--svg", "--columns", "1001"], "--columns takes a number from 10 to 1000, and not '1001'"),
    (["--svg", "--columns", "x"], "--columns takes a number from 10 to 1000, and not 'x'"),
    (["--svg", "--columns", ""], "--columns takes a number from 10 to 1000, and not ''"),
    (["--while", "--progress"], "a value is required for '--while <HOST=REGEX>' but none was supplied"),
    (["--wait", "a=x"], "unexpected argument '--wait' found; to pass '--wait' as a value, use '-- --wait'"),
    (["--wihle", "a=x"], "unexpected argument '--wihle' found; a similar argument exists: '--while'"),
    (["--whil=a=x"], "unexpected argument '--whil' found; a similar argument exists: '--while'"),
    (["--zzz"], "unexpected argument '--zzz' found; to pass '--zzz' as a value, use '-- --zzz'"),
    (["-z"], "unexpected argument '-z' found; to pass '-z' as a value, use '-- -z'"),
    (["--from-line", "0"], "--from-line takes the number of a line, from 1, and not '0'"),
    (["--from-line", "x", "--to-line", "y"], "--from-line takes the number of a line, from 1, and not 'x'"),
    (["--from-line", ""], "--from-line takes the number of a line, from 1, and not ''"),
    (["--from-line", "+3"], "--from-line takes the number of a line, from 1, and not '+3'"),
    (
        ["--from-line", "18446744073709551616"],
        "--from-line takes the number of a line, from 1, and not '18446744073709551616'",
    ),
    (["--to-line", "1.5"], "--to-line takes the number of a line, from 1, and not '1.5'"),
    (["--to-line", "0"], "--to-line takes the number of a line, from 1, and not '0'"),
    (["--from-line", "5", "--to-line", "4"], "--from-line 5 is behind --to-line 4"),
    (["--all", "--page"], "--all gives several moments, as lines or JSON: leave out --page and --svg"),
    (["--all", "--questions", "lease.toml"], "--all is of one question: give its conditions in place of --questions"),
    (["--progress=yes"], "unexpected value 'yes' for '--progress' found; no more were expected"),
    (["--progress", "--progress"], "the argument '--progress' cannot be used multiple times"),
]

# Words that say no conditions, and why.
NO_CONDITIONS: list[tuple[list[str], str]] = [
    ([], "no host has a condition: give --while, --from and --until, or --at"),
    (["--form", "lines"], "no host has a condition: give --while, --from and --until, or --at"),
    (["--while", "alice"], "--while takes HOST=REGEX, and not 'alice'"),
    (["--while", "=holds"], "--while takes HOST=REGEX, and not '=holds'"),
    (["--while", "="], "--while takes HOST=REGEX, and not '='"),
    (["--while", ""], "--while takes HOST=REGEX, and not ''"),
    (["--while", "alice=holds", "--while", "bob"], "--while takes HOST=REGEX, and not 'bob'"),
    (["--while", "alice=holds", "--while", "alice=asks"], "alice has more than one condition"),
    (["--while", "alice=holds", "--at", "alice=holds"], "alice has more than one condition"),
    (
        ["--while", "alice=holds", "--from", "alice=holds", "--until", "alice=gives"],
        "alice has more than one condition",
    ),
    (["--from", "alice=holds", "--until", "alice=gives", "--at", "alice=x"], "alice has more than one condition"),
    (["--from", "alice=holds"], "--from alice needs an --until alice"),
    (["--until", "alice=gives"], "--until alice needs a --from alice"),
    (["--while", "bob=x", "--until", "alice=gives"], "--until alice needs a --from alice"),
    (["--from", "alice=holds", "--until", "bob=gives"], "--from alice needs an --until alice"),
    (
        ["--from", "alice=holds", "--until", "alice=gives", "--until", "alice=dies"],
        "--from alice takes one --until alice, and there are more",
    ),
    (
        ["--from", "alice=holds", "--from", "alice=asks", "--until", "alice=gives"],
        "alice has more than one condition",
    ),
    (
        ["--from", "alice=holds", "--from", "alice=asks", "--until", "alice=gives", "--until", "alice=dies"],
        "alice has more than one condition",
    ),
    (
        ["--from", "alice=holds", "--from", "bob=holds", "--until", "alice=gives", "--until", "carol=gives"],
        "--from bob needs an --until bob",
    ),
    (["--from", "alice", "--until", "alice=gives"], "--from takes HOST=REGEX, and not 'alice'"),
    (["--from", "alice=holds", "--until", "alice"], "--until takes HOST=REGEX, and not 'alice'"),
    (["--while", "alice=holds", "--at", "=x"], "--at takes HOST=REGEX, and not '=x'"),
    # All words are looked at before the first expression is read.
    (["--while", "alice=(", "--while", "bob"], "--while takes HOST=REGEX, and not 'bob'"),
    (["--while", "alice=(", "--until", "bob=x"], "--until bob needs a --from bob"),
]

# Words of which an expression is none, and the fault of the first such.
EXPRESSIONS = [
    (["--while", "alice=("], "--while alice: regex parse error at 0..1: unclosed group"),
    (
        ["--while", "alice=x", "--while", "bob=a{2", "--while", "carol=("],
        "--while bob: regex parse error at 1..3: unclosed counted repetition",
    ),
    (
        ["--from", "alice=x", "--until", "alice=["],
        "--until alice: regex parse error at 0..1: unclosed character class",
    ),
    (
        ["--from", "alice=*", "--until", "alice=["],
        "--from alice: regex parse error at 0..0: repetition operator missing expression",
    ),
    (
        ["--while", "dave=x", "--from", "bob=(", "--until", "bob=[", "--at", "carol=*"],
        "--from bob: regex parse error at 0..1: unclosed group",
    ),
    (
        ["--while", "dave=+", "--from", "bob=(", "--until", "bob=[", "--at", "carol=*"],
        "--while dave: regex parse error at 0..0: repetition operator missing expression",
    ),
    (["--while", "alice=x", "--at", "carol=("], "--at carol: regex parse error at 0..1: unclosed group"),
]

# Words that ask for a trace, a log that shows what they ask for, and the answer.
ASKED = [
    Row(["--while", "a=x"], 'a {"a":1}\nx\n', found("a line 2 x")),
    # A host ends at the first `=`.
    Row(["--while=a=x=y"], 'a {"a":1}\nx\na {"a":2}\nx=y\n', found("a line 4 x=y")),
    # Those of --while come first, in their order, then those of --from and those of --at.
    Row(
        ["--at", "d=x", "--while", "b=", "--until", "c=y", "--from", "c=x", "--while", "a=x"],
        'c {"c":1}\nx\nd {"d":1}\nx\na {"a":1}\nx\nb {"b":1}\nno more\n',
        open_until(found("b line 8 no more", "a line 6 x", "c line 2 x", "d line 4 x"), 4, "--until c=y"),
    ),
    # The same with a c whose span is over.
    Row(
        ["--at", "d=x", "--while", "b=", "--until", "c=y", "--from", "c=x", "--while", "a=x"],
        'c {"c":1}\nx\nc {"c":2}\ny\nd {"c":2,"d":1}\nx\na {"a":1}\nx\nb {"b":1}\nno more\n',
        none("b events 1 matched 1", "a events 1 matched 1", "c events 2 matched 1", "d events 1 matched 1"),
    ),
    # Each until goes with the from of its host.
    Row(
        ["--while", "bob=x", "--while", "alice=x", "--from", "dave=x", "--from", "carol=y"]
        + ["--until", "carol=x", "--until", "dave=y", "--at", "erin=x"],
        'erin {"erin":1}\ny\n'
        'carol {"carol":1}\ny\ncarol {"carol":2}\ny\ncarol {"carol":3}\nx\n'
        'dave {"dave":1}\nx\ndave {"dave":2}\nx\ndave {"dave":3}\ny\n'
        'alice {"alice":1}\nx\nbob {"bob":1}\nx\n',
        none(
            "bob events 1 matched 1",
            "alice events 1 matched 1",
            "dave events 3 matched 2",
            "carol events 3 matched 2",
            "erin events 1 matched 0",
        ),
    ),
    Row(["--while", "a=x", "--form", "lines"], '{"host":"a","clock":{"a":1},"event":"x"}\n', found("a line 1 x")),
    Row(["--form", "shiviz", "--at", "a=x"], 'a {"a":1}\nx\n', found("a line 2 x")),
    Row(["--form=shiviz-reversed", "--at", "a=x"], 'x\na {"a":1}\n', found("a line 1 x")),
    # Nothing is told in the first minute.
    Row(["--progress", "--at", "a=x"], 'a {"a":1}\nx\n', found("a line 2 x")),
    Row(["--at", "a=x", "--progress"], 'a {"a":1}\nx\n', found("a line 2 x")),
]

VERSION = "wcptrace 0.3.0\nrattle-kit-13f logic dac8208d650f15bf\n"


def said_of(table: list[tuple[list[str], str]]) -> list[str]:
    """The names of cases that have words and what is said of them."""
    return [label(words, why) for words, why in table]


@pytest.mark.parametrize("words, why", UNKNOWN, ids=said_of(UNKNOWN))
def test_unknown_words(wcptrace: pathlib.Path, words: list[str], why: str) -> None:
    assert ask(wcptrace, ["--while", "ann=x", *words]) == usage(why)


@pytest.mark.parametrize("words, why", NO_CONDITIONS, ids=said_of(NO_CONDITIONS))
def test_no_conditions(wcptrace: pathlib.Path, words: list[str], why: str) -> None:
    assert ask(wcptrace, words) == usage(why)


@pytest.mark.parametrize("words, why", EXPRESSIONS, ids=said_of(EXPRESSIONS))
def test_no_expression(wcptrace: pathlib.Path, words: list[str], why: str) -> None:
    assert ask(wcptrace, words) == fault(f"expression of {why}")


@pytest.mark.parametrize("row", ASKED, ids=name_of)
def test_what_words_ask_for(wcptrace: pathlib.Path, row: Row) -> None:
    assert ask(wcptrace, row.words, row.log) == row.answer


@pytest.mark.parametrize("word", ["-V", "--version"])
def test_version(wcptrace: pathlib.Path, word: str) -> None:
    assert ask(wcptrace, [word]) == Answer(0, VERSION)


@pytest.mark.parametrize("word", ["help", "-h", "--help"])
def test_help_names_each_option(wcptrace: pathlib.Path, word: str) -> None:
    status, output, errors = ask(wcptrace, [word])
    assert (status, errors) == (0, "")
    for name in "--while", "--from", "--until", "--at", "--form", "--progress", "HOST=REGEX":
        assert name in output
