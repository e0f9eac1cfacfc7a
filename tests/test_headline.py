"""Whether docs/headline.md names what the headline rests on, and was read against it as it stands.

The tests follow `IsHeadline` and its premise `IsCheckedPlan` from definition to definition. The page must name each
in a section that names its file, must name no definition in another file's section, and must say how many files and
lines hold them. What its tables and its words name must be there. A definition, a type, a contract or a sentence that
changed is told until somebody has read the page anew."""
import pathlib
import re
import shutil
from typing import Iterable, Iterator

import headline
import pytest
from headline import MODEL, PAGE, Reached, Specification
from programs import TOP, label

FILE = re.compile(r"\b([A-Z]\w+)\.antt\b")


def code(text: str) -> set[str]:
    """The words that stand in code: between backticks."""
    return set(re.findall(r"\w+", " ".join(re.findall(r"`([^`]*)`", text))))


def unnamed(rests_on: Reached, sections: Iterable[str]) -> Iterator[str]:
    """Each definition that no section names beside its file."""
    for path, (_, names) in sorted(rests_on.items()):
        here = [code(section) for section in sections if pathlib.Path(path).stem in FILE.findall(section)]
        for name in sorted(names):
            if not any(name in words for words in here):
                yield f"no section that names {path} names `{name}`"


def misplaced(sections: Iterable[str]) -> Iterator[str]:
    """Each name at the head of a section of which no file that the section names has the definition."""
    for section in sections:
        heading, _, rest = section.partition("\n\n")
        if not FILE.search(heading):
            continue
        paths = [path for name in FILE.findall(section) for path in TOP.glob(f"crates/wcp_*/specs/{name}.antt")]
        defined = {name for path in paths for name in Specification(TOP, str(path.relative_to(TOP))).definitions}
        head = rest.partition("\n\n")[0]
        for name in sorted(code(re.sub(r"`[^`]*\.antt`", "", head)) - defined):
            yield f"`{name}` stands in none of the files of the section {heading!r}"


@pytest.fixture(scope="module")
def page() -> str:
    return (TOP / PAGE).read_text()


@pytest.fixture(scope="module")
def sections(page: str) -> list[str]:
    return headline.sections(page)


@pytest.fixture(scope="module")
def rests_on() -> Reached:
    return headline.reached()


def test_each_definition_is_named(rests_on: Reached, sections: list[str]) -> None:
    assert sum(len(names) for _, names in rests_on.values()) > 100
    assert list(unnamed(rests_on, sections)) == []


def test_no_name_is_misplaced(sections: list[str]) -> None:
    assert list(misplaced(sections)) == []


def test_files_and_lines_are_counted(rests_on: Reached, page: str) -> None:
    files = [file for path, (file, _) in rests_on.items() if path.startswith(MODEL)]
    said = re.search(r"(\d+) files of `crates/wcp_model/specs`,\s+(\d+)\s+lines", page)
    assert said and (int(said[1]), int(said[2])) == (len(files), sum(file.lines for file in files))


def test_each_file_is_there(page: str) -> None:
    paths = set(re.findall(r"`((?:crates|tests|docs|\.ci)/[\w/.]+)`", page))
    assert len(paths) > 10
    assert [path for path in sorted(paths) if not (TOP / path).exists()] == []


def test_each_row_names_what_its_file_has(page: str) -> None:
    found = list(headline.declarations(TOP, page))
    assert len(found) > 15
    assert [f"{path} has no {name}" for path, name, text in found if text is None] == []


def changes(now: dict[str, str], before: dict[str, str]) -> list[str]:
    """What has another sum, is new or is gone."""
    return sorted(what for what in now.keys() | before.keys() if now.get(what) != before.get(what))


def test_the_page_was_read_against_what_stands() -> None:
    assert changes(headline.sums(), headline.read_sums()) == [], "read the page anew beside these, and then: " \
        "python3 tests/headline.py --write"


SPECS = {path.stem: str(path.relative_to(TOP)) for path in (TOP / MODEL).glob("*.antt")}
# Changes of which each turns what the page says, or what it speaks of: the file, what stands there, what is put there.
TURNED = [
    (SPECS["Cut"], "p ≢ q →", "p ≡ q →"),
    (SPECS["Cut"], "pub below : (other", "pub above : (other"),
    (SPECS["Headline"], "  pub of_what_was_taken :", "  -- what the report is of\n  pub of_what_was_taken' :"),
    (SPECS["Report"], "IsDrained n items = (p : ℕ) → p < n →", "IsDrained n items = (p : ℕ) × (p < n) ×"),
    (SPECS["Order"], "pub data HappenedBefore", "pub data HappenedBefore'"),
    (SPECS["Report"], "Rattle.wcp_model.specs.Watched.{IsWatched}", "Rattle.wcp_model.specs.Cut.{Other as IsWatched}"),
    (SPECS["Cut"], "is_some, unwrap_or}", "is_none as is_some, unwrap_or}"),
    (SPECS["Cut"], "Rattle.std.specs.FinSet as set", "Rattle.std.specs.Other as set"),
    ("crates/wcp_model/src/step.rt", "    Observe", "    Observed"),
    ("crates/wcp_world/src/plays.rt", "{ IfOk result (λ played. IsPlayed", "{ IfOk result (λ played. IsSo"),
    ("crates/wcp_world/src/world.rt", "IsWorldOf plan history self.now → IsHeadline plan history", "IsSo plan history"),
    (PAGE, "| `none_after_close` | nothing was taken after a close mark |\n", ""),
    (PAGE, "nothing was taken after a close mark", "something was taken after a close mark"),
    (PAGE, "`slice_get` (none past the end), ", ""),
    (PAGE, "`IsPlayed` (`crates/wcp_world/specs/Plays.antt`): ", ""),
    (PAGE, "| `Note`, `Item` |", "| `Item` |"),
    (PAGE, "| `World::new`, `step`,", "| `World::new`, `stop`,"),
    (PAGE, "crates/wcp_world/src/plays.rt", "crates/wcp_world/src/played.rt"),
]


@pytest.fixture(scope="module")
def copy(tmp_path_factory: pytest.TempPathFactory) -> pathlib.Path:
    top = tmp_path_factory.mktemp("headline")
    for folder in "docs", *(f"crates/{name}" for name in ("wcp_clock", "wcp_model", "wcp_world", "wcp_cli")):
        shutil.copytree(TOP / folder, top / folder, ignore=shutil.ignore_patterns("out", "proofs", "must-fail"))
    return top


@pytest.mark.parametrize("path, old, new", TURNED,
                         ids=[label(path, new or f"without {old}") for path, old, new in TURNED])
def test_what_is_turned_is_told(copy: pathlib.Path, path: str, old: str, new: str) -> None:
    text = (TOP / path).read_text()
    assert old in text
    (copy / path).write_text(text.replace(old, new, 1))
    try:
        assert changes(headline.sums(copy), headline.read_sums())
    finally:
        (copy / path).write_text(text)


@pytest.mark.parametrize("text", ["p  ≢\n q", "-- a comment"])
def test_spaces_and_comments_do_not_count(text: str) -> None:
    assert headline.sum_of(text) == headline.sum_of({"p  ≢\n q": "p ≢ q", "-- a comment": ""}[text])
