"""Each public function of a library has an `ensures`, or stands in `only_tested.toml` beside what tests it."""
import pathlib
import re
import tomllib
from collections.abc import Iterator

from programs import TOP

# Crates that are no libraries for others.
NO_LIBRARY = ("bench_", "example_", "test_")
Listed = dict[str, dict[str, list[str]]]
LISTED: Listed = tomllib.loads((TOP / "tests" / "only_tested.toml").read_text(encoding="utf-8"))


def exported(library: str) -> set[str]:
    """The names that the root of a library makes public."""
    names = set(re.findall(r"^pub (?:enum|fn|struct|trait) (\w+)", library, re.MULTILINE))
    for group in re.findall(r"^pub use ([^;]+);", library, re.MULTILINE):
        names.update(re.findall(r"(\w+)\s*(?:[,}]|$)", group))
    return names


def signatures(text: str) -> Iterator[tuple[str, str, str]]:
    """The type, the name and the signature of each public function of a file. Those of traits have their contracts
    from the trait."""
    owner = ""
    lines = text.split("\n")
    for number, line in enumerate(lines):
        if line.startswith("impl"):
            head = " ".join(lines[number:number + 9]).partition("{")[0]
            found = re.match(r"impl(?:<[^{]*?>)? (\w+)", head)
            owner = found[1] if found and " for " not in head else "-"
        elif line.startswith("}"):
            owner = ""
        found = re.match(r"\s*pub fn (\w+)", line)
        if found and owner != "-":
            rest = "\n".join(lines[number:])
            yield owner, found[1], re.split(r"^\s*\{$|(?<!requires )(?<!ensures )\{$", rest, maxsplit=1,
                                            flags=re.MULTILINE)[0]


def without_ensures(crate: pathlib.Path) -> set[str]:
    """The public functions of a library whose contract has no `ensures`."""
    names = exported((crate / "src" / "lib.rt").read_text(encoding="utf-8"))
    found = set()
    for file in (crate / "src").rglob("*.rt"):
        for owner, name, signature in signatures(file.read_text(encoding="utf-8")):
            if (owner or name) in names and not re.search(r"^\s*ensures ", signature, re.MULTILINE):
                found.add(f"{owner}::{name}" if owner else name)
    return found


def libraries() -> list[pathlib.Path]:
    crates = sorted(file.parent.parent for file in (TOP / "crates").glob("*/src/lib.rt"))
    return [crate for crate in crates if not crate.name.startswith(NO_LIBRARY)]


def test_the_list_is_complete() -> None:
    bare = {crate.name: without_ensures(crate) for crate in libraries()}
    listed = {crate: {name for names in tests.values() for name in names} for crate, tests in LISTED.items()}
    assert {crate: names for crate, names in bare.items() if names} == listed


def test_what_tests_them_is_there() -> None:
    for tests in LISTED.values():
        for file in tests:
            assert (TOP / file).is_file(), file


def test_a_function_without_ensures_is_noticed() -> None:
    bare = "/// Adds.\npub fn add(a: u32) -> u32 {\n    a\n}\n"
    told = "pub fn add(a: u32) -> u32\n    ensures { result ≡ a }\n{\n    a\n}\n"
    assert [signature.count("ensures") for text in (bare, told) for _, _, signature in signatures(text)] == [0, 1]
