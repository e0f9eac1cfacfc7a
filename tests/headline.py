"""What docs/headline.md is read against: the definitions that the headline rests on, the types that they speak of, the
contracts that promise it, and the page itself, each with a sum of its meaning.

`python3 tests/headline.py --write` writes the sums. Read the page anew first, beside what has changed."""
import hashlib
import pathlib
import re
import sys
from typing import Iterator

TOP = pathlib.Path(__file__).resolve().parent.parent
PAGE = "docs/headline.md"
SUMS = "tests/headline.sums"
MODEL = "crates/wcp_model/specs"
ROOTS = [(f"{MODEL}/Headline.antt", "IsHeadline"), (f"{MODEL}/PlanFault.antt", "IsCheckedPlan")]

USE = re.compile(r"^(?:pub |unfoldable )*use Rattle\.(\w+)\.([\w.]+)(?:\.\{(.*)\})?(?: as (\w+))?$", re.M)
DEFINITION = re.compile(r"^(?:abbrev|record|data) pub (\w+)|^pub (?:record|data|abbrev) (\w+)", re.M)
ROW = re.compile(r"^\| (`[^|]*`[^|]*) \| `([^`|]+)` \|", re.M)
HEAD = """# What docs/headline.md was read against. Where a sum no longer holds, read the page anew beside what changed,
# and then: python3 tests/headline.py --write
"""


def without_comments(text: str) -> str:
    return re.sub(r"(--|//).*", "", text)


def sum_of(text: str) -> str:
    """A sum of a text in which comments and spaces don't count."""
    return hashlib.sha256(" ".join(without_comments(text).split()).encode()).hexdigest()[:16]


class Specification:
    """A file of definitions: what it imports, and the text of each definition."""

    def __init__(self, top: pathlib.Path, path: str) -> None:
        whole = (top / path).read_text()
        text = without_comments(whole)
        self.lines = len(whole.splitlines())
        # What a word means here: the file and the name there, or the module of a name that isn't of this repository.
        self.imports: dict[str, tuple[str, str]] = {}
        for crate, module, names, alias in USE.findall(text):
            file = f"crates/{crate}/{module.replace('.', '/')}.antt"
            origin = file if (top / file).exists() else f"{crate}.{module}"
            if alias:
                self.imports[alias] = origin, "*"
            for name in filter(None, map(str.strip, names.split(","))):
                original, _, renamed = name.partition(" as ")
                self.imports[renamed or original] = origin, original
        starts = [(found.start(), found[1] or found[2]) for found in DEFINITION.finditer(text)]
        ends = [start for start, _ in starts[1:]] + [len(text)]
        self.definitions = {name: text[start:end] for (start, name), end in zip(starts, ends)}

    def meaning(self, name: str) -> str:
        """The text of a definition, and what its words are brought in from."""
        text = self.definitions[name]
        words = set(re.findall(r"[^\s(){},.]+", text)) | set(re.findall(r"\w+", text))
        return text + "".join(f" {word}={self.imports[word]}" for word in sorted(words & self.imports.keys()))


# The definitions that are reached, by the path of their file, and these files.
Reached = dict[str, tuple[Specification, set[str]]]


def reached(top: pathlib.Path = TOP) -> Reached:
    """The definitions that the headline and its premise reach."""
    files: dict[str, Specification] = {}
    found: dict[str, set[str]] = {}
    left = list(ROOTS)
    while left:
        path, name = left.pop()
        if not path.endswith(".antt"):
            continue
        file = files[path] = files.get(path) or Specification(top, path)
        if name in file.definitions and name not in found.setdefault(path, set()):
            found[path].add(name)
            left += [file.imports.get(word, (path, word)) for word in re.findall(r"\w+", file.definitions[name])]
    return {path: (files[path], names) for path, names in found.items() if names}


def rows(page: str) -> Iterator[tuple[str, str]]:
    """The names in the tables of the page that have a file beside them, with that file."""
    for names, path in ROW.findall(page):
        for name in re.findall(r"`(\w+(?:::\w+)?)`", names.partition(" with ")[0]):
            yield path, name.rpartition("::")[2]


def declaration(text: str, name: str) -> str | None:
    """A type of the code with its model, or a function up to its body; None where there is none."""
    kind = re.search(rf"^( *)(?:pub )?(?:extern \"C\" )?(?:struct|enum|type|fn) {name}\b", text, re.M)
    if kind is None:
        return None
    end = re.compile(rf"^{kind[1]}(?:\}}|\{{)$|;$", re.M).search(text, kind.end())
    model = re.search(rf"^impl(?:<.*>)? Model for {name}\b.*?^}}$", text, re.M | re.S)
    return text[kind.start():end.end() if end else None] + (model[0] if model else "")


def declarations(top: pathlib.Path, page: str) -> Iterator[tuple[str, str, str | None]]:
    """The types and the calls that the tables of the page name in files of code, as they stand there."""
    for path, name in rows(page):
        if path.endswith(".rt"):
            file = top / path
            yield path, name, declaration(without_comments(file.read_text()), name) if file.exists() else None


def sections(page: str) -> list[str]:
    return re.split(r"^## ", page, flags=re.M)


def sums(top: pathlib.Path = TOP) -> dict[str, str]:
    """The sum of each section of the page, and of what it is read against."""
    page = (top / PAGE).read_text()
    found = {f"{PAGE} {section.partition(chr(10))[0]}": sum_of(section) for section in sections(page)}
    for path, (file, names) in reached(top).items():
        found |= {f"{path} {name}": sum_of(file.meaning(name)) for name in names}
    return found | {f"{path} {name}": sum_of(text or "") for path, name, text in declarations(top, page)}


def read_sums(top: pathlib.Path = TOP) -> dict[str, str]:
    """Those that are kept."""
    lines = [line for line in (top / SUMS).read_text().splitlines() if not line.startswith("#")]
    return {what: number for number, _, what in (line.partition("  ") for line in lines)}


if __name__ == "__main__":
    if sys.argv[1:] != ["--write"]:
        sys.exit("usage: python3 tests/headline.py --write")
    (TOP / SUMS).write_text(HEAD + "".join(f"{number}  {what}\n" for what, number in sorted(sums().items())))
