"""The installed programs as they run from another folder, their manual pages, and the completion for bash."""
import os
import pathlib
import re
import shutil
import subprocess
from typing import Iterator

import pytest
from install_helper import COMPLETIONS, DOCUMENTS, NAMES
from programs import SECONDS, TOP, label

# Asks the completion that it sources for the words of a line. Where the option `default` is set, bash itself completes
# the name of a file: this tells it.
ASK = """\
. "$1" || exit 2
compopt() { echo "compopt $*"; }
COMP_WORDS=("${@:2}")
COMP_CWORD=$((${#COMP_WORDS[@]} - 1))
COMP_LINE="${*:2}"
COMP_POINT=${#COMP_LINE}
eval "$(complete -p "$2" | sed -n 's/.* -F \\([^ ]*\\) .*/\\1/p')"
[ "${#COMPREPLY[@]}" = 0 ] || printf '%s\\n' "${COMPREPLY[@]}"
"""
FILES = ["compopt -o default"]

COMMANDS = ["single", "run", "replay", "ring", "help"]
FORMS = ["lines", "shiviz", "shiviz-reversed", "messages"]

# Lines as bash cuts them, and what is offered for the last word.
OFFERED: list[tuple[list[str], list[str]]] = [
    (["wcpwatch", ""], COMMANDS),
    (["wcpwatch", "r"], ["run", "replay", "ring"]),
    (["wcpwatch", "help", "si"], ["single"]),
    (["wcpwatch", "single", ""], []),
    (["wcpwatch", "single", "--v"], []),
    (["wcpwatch", "single", "<", "ex"], FILES),
    (["wcpwatch", "ring", ""], ["--procs", "--rounds", "--fault"]),
    (["wcpwatch", "ring", "--procs", ""], []),
    (["wcpwatch", "ring", "--procs", "3", "--r"], ["--rounds"]),
    (["wcptrace", ""], FILES),
    (["wcptrace", "examples/le"], FILES),
    (["wcptrace", "--f"], ["--from", "--form", "--from-line"]),
    (["wcptrace", "--form", ""], FORMS),
    (["wcptrace", "--questions", "examples/le"], FILES),
    (["wcptrace", "--form", "shiviz-"], ["shiviz-reversed"]),
    (["wcptrace", "--form", "="], FORMS),
    (["wcptrace", "--form", "=", "li"], ["lines"]),
    (["wcptrace", "--while", ""], []),
    (["wcptrace", "--while", "ada", "="], []),
    (["wcptrace", "--while", "ada", "=", "ho"], []),
    (["wcptrace", "--while", "=", "ada", "=", "ho"], []),
    (["wcptrace", "--from", "n1", ":", "80", "=", "lead"], []),
    (["wcptrace", "--while", "ada", "=", "holds", "--pr"], ["--progress"]),
    (["wcptrace", "--while", "ada", "=", "holds", ""], FILES),
    (["wcptrace", "--progress", ">", ""], FILES),
    (["wcptrace", "--", "--f"], FILES),
    (["wcpdraw", ""], FILES),
    (["wcpdraw", "--names", ""], []),
    (["wcpdraw", "--names", "=", "ann,"], []),
    (["wcpdraw", "--names", "ann,ben", "--s"], ["--svg"]),
    (["wcpdraw", "--names", "ann,ben", "exam"], FILES),
]

LEASE = ["--while", "ada=holds|writes", "--while", "ben=holds|writes"]
LEASE_FOUND = b"found\nada line 8 holds the lease\nben line 18 holds the lease\n"


def call(prefix: pathlib.Path, line: str, folder: pathlib.Path,
         given: bytes | None = None) -> subprocess.CompletedProcess[bytes]:
    """What bash says to a line that calls the installed programs from this folder."""
    return subprocess.run(["bash", "--norc", "-c", line], cwd=folder, input=given, capture_output=True,
                          env={**os.environ, "PATH": f"{prefix}/bin:/usr/bin:/bin"}, timeout=SECONDS, check=False)


@pytest.mark.parametrize("file", ["name", "standard input", "hyphen"])
def test_wcptrace(installed: pathlib.Path, tmp_path: pathlib.Path, file: str) -> None:
    log = TOP / "examples" / "lease.log"
    words = " ".join(f"'{word}'" for word in LEASE)
    line = f"wcptrace {words}" + {"name": f" '{log}'", "standard input": "", "hyphen": " -"}[file]
    ended = call(installed, line, tmp_path, b"" if file == "name" else log.read_bytes())
    assert (ended.returncode, ended.stdout, ended.stderr) == (0, LEASE_FOUND, b"")


def test_wcpwatch(installed: pathlib.Path, tmp_path: pathlib.Path) -> None:
    text = (TOP / "examples" / "replica_pool.txt").read_bytes()
    ended = call(installed, "wcpwatch single", tmp_path, text)
    assert (ended.returncode, ended.stdout[:12], ended.stderr) == (0, b"found 1 0 0\n", b"")


def test_wcpdraw(installed: pathlib.Path, tmp_path: pathlib.Path) -> None:
    text = (TOP / "examples" / "replica_pool.txt").read_bytes()
    ended = call(installed, "wcpdraw --names Dora,Rick,Rita", tmp_path, text)
    assert ended.stdout == (TOP / "docs" / "pictures" / "replica_pool.svg").read_bytes()


@pytest.mark.parametrize("name", NAMES)
def test_version(installed: pathlib.Path, tmp_path: pathlib.Path, name: str) -> None:
    ended = call(installed, f"{name} --version", tmp_path)
    assert ended.stdout == (TOP / f"crates/{name}/runs/version").read_bytes()


def plain(source: str) -> str:
    """The text of a manual page with its escapes written out."""
    for escape, it in (("\\-", "-"), ("\\(aq", "'"), ("\\e", "\\"), ("\\(ha", "^"), ("\\(ti", "~")):
        source = source.replace(escape, it)
    return source


def examples(page: str) -> Iterator[tuple[str, str]]:
    """Each command that a page shows, and what the page says that it prints."""
    for block in re.findall(r"^\.EX\n(\$ .*?)^\.EE\n", plain(page), re.M | re.S):
        for line, output in re.findall(r"\A\$ ((?:.*\\\n)*.*)\n((?:.*\n)*)\Z", block):
            yield line, output


@pytest.mark.parametrize("name", NAMES)
def test_examples_of_the_manual_print_what_it_says(installed: pathlib.Path, tmp_path: pathlib.Path, name: str) -> None:
    shown = list(examples((installed / f"share/man/man1/{name}.1").read_text()))
    assert shown
    for number, (line, output) in enumerate(shown):
        folder = shutil.copytree(installed / DOCUMENTS / "examples", tmp_path / str(number))
        ended = call(installed, line, folder)
        assert (ended.stdout + ended.stderr).decode() == output, line
        assert ended.returncode in (0, 1), line
        for picture in folder.glob("*.svg"):
            assert picture.read_bytes().endswith(b"</svg>\n"), line


def listed(name: str) -> tuple[list[str], list[str]]:
    """The commands and the options that the help of a program lists."""
    commands: list[str] = []
    options: list[str] = []
    part: list[str] | None = None
    for line in (TOP / f"crates/{name}/runs/help").read_text().splitlines():
        if not line.startswith(" "):
            part = {"Commands:": commands, "Options:": options}.get(line)
        elif part is commands:
            commands.append(line.split()[0])
        elif part is options:
            part += re.findall(r"(?:^|, )(-[a-zA-Z]|--[a-z-]+)", line.strip().split("  ")[0])
    return commands, options


def manual(prefix: pathlib.Path, name: str) -> str:
    """The text of the manual page of a program."""
    return plain((prefix / f"share/man/man1/{name}.1").read_text())


@pytest.mark.parametrize("name", NAMES)
def test_the_manual_has_a_paragraph_for_what_the_help_lists(installed: pathlib.Path, name: str) -> None:
    page = manual(installed, name)
    assert re.findall(r"^\.SH NAME\n(\w+) - ", page, re.M) == [name]
    commands, options = listed(name)
    assert "--help" in options
    tags = "\n".join(re.findall(r"^\.TP\n(.*)", page, re.M))
    assert [word for word in commands + options if not re.search(rf"(?<![\w-]){word}(?![\w-])", tags)] == []


@pytest.mark.parametrize("name", NAMES)
def test_the_manual_has_no_option_that_no_help_has(installed: pathlib.Path, name: str) -> None:
    known = "".join((TOP / f"crates/{it}/runs/help").read_text() for it in NAMES)
    options = set(re.findall(r"(?<![\w-])--[a-z][a-z-]*", manual(installed, name))) - {"--wihle"}
    assert options and [option for option in options if option not in known] == []


@pytest.mark.parametrize("reader", [["man", "--warnings", "-l"], ["mandoc", "-T", "lint", "-W", "warning"]],
                         ids=["man", "mandoc"])
@pytest.mark.parametrize("name", NAMES)
def test_the_manual_has_no_fault(installed: pathlib.Path, name: str, reader: list[str]) -> None:
    ended = subprocess.run([*reader, installed / f"share/man/man1/{name}.1"], capture_output=True, text=True,
                           timeout=SECONDS, check=False)
    assert (ended.returncode, ended.stderr) == (0, "")
    assert reader[0] == "mandoc" or name in ended.stdout


def offers(prefix: pathlib.Path, words: list[str]) -> list[str]:
    """What the completion that bash finds for the first word offers for the last one."""
    ended = subprocess.run(["bash", "--norc", "-c", ASK, "ask", prefix / COMPLETIONS / words[0], *words],
                           capture_output=True, text=True, timeout=SECONDS, check=False)
    return ended.stdout.splitlines() + ended.stderr.splitlines()


@pytest.mark.parametrize("words, wanted", OFFERED, ids=[label(words) + "|" for words, _ in OFFERED])
def test_completes(installed: pathlib.Path, words: list[str], wanted: list[str]) -> None:
    assert offers(installed, words) == wanted


@pytest.mark.parametrize("name", NAMES)
def test_completes_all_that_the_help_lists(installed: pathlib.Path, name: str) -> None:
    commands, options = listed(name)
    assert sorted(offers(installed, [name, "-"])) == sorted(options)
    if commands:
        assert sorted(offers(installed, [name, ""])) == sorted(commands)


def test_options_of_ring_stand_in_the_help(installed: pathlib.Path) -> None:
    known = (TOP / "crates/wcpwatch/runs/help").read_text()
    options = offers(installed, ["wcpwatch", "ring", ""])
    assert options and [option for option in options if option not in known] == []
