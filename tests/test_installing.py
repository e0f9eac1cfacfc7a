"""What `./install` puts below a prefix: each file and its mode; what it refuses, and what it leaves behind where it
fails."""
import pathlib
import re
import stat

import pytest
from install_helper import (
    COMPLETIONS, DOCUMENTS, NAMES, PROGRAM, all_files, contents, installer_in, modes, scratch_repository,
    sources, write_program)


def test_says_where_the_files_are(tmp_path: pathlib.Path, proved_programs: None) -> None:
    """It begins no proof where all is built."""
    installer = installer_in(tmp_path)
    prefix = tmp_path / "a prefix"
    ended = installer(prefix)
    assert (ended.returncode, ended.stderr) == (0, "")
    assert not installer.asked_for_a_proof
    for folder in "bin", "share/man/man1", DOCUMENTS, COMPLETIONS:
        assert ended.stdout.count(f"{prefix}/{folder}: ") == 1


def test_which_files(installed: pathlib.Path) -> None:
    assert sorted(contents(installed)) == sorted(all_files())


def test_files_are_as_they_are_here(installed: pathlib.Path) -> None:
    found = contents(installed)
    assert [place for place, it in all_files().items() if found.get(place) != it] == []


def test_modes_of_files(installed: pathlib.Path) -> None:
    assert modes(installed) == {place: mode for place, (_, mode) in sources().items()}


def test_modes_of_folders(installed: pathlib.Path) -> None:
    folders = [installed, *(it for it in installed.rglob("*") if it.is_dir())]
    assert {stat.S_IMODE(it.stat().st_mode) for it in folders} == {0o755}


def test_a_second_call_replaces_what_is_damaged(tmp_path: pathlib.Path, proved_programs: None) -> None:
    """It replaces a link too, and leaves the file to which this points."""
    installer = installer_in(tmp_path)
    prefix = tmp_path / "a prefix"
    assert installer(prefix).returncode == 0
    ours, other = prefix / "bin" / "wcptrace", prefix / "bin" / "other"
    ours.unlink()
    other.write_text("of another program\n")
    ours.symlink_to(other)
    (prefix / "share/man/man1/wcpdraw.1").write_text("old\n")
    (prefix / COMPLETIONS / "wcpdraw").unlink()
    assert installer(prefix).returncode == 0
    assert other.read_text() == "of another program\n"
    other.unlink()
    assert contents(prefix) == all_files()


@pytest.mark.parametrize("prefix, stage, place", [
    ("{room}/usr", "{room}/a stage", "a stage{room}/usr"),
    ("{room}/usr", "in the folder", "in the folder{room}/usr"),
    ("usr/", "{room}/another stage", "another stage{room}/usr"),
    ("a name/", "", "a name"),
])
def test_destdir(tmp_path: pathlib.Path, proved_programs: None, prefix: str, stage: str, place: str) -> None:
    """The files go below DESTDIR and the prefix, each from the root or from the folder of the call. All prefixes are
    in a folder of the test, so that a fault writes nowhere else."""
    prefix, stage, place = (it.format(room=tmp_path) for it in (prefix, stage, place))
    ended = installer_in(tmp_path)(prefix, DESTDIR=stage)
    assert ended.returncode == 0, ended.stderr
    assert contents(tmp_path / place) == all_files()
    assert not (tmp_path / "usr").exists()


@pytest.mark.parametrize("words", [[], [""], ["--prefix=/usr"], ["-x"], ["a", "b"], ["--help", "a"]], ids=str)
def test_unknown_words(tmp_path: pathlib.Path, words: list[str]) -> None:
    """They get one line of usage, and nothing is written."""
    installer = installer_in(tmp_path)
    before = contents(tmp_path)
    ended = installer(*words)
    assert (ended.returncode, ended.stdout) == (2, "")
    assert re.fullmatch(r"install: usage: .*\n", ended.stderr)
    assert contents(tmp_path) == before


@pytest.mark.parametrize("word", ["-h", "--help"])
def test_help(tmp_path: pathlib.Path, word: str) -> None:
    ended = installer_in(tmp_path)(word)
    assert (ended.returncode, ended.stderr) == (0, "")
    for it in ("Usage: ./install PREFIX\n", *NAMES, "PREFIX/bin ", f"PREFIX/{DOCUMENTS} ", "DESTDIR", "status"):
        assert it in ended.stdout


def in_the_way(room: pathlib.Path) -> None:
    """Makes the places below which no file can be written."""
    (room / "a file").write_text("kept\n")
    for name, folder in (("bin is a file", "bin"), ("doc is a file", DOCUMENTS)):
        (room / name / folder).parent.mkdir(parents=True)
        (room / name / folder).write_text("kept\n")
    (room / "no file can be made").mkdir()
    (room / "no file can be made" / "bin").symlink_to("/proc")
    (room / "a program is a folder" / "bin" / "wcpdraw").mkdir(parents=True)


@pytest.mark.parametrize("name", ["a file", "a file/below", "bin is a file", "doc is a file", "no file can be made",
                                  "a program is a folder"])
def test_where_a_file_cant_be_written_nothing_is(tmp_path: pathlib.Path, name: str) -> None:
    """And no proof is begun."""
    room = tmp_path / "room"
    room.mkdir()
    installer = installer_in(room, scratch_repository(tmp_path / "a repository"))
    in_the_way(room)
    before = contents(room), sorted(room.rglob("*"))
    ended = installer(room / name)
    assert (ended.returncode, ended.stdout) == (2, "")
    assert re.fullmatch(r"install: .*\n", ended.stderr)
    assert not installer.asked_for_a_proof
    assert (contents(room), sorted(room.rglob("*"))) == before


def test_where_a_proof_fails_nothing_is_installed(tmp_path: pathlib.Path) -> None:
    installer = installer_in(tmp_path, scratch_repository(tmp_path / "a repository"))
    ended = installer(tmp_path / "unproved" / "prefix")
    assert ended.returncode == 2
    assert installer.asked_for_a_proof
    assert ended.stderr.splitlines()[-1].startswith("install: nothing is installed")
    assert not (tmp_path / "unproved").exists()


@pytest.mark.parametrize("place", ["prefix", "new/prefix"], ids=["over an older one", "a new one"])
def test_where_a_copy_fails_all_is_as_it_was(tmp_path: pathlib.Path, place: str) -> None:
    top = scratch_repository(tmp_path / "a repository")
    installer = installer_in(tmp_path, top)
    for name in NAMES:
        write_program(top / "crates" / name / "out" / name, PROGRAM)
    ended = installer(tmp_path / "prefix")
    assert (ended.returncode, ended.stderr) == (0, "")
    before = contents(tmp_path / "prefix")
    (top / "README.md").write_text("a new page\n")
    (top / "completions" / "wullaphi.bash").unlink()
    ended = installer(tmp_path / place)
    assert ended.returncode == 2
    assert re.fullmatch(r"install: .*wullaphi\.bash.*\n", ended.stderr)
    assert contents(tmp_path / "prefix") == before
    assert not (tmp_path / "new").exists()
