"""The packages: the wheel for Python in a fresh virtual environment, and what `make install` puts below a prefix, as
programs in C and C++ use it through pkg-config and CMake. The library must have been built."""

from __future__ import annotations

import os
import pathlib
import re
import shlex
import shutil
import stat
import subprocess
import zipfile

import pytest

# The wheel is made in the one folder where it belongs.
pytestmark = pytest.mark.xdist_group("packages")

BINDINGS = pathlib.Path(__file__).resolve().parent.parent
OUT = BINDINGS / "out"
PYTHON = "/usr/bin/python3"
CC = os.environ.get("CC", "cc")
CXX = os.environ.get("CXX", "c++")
TOOLS = ["make", CC, CXX, "pkg-config", "cmake", "nm", "readelf", PYTHON]
MODULES = ["ensurepip", "pip", "setuptools", "venv", "wheel"]

# A call that takes longer has hung.
SECONDS = 600

VERSION = re.findall(r"^## (.*)$", (BINDINGS.parent / "CHANGELOG.md").read_text(), re.M)[0]
WHEEL = f"wullaphi-{VERSION}-py3-none-linux_x86_64.whl"
IN_PACKAGE = {it.name for it in (BINDINGS / "python" / "wullaphi").glob("*.py")} | {"libwullaphi.so", "py.typed"}
IN_INFO = {"LICENSE-APACHE", "LICENSE-MIT", "METADATA", "RECORD", "WHEEL", "entry_points.txt", "top_level.txt"}

# What is installed below a prefix: the mode of a file, or what a link points to.
INSTALLED = {
    "include/wullaphi.h": "644",
    "include/wullaphi_meeting.h": "644",
    "include/wullaphi_pthread.h": "644",
    "lib/libwullaphi.a": "644",
    f"lib/libwullaphi.so.{VERSION}": "755",
    "lib/libwullaphi.so.1": f"libwullaphi.so.{VERSION}",
    "lib/libwullaphi.so": "libwullaphi.so.1",
    "lib/pkgconfig/wullaphi.pc": "644",
    "lib/cmake/wullaphi/wullaphi-config.cmake": "644",
    "lib/cmake/wullaphi/wullaphi-config-version.cmake": "644",
}

# Says what it found, and which libraries of this name it has loaded.
IN_PYTHON = """\
import wullaphi

checker = wullaphi.Checker(1, 2)
for probe in (wullaphi.Probe(1, 0, 2), wullaphi.Probe(1, 1, 2)):
    checker.take(probe.observe(True))
print(checker.report().cut)
with open("/proc/self/maps", encoding="utf-8") as maps:
    print(*{line.split(maxsplit=5)[5].strip() for line in maps if "libwullaphi" in line})
"""

# Two threads and a task, which a queue, a join and a loop keep apart.
WITH_THREADS = """\
import wullaphi
from wullaphi import asyncio, futures, queue, threading

async def task():
    with wullaphi.holding("task"):
        await asyncio.sleep(0)

async def main():
    await asyncio.create_task(task(), name="cyd")

def put():
    with wullaphi.holding("put"):
        items.put(1)

def job():
    items.get()
    with watch.process("ben"), wullaphi.holding("job"):
        pass

items = queue.Queue()
with wullaphi.watching(["ada", "ben", "cyd"]) as watch, futures.ThreadPoolExecutor() as pool:
    thread = threading.Thread(target=put, name="ada")
    thread.start()
    pool.submit(job).result()
    thread.join()
    asyncio.run(main())
print(watch.report())
"""

# A program in C and in C++: two processes whose conditions hold at the start.
IN_C = """\
#include <stdio.h>
#include <wullaphi.h>

int main(void)
{
    wcp_checker checker = WCP_CHECKER_NONE;
    uint32_t process, interval;

    wcp_checker_new(&checker, 1, 2);
    for (process = 0; process < 2; process++) {
        wcp_probe probe;
        wcp_note note;
        wcp_probe_init(&probe, 1, process, 2);
        wcp_probe_observe(&probe, 1);
        wcp_probe_next(&probe, 0, &note);
        wcp_checker_take(&checker, &note);
    }
    if (wcp_checker_report(&checker) == WCP_FOUND)
        printf("found");
    for (process = 0; process < 2; process++) {
        if (wcp_checker_cut(&checker, process, &interval) == WCP_DONE)
            printf(" %u", (unsigned)interval);
    }
    printf("\\n");
    return wcp_checker_end(&checker) != WCP_DONE;
}
"""
FOUND = "found 0 0\n"

IN_CMAKE = """\
cmake_minimum_required(VERSION 3.13)
project(first C)
find_package(wullaphi ${wanted} REQUIRED)
add_executable(shared first.c)
target_link_libraries(shared wullaphi::wullaphi)
add_executable(static first.c)
target_link_libraries(static wullaphi::static)
"""


def run(words: list[object], room: pathlib.Path, **variables: str) -> subprocess.CompletedProcess[str]:
    """Calls a program in this folder, with no variables but PATH, HOME and these."""
    return subprocess.run([str(word) for word in words], cwd=room, text=True, timeout=SECONDS, check=False,
                          capture_output=True, env={"PATH": os.environ["PATH"], "HOME": str(room), **variables})


def output(words: list[object], room: pathlib.Path, **variables: str) -> str:
    """What a program prints, which must end with status 0."""
    ran = run(words, room, **variables)
    assert ran.returncode == 0, ran.stderr
    return ran.stdout


@pytest.fixture(scope="module", autouse=True)
def is_built() -> None:
    """The tools are there, and the library is newer than its sources: else `make` would prove it again."""
    absent = [tool for tool in TOOLS if shutil.which(tool) is None]
    assert absent == [], "these tools are missing"
    lacking = [name for name in MODULES if subprocess.run([PYTHON, "-c", f"import {name}"], check=False).returncode]
    assert lacking == [], f"these modules of {PYTHON} are missing"
    newer = subprocess.run(["make", "-C", BINDINGS, "-q", "out/libwullaphi.so"], capture_output=True, check=False)
    assert newer.returncode == 0, "the library is older than its sources"


@pytest.fixture(scope="module")
def room(tmp_path_factory: pytest.TempPathFactory) -> pathlib.Path:
    """A folder in which the programs are called."""
    return tmp_path_factory.mktemp("packages").resolve()


@pytest.fixture(scope="module")
def prefix(room: pathlib.Path, is_built: None) -> pathlib.Path:
    """Where the library is installed."""
    place = room / "a prefix"
    output(["make", "-C", BINDINGS, "install", f"PREFIX={place}"], room)
    return place


def installed(prefix: pathlib.Path) -> dict[str, str]:
    """Each file below the prefix with its mode, and each link with what it points to."""
    files = [it for it in prefix.rglob("*") if it.is_symlink() or not it.is_dir()]
    return {str(it.relative_to(prefix)): os.readlink(it) if it.is_symlink() else f"{stat.S_IMODE(it.stat().st_mode):o}"
            for it in files}


def test_what_is_installed(prefix: pathlib.Path, room: pathlib.Path) -> None:
    assert installed(prefix) == INSTALLED
    output(["make", "-C", BINDINGS, "install", f"PREFIX={prefix}"], room)
    assert installed(prefix) == INSTALLED, "a second time"


def test_what_is_installed_below_destdir(tmp_path: pathlib.Path) -> None:
    stage = tmp_path / "a stage"
    output(["make", "-C", BINDINGS, "install", "PREFIX=/opt/a place", f"DESTDIR={stage}"], tmp_path)
    assert installed(stage / "opt" / "a place") == INSTALLED
    assert [it.name for it in stage.iterdir()] == ["opt"], "the folders below DESTDIR"
    described = (stage / "opt" / "a place" / "lib" / "pkgconfig" / "wullaphi.pc").read_text()
    assert described.splitlines()[0] == "prefix=/opt/a place", "the prefix that pkg-config is told"


def test_a_prefix_that_is_not_absolute(tmp_path: pathlib.Path) -> None:
    ran = run(["make", "-C", BINDINGS, "install", "PREFIX=out/below"], tmp_path)
    assert (ran.returncode, "must begin with /" in ran.stderr) == (2, True)


@pytest.mark.parametrize(("name", "option"), [("libwullaphi.a", "-g"), ("libwullaphi.so", "-D")])
def test_symbols(prefix: pathlib.Path, room: pathlib.Path, name: str, option: str) -> None:
    """The calls of the header are all that is seen of the library."""
    calls = sorted(re.findall(r"^uint32_t (wcp_\w+)\(", (prefix / "include" / "wullaphi.h").read_text(), re.M))
    symbols = output(["nm", option, "--defined-only", prefix / "lib" / name], room)
    assert sorted(re.findall(r" [A-Za-z] (\S+)$", symbols, re.M)) == calls


def needed(program: pathlib.Path) -> list[str]:
    """The shared libraries of this name that a program needs."""
    return re.findall(r"NEEDED.*\[(libwullaphi.*)\]", output(["readelf", "-d", program], program.parent))


def test_the_version_that_pkg_config_says(prefix: pathlib.Path, room: pathlib.Path) -> None:
    path = str(prefix / "lib" / "pkgconfig")
    assert output(["pkg-config", "--modversion", "wullaphi"], room, PKG_CONFIG_PATH=path) == f"{VERSION}\n"


@pytest.mark.parametrize("compiler", [[CC, "-std=c99"], [CXX, "-std=c++11", "-x", "c++"]], ids=["C", "C++"])
@pytest.mark.parametrize("kind", ["shared", "static"])
def test_a_program_by_pkg_config(prefix: pathlib.Path, tmp_path: pathlib.Path, compiler: list[object],
                                 kind: str) -> None:
    source, program = tmp_path / "first.c", tmp_path / "first"
    source.write_text(IN_C)
    words = ["--static"] if kind == "static" else []
    flags = output(["pkg-config", *words, "--cflags", "--libs", "wullaphi"], tmp_path,
                   PKG_CONFIG_PATH=str(prefix / "lib" / "pkgconfig"))
    more = ["-static"] if kind == "static" else [f"-Wl,-rpath,{prefix}/lib"]
    output([*compiler, "-Wall", "-Wextra", "-Werror", "-pedantic", "-o", program, source, "-x", "none",
            *shlex.split(flags), *more], tmp_path)
    assert output([program], tmp_path) == FOUND, "what it prints"
    assert needed(program) == ([] if kind == "static" else ["libwullaphi.so.1"]), "the libraries it needs"


def configure(prefix: pathlib.Path, room: pathlib.Path, wanted: str) -> bool:
    """Whether CMake takes the library where this version is wanted."""
    (room / "first.c").write_text(IN_C)
    (room / "CMakeLists.txt").write_text(IN_CMAKE)
    words = ["cmake", "-S", room, "-B", room / "build", f"-DCMAKE_PREFIX_PATH={prefix}", f"-Dwanted={wanted}"]
    return run(words, room).returncode == 0


@pytest.mark.parametrize(("wanted", "is_taken"), [
    ("0.1", True), (VERSION, True), (f"{VERSION};EXACT", True), (f"{VERSION}.1", False), ("0.1;EXACT", False),
    ("1.0", False), ("", True)])
def test_a_version_for_cmake(prefix: pathlib.Path, tmp_path: pathlib.Path, wanted: str, is_taken: bool) -> None:
    assert configure(prefix, tmp_path, wanted) == is_taken


def test_programs_by_cmake(prefix: pathlib.Path, tmp_path: pathlib.Path) -> None:
    assert configure(prefix, tmp_path, "")
    output(["cmake", "--build", tmp_path / "build"], tmp_path)
    for kind, libraries in (("shared", ["libwullaphi.so.1"]), ("static", [])):
        assert output([tmp_path / "build" / kind], tmp_path) == FOUND, kind
        assert needed(tmp_path / "build" / kind) == libraries, f"{kind}: the libraries it needs"


@pytest.fixture(scope="module")
def wheel(room: pathlib.Path, is_built: None) -> pathlib.Path:
    """The wheel, the only one that is there, of which nothing is left among the sources."""
    for old in OUT.glob("*.whl"):
        old.unlink()
    before = sorted((BINDINGS / "python").iterdir())
    output(["make", "-C", BINDINGS, "wheel"], room)
    assert sorted((BINDINGS / "python").iterdir()) == before, "the folder of the sources"
    assert [it.name for it in OUT.glob("*.whl")] == [WHEEL], "the wheels that were built"
    return OUT / WHEEL


def test_the_files_of_the_wheel(wheel: pathlib.Path) -> None:
    """It has the package, the library and the licences, for this kind of machine and each Python 3."""
    info = f"wullaphi-{VERSION}.dist-info"
    with zipfile.ZipFile(wheel) as it:
        assert set(it.namelist()) == {f"wullaphi/{name}" for name in IN_PACKAGE} | {f"{info}/{name}"
                                                                                    for name in IN_INFO}
        assert "Root-Is-Purelib: false" in it.read(f"{info}/WHEEL").decode().splitlines(), "for one kind of machine"
        assert it.read("wullaphi/libwullaphi.so") == (OUT / "libwullaphi.so").read_bytes(), "the library"


@pytest.fixture(scope="module")
def python(wheel: pathlib.Path, room: pathlib.Path) -> pathlib.Path:
    """Python in a virtual environment in which the wheel is installed, without a network."""
    place = room / "environment" / "bin" / "python"
    output([PYTHON, "-m", "venv", place.parent.parent], room)
    output([place, "-m", "pip", "install", "--quiet", "--no-index", wheel], room)
    return place


@pytest.mark.parametrize("options", [[], ["-I"], ["-OO"]], ids=["plain", "-I", "-OO"])
def test_the_version_of_the_module(python: pathlib.Path, room: pathlib.Path, options: list[object]) -> None:
    assert output([python, *options, "-m", "wullaphi", "--version"], room) == f"wullaphi {VERSION}\n"


def test_the_command(python: pathlib.Path, room: pathlib.Path) -> None:
    assert output([python.parent / "wcpcollect", "--version"], room) == f"wcpcollect {VERSION}\n"


def test_that_the_module_loads_its_own_library(python: pathlib.Path, room: pathlib.Path) -> None:
    place = output([python, "-c", "import sysconfig; print(sysconfig.get_path('platlib'))"], room)
    assert output([python, "-c", IN_PYTHON], room) == f"(0, 0)\n{place.strip()}/wullaphi/libwullaphi.so\n"


def test_threads_and_tasks_by_the_wheel(python: pathlib.Path, room: pathlib.Path) -> None:
    assert output([python, "-c", WITH_THREADS], room) == "none\n"
