"""The parts of a page's script that need no document, by the tests in tests/page_script, which Debian's Node runs."""
import re
import subprocess

from page_browser import program
from page_helper import TOP

FOLDER = TOP / "tests" / "page_script"
LISTED = re.compile(r"^SCRIPTS = \{(.*?)^\}", re.M | re.S)


def test_the_parts_of_the_script() -> None:
    files = sorted(FOLDER.glob("*.test.mjs"))
    written = sum(len(re.findall(r"^test\(", file.read_text(encoding="utf-8"), re.M)) for file in files)
    ran = subprocess.run([program("node"), "--test", *map(str, files)], capture_output=True, text=True, timeout=600,
                         check=False)
    counts = dict(re.findall(r"^# (tests|pass|fail|skipped|todo) (\d+)$", ran.stdout, re.M))
    assert counts == {"tests": str(written), "pass": str(written), "fail": "0", "skipped": "0", "todo": "0"}, \
        ran.stdout[-4000:] + ran.stderr
    assert written >= 20 and ran.returncode == 0, (written, ran.returncode)


def test_each_script_is_part_of_the_page() -> None:
    listed = re.findall(r'"(\w+\.js)"', LISTED.findall((TOP / ".ci" / "page").read_text(encoding="utf-8"))[0])
    there = [file.name for file in (TOP / "crates" / "draw_page" / "page").glob("*.js")]
    assert sorted(listed) == sorted(there)
