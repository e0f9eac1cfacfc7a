"""docs/traces.md: its commands, each with what it prints, one behind another in a folder with the examples; the
recorded runs in both formats; and the program that made them, run anew."""
import json
import os
import pathlib
import re
import shutil
import socket
import subprocess

import jaeger_json
import pytest
from programs import SECONDS, TOP, Answer, ask

EXAMPLES = TOP / "examples" / "traces"
PAGE = (TOP / "docs" / "traces.md").read_text()
# A command and what it prints, or says.
SHOWN = re.compile(r"^```sh\n(.*?)^```\n\n```text\n(.*?)^```\n", re.M | re.S)
HOLDS = ["--form", "lines", "--from", "ada=start holds", "--until", "ada=end holds", "--from", "ben=start holds",
         "--until", "ben=end holds"]
GO_SDK = pathlib.Path("/usr/share/gocode/src/go.opentelemetry.io/otel/sdk/trace")
# The milliseconds for which Ada keeps a lease of a second.
PAUSE = "3000"


def call(line: str, room: pathlib.Path, wcptrace: pathlib.Path) -> tuple[int, str]:
    """The status of a command and what it wrote, with the `wcptrace` of the test."""
    ran = subprocess.run(["bash", "-c", line.replace("./wcptrace", str(wcptrace))], cwd=room, capture_output=True,
                         text=True, timeout=SECONDS, check=False)
    return ran.returncode, ran.stdout + ran.stderr


def lines(room: pathlib.Path, *words: object) -> Answer:
    """What `wullaphi.otel lines` answers."""
    command = ["/usr/bin/python3", "-m", "wullaphi.otel", "lines", *map(str, words)]
    ran = subprocess.run(command, cwd=room, capture_output=True, text=True, timeout=SECONDS, check=False,
                         env={**os.environ, "PYTHONPATH": str(TOP / "bindings" / "python")})
    return Answer(ran.returncode, ran.stdout, ran.stderr)


def test_the_commands_of_the_page(wcptrace: pathlib.Path, tmp_path: pathlib.Path) -> None:
    for name in "examples", "bindings":
        (tmp_path / name).symlink_to(TOP / name)
    commands = SHOWN.findall(PAGE)
    assert len(commands) == 3
    for line, printed in commands:
        status, written = call(line, tmp_path, wcptrace)
        assert written == printed, line
        assert status == (1 if printed.startswith("none") else 0), line


@pytest.mark.parametrize("run", ["good", "bad"])
def test_the_recorded_runs(run: str, wcptrace: pathlib.Path, tmp_path: pathlib.Path) -> None:
    """Jaeger's JSON is what `jaeger_json.py` makes of the spans that were recorded, and both are answered alike, also
    with replies, which this program's servers send once their spans have ended."""
    recorded, jaeger = EXAMPLES / f"{run}.json", EXAMPLES / f"{run}.jaeger.json"
    requests = [json.loads(line) for line in recorded.read_text().splitlines()]
    assert jaeger_json.document(requests) == json.loads(jaeger.read_text())
    for words in (), ("--replies",):
        answers = [ask(wcptrace, [*HOLDS, "--check"], lines(tmp_path, *words, str(path)).output)
                   for path in (recorded, jaeger)]
        assert answers[0][:2] == answers[1][:2]
        assert answers[0].output.splitlines()[0] == ("none" if run == "good" else "found"), words


@pytest.mark.skipif(shutil.which("go") is None or not GO_SDK.exists(),
                    reason="Debian's golang-go and golang-opentelemetry-otel-dev aren't installed")
def test_a_new_run_of_the_program(wcptrace: pathlib.Path, tmp_path: pathlib.Path) -> None:
    """Ada pauses for three seconds with a lease of one, so Ben holds it too."""
    ports = {}
    for name in "KEEPER_PORT", "STORE_PORT":
        with socket.socket() as free:
            free.bind(("127.0.0.1", 0))
            ports[name] = str(free.getsockname()[1])
    ran = subprocess.run([EXAMPLES / "lease" / "run.sh", tmp_path / "spans", PAUSE], capture_output=True, text=True,
                         timeout=SECONDS, check=False, env={**os.environ, **ports, "GOCACHE": str(tmp_path / "cache")})
    assert (ran.returncode, ran.stdout, ran.stderr) == (0, "", "")
    files = sorted((tmp_path / "spans").iterdir())
    assert [file.name for file in files] == ["ada.json", "ben.json", "keeper.json", "store.json"]
    count = sum(len(file.read_text().splitlines()) for file in files)
    log = lines(tmp_path, *files)
    assert log.errors == (f"wullaphi.otel: {count} spans, 0 whose parent isn't there\n"
                          "wullaphi.otel: hosts: ada, ben, keeper, store\n")
    answer = ask(wcptrace, [*HOLDS, "--check"], log.output)
    found = r"found\nada line \d+ start holds the lease\nben line \d+ start holds the lease\n"
    assert re.fullmatch(found, answer.output), answer
