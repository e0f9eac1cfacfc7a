"""What `wcptrace` answers to logs that come through a pipe: byte by byte, or while the writer holds it."""
import os
import pathlib
import pty
import re
import select
import socket
import subprocess
import time

import pytest
from logs import ALL, ANSWERS, BOTH, IN_LINES, KNOWS, NO_TEXT, RUNS_OUT, Row, fault, first_lines, found, name_of, none
from programs import SECONDS, Answer, as_text
from test_wcptrace_lines import CUT

# Logs that end with the line by which the moment is known.
EARLY = [
    Row(BOTH, first_lines(RUNS_OUT, 14), found("ann line 8 holds the lease", "ben line 14 holds the lease")),
    Row(BOTH, first_lines(KNOWS, 4), found("ann line 2 holds the lease", "ben line 4 holds the lease")),
    Row(["--form", "lines", *BOTH], IN_LINES, found("ann line 1 holds", "ben line 2 holds too")),
]

# Logs of which the last line that is read has come, while the writer holds the pipe.
CUT_EARLY = [
    Row(
        ["--to-line", "12", *BOTH],
        first_lines(RUNS_OUT, 12),
        none("ann events 2 matched 1", "ben events 1 matched 0"),
    ),
    Row(["--to-line", "3", *BOTH], first_lines(RUNS_OUT, 3), fault(f"line 3: text: {NO_TEXT}")),
]


def byte_by_byte(file: pathlib.Path, row: Row) -> Answer:
    """The answer where each read gives one byte: of a socket with packets a read gives one packet."""
    ours, its = socket.socketpair(socket.AF_UNIX, socket.SOCK_SEQPACKET)
    ours.settimeout(SECONDS)
    with its:
        words = [str(file), *row.words]
        program = subprocess.Popen(words, stdin=its.fileno(), stdout=subprocess.PIPE, stderr=subprocess.PIPE)
    with program:
        try:
            with ours:
                send_each(ours, row.log.encode())
            output, errors = program.communicate(timeout=SECONDS)
        finally:
            program.kill()
    return Answer(program.returncode, as_text(output), as_text(errors))


def send_each(ours: socket.socket, log: bytes) -> None:
    """Sends each byte of a log as a packet, until all are sent or the program, which may answer before, has ended."""
    try:
        for byte in log:
            ours.send(bytes([byte]))
    except (BrokenPipeError, ConnectionResetError):
        pass


def before_the_end(file: pathlib.Path, row: Row) -> Answer:
    """The answer that comes, and after which the program ends, while the writer still holds the pipe."""
    reader, writer = os.pipe()
    with open(reader, "rb") as log, open(writer, "wb") as held:
        held.write(row.log.encode())
        held.flush()
        ran = subprocess.run([file, *row.words], stdin=log, capture_output=True, timeout=SECONDS,
                             check=False)
    return Answer(ran.returncode, as_text(ran.stdout), as_text(ran.stderr))


@pytest.mark.parametrize("row", ANSWERS + CUT + ALL, ids=name_of)
def test_byte_by_byte(wcptrace: pathlib.Path, row: Row) -> None:
    assert byte_by_byte(wcptrace, row) == row.answer


@pytest.mark.parametrize("row", EARLY + CUT_EARLY, ids=name_of)
def test_answers_before_the_log_ends(wcptrace: pathlib.Path, row: Row) -> None:
    assert before_the_end(wcptrace, row) == row.answer


def test_tells_on_a_terminal_how_many_lines_were_read(wcptrace: pathlib.Path) -> None:
    """It tells so at most once a second, of what it reads behind that: so lines are written until it does."""
    ours, its = pty.openpty()
    call, until, count = [str(wcptrace), "--while", "ann=never"], time.monotonic() + SECONDS, 0
    with subprocess.Popen(call, stdin=subprocess.PIPE, stdout=subprocess.PIPE, stderr=its) as program:
        assert program.stdin
        os.close(its)
        while not select.select([ours], [], [], 0.3)[0]:
            assert time.monotonic() < until, "nothing is told"
            count += 1
            program.stdin.write(f'ann {{"ann":{count}}}\nwaits\n'.encode())
            program.stdin.flush()
        told = os.read(ours, 1000)
        # A line comes in pieces.
        while b"\n" not in told:
            told += os.read(ours, 1000)
        output, _ = program.communicate(timeout=SECONDS)
    os.close(ours)
    assert re.match(rb"wcptrace: [1-9]\d* lines read\r\n", told)
    assert (program.returncode, as_text(output)) == (1, f"none\nann events {count} matched 0\n")
