"""The command `python -m wullaphi.otel`: spans as a log for `wcptrace`."""

import argparse
import os
import sys
from typing import IO, Iterable, List, Optional, Sequence, Tuple

from ._shown import printable
from ._trace_files import FORMS, read
from ._trace_lines import Lines
from ._trace_order import Calls, Order
from ._trace_server import Collecting
from ._trace_spans import Fault, Naming, Spans

DONE, FAULT, CLOSED_PIPE = 0, 2, 141
# So many hosts are named, and so many lines are written at once.
SHOWN, CHUNK = 10, 1000
STATUS = "status: 0 the log was written, 2 a fault, which standard error names: then nothing is written"


def words() -> argparse.ArgumentParser:
    """What the command takes."""
    parser = argparse.ArgumentParser("python -m wullaphi.otel", epilog=STATUS, description="Makes a log for `wcptrace "
                                     "--form lines` of spans of OpenTelemetry or Jaeger.")
    tasks = parser.add_subparsers(dest="task", required=True, metavar="{lines,collect}")
    lines = tasks.add_parser("lines", help="of spans in files", epilog=STATUS,
                             description="Writes the spans in files as a log for `wcptrace --form lines`.")
    lines.add_argument("--form", choices=FORMS, help="how the files are written (told by what they hold)")
    _add_shared(lines)
    lines.add_argument("files", metavar="FILE", nargs="+", help="a file of spans; - is standard input")
    collect = tasks.add_parser("collect", help="of spans that exporters send", epilog=STATUS,
                               description="Takes OTLP/JSON over HTTP at /v1/traces, and writes the spans as a log "
                               "for `wcptrace --form lines` when it is interrupted or terminated.")
    collect.add_argument("--listen", metavar="HOST:PORT", type=_address, default=("127.0.0.1", 4318),
                         help="where exporters send spans (127.0.0.1:4318); port 0 takes one that is free")
    collect.add_argument("--until-quiet", metavar="SECONDS", type=_seconds,
                         help="end where, after a first request, none came for so long")
    collect.add_argument("--keep", metavar="FILE", help="first append each request to this file, as a line for `lines`")
    _add_shared(collect)
    return parser


def _add_shared(parser: argparse.ArgumentParser) -> None:
    parser.add_argument("--host-attributes", metavar="A,B", type=_names, default=[],
                        help="the attributes, of spans or resources, whose values name a host")
    parser.add_argument("--replies", action="store_true", help="the servers end their spans before they reply: the end "
                        "of a call comes behind that of the server's span")
    parser.add_argument("--texts", choices=["attributes"], help="write ` key=value` of the attributes behind each text")
    parser.add_argument("--output", metavar="FILE", help="write the log to this file (standard output)")


def _names(word: str) -> List[str]:
    names = word.split(",")
    if not all(names) or len(set(names)) < len(names):
        raise argparse.ArgumentTypeError(f"{word!r} isn't a list of names")
    return names


def _address(word: str) -> Tuple[str, int]:
    host, _, port = word.rpartition(":")
    if not port.isascii() or not port.isdigit() or int(port) > 65_535:
        raise argparse.ArgumentTypeError(f"{word!r} isn't HOST:PORT")
    return host.strip("[]"), int(port)


def _seconds(word: str) -> float:
    try:
        seconds = float(word)
    except ValueError:
        seconds = -1
    if not 0 < seconds < 1e9:
        raise argparse.ArgumentTypeError(f"{word!r} isn't a number of seconds above 0")
    return seconds


def write(spans: Spans, asked: argparse.Namespace) -> None:
    """Writes the log of these spans, and says how many they are. A fault comes before anything is written."""
    names = spans.names(is_whole=bool(asked.host_attributes))
    calls = Calls(spans, asked.replies)
    lines = Lines(spans, calls, Order(spans, calls, names), names)
    lines.check()
    _say_counts(spans, calls, names, bool(asked.host_attributes))
    if asked.output is None:
        _write_to(sys.stdout, lines)
        sys.stdout.flush()
    else:
        with open(asked.output, "w", encoding="utf-8") as file:
            _write_to(file, lines)


def _write_to(file: IO[str], lines: Iterable[str]) -> None:
    chunk: List[str] = []
    for line in lines:
        chunk.append(line)
        if len(chunk) == CHUNK:
            file.write("\n".join(chunk) + "\n")
            chunk.clear()
    file.write("".join([line + "\n" for line in chunk]))


def _say_counts(spans: Spans, calls: Calls, names: Sequence[str], is_named: bool) -> None:
    """Says what was read, and what gives no order."""
    links = f", {calls.missing_links} links to spans that aren't there" if calls.missing_links else ""
    say(f"{len(spans)} spans, {calls.missing} whose parent isn't there{links}")
    more = f" and {len(names) - SHOWN} more" if len(names) > SHOWN else ""
    say(f"hosts: {', '.join(sorted(names)[:SHOWN])}{more}")
    untold = [] if is_named else spans.untold()
    if untold:
        say(f"nothing tells one instance from another of {', '.join(sorted(untold)[:SHOWN])}: if several ran, their "
            "order is false")


def say(line: str) -> None:
    """Says something on standard error."""
    print(f"wullaphi.otel: {printable(line)}", file=sys.stderr, flush=True)


def _run(asked: argparse.Namespace) -> None:
    naming = Naming(asked.host_attributes, asked.texts is not None)
    if asked.task == "collect":
        spans = Collecting(asked.listen, naming, asked.until_quiet, asked.keep, say).run()
    else:
        spans = Spans()
        for path in asked.files:
            read(path, asked.form, naming, spans)
    write(spans, asked)


def main(arguments: Optional[Sequence[str]] = None) -> int:
    """Runs the command with these words, or those of the call, and says with which status it ends."""
    asked = words().parse_args(arguments)
    try:
        _run(asked)
    except Fault as fault:
        say(str(fault))
        return FAULT
    except BrokenPipeError:
        os.dup2(os.open(os.devnull, os.O_WRONLY), sys.stdout.fileno())
        return CLOSED_PIPE
    except OSError as error:
        say(f"{error.filename}: {error.strerror}" if error.filename else str(error))
        return FAULT
    except MemoryError:
        say("there is no memory")
        return FAULT
    except KeyboardInterrupt:
        return 130
    return DONE
