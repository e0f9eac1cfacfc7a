"""The command `wcpcollect`: takes the notes of a watch, or the logs of hosts, from a Redis server."""

import argparse
import json
import os
import sys
import time
from typing import Any, List, Optional, Sequence, Tuple

from . import __version__
from ._line import LOOK, Line, Spoilt, Unreachable, client_of, package, text
from ._refusals import Refused
from ._shown import printable, shown
from ._streams import StartedAnew
from .collect import Anew, Collector, Event, Found, Gap, Lost, TakenOver

FOUND, NONE, FAULT, SILENT, UNDECIDED = 0, 1, 2, 3, 4
CLOSED_PIPE = 141
STATUS = """\
status: 0 a cut was found, 1 no question has one, 2 a fault, which standard error names, 3 nothing came for the seconds
of --patience, 4 no cut was found, and of some question it isn't known whether there is one"""


def words() -> argparse.ArgumentParser:
    """What the command takes."""
    parser = argparse.ArgumentParser("wcpcollect", description="Takes the notes of a watch from a Redis server, and "
                                     "prints the moments at which all conditions could have held.", epilog=STATUS,
                                     formatter_class=argparse.RawDescriptionHelpFormatter)
    parser.add_argument("--redis", metavar="URL", default="redis://localhost", help="the server (%(default)s)")
    what = parser.add_mutually_exclusive_group(required=True)
    what.add_argument("--watch", metavar="NUMBER", type=int, help="the number of the watch")
    what.add_argument("--logs", metavar="KEY", help="print the lines of the logs in this stream, for wcptrace")
    asked = parser.add_mutually_exclusive_group()
    asked.add_argument("--pairs", action="store_true", help="ask of each two processes with a condition")
    asked.add_argument("--question", metavar="A,B", action="append", default=[], help="ask of these; may be repeated")
    parser.add_argument("--follow", action="store_true", help="wait for what comes, to the end of all processes")
    parser.add_argument("--patience", metavar="SECONDS", type=float,
                        help="follow, but wait no longer for something new")
    parser.add_argument("--lost-after", metavar="SECONDS", type=float,
                        help="follow, and call a process lost that shows no sign of life for so long")
    parser.add_argument("--save", metavar="NAME", help="save on the server what is known, and go on from there")
    parser.add_argument("--trim", action="store_true", help="delete the notes behind what is saved")
    parser.add_argument("--json", action="store_true", help="print a JSON object a line")
    parser.add_argument("--version", action="version", version=f"wcpcollect {__version__}")
    return parser


# What a server may do that was started again.
HALVES = ("the server has `aof-load-truncated yes`: if it was killed while it wrote a step, it may do half of it when "
          "it is killed once more; set this to no")
LOST_LINES = ("the server was started anew, or its data were replaced, and it may have lost lines that were printed: "
              "read all again")
EVICTS = ("the server has `maxmemory-policy {}`: where its memory is full, it deletes keys, and what is deleted is "
          "missing in the report; set this to noeviction")


class Command:
    """One call of the command."""

    def __init__(self, asked: argparse.Namespace) -> None:
        self.follows = asked.follow or asked.patience is not None or asked.lost_after is not None
        self._patience = asked.patience
        self._json = asked.json
        self._asked = asked
        self._heard = self._told = time.monotonic()
        self._is_away = False
        self._has_looked = self._is_anew = False

    def run(self) -> int:
        """What the call ends with."""
        if self._asked.logs is not None:
            return self._print_logs()
        questions = [question.split(",") for question in self._asked.question]
        collector = Collector(self._asked.redis, self._asked.watch, questions, self._asked.pairs,
                              self._asked.lost_after, self._asked.save, self._asked.trim)
        status = self._collect(collector)
        if status != FAULT and not self._is_away:
            collector.save()
        return self._report(collector) if status is None else status

    def _collect(self, collector: Collector) -> Optional[int]:
        """Takes all notes. None: it came to an end."""
        while True:
            before = collector.taken
            try:
                for event in collector.poll(0.5 if self.follows else 0.0):
                    self._tell_event(event)
                    if isinstance(event, Anew):
                        self._has_looked, self._is_anew = False, True
                self._look_at_settings(collector)
                self._is_away = False
                if collector.is_done or (not self.follows and before == collector.taken):
                    return None
            except Unreachable as error:
                if not self.follows:
                    return fault(str(error))
                self._wait(error)
            if collector.taken != before:
                self._heard = time.monotonic()
            elif self._is_out_of_patience():
                return self._give_up(collector)
            self._show(collector)

    def _look_at_settings(self, collector: Collector) -> None:
        """Says once, and after each `anew`, where the server may delete what is collected; and after each `anew`, where
        it may do half of a step. If the server is away meanwhile, this comes later."""
        if self._has_looked:
            return
        try:
            policy = collector.streams.evicting()
            may_halve_steps = self._is_anew and collector.streams.may_halve_steps()
        except StartedAnew:
            return  # the next poll meets it too
        self._has_looked, self._is_anew = True, False
        if may_halve_steps:
            say(HALVES)
        if policy:
            say(EVICTS.format(policy))

    def _wait(self, error: Unreachable) -> None:
        if not self._is_away:
            say(f"the server can't be reached, and is tried again: {error}")
        self._is_away = True
        time.sleep(0.1)

    def _is_out_of_patience(self) -> bool:
        return self._patience is not None and time.monotonic() - self._heard > self._patience

    def _give_up(self, collector: Collector) -> int:
        """Says who is silent."""
        if self._is_away or not collector.streams.names:
            say("the server can't be reached" if self._is_away else "no process has come")
            return SILENT
        waiting = [f"{name} ({'not there yet' if name in collector.absent and not count else f'{count} notes'})"
                   for name, count in collector.taken.items() if name not in collector.ended]
        say(f"nothing came for {self._patience:g} s; waiting for {', '.join(waiting)}")
        return SILENT

    def _tell_event(self, event: Event) -> None:
        if isinstance(event, Found):
            told = ", ".join(f"{shown(it.process)} {it.interval} tag {it.tag}" for it in event.cut)
            self._tell(f"found {told}", {"found": {it.process: {"interval": it.interval, "tag": it.tag}
                                                   for it in event.cut}})
        elif isinstance(event, Lost):
            self._tell(f"lost {shown(event.process)}", {"lost": event.process})
            say(f"{event.process} showed no sign of life for {event.seconds:.1f} s, and is called lost")
        elif isinstance(event, Anew):
            self._tell("anew", {"anew": event.why})
            say(f"{event.why}, so all is read again; what was found before is void unless it is found again")

    def _report(self, collector: Collector) -> int:
        """Prints what is known of the questions without a cut, and how many notes were taken."""
        status = NONE
        untold = {name for question in collector.questions for name in question.untold or ()}
        if untold:
            say(f"no cut was found, but {', '.join(sorted(untold))} may have done something that no note tells")
        for question in collector.questions:
            if question.found is None:
                known = "none" if question.known == "nothing" else "undecided"
                status = status if known == "none" else UNDECIDED
                self._tell(f"{known} {', '.join(map(shown, question.processes))}", {known: list(question.processes)})
        if not collector.questions:
            self._tell("undecided", {"undecided": []})
            say(f"not there yet: {', '.join(collector.absent)}" if collector.absent else "no process has come")
            status = UNDECIDED
        told = ", ".join(f"{shown(name)} {count}" for name, count in collector.taken.items())
        self._tell(f"notes {told}".rstrip(), {"notes": collector.taken})
        return FOUND if any(question.found for question in collector.questions) else status

    def _tell(self, line: str, record: Any) -> None:
        print(json.dumps(record) if self._json else line, flush=True)

    def _show(self, collector: Collector) -> None:
        """On a terminal, a line a second says how far it is."""
        if not sys.stderr.isatty() or self._is_away or time.monotonic() - self._told < 1:
            return
        self._told = time.monotonic()
        try:
            silent = [f"{name} for {seconds:.0f} s" for name, seconds in collector.silent().items() if seconds > 2]
            say(f"{sum(collector.taken.values())} notes taken, {collector.streams.behind()} behind"
                + (f", silent: {', '.join(silent)}" if silent else ""))
        except Exception:  # pylint: disable=broad-exception-caught
            pass  # the next poll meets it too

    def _print_logs(self) -> int:
        """Prints the lines of the logs, in the order in which they came."""
        client, line, place = client_of(self._asked.redis), None, "0"
        server: Optional[Tuple[str, str]] = None
        while True:
            try:
                if line is None or not line.is_open:
                    line = Line(client)
                    if server not in (None, (line.run, line.replication)):
                        return fault(LOST_LINES)
                    server = line.run, line.replication
                place, count = self._print_entries(line, place)
                self._is_away = False
            except Unreachable as error:
                if not self.follows:
                    return fault(str(error))
                self._wait(error)
                count = 0
            if count:
                self._heard = time.monotonic()
            elif not self.follows:
                return FOUND
            elif self._is_out_of_patience():
                say(f"nothing came for {self._patience:g} s")
                return SILENT

    def _print_entries(self, line: Line, place: str) -> Any:
        wait: List[Any] = ["BLOCK", 500] if self.follows else []
        reply, about = line.ask(("XREAD", "COUNT", 1000, *wait, "STREAMS", self._asked.logs, place), LOOK)
        if isinstance(reply, Exception):
            raise reply
        if not line.still_holds(about):
            raise Gap(LOST_LINES)
        entries = reply[0][1] if reply else []
        for place_of, fields in entries:
            place = text(place_of)
            it = line_of(fields)
            if it is None:
                raise Gap(f"entry {place} of {self._asked.logs} is no line of a log")
            print(printable(it) if sys.stdout.isatty() else it)
        sys.stdout.flush()
        return place, len(entries)


def line_of(fields: Sequence[bytes]) -> Optional[str]:
    """The line of an entry in a stream of logs; None where it has none, or more than one."""
    told = dict(zip(fields[::2], fields[1::2])).get(b"line")
    if told is None:
        return None
    line = text(told[:-1] if told.endswith(b"\n") else told)
    return None if "\n" in line else line


def say(line: str) -> None:
    """Says something on standard error."""
    print(f"wcpcollect: {printable(line)}", file=sys.stderr, flush=True)


def fault(line: str) -> int:
    """There is no answer."""
    say(line)
    return FAULT


def main(arguments: Optional[Sequence[str]] = None) -> int:
    """Runs the command with these words, or those of the call."""
    asked = words().parse_args(arguments)
    if asked.trim and asked.save is None:
        words().error("--trim goes with --save")
    if asked.logs is not None and (asked.pairs or asked.question or asked.lost_after is not None or asked.json
                                   or asked.save is not None):
        words().error("--logs goes with --redis, --follow and --patience alone")
    try:
        server_error = package().RedisError
    except ImportError as error:
        return fault(str(error))
    try:
        return Command(asked).run()
    except (Gap, Spoilt, StartedAnew, TakenOver, Unreachable, Refused, ValueError) as error:
        return fault(str(error))
    except server_error as error:
        is_full = str(error).startswith("OOM")
        return fault(f"the memory of the server is full: {error}" if is_full else str(error))
    except MemoryError:
        return fault("there is no memory")
    except BrokenPipeError:
        os.dup2(os.open(os.devnull, os.O_WRONLY), sys.stdout.fileno())
        return CLOSED_PIPE
    except KeyboardInterrupt:
        return 130
    except Exception as error:  # pylint: disable=broad-exception-caught
        return fault(f"{type(error).__name__}: {error}")


if __name__ == "__main__":
    sys.exit(main())
