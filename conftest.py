"""The options that all tests have, and the order in which they run."""
import os
import pathlib
import random
import signal

import pytest
from _pytest.terminal import TerminalReporter

# Where the processes of pytest-xdist find the seed of the run.
SEED = "WULLAPHI_SEED"


def pytest_addoption(parser: pytest.Parser) -> None:
    group = parser.getgroup("wullaphi")
    group.addoption("--proved", action="store_true", dest="proved", default=True,
                    help="test the programs that the gate has proved and built, of each compiler (the default)")
    group.addoption("--unproved", action="store_false", dest="proved",
                    help="test the programs as they are built without proof")
    group.addoption("--random-order", type=int, metavar="SEED",
                    help="run the files, and the tests of each, in an order that this number gives")
    group.addoption("--pages-of-source", action="store_true",
                    help="look at pages as crates/draw_page/page says, and not as the built wcptrace writes them")
    group.addoption("--logs", type=int, default=300, metavar="N",
                    help="try so many random logs against each program that tries all choices of events (300)")
    group.addoption("--seed", type=int, help="draw the random logs by this number, and not by one of this run")
    group.addoption("--log", type=int, metavar="NUMBER", help="try the random log of this number alone")
    group.addoption("--screenshots", type=pathlib.Path, metavar="FOLDER",
                    help="keep what the browser shows at the end of each test of a page")


def pytest_configure(config: pytest.Config) -> None:
    """What a test has started, a server or a browser, ends with it, also where a signal ends all."""
    for number in signal.SIGHUP, signal.SIGTERM:
        if signal.getsignal(number) == signal.SIG_DFL:
            signal.signal(number, signal.default_int_handler)
    if config.option.seed is None:
        config.option.seed = int(os.environ.setdefault(SEED, str(random.randrange(1_000_000))))


def pytest_terminal_summary(terminalreporter: TerminalReporter, config: pytest.Config) -> None:
    """Says what the random logs were drawn by, where any were."""
    reports = [report for each in terminalreporter.stats.values() for report in each]
    if any("/oracles/" in getattr(report, "nodeid", "") for report in reports):
        terminalreporter.write_line(f"random logs: --seed {config.option.seed}")


def pytest_report_header(config: pytest.Config) -> list[str]:
    seed = config.getoption("random_order")
    return [] if seed is None else [f"random order: {seed}"]


def pytest_collection_modifyitems(config: pytest.Config, items: list[pytest.Item]) -> None:
    """Shuffles the tests where that is asked for, and puts those that measure last.

    The tests of a file stay together, since they share what is costly to set up. Each worker of pytest-xdist gets the
    same order, as it must."""
    seed = config.getoption("random_order")
    if seed is not None:
        items[:] = shuffled(items, random.Random(seed))
    items.sort(key=lambda item: item.get_closest_marker("measures") is not None)


def shuffled(items: list[pytest.Item], by: random.Random) -> list[pytest.Item]:
    files: dict[str, list[pytest.Item]] = {}
    for item in items:
        files.setdefault(str(item.path), []).append(item)
    groups = list(files.values())
    by.shuffle(groups)
    for group in groups:
        by.shuffle(group)
    return [item for group in groups for item in group]
