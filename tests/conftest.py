"""The programs of the tests: a test that takes one by its name runs once for each build of it."""
import pathlib
from typing import Iterator

import page_helper
import pytest
from install_helper import NAMES, installer_in
from page_browser import Browser
from programs import PROGRAMS, builds


def pytest_generate_tests(metafunc: pytest.Metafunc) -> None:
    for program in PROGRAMS:
        if program in metafunc.fixturenames:
            files = builds(program, metafunc.config.getoption("proved"))
            metafunc.parametrize(program, files, ids=lambda file: str(file.name), indirect=True, scope="session")


def built(request: pytest.FixtureRequest) -> pathlib.Path:
    file = pathlib.Path(request.param)
    assert file.exists(), f"{file} isn't built"
    return file


@pytest.fixture(scope="session")
def wcpwatch(request: pytest.FixtureRequest) -> pathlib.Path:
    return built(request)


@pytest.fixture(scope="session")
def wcptrace(request: pytest.FixtureRequest) -> pathlib.Path:
    return built(request)


@pytest.fixture(scope="session")
def wcpdraw(request: pytest.FixtureRequest) -> pathlib.Path:
    return built(request)


@pytest.fixture(scope="session")
def bench_calls(request: pytest.FixtureRequest) -> pathlib.Path:
    return built(request)


@pytest.fixture(scope="session")
def proved_programs(pytestconfig: pytest.Config) -> None:
    """The programs that the scripts at the top run, which are those that are proved."""
    if not pytestconfig.getoption("proved"):
        pytest.skip("it tests what is proved")
    for program in NAMES:
        file, *_ = builds(program, proved=True)
        assert file.exists(), f"{file} isn't built"


@pytest.fixture(scope="session")
def installed(tmp_path_factory: pytest.TempPathFactory, proved_programs: None) -> pathlib.Path:
    """A prefix below which all is installed."""
    room = tmp_path_factory.mktemp("installed")
    ended = installer_in(room)(room / "a prefix")
    assert ended.returncode == 0, ended.stderr
    return room / "a prefix"


@pytest.fixture(scope="session")
def pages(pytestconfig: pytest.Config) -> None:
    """The pages that the tests look at are those that the program writes, as far as nothing else is asked for."""
    if not pytestconfig.getoption("pages_of_source"):
        [page_helper.writer, *_] = builds("wcptrace", pytestconfig.getoption("proved"))


@pytest.fixture(scope="session")
def session_browser(tmp_path_factory: pytest.TempPathFactory) -> Iterator[Browser]:
    browser = Browser(tmp_path_factory.mktemp("pages"))
    yield browser
    browser.driver.quit()


@pytest.fixture
def browser(session_browser: Browser, pages: None, request: pytest.FixtureRequest) -> Iterator[Browser]:
    """A browser whose console has nothing to say of the test."""
    session_browser.driver.get_log("browser")
    yield session_browser
    folder = request.config.getoption("screenshots")
    if folder is not None:
        folder.mkdir(parents=True, exist_ok=True)
        session_browser.driver.save_screenshot(str(folder / f"{request.node.name}.png"))
    assert [it["message"] for it in session_browser.driver.get_log("browser")] == []
