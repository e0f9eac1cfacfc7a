"""What the data of a page says."""
import json
import subprocess

from page_browser import Browser
from page_cases import ALL, LEASE, same, small
from page_helper import TOP, data_in, data_of, differences, page_of, page_with, read_shiviz


def test_reads_back(pages: None) -> None:
    for name, (log, options) in ALL.items():
        same(differences(page_of(log, options), log), [], name)
    for seed in range(20):
        log, options = small(seed)
        same(differences(page_of(log, options), log), [], seed)


def test_differences_are_seen(pages: None) -> None:
    log, options = LEASE
    data = data_in(page_of(log, options))
    for change in ({"text": "x"}, {"clock": [[0, 1]]}, {"host": 0}, {"line": 3}):
        other = json.loads(json.dumps(data))
        other["events"][3].update(change)
        assert differences(page_with(other), log), change
    other = json.loads(json.dumps(data))
    del other["events"][5]
    assert differences(page_with(other), log), "an event that is missing"


def test_messages_of_the_data(browser: Browser) -> None:
    """Where the data names the messages these are drawn, and one that is lost ends with a cross."""
    log = read_shiviz(TOP / "examples" / "lease.log")
    given = [{"from": 1, "to": 2}, {"from": 2, "to": 3}, {"from": 0, "to": None, "to_host": 3},
             {"from": None, "from_host": 1, "to": 14}]
    browser.open(page_with({**data_of(log, LEASE[1]), "messages": given}))
    same([(it["from"], it["to"]) for it in browser.run("return wullaphi.messages")], [(1, 2), (2, 3)], "messages")
    paths = browser.run("""return ["unseen", "arrows"]
        .map(it => document.querySelector("#drawing ." + it).getAttribute("d"))""")
    assert paths[0].count("L") == 4 and "l6 6m-6 0l6 -6" in paths[1], paths


def test_the_script_says_what_the_page_says() -> None:
    ran = subprocess.run([TOP / ".ci" / "page"], capture_output=True, text=True, check=False)
    same((ran.returncode, ran.stdout), (0, "4 passed, 0 failed\n"), ".ci/page")
