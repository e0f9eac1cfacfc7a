"""The logs whose pages the tests look at, and what all of these tests share."""
import functools

from page_browser import Browser
from page_helper import TOP, Data, Event, Log, Options, page_of, random_log, read_shiviz, ring_log

SIZES = [(1280, 720), (1920, 1080), (390, 844)]
LEASE = (read_shiviz(TOP / "examples" / "lease.log"),
         Options({name: ("while", "holds|writes") for name in ("ada", "ben")}, title="lease.log"))
LEADERS = (read_shiviz(TOP / "examples" / "two_leaders.log"),
           Options({name: ("while", "leader|heartbeat to") for name in ("n1", "n2")}, title="two_leaders.log"))
RING = (ring_log(), Options({f"node{number}": ("while", "holds") for number in (3, 11)}, title="ring_16_by_100.log"))
LARGE = (random_log(3, 10000), Options({f"host{number}": ("while", "work .*holds") for number in range(8)},
                                       title="ten_thousand.log"))
# The same log with a moment so near its end that all of it is shown.
LATE = (LARGE[0], Options({f"host{number}": ("while", "work 9[5-9]..,.*holds") for number in (0, 1)},
                          title="ten_thousand.log", shown=10000))
WINDOW = (random_log(5, 3000), Options({f"host{number}": ("while", "work 2.*holds") for number in range(3)},
                                       title="window.log", shown=300))
NONE = (random_log(6, 80, 4), Options({"host0": ("at", "work .*holds"), "host1": ("at", "nothing")}, title="none.log"))


def far_log() -> Log:
    """A lease that one holds from the first line on, and another from near the end."""
    log = [Event(1, "ada", {"ada": 1}, "takes the lease")]
    for event in random_log(9, 400, names=["ben", "cam", "dan"], hold=0):
        log.append(Event(event.line + 1, event.host, event.clock, event.text))
    clock = {**[event for event in log if event.host == "ben"][-1].clock}
    for text in ("takes the lease", "gives the lease back"):
        clock["ben"] += 1
        log.append(Event(len(log) + 1, "ben", dict(clock), text))
    log.append(Event(len(log) + 1, "ada", {**clock, "ada": 2}, "gives the lease back"))
    return log


FAR = (far_log(), Options({name: ("while", "takes") for name in ("ada", "ben")}, title="far.log", shown=100))
ALL = {"lease": LEASE, "leaders": LEADERS, "ring": RING, "large": LARGE, "late": LATE, "window": WINDOW, "none": NONE,
       "far": FAR}


@functools.cache
def page(name: str) -> str:
    return page_of(*ALL[name])


def small(seed: int) -> tuple[Log, Options]:
    """A random log that fits into a window, with what it asks."""
    hosts = 2 + seed % 6
    return random_log(seed, 40, hosts), Options({f"host{number}": ("while", "work .*holds") for number in range(2)})


def events_of(data: Data) -> Log:
    """The events of a page's data as those of a log. One without a clock, its host's first, has the greatest number
    that it can have: before that of the host's next event."""
    names = [host["name"] for host in data["hosts"]]
    events: Log = []
    for it in reversed(data["events"]):
        name, clock = names[it["host"]], {names[h]: value for h, value in it["clock"]}
        later = [event.clock[name] for event in events if event.host == name]
        events.append(Event(it["line"], name, clock or {name: later[-1] - 1 if later else 2 ** 32 - 1}, it["text"]))
    return events[::-1]


def same(got: object, wanted: object, what: object) -> None:
    assert got == wanted, f"{what}: {got!r:.300}, not {wanted!r:.300}"


def in_rows(data: Data) -> list[str]:
    """The hosts in the order of their rows: those of the answer, then all that are asked about, then the others."""
    asked = [place for place, host in enumerate(data["hosts"]) if "rule" in host]
    members = [data["events"][place]["host"] for place in data["moment"] or []]
    return [data["hosts"][place]["name"] for place in dict.fromkeys([*members, *asked, *range(len(data["hosts"]))])]


def shown_names(browser: Browser) -> list[str]:
    names: list[str] = browser.run("""return [...document.querySelectorAll("#drawing text[data-host]")]
        .map(it => wullaphi.data.hosts[it.dataset.host].name)""")
    return names
