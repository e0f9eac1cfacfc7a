"""Two tellers at one till. Were they ever at it at once, and does that happen?

With the word `apart` the second teller waits for a plain event that the first one sets, which no watch sees."""

import os
import sys
import threading as plain
from typing import List

sys.path.insert(0, os.path.join(os.path.dirname(os.path.abspath(__file__)), "..", "python"))

import wullaphi  # noqa: E402
from wullaphi import threading  # noqa: E402


class Till:
    def __init__(self) -> None:
        self.balance = 100

    def pay(self, amount: int) -> None:
        with wullaphi.holding("pay"):
            self.balance -= amount


def day() -> None:
    till = Till()
    tellers = [threading.Thread(target=till.pay, args=(5,), name=name) for name in ("ada", "ben")]
    for teller in tellers:
        teller.start()
    for teller in tellers:
        teller.join()


def day_apart() -> None:
    till, ada_is_done = Till(), plain.Event()

    def ada() -> None:
        till.pay(5)
        ada_is_done.set()

    def ben() -> None:
        ada_is_done.wait()
        till.pay(5)

    tellers = [threading.Thread(target=ada, name="ada"), threading.Thread(target=ben, name="ben")]
    for teller in tellers:
        teller.start()
    for teller in tellers:
        teller.join()


def main(words: List[str]) -> None:
    if words == ["apart"]:
        print(wullaphi.confirm(day_apart, ["ada", "ben"], runs=10, patience=0.1))
    else:
        print(wullaphi.confirm(day, ["ada", "ben"], patience=60))


if __name__ == "__main__":
    main(sys.argv[1:])
