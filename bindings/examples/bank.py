"""A bank: three workers take payments from one queue. Were two of them ever at the shop's account at once?

With the word `hasty` a worker keeps the customer's lock as it comes to the shop's account, and forgets the shop's.
Where a file is named behind that, the log of the run goes there."""

import itertools
import os
import sys
import time
from typing import Callable, List, Optional

sys.path.insert(0, os.path.join(os.path.dirname(os.path.abspath(__file__)), "..", "python"))

import wullaphi  # noqa: E402
from wullaphi import queue, threading  # noqa: E402

WORKERS = ["w1", "w2", "w3"]


class Account:
    def __init__(self) -> None:
        self.lock = threading.Lock()
        self.balance = 100


def pay(customer: Account, shop: Account, amount: int) -> None:
    with customer.lock:
        customer.balance -= amount
        time.sleep(0.01)
    with shop.lock, wullaphi.holding("pay"):
        shop.balance += amount


def pay_hastily(customer: Account, shop: Account, amount: int) -> None:
    with customer.lock:
        customer.balance -= amount
        time.sleep(0.01)
        with wullaphi.holding("pay_hastily"):  # the bug: this is the customer's lock
            shop.balance += amount


Way = Callable[[Account, Account, int], None]


def work(jobs: "queue.Queue[Optional[Account]]", shop: Account, way: Way) -> None:
    while (customer := jobs.get()) is not None:
        way(customer, shop, 5)


def day(way: Way) -> None:
    jobs: "queue.Queue[Optional[Account]]" = queue.Queue()
    shop = Account()
    workers = [threading.Thread(target=work, args=(jobs, shop, way), name=name) for name in WORKERS]
    for worker in workers:
        worker.start()
    for _ in range(9):
        jobs.put(Account())
    for _ in workers:
        jobs.put(None)
    for worker in workers:
        worker.join()


def main(words: List[str]) -> None:
    pairs = list(itertools.combinations(WORKERS, 2))
    with wullaphi.watching(["bank", *WORKERS], questions=pairs, logs=True) as watch, watch.process("bank"):
        day(pay_hastily if words[:1] == ["hasty"] else pay)
    for pair, report in watch.reports().items():
        print(" and ".join(pair), report)
    if len(words) > 1:
        watch.write_log(words[1])


if __name__ == "__main__":
    main(sys.argv[1:])
