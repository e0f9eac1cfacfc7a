"""The names of `threading`, whose locks, signals and threads the watch that is current sees: a program changes its
import, and adds `wullaphi.holding`.

    from wullaphi import threading

Each class has the signature of the standard library's. Without a watch it does what that does, and costs about twice as
much. Every other name is the standard module's own.
"""

import threading as _plain
from typing import TYPE_CHECKING, Any, List

from ._locks import Condition as Condition
from ._locks import Lock as Lock
from ._locks import RLock as RLock
from ._signals import Barrier as Barrier
from ._signals import BoundedSemaphore as BoundedSemaphore
from ._signals import Event as Event
from ._signals import Semaphore as Semaphore
from ._threads import Thread as Thread
from ._threads import Timer as Timer

if TYPE_CHECKING:
    from threading import TIMEOUT_MAX as TIMEOUT_MAX
    from threading import BrokenBarrierError as BrokenBarrierError
    from threading import ExceptHookArgs as ExceptHookArgs
    from threading import ThreadError as ThreadError
    from threading import active_count as active_count
    from threading import current_thread as current_thread
    from threading import enumerate as enumerate  # pylint: disable=redefined-builtin
    from threading import excepthook as excepthook
    from threading import get_ident as get_ident
    from threading import get_native_id as get_native_id
    from threading import local as local
    from threading import main_thread as main_thread
    from threading import setprofile as setprofile
    from threading import settrace as settrace
    from threading import stack_size as stack_size
else:
    __all__ = list(_plain.__all__)

    def __getattr__(name: str) -> Any:
        return getattr(_plain, name)

    def __dir__() -> List[str]:
        return sorted({*globals(), *dir(_plain)})


for _it in (Lock, RLock, Condition, Event, Semaphore, BoundedSemaphore, Barrier, Thread, Timer):
    _it.__module__ = __name__
del _it
