"""The gevent adapter with one planted change: one that was woken for a unit of a semaphore lets the others run once more
before it takes the unit, so a newcomer can overtake it twice."""
from typing import Optional

import gevent
from gevent.lock import Semaphore

from gvr.beside.adapters import gevent as adapter


class TwiceOvertaken(Semaphore):  # type: ignore[misc]
    """A Semaphore whose waiters yield when they are woken."""

    def acquire(self, blocking: bool = True, timeout: Optional[float] = None) -> bool:
        if self.counter <= 0 and blocking and timeout is None:
            self.wait()
            gevent.sleep(0)
        return bool(super().acquire(blocking, timeout))


if __name__ == '__main__':
    setattr(adapter, 'Semaphore', TwiceOvertaken)
    adapter.main()
