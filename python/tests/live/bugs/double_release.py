"""A connection that fails is given back in the except and once more in the finally."""
import gevent
from gevent.lock import BoundedSemaphore

places = BoundedSemaphore(2)


def fetch(number):
    places.acquire()
    try:
        gevent.sleep(0.01)
        if number == 1:
            raise IOError('reset')
    except IOError:
        places.release()
    finally:
        places.release()


gevent.joinall([gevent.spawn(fetch, n) for n in range(2)])
