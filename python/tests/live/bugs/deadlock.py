"""Two transfers take two locks, each in its own order."""
import gevent
from gevent.lock import RLock

left = RLock()
right = RLock()


def there():
    with left:
        gevent.sleep(0.01)
        with right:
            print('there')


def back():
    with right:
        gevent.sleep(0.01)
        with left:
            print('back')


gevent.joinall([gevent.spawn(there), gevent.spawn(back)])
