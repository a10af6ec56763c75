# A timeout, a release and a kill fall on one moment. Which of the three does the waiter see?
import gevent
from gevent.lock import Semaphore

lock = Semaphore(0)


def waits():
    try:
        with gevent.Timeout(0.1):
            lock.acquire()
            print("has the lock")
    except gevent.Timeout:
        print("timed out")
    except gevent.GreenletExit:
        print("was killed")


def releases():
    gevent.sleep(0.1)
    lock.release()


def kills(target):
    gevent.sleep(0.1)
    target.kill(block=False)


waiter = gevent.spawn(waits)
gevent.spawn(releases)
gevent.spawn(kills, waiter)
waiter.join()
print("counter", lock.counter)
