# Two Timeouts are started by hand, one inside the other. Which of them ends which step?
import gevent
from gevent import Timeout


class Late(Exception):
    pass


def step(name, seconds):
    gevent.sleep(seconds)
    print(name)


def job():
    outer = Timeout(0.2)
    outer.start()
    try:
        step("one", 0.1)
        inner = Timeout.start_new(0.05)
        try:
            step("two", 0.1)
        except Timeout as e:
            print("inner" if e is inner else "outer")
        finally:
            inner.close()
        step("three", 0.2)
    except Timeout as e:
        print("inner" if e is inner else "outer", e.seconds, outer.pending)
    finally:
        outer.cancel()
    gevent.sleep(0.1)
    return "done"


def watchdog(target, seconds):
    gevent.sleep(seconds)
    target.kill(Late("after %s" % seconds), block=False)


def slow():
    try:
        gevent.sleep(9)
    except Late as e:
        print("late", e)
        raise


print(gevent.spawn(job).get())
target = gevent.spawn(slow)
watching = gevent.spawn(watchdog, target, 0.1)
try:
    target.get()
except Late as e:
    print("got", e, watching.ready())
