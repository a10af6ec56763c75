# A call fails, and is tried again after longer and longer pauses. Whose time is over first: the try's or the job's?
import gevent


class Flaky:
    def __init__(self, fails):
        self.left = fails

    def __call__(self, patience):
        with gevent.Timeout(patience, TimeoutError("one try")):
            self.left -= 1
            if self.left % 2:
                gevent.sleep(1)
            gevent.sleep(0.04)
            if self.left > 0:
                raise ConnectionError("refused, %d left" % self.left)
            return "answer"


def retry(call, tries, pause):
    for i in range(tries):
        try:
            return call(0.1)
        except (ConnectionError, TimeoutError) as e:
            print("try", i, type(e).__name__, e)
            gevent.sleep(pause * 2 ** i)
    raise RuntimeError("no luck")


def job(name, fails, tries, limit):
    try:
        with gevent.Timeout(limit) as t:
            print(name, retry(Flaky(fails), tries, 0.05))
    except gevent.Timeout as e:
        print(name, "ran out of time", e is t, e)
    except RuntimeError as e:
        print(name, e)


job("short", 3, 5, 1)
job("long", 9, 9, 0.6)
job("poor", 9, 2, 1)
print(gevent.with_timeout(0.1, gevent.sleep, 5, timeout_value="late"))
with gevent.Timeout(0.05, False):
    gevent.sleep(1)
    print("not reached")
both = [gevent.spawn(job, "a", 4, 5, 0.5), gevent.spawn(job, "b", 6, 9, 0.5)]
gevent.joinall(both)
