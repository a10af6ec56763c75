# Four requests miss the cache at the same moment. How often is the page made, and what if making it fails?
import gevent
from gevent.event import AsyncResult

made = []


def make(key):
    made.append(key)
    gevent.sleep(0.05)
    if key == "/lost":
        raise LookupError("no such page")
    return "page " + key


class Cache:
    """Whoever misses makes the page."""

    def __init__(self):
        self.pages = {}

    def get(self, key):
        if key not in self.pages:
            self.pages[key] = make(key)
        return self.pages[key]


class SingleFlight(Cache):
    """Whoever misses first makes the page, and the others wait for it."""

    def __init__(self):
        super().__init__()
        self.under_way = {}

    def get(self, key):
        if key in self.pages:
            return self.pages[key]
        if key in self.under_way:
            return self.under_way[key].get()
        answer = self.under_way[key] = AsyncResult()
        try:
            page = self.pages[key] = make(key)
            answer.set(page)
            return page
        except LookupError as error:
            answer.set_exception(error)
            raise
        finally:
            del self.under_way[key]


def request(name, cache, key):
    try:
        print(name, "has", cache.get(key))
    except LookupError as error:
        print(name, "has none:", error)


def rush(cache, key):
    made.clear()
    gevent.joinall([gevent.spawn(request, name, cache, key) for name in "abcd"])
    print("made", len(made))


rush(Cache(), "/home")
careful = SingleFlight()
rush(careful, "/home")
rush(careful, "/home")
rush(careful, "/lost")
request("e", careful, "/lost")
