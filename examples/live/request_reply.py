# Each client sends its question with a place for the answer. What does it hear if there is no answer, or a late one?
import gevent
from gevent.event import AsyncResult
from gevent.queue import Queue

requests = Queue()


class NotFound(Exception):
    pass


STOCK = {"pear": 3, "fig": 12}


def server():
    for name, reply in requests:
        gevent.sleep(0.04)
        if name in STOCK:
            reply.set(STOCK[name])
        else:
            reply.set_exception(NotFound(name))
    return "closed"


def client(name, wait):
    reply = AsyncResult()
    requests.put((name, reply))
    try:
        print(name, "is", reply.get(timeout=wait))
    except NotFound as e:
        print("no", e)
    except gevent.Timeout:
        print(name, "took too long")


serving = gevent.spawn(server)
clients = [gevent.spawn(client, name, wait)
           for name, wait in (("pear", 1), ("plum", 1), ("fig", 0.1), ("pear", 1))]
gevent.joinall(clients)
requests.put(StopIteration)
print(serving.get())
