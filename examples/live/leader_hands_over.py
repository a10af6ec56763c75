# Three nodes want to lead. Who is next when the leader hands over, when it fails, and when it hangs?
import gevent
from gevent.lock import Semaphore

seat = Semaphore(1)
leaders = []


def rest():
    gevent.sleep(0.03)


def fail():
    gevent.sleep(0.01)
    raise OSError("disk")


def hang():
    gevent.sleep(3600)


def node(name, *duties):
    for duty in duties:
        with seat:
            leaders.append(name)
            print(name, "leads")
            try:
                with gevent.Timeout(0.1):
                    duty()
                print(name, "hands over")
            except gevent.Timeout:
                print(name, "is voted out")
            except OSError as error:
                print(name, "fails:", error)
        gevent.sleep(0.005)


gevent.joinall([
    gevent.spawn(node, "ann", rest, rest),
    gevent.spawn(node, "bob", fail, rest),
    gevent.spawn(node, "cy", hang),
])
print(*leaders)
