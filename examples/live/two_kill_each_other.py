# Two greenlets kill each other, and each waits for the other's end. Does one of them win?
import gevent

rivals = {}


def rival(name, other):
    try:
        gevent.sleep(0.01)
        print(name, "kills", other)
        rivals[other].kill()
        print(name, "has won")
    except gevent.GreenletExit:
        print(name, "is killed")


rivals["ann"] = gevent.spawn(rival, "ann", "bob")
rivals["bob"] = gevent.spawn(rival, "bob", "ann")
gevent.joinall(rivals.values())
print("nobody is left" if all(g.ready() for g in rivals.values()) else "one is left")
