# The first server is slow, so a second one is asked. Whose answer counts, and what becomes of the other request?
import gevent


def ask(server, seconds):
    try:
        gevent.sleep(seconds)
        print(server, "answers")
        return server
    except gevent.GreenletExit:
        print(server, "is not needed")
        raise


def hedged(patience, *servers):
    """The answer that comes first. The next server is asked when nobody has answered for so long."""
    asked = []
    for server in servers:
        asked.append(gevent.spawn(ask, *server))
        done = gevent.joinall(asked, timeout=patience, count=1)
        if done:
            break
    else:
        done = gevent.joinall(asked, count=1)
    gevent.killall([request for request in asked if request not in done])
    return done[0].value


print("quick:", hedged(0.05, ("a", 0.03), ("b", 0.02)))
print("slow:", hedged(0.05, ("a", 0.3), ("b", 0.02)))
print("both slow:", hedged(0.05, ("a", 0.09), ("b", 0.08)))
