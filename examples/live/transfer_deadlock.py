# Two transfers lock the same two accounts in opposite order. Who waits for whom?
import gevent
from gevent.lock import RLock

ann, bob = RLock(), RLock()


def transfer(giver, taker, amount):
    with giver:
        gevent.sleep(0.01)
        with taker:
            print("transferred", amount)


gevent.joinall([
    gevent.spawn(transfer, ann, bob, 10),
    gevent.spawn(transfer, bob, ann, 20),
])
