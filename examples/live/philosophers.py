# Five philosophers share five forks. Who eats, and what if each of three takes the left fork first?
import gevent
from gevent.lock import RLock

forks = [RLock() for _ in range(5)]
meals = []


def philosopher(i, rounds):
    first, second = i, (i + 1) % 5
    if i == 4:
        first, second = second, first
    for _ in range(rounds):
        gevent.sleep(0.01)
        with forks[first]:
            gevent.sleep(0.01)
            with forks[second]:
                with forks[first]:          # it has it already
                    meals.append(i)
                    print("philosopher", i, "eats")
                    gevent.sleep(0.03)


table = [gevent.spawn(philosopher, i, 2) for i in range(5)]
gevent.joinall(table)
print(meals)

# And without the saviour: all of them take the left fork first.
left = [RLock() for _ in range(3)]


def stubborn(i):
    with left[i]:
        gevent.sleep(0.01)
        with left[(i + 1) % 3]:
            print("never")


stuck = [gevent.spawn(stubborn, i) for i in range(3)]
try:
    gevent.joinall(stuck)
except gevent.exceptions.LoopExit:
    print("deadlock")
