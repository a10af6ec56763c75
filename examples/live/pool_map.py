# One of the members of a map fails. Do the others end, and in which order do map, imap and imap_unordered answer?
import gevent
from gevent.pool import Group, Pool


class Bad(Exception):
    pass


def work(n):
    gevent.sleep(0.1 * (4 - n))
    if n == 3:
        raise Bad(n)
    print("worked", n)
    return n * 10


pool = Pool(2)
print(pool.map(work, [0, 1, 2]))
try:
    pool.map(work, [2, 3, 1])
except Bad as e:
    print("bad", e)
pool.join()
print(list(Group().imap(work, [2, 0, 1])))
print(list(Group().imap_unordered(work, [2, 0, 1])))
g = pool.apply_async(work, (1,))
print(g.get(), pool.apply(work, (2,)), len(pool), pool.free_count())
