# Four shards are asked and 100 ms are all that there is. What is known then of each of them?
import gevent


class Down(Exception):
    pass


def shard(name, seconds, fails=False):
    gevent.sleep(seconds)
    if fails:
        raise Down(name)
    return [name + "1", name + "2"]


def told(job):
    if not job.ready():
        return "late"
    return "found %r" % job.value if job.successful() else "failed: %r" % job.exception


jobs = {
    "north": gevent.spawn(shard, "n", 0.03),
    "east": gevent.spawn(shard, "e", 0.25),
    "south": gevent.spawn(shard, "s", 0.02, fails=True),
    "west": gevent.spawn(shard, "w", 0.06),
}
done = gevent.joinall(list(jobs.values()), timeout=0.1)
for name, job in jobs.items():
    print(name, told(job))
gevent.killall(list(jobs.values()))
print(len(done), "answered in time,", told(jobs["east"]))
