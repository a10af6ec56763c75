# run --tick 1
# Main asks again and again whether a job is done. Does the time pass meanwhile?
import gevent

done = []


def slow():
    gevent.sleep(0.05)
    done.append("slow")
    return "value"


job = gevent.spawn(slow)
while not done:
    gevent.sleep(0)
print(done, job.ready())
with gevent.Timeout(0.02, False):
    while True:
        gevent.sleep(0)
print("the timeout came between two polls")
