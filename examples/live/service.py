# Two services beat until they are told to stop. What does the one do that does not listen?
import gevent
from gevent import Greenlet
from gevent.event import Event
from gevent.local import local

request = local()


class Service(Greenlet):
    def __init__(self, name, period):
        Greenlet.__init__(self)
        self.label, self.period = name, period
        self.up, self.stop_wanted = Event(), Event()
        self.beats = 0

    def _run(self):
        request.id = self.label
        print(self.label, "starts")
        gevent.sleep(0.04)
        self.up.set()
        try:
            while not self.stop_wanted.wait(timeout=self.period):
                self.beats += 1
                print(request.id, "beat", self.beats)
        finally:
            self.up.clear()
            print(self.label, "is down")
        return self.beats

    def stop(self, timeout=None):
        self.stop_wanted.set()
        self.join(timeout)
        return self.ready()


class Stubborn(Service):
    def stop(self, timeout=None):
        self.join(timeout)
        return self.ready()


first, second = Service("a", 0.1), Stubborn("b", 0.15)
first.start()
second.start_later(0.02)
print("a up", first.up.wait(timeout=0.03), "b up", second.up.wait(timeout=0.1))
gevent.sleep(0.33)
print("stop a", first.stop(), first.value)
print("stop b", second.stop(timeout=0.2))
second.kill()
print("killed", second.successful(), repr(second.value), hasattr(request, "id"))
