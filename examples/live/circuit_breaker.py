# A service is down. When is it asked no more, and who finds out that it is up again?
import gevent


class Refused(Exception):
    pass


class Breaker:
    """After so many failures in a row nobody asks for a while; then one failure more is enough."""

    def __init__(self, failures, pause):
        self.most, self.pause = failures, pause
        self.failures, self.is_open = 0, False

    def call(self, function):
        if self.is_open:
            raise Refused("not asked")
        try:
            answer = function()
        except OSError:
            self.failures += 1
            if self.failures >= self.most:
                self.open()
            raise
        self.failures = 0
        return answer

    def open(self):
        print("the breaker opens")
        self.is_open = True
        gevent.spawn_later(self.pause, self.half_open)

    def half_open(self):
        print("the breaker lets one try")
        self.is_open = False


class Service:
    def __init__(self, down_for):
        self.is_up = False
        gevent.spawn_later(down_for, self.come_up)

    def come_up(self):
        self.is_up = True

    def ask(self):
        gevent.sleep(0.01)
        if not self.is_up:
            raise OSError("service is down")
        return "an answer"


breaker, service = Breaker(failures=2, pause=0.05), Service(down_for=0.145)
for number in range(9):
    try:
        print(number, "has", breaker.call(service.ask))
    except (OSError, Refused) as error:
        print(number, error)
    gevent.sleep(0.02)
