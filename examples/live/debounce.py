# A text is typed in two bursts. How often is it saved, and what is in the file?
import gevent


class Debounce:
    """Calls the function when nobody has asked for it for so long."""

    def __init__(self, seconds, function):
        self.seconds, self.function, self.waiting = seconds, function, None

    def __call__(self, *arguments):
        if self.waiting is not None:
            self.waiting.kill(block=False)
        self.waiting = gevent.spawn_later(self.seconds, self.function, *arguments)


file = []
save = Debounce(0.05, file.append)
text = ""
for letter, pause in zip("gevent", (0.02, 0.01, 0.07, 0.03, 0.02, 0.1)):
    text += letter
    save(text)
    gevent.sleep(pause)
print(file)
