#!/usr/bin/env python3
"""A smallest adapter: spawn, join, sleep, let and print, over a runtime of generators with a virtual clock."""
import json
import sys


class Run:
    """A greenlet is a generator, which yields where it waits: in `timers`, or in `joiners` of another."""

    def __init__(self, functions):
        self.functions, self.events, self.running, self.now = functions, [], None, 0
        self.ready, self.timers, self.joiners = [], [], {}         # joiners of one that has ended are None

    def tell(self, ev, **fields):
        self.events.append(dict(fields, ev=ev))

    def spawn(self, name, values):
        g = len(self.joiners)
        self.joiners[f"g{g}"] = []
        self.ready.append(self.body(g, self.functions[name], values))
        return f"g{g}"

    def value(self, e, names):
        if e[0] not in ("int", "name"):
            self.tell("unsupported", what=e[0])
        return names.get(e[1], "none") if e[0] == "name" else e[-1]

    def body(self, g, function, values):
        names = dict(zip(function["params"], values))
        self.tell("start", g=g, f=function["name"])
        for st in function["body"]:
            word, value = st["do"], self.value(st["e"], names) if "e" in st else None
            if word == "print":
                self.tell("print", g=g, v=str(value), line=st["line"])
            elif word == "let":
                names[st["name"]] = value
            elif word == "spawn":
                names[st.get("into")] = self.spawn(st["f"], [self.value(e, names) for e in st["args"]])
            elif word not in ("sleep", "join") or "wait" in st:
                self.tell("unsupported", what=word)
            elif word == "sleep" or self.joiners.get(value) is not None:
                waits = self.timers if word == "sleep" else self.joiners[value]
                yield waits.append((self.now + st.get("ms", 0), self.running))
                self.tell("go", g=g, line=st["line"])
        self.tell("end", g=g, out="value none")
        self.ready += [joiner for _, joiner in self.joiners[f"g{g}"]]
        self.joiners[f"g{g}"] = None


for tree in sys.stdin:
    run = Run({f["name"]: f for f in json.loads(tree)["functions"]})
    run.spawn("main", [])
    while run.joiners["g0"] is not None and (run.ready or run.timers):
        run.now = run.now if run.ready else min(at for at, _ in run.timers)         # nobody can go on: the clock does
        run.ready += [sleeper for at, sleeper in run.timers if at <= run.now]
        run.timers = [(at, sleeper) for at, sleeper in run.timers if at > run.now]
        run.running = run.ready.pop(0)
        next(run.running, None)
    run.tell("stop", out="hang" if run.joiners["g0"] is not None else "value none")
    print("\n".join(map(json.dumps, run.events + [{"ev": "over"}])), flush=True)
