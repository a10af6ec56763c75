"""Random programs over the façade: tools/python --with greenlet python/tests/live/fuzz_facade.py [COUNT [SEED]]

Each runs by the model and by runs of its record at each statement, and takes the same steps; its record replays, with
handles in names and in lists, with what each statement gave; and verify accepts it. GVR_FUZZ_PROGRAM=1 has the proved
program in place of the model where records are run.
"""
import os
import random
import sys
from collections import Counter
from typing import Any, Callable, Dict, List, Tuple

import gvr.gevent as gevent
from gvr.gevent import event, lock, pool, queue, raw
from gvr.live.by_model import by_model
from gvr.live.certificate import Runner, by_program, certify, find_program
from gvr.live.decider import Options
from gvr.live.errors import InvalidSwitchError, Unsupported
from gvr.live.session import Session
from gvr.model import read, verify
from running import Make, apart, run_again, stepped, told

OPTIONS = Options(turns=400)
MOST_BODIES, MOST_DEEP = 14, 4


class Oops(Exception):
    pass


class Program:
    """A random program; the same for a seed."""

    def __init__(self, seed: int) -> None:
        self.seed, self.bodies = seed, 0
        self.all: List[Any] = []
        self.raws: List[Any] = []

    def main(self) -> Any:
        r = random.Random(self.seed)
        self.events = [event.Event() for _ in range(2)]
        self.results = [event.AsyncResult() for _ in range(2)]
        self.locks: List[Any] = [lock.Semaphore(1), lock.BoundedSemaphore(2), lock.RLock()]
        self.tasks = queue.JoinableQueue()
        self.queues: List[Any] = [queue.Queue(1), queue.LifoQueue(), queue.PriorityQueue(2), self.tasks]
        self.channel = queue.Channel()
        self.crews = [pool.Group(), pool.Pool(2)]
        for _ in range(r.randint(1, 4)):
            self.all.append(gevent.spawn(self.child(0)))
        for _ in range(3):
            try:
                return self.body(r, 0)
            except (Exception, gevent.Timeout):
                pass
            finally:
                gevent.joinall(self.all, timeout=0.01)
        return None

    def child(self, depth: int) -> Callable[..., Any]:
        self.bodies += 1
        r = random.Random('%s %s' % (self.seed, self.bodies))
        return lambda *_: self.body(r, depth + 1)

    def body(self, r: random.Random, depth: int) -> Any:
        got: Any = None
        for _ in range(r.randint(1, 7)):
            try:
                got = self.step(r, depth)
            except (Exception, gevent.Timeout) as e:
                if isinstance(e, Unsupported) and 'raw' not in str(e) or r.random() < 0.2:
                    raise
                got = e
            except gevent.GreenletExit:
                if r.random() < 0.5:
                    gevent.sleep(r.randint(0, 2) / 1000)
                    raise
        if r.random() < 0.15:
            raise Oops(self.bodies)
        return got

    def raw_body(self, depth: int) -> Callable[..., Any]:
        """The body of a raw greenlet: it switches, throws, makes others and ends."""
        self.bodies += 1
        r = random.Random('%s %s' % (self.seed, self.bodies))

        def life(*given: Any) -> Any:
            got: Any = given[0] if given else None
            for _ in range(r.randint(0, 3)):
                try:
                    got = self.raw_step(r, depth + 1)
                except (Exception, gevent.GreenletExit) as e:
                    if r.random() < 0.3:
                        raise
                    got = e
            return got
        return life

    def raw_step(self, r: random.Random, depth: int) -> Any:
        """A switch, a throw or a new raw greenlet."""
        kind = r.randint(0, 5)
        if kind < 2 and len(self.raws) < 8 and depth < MOST_DEEP:
            self.raws.append(raw.greenlet(self.raw_body(depth)))
            return self.raws[-1] if r.random() < 0.3 else None
        if kind == 2 and r.random() < 0.5:
            up = raw.getcurrent().parent if isinstance(raw.getcurrent(), raw.greenlet) else None
            return up.switch(5) if isinstance(up, raw.greenlet) else None
        if not self.raws:
            return None
        target = r.choice(self.raws)
        if kind == 5:
            return target.throw(Oops('thrown')) if r.random() < 0.5 else target.throw()
        return target.switch(*r.choice([(), (1,), ('value',), (1, 2), (target,)]))

    def step(self, r: random.Random, depth: int) -> Any:
        """One call of the façade."""
        choices: List[Callable[[random.Random, int], Any]] = [
            self.make, self.make, self.wait_for_time, self.on_objects, self.on_objects, self.on_queues, self.on_queues,
            self.on_one, self.on_several, self.on_crews, self.raw_step]
        return r.choice(choices)(r, depth)

    def make(self, r: random.Random, depth: int) -> Any:
        if len(self.all) >= MOST_BODIES or depth >= MOST_DEEP:
            return None
        f = self.child(depth)
        made = r.choice([lambda: gevent.spawn(f), lambda: gevent.spawn_later(r.randint(0, 3) / 1000, f),
                         lambda: r.choice(self.crews).spawn(f), lambda: gevent.Greenlet(f)])
        self.all.append(made())
        return self.all[-1]

    def wait_for_time(self, r: random.Random, depth: int) -> Any:
        if r.random() < 0.6:
            return gevent.sleep(r.randint(0, 4) / 1000)
        with gevent.Timeout(r.randint(0, 4) / 1000, r.choice([None, False, Oops])):
            for _ in range(r.randint(0, 2)):
                self.step(r, depth)
        return 'within'

    def on_objects(self, r: random.Random, depth: int) -> Any:
        e, x, held = r.choice(self.events), r.choice(self.results), r.choice(self.locks)
        g = r.choice(self.all) if self.all else None
        wait, now = patience(r, False), patience(r, True)
        return r.choice([
            lambda: e.wait(**wait), e.set, e.clear, lambda: x.set(r.choice([1, 'one', g])),
            lambda: x.set_exception(Oops('set')), lambda: x.get(**now), lambda: x.wait(**wait),
            lambda: held.acquire(**{'blocking' if k == 'block' else k: v for k, v in now.items()}), held.release])()

    def on_queues(self, r: random.Random, depth: int) -> Any:
        q, now = r.choice(self.queues), patience(r, True)
        g = r.choice(self.all) if self.all else None
        item = r.choice([3, 1, 2]) if q is self.queues[2] else r.choice([7, 'item', None, g, (1, 2)])
        return r.choice([
            lambda: q.put(item, **now), lambda: q.put(item, **now), lambda: q.get(**now), lambda: q.get(**now),
            lambda: q.peek(**now), q.qsize, self.tasks.task_done, lambda: self.tasks.join(**patience(r, False)),
            lambda: self.channel.put(item, **now), lambda: self.channel.get(**now)])()

    def on_one(self, r: random.Random, depth: int) -> Any:
        if not self.all:
            return None
        g, wait, now = r.choice(self.all), patience(r, False), patience(r, True)
        link = r.choice([g.link, g.link_value, g.link_exception])
        return r.choice([
            lambda: g.join(**wait), lambda: g.get(**wait), lambda: g.kill(**now), lambda: g.kill(Oops('kill'), **now),
            lambda: link(self.child(depth + 2)), g.ready, g.unlink_all])()

    def on_several(self, r: random.Random, depth: int) -> Any:
        some = r.sample(self.all, min(len(self.all), r.randint(1, 3)))
        wait = patience(r, False)
        return r.choice([
            lambda: gevent.joinall(some, count=r.choice([None, 1]), **wait), lambda: gevent.killall(some, **wait),
            lambda: list(gevent.iwait(some, **wait)), lambda: gevent.wait(some, **wait)])()

    def on_crews(self, r: random.Random, depth: int) -> Any:
        crew = r.choice(self.crews)
        wait = patience(r, False)
        if len(self.all) < 10 and depth < 3 and r.random() < 0.3:
            bodies = [self.child(depth) for _ in range(r.randint(0, 3))]
            return crew.map(lambda f: f(), bodies)
        return r.choice([lambda: crew.join(**wait), lambda: crew.kill(block=r.random() < 0.5),
                         lambda: crew.kill(**wait), lambda: len(crew), crew.full])()


def patience(r: random.Random, block_too: bool) -> Dict[str, Any]:
    """How a call waits."""
    ways: List[Dict[str, Any]] = [{}, {}, {'timeout': r.randint(0, 4) / 1000}]
    return r.choice(ways + [{'block': False}] if block_too else ways)


def run(seed: int, make: Make) -> Tuple[Any, Session]:
    session = Session(make, OPTIONS)
    session.on_failure = lambda task, exception: None
    return session.run(Program(seed).main), session


def one(seed: int, runner: Runner) -> Session:
    """One program, in all ways; raises AssertionError where they differ."""
    a, s = run(seed, stepped(OPTIONS))
    if isinstance(a[1], AssertionError) and not isinstance(a[1], InvalidSwitchError):
        raise a[1]
    b, t = run(seed, run_again(OPTIONS))
    assert (told(a), apart(s.trace)) == (told(b), apart(t.trace)), 'by the model and by runs at each statement'
    assert s.scenario() == t.scenario(), 'the two records'
    for lists in (False, True):
        s.record.lists = s.record.lists or lists
        certify(s, runner)
    text = '\n'.join(t.trace) + '\n'
    verdict = verify(read(t.spelt().text.encode()), text.encode(), OPTIONS.turns, OPTIONS.moves)
    assert verdict.lines == len(t.trace), 'verify: %s' % (verdict,)
    return s


def main(count: int = 200, first: int = 0) -> None:
    program = find_program() if os.environ.get('GVR_FUZZ_PROGRAM') else None
    runner = by_model(OPTIONS) if program is None else by_program(program, OPTIONS.words())
    lines, ends = 0, Counter()                   # type: int, Counter[str]
    for seed in range(first, first + count):
        try:
            session = one(seed, runner)
        except BaseException:
            print('seed', seed)
            raise
        lines += len(session.trace)
        ends[' '.join(session.trace[-1].split(' ')[1:3])] += 1
        if (seed - first) % 50 == 49:
            print(seed - first + 1, 'programs,', lines, 'lines', flush=True)
    print('%d programs, %d lines of traces: the same in all ways' % (count, lines), ends.most_common(6))


if __name__ == '__main__':
    main(*[int(x) for x in sys.argv[1:]])
