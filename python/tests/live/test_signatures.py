"""Each name of the façade has gevent's signature, read from gevent's own source where it is installed."""
import ast
import importlib.util
import inspect
import os
import unittest
from typing import Any, Dict, List, Optional, Tuple

import gvr.gevent as gevent
from gvr.gevent import event, greenlet, hub, lock, monkey, pool, queue, threadpool, timeout

# A parameter is its name, its kind, and whether it may be left out.
Parameter = Tuple[str, str, bool]

# What is compared: the module of gevent, the class (or nothing) and its names, and ours.
CLASSES: List[Tuple[str, str, Any, str]] = [
    ('event', 'Event', event.Event, '__init__ is_set isSet ready set clear wait'),
    ('event', 'AsyncResult', event.AsyncResult,
     '__init__ ready successful set set_exception get get_nowait wait result done cancel cancelled'),
    ('_abstract_linkable', 'AbstractLinkable', event.Event, 'rawlink unlink ready'),
    ('_semaphore', 'Semaphore', lock.Semaphore, '__init__ locked release ready wait acquire'),
    ('lock', 'DummySemaphore', lock.DummySemaphore, '__init__ locked ready release rawlink unlink wait acquire'),
    ('lock', 'RLock', lock.RLock, '__init__ acquire release'),
    ('queue', 'Queue', queue.Queue,
     '__init__ qsize empty full put put_nowait get get_nowait peek peek_nowait'),
    ('queue', 'UnboundQueue', queue.UnboundQueue, '__init__ put'),
    ('queue', 'JoinableQueue', queue.JoinableQueue, '__init__ task_done join'),
    ('queue', 'Channel', queue.Channel, '__init__ qsize empty full put put_nowait get get_nowait'),
    ('pool', 'GroupMappingMixin', pool.Group,
     'apply apply_cb apply_async map map_cb map_async imap imap_unordered'),
    ('pool', 'Group', pool.Group, '__init__ add discard spawn join kill killone full wait_available'),
    ('pool', 'Pool', pool.Pool, '__init__ wait_available full free_count start add'),
    ('timeout', 'Timeout', timeout.Timeout, '__init__ start start_new cancel close'),
    ('greenlet', 'Greenlet', greenlet.Greenlet,
     '__init__ ready successful throw start start_later spawn spawn_later kill get join has_links rawlink link unlink '
     'unlink_all link_value link_exception'),
    ('threadpool', 'ThreadPool', threadpool.ThreadPool, '__init__ join kill spawn')]
FUNCTIONS: List[Tuple[str, Any, str]] = [
    ('greenlet', greenlet, 'joinall killall'), ('timeout', timeout, 'with_timeout'), ('hub', hub, 'sleep idle kill'),
    ('monkey', monkey, 'patch_all patch_time patch_queue patch_thread patch_socket is_module_patched '
                       'is_anything_patched')]
# gevent's iwait and wait stand under other names.
RENAMED: List[Tuple[str, str, Any]] = [
    ('_hub_primitives', 'iwait_on_objects', gevent.iwait), ('_hub_primitives', 'wait_on_objects', gevent.wait)]


def folder() -> Optional[str]:
    found = importlib.util.find_spec('gevent')
    locations = found.submodule_search_locations if found is not None else None
    return list(locations)[0] if locations else None


def tree(name: str) -> ast.Module:
    where = folder()
    assert where is not None
    with open(os.path.join(where, name + '.py'), encoding='utf-8') as f:
        return ast.parse(f.read())


def of_source(function: ast.FunctionDef) -> List[Parameter]:
    """The parameters that a source has, but for self or cls."""
    a = function.args
    names = [x.arg for x in a.posonlyargs + a.args]
    optional = len(names) - len(a.defaults)
    found = [(name, 'one', place >= optional) for place, name in enumerate(names)]
    if names[:1] in (['self'], ['cls']):
        found.pop(0)
    found += [(a.vararg.arg, 'many', True)] if a.vararg else []
    found += [(x.arg, 'named', d is not None) for x, d in zip(a.kwonlyargs, a.kw_defaults)]
    return found + ([(a.kwarg.arg, 'names', True)] if a.kwarg else [])


KINDS = {inspect.Parameter.VAR_POSITIONAL: 'many', inspect.Parameter.VAR_KEYWORD: 'names',
         inspect.Parameter.KEYWORD_ONLY: 'named'}


def of_ours(function: Any) -> List[Parameter]:
    found = []
    for p in inspect.signature(function).parameters.values():
        kind = KINDS.get(p.kind, 'one')
        if p.name not in ('self', 'cls'):
            found.append((p.name, kind, kind in ('many', 'names') or p.default is not inspect.Parameter.empty))
    return found


def functions(body: List[ast.stmt]) -> Dict[str, ast.FunctionDef]:
    return {node.name: node for node in body if isinstance(node, ast.FunctionDef)}


@unittest.skipIf(folder() is None, 'gevent is not installed')
class Signatures(unittest.TestCase):
    def test_classes(self) -> None:
        for module, name, ours, methods in CLASSES:
            body = [n for n in tree(module).body if isinstance(n, ast.ClassDef) and n.name == name][0].body
            theirs = functions(body)
            for method in methods.split():
                with self.subTest('%s.%s' % (name, method)):
                    self.assertEqual(of_ours(getattr(ours, method)), of_source(theirs[method]))

    def test_functions(self) -> None:
        for module, ours, names in FUNCTIONS:
            theirs = functions(tree(module).body)
            for name in names.split():
                with self.subTest(name):
                    self.assertEqual(of_ours(getattr(ours, name)), of_source(theirs[name]))

    def test_renamed(self) -> None:
        for module, name, ours in RENAMED:
            theirs = functions(tree(module).body)
            with self.subTest(name):
                self.assertEqual(of_ours(ours), of_source(theirs[name]))

    def test_names_of_the_package(self) -> None:
        with open(os.path.join(str(folder()), '__init__.py'), encoding='utf-8') as f:
            body = ast.parse(f.read()).body
        listed = [n.value for n in body if isinstance(n, ast.Assign) and ast.unparse(n.targets[0]) == '__all__'][0]
        assert isinstance(listed, ast.List)
        theirs = {ast.literal_eval(e) for e in listed.elts}
        missing = theirs - set(dir(gevent))
        # Loops, files, processes, signals, sockets: no part of the machine.
        self.assertEqual(missing, {'config', 'fork', 'reinit', 'signal_handler', 'signal'} & theirs)


if __name__ == '__main__':
    unittest.main()
