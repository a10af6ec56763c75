"""Tests in virtual time, for pytest. Where the package is not installed, `-p gvr.pytest_plugin` names the plugin.

    pytest --gvr                      # `import gevent` gives the façade, and each test is a run of gvr
    pytest --gvr-keep FOLDER          # scenario, trace and picture of each test that fails are kept there

    @pytest.mark.gvr(tick=1)          # this test alone; its module imports gvr.testing before gevent
    def test_polling(): ...

    def test_twice(gvr_run):          # the fixture calls a function as main of a run and gives its value
        assert gvr_run(work) == gvr_run(work)

A test that fails has a section with the last lines of its trace and with who waits where.
"""
import functools
import inspect
import os
from typing import Any, Callable, Generator

import pytest


def pytest_addoption(parser: Any) -> None:
    group = parser.getgroup("gvr", "tests of gevent's users in virtual time")
    group.addoption("--gvr", action="store_true", help="gevent is the façade of gvr, and each test is a run")
    group.addoption("--gvr-keep", metavar="FOLDER", help="keep scenario, trace and picture of what failed")


def pytest_configure(config: Any) -> None:
    config.addinivalue_line("markers", "gvr(seed, tick, turns, moves): the test is a run of gvr, in virtual time")
    if config.getoption("gvr_keep"):
        os.environ["GVR_KEEP"] = os.path.abspath(config.getoption("gvr_keep"))
    if config.getoption("gvr"):
        import gvr.testing  # noqa: F401


@pytest.hookimpl(tryfirst=True)  # type: ignore[misc]
def pytest_runtest_call(item: Any) -> None:
    """What is called of a test is a run, where all tests are or this one is marked."""
    marker = item.get_closest_marker("gvr")
    test: Any = getattr(item, "obj", None)
    is_run = marker is not None or item.config.getoption("gvr")
    if not is_run or not callable(test) or inspect.iscoroutinefunction(test):
        return
    from gvr import testing

    options = testing.Options(**(marker.kwargs if marker is not None else {}))

    @functools.wraps(test)
    def called(*arguments: Any, **named: Any) -> Any:
        return testing.run(functools.partial(test, *arguments, **named), file_name(item), options)

    item.obj = called


@pytest.hookimpl(hookwrapper=True)  # type: ignore[misc]
def pytest_runtest_makereport(item: Any, call: Any) -> Generator[None, Any, None]:
    """The report of the run stands as a section of the test's."""
    made = yield
    error = call.excinfo.value if call.excinfo is not None else None
    told = getattr(error, "gvr_report", None)
    if told is not None:
        made.get_result().sections.append(("gvr", told.text()))


@pytest.fixture
def gvr_run(request: Any) -> Callable[..., Any]:
    """Calls a function as main of a run: gvr_run(function, argument..) gives what it gives."""
    from gvr import testing

    def called(function: Callable[..., Any], *arguments: Any) -> Any:
        return testing.run(functools.partial(function, *arguments), file_name(request.node))

    return called


def file_name(item: Any) -> str:
    """The name of what is kept of a test: its module, its class and its own name."""
    return str(item.nodeid).rpartition("/")[2].replace(".py::", ".").replace("::", ".")
