"""Finds an application by its name."""
import importlib
import os
import sys
import traceback
import types
from typing import Any, List

from .environ import Application


class NotFound(Exception):
    """There is no such application; its text says what is missing, and what is there."""


def loaded(name: str) -> Application:
    """The callable of `module:callable`; without one it is `application`, or `app` if the module has no `application`.
    `module:make()` calls `make`, once. Raises NotFound."""
    module_name, _, path = name.partition(":")
    is_called = path.endswith("()")
    path = path[:-2] if is_called else path
    module = imported(module_name)
    found = module
    for part in (path or default_of(module)).split("."):
        if not hasattr(found, part):
            raise NotFound("%s has no %s%s" % (module_name, path or part, told(callables_of(module))))
        found = getattr(found, part)
    if is_called:
        found = made(name, found)
    if not callable(found):
        raise NotFound("%s is no callable, it is %r%s" % (name, type(found).__name__, told(callables_of(module))))
    application: Application = found
    return application


def imported(name: str) -> Any:
    """The module. That it isn't there is told in a sentence, and what it raises itself with its traceback."""
    try:
        return importlib.import_module(name)
    except ModuleNotFoundError as error:
        if error.name and (name + ".").startswith(error.name + "."):
            raise NotFound("there is no module %s in %s, and none on Python's path%s"
                           % (error.name, os.getcwd(), told(modules_here()))) from None
        traceback.print_exc()
        raise NotFound("%s imports %s, which is not there for %s" % (name, error.name, sys.executable)) from error
    except (ImportError, ValueError, TypeError) as error:
        traceback.print_exc()
        raise NotFound("%s can't be imported: %s" % (name or "a module without a name", error)) from error
    except SyntaxError as error:
        traceback.print_exc()
        raise NotFound("%s is no Python: line %s of %s" % (name, error.lineno, error.filename)) from error
    except Exception as error:
        traceback.print_exc()
        raise NotFound("%s raised %s when it was imported" % (name, type(error).__name__)) from error


def made(name: str, make: Any) -> Any:
    """What the callable gives, which is the application."""
    if not callable(make):
        raise NotFound("%s can't be called" % name)
    try:
        return make()
    except Exception as error:
        traceback.print_exc()
        raise NotFound("%s raised %s" % (name, type(error).__name__)) from error


def default_of(module: Any) -> str:
    """The name of the callable where none is given."""
    return "app" if hasattr(module, "app") and not hasattr(module, "application") else "application"


def callables_of(module: Any) -> List[str]:
    """The names of what a module has made itself and may be an application."""
    return [name for name, value in vars(module).items() if not name.startswith("_") and is_made_by(module, value)]


def is_made_by(module: Any, value: Any) -> bool:
    """Whether a callable is a function of this module, or an object, as those of frameworks are. No attribute of the
    object is asked for: some have none yet."""
    kind = type(value)
    if not callable(value) or issubclass(kind, type) or kind.__module__ in ("typing", "collections.abc"):
        return False
    if kind is types.FunctionType:
        return bool(value.__module__ == module.__name__)
    return kind is not types.BuiltinFunctionType


def modules_here() -> List[str]:
    """The modules of this folder."""
    return sorted(entry.name[:-3] for entry in os.scandir(".") if entry.name.endswith(".py"))


def told(names: List[str]) -> str:
    """A sentence's end that names what is there."""
    return "; there is: %s" % ", ".join(names[:12]) if names else ""
