"""The examples in the docstrings of the Python package. Each public class and function has one, but for errors, whose
text it is, and for those that need a server."""

from __future__ import annotations

import doctest
import importlib
import inspect
from types import ModuleType

import pytest

import wullaphi

MODULES = ["asyncio", "futures", "log", "otel", "queue", "resuming", "station", "threading", "transport", "web",
           "_line", "_shown", "_wire"]
PUBLIC_MODULES = [name for name in MODULES if not name.startswith("_")]


def module_of(name: str) -> ModuleType:
    return importlib.import_module(f"wullaphi.{name}")


def needs_example(it: object) -> bool:
    """Whether it is a class or a function, and neither an error nor a protocol."""
    is_error = inspect.isclass(it) and issubclass(it, Exception)
    return callable(it) and not is_error and not getattr(it, "_is_protocol", False)


def has_example(it: object) -> bool:
    return bool(doctest.DocTestParser().get_examples(it.__doc__ or ""))


def public(name: str) -> list[tuple[str, object]]:
    """The classes and functions that a module makes and others may use."""
    module = module_of(name)
    return [(called, it) for called, it in vars(module).items() if not called.startswith("_")
            and (inspect.isclass(it) or inspect.isfunction(it)) and it.__module__ == module.__name__]


@pytest.mark.parametrize("name", ["wullaphi", *wullaphi.__all__])
def test_the_examples_of_the_package(name: str) -> None:
    it = wullaphi if name == "wullaphi" else getattr(wullaphi, name)
    runner = doctest.DocTestRunner()
    for test in doctest.DocTestFinder(recurse=it is not wullaphi).find(it, name, module=False, globs=vars(wullaphi)):
        runner.run(test)
    assert runner.failures == 0
    if callable(it) and not is_refusal(it):
        assert has_example(it), f"{name} has no example"


def is_refusal(it: object) -> bool:
    return isinstance(it, type) and issubclass(it, wullaphi.Refused)


@pytest.mark.parametrize("name", MODULES)
def test_the_examples_of_a_module(name: str) -> None:
    found = doctest.testmod(module_of(name))
    assert found.failed == 0
    assert found.attempted > 0, f"{name} has no example"


@pytest.mark.parametrize(("module", "name"), [(module, name) for module in PUBLIC_MODULES
                                              for name, it in public(module) if needs_example(it)])
def test_that_each_public_name_has_an_example(module: str, name: str) -> None:
    assert has_example(getattr(module_of(module), name))
