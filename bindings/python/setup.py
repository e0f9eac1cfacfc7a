"""The wheel holds the library, so it is for one kind of machine; ctypes makes the calls, so it fits each Python 3."""

import pathlib

from setuptools import Distribution, setup
from wheel.bdist_wheel import bdist_wheel


class WithLibrary(Distribution):  # type: ignore[misc]
    def has_ext_modules(self) -> bool:
        return True


class Wheel(bdist_wheel):  # type: ignore[misc]
    def get_tag(self) -> "tuple[str, str, str]":
        return "py3", "none", super().get_tag()[2]


if not pathlib.Path("wullaphi/libwullaphi.so").exists():
    raise SystemExit("wullaphi/libwullaphi.so isn't there: `make -C bindings wheel` builds the wheel with it")
setup(distclass=WithLibrary, cmdclass={"bdist_wheel": Wheel})
