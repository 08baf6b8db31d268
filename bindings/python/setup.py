"""What pyproject.toml cannot say: the package holds a shared library, so it is built for one platform, and for any Python."""
import sys
from pathlib import Path

from setuptools import Distribution, setup

try:
    from setuptools.command.bdist_wheel import bdist_wheel
except ImportError:
    from wheel.bdist_wheel import bdist_wheel


class WithLibrary(Distribution):
    """A distribution that is no pure Python."""

    def has_ext_modules(self):
        """Whether there is code for one platform alone."""
        return True


class Wheel(bdist_wheel):
    """A wheel whose code does not call the interpreter."""

    def get_tag(self):
        """Which interpreters and which platform it is for."""
        return "py3", "none", super().get_tag()[2]


if not Path(__file__).with_name("vozgumb").joinpath("libjsonpath.so").exists():
    sys.exit("vozgumb: there is no shared library yet; `make bindings` makes it")
setup(distclass=WithLibrary, cmdclass={"bdist_wheel": Wheel})
