"""Gives the wheel the tag of a built library that any Python can load. All metadata are in pyproject.toml."""

import atexit
import os
import shutil

from setuptools import Distribution, setup

try:
    from setuptools.command.bdist_wheel import bdist_wheel
except ImportError:  # before setuptools 70.1
    from wheel.bdist_wheel import bdist_wheel

HERE = os.path.dirname(os.path.abspath(__file__))
TOP = os.path.dirname(os.path.dirname(HERE))
LIBRARY = os.path.join(HERE, "aecp", "libaecp.so")
# The glibc that the library needs. packaging/python.py and tests/packages.py compare it with the library.
PLATFORM = "manylinux_2_17_x86_64"


def gather():
    """Copies files that a checkout has in other folders to the places that gathered.txt gives, until this process ends. An sdist
    contains these files, and no gathered.txt."""
    table = os.path.join(HERE, "gathered.txt")
    if not os.path.exists(table):
        return
    with open(table, encoding="ascii") as file:
        for place, source in map(str.split, file):
            place, source = os.path.join(HERE, place), os.path.join(TOP, source)
            if os.path.exists(source):
                os.makedirs(os.path.dirname(place), exist_ok=True)
                shutil.copy(source, place)
                atexit.register(os.remove, place)


class WithLibrary(Distribution):
    """A distribution that contains machine code."""

    def has_ext_modules(self):
        return True


class TaggedWheel(bdist_wheel):
    """A wheel for every Python 3 on PLATFORM."""

    def get_tag(self):
        return "py3", "none", PLATFORM

    def run(self):
        if not os.path.exists(LIBRARY):
            raise SystemExit("there is no bin/libaecp.so to put into the wheel: run make library first")
        super().run()


gather()
setup(distclass=WithLibrary, cmdclass={"bdist_wheel": TaggedWheel})
