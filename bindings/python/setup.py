"""The wheel holds libcbgrid.so, so it is one for a platform; but no version of Python is bound to it. The platform is Linux
on x86-64 with the C library that libcbgrid.so and the program, if it is there too, ask for, or a newer one.

In a clone of the repository the library is built first, with every proof, where it is missing or older than its
sources. Beside a copy of these files alone it has to be there.
"""

import os
import re
import subprocess

from setuptools import Distribution, setup
from setuptools.command.build_py import build_py
from wheel.bdist_wheel import bdist_wheel

HERE = os.path.dirname(os.path.abspath(__file__))
BUILD = os.path.join(HERE, "..", "build")
LIBRARY = os.path.join(HERE, "src", "cbgrid", "libcbgrid.so")
PROGRAM = os.path.join(HERE, "src", "cbgrid", "program")


def platform():
    """The tag of the oldest C library that has all that the files ask for."""
    found = [5]  # the oldest that such a tag can name
    for path in filter(os.path.isfile, (LIBRARY, PROGRAM)):
        with open(path, "rb") as file:
            found += map(int, re.findall(rb"\0GLIBC_2\.(\d+)", file.read()))
    return f"manylinux_2_{max(found)}_x86_64"


class BuildWithLibrary(build_py):
    def run(self):
        if os.path.isfile(BUILD):
            subprocess.run([BUILD, "library"], check=True)
        elif not os.path.isfile(LIBRARY):
            raise SystemExit("src/cbgrid/libcbgrid.so isn't there: build in a clone of the repository")
        super().run()


class BinaryDistribution(Distribution):
    def has_ext_modules(self):
        return True


class PlatformWheel(bdist_wheel):
    def get_tag(self):
        return "py3", "none", platform()


setup(distclass=BinaryDistribution, cmdclass={"build_py": BuildWithLibrary, "bdist_wheel": PlatformWheel})
