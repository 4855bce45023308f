# SPDX-License-Identifier: MIT
"""Links the shared object while a wheel is made, and says for which platforms it is.

ESCAPE_STREAM_LIB names the folder with the archive. Without it it is looked for in ../../lib, where
a release has it.
"""

import os
import platform
import re
import sys
from pathlib import Path

from setuptools import setup
from setuptools.command.build_py import build_py
from setuptools.dist import Distribution

try:
    from setuptools.command.bdist_wheel import bdist_wheel
except ImportError:
    from wheel.bdist_wheel import bdist_wheel

HERE = Path(__file__).resolve().parent
sys.path.insert(0, str(HERE))

from link import link  # noqa: E402


class Linked(build_py):
    """Puts the shared object beside the modules."""

    def run(self):
        super().run()
        folder = Path(os.environ.get("ESCAPE_STREAM_LIB") or HERE / "../../lib")
        link(folder, Path(self.build_lib) / "escape_stream/libescape_stream.so")


class OfPlatform(Distribution):
    """A distribution with a part that is of one platform."""

    def has_ext_modules(self):
        return True


# The tag manylinux2014 means glibc 2.17 (PEP 599).
OLDEST = 17


def newest_asked(shared):
    """Returns the newest version 2.N of glibc that a shared object asks for, or 0."""
    versions = re.findall(rb"GLIBC_2\.(\d+)", shared.read_bytes())
    return max(map(int, versions), default=0)


class AnyPython(bdist_wheel):
    """A wheel for any Python on this platform: the shared object calls nothing of Python. On Linux
    with glibc it is tagged for each one that is new enough."""

    def get_tag(self):
        tag = super().get_tag()[2]
        folder = Path(self.get_finalized_command("build_py").build_lib)
        shared = folder / "escape_stream/libescape_stream.so"
        is_of_glibc = tag.startswith("linux_") and platform.libc_ver()[0] == "glibc"
        if is_of_glibc and shared.is_file() and newest_asked(shared) <= OLDEST:
            tag = tag.replace("linux", "manylinux2014", 1)
        return ("py3", "none", tag)


setup(distclass=OfPlatform, cmdclass={"build_py": Linked, "bdist_wheel": AnyPython})
