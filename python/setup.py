"""Puts the shared object that python/build makes into the wheel, and tags it for its platform: any Python 3 on x86-64 Linux."""

from __future__ import annotations

import platform
import shutil
import sys
from pathlib import Path

from setuptools import Distribution, setup
from setuptools.command.build_py import build_py
from wheel.bdist_wheel import bdist_wheel

LIBRARY = Path(__file__).resolve().parent.parent / "target" / "python" / "libqsm.so"


class Build(build_py):
    """The package with its shared object."""

    def run(self) -> None:
        super().run()
        shutil.copy2(LIBRARY, Path(self.build_lib) / "qsm" / "libqsm.so")


class Wheel(bdist_wheel):
    """A wheel for its platform, and any Python 3."""

    def get_tag(self) -> tuple[str, str, str]:
        return "py3", "none", super().get_tag()[2]


class Binary(Distribution):
    """It holds machine code."""

    def has_ext_modules(self) -> bool:
        return True


if (sys.platform, platform.machine()) != ("linux", "x86_64"):
    sys.exit("qsm: the library is for x86-64 Linux alone")
if not LIBRARY.exists():
    sys.exit(f"qsm: {LIBRARY} is not there; python/build makes it")
setup(cmdclass={"build_py": Build, "bdist_wheel": Wheel}, distclass=Binary)
