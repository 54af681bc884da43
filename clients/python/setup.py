"""Makes a wheel for Linux and any Python 3, since it has the shared object, for the processor of
that.

The shared object needs no library by name and no version of a symbol, and its six functions of C
are in each C library: so its tags are the lowest of the processor that pip knows. For manylinux
that is version 2.5 of the GNU C Library on x86-64, and 2.17, the first one, on arm64.
"""

import pathlib

from setuptools import Distribution, setup

try:
    from setuptools.command.bdist_wheel import bdist_wheel
except ImportError:
    from wheel.bdist_wheel import bdist_wheel

OBJECT = pathlib.Path(__file__).resolve().parent / "bivdrazo" / "out" / "libbivdrazo.so"
MACHINE = slice(18, 20)  # where an ELF file has the number of its processor
TAGS = {
    62: "manylinux1_x86_64.manylinux_2_5_x86_64.musllinux_1_1_x86_64",
    183: "manylinux2014_aarch64.manylinux_2_17_aarch64.musllinux_1_1_aarch64",
}


class Wheel(bdist_wheel):
    """A wheel with the shared object."""

    def get_tag(self):
        """Python, its ABI, the platforms."""
        machine = int.from_bytes(OBJECT.read_bytes()[MACHINE], "little")
        if machine not in TAGS:
            raise SystemExit(f"{OBJECT} is for ELF's processor {machine}: 62 and 183 have tags")
        return "py3", "none", TAGS[machine]

    def run(self):
        """Makes the wheel; fails without the shared object."""
        if not OBJECT.exists():
            raise SystemExit(f"{OBJECT} is missing: clients/build makes it")
        super().run()


class Binary(Distribution):
    """A package for one platform."""

    def has_ext_modules(self):
        """So that the package is installed where platform packages are."""
        return True


setup(cmdclass={"bdist_wheel": Wheel}, distclass=Binary)
