"""The wheel: the package with the proved library inside, for any Python 3.9 or later on x86-64 Linux.

The version is the header's. The header and the shared library are those of the checkout (tools/shared builds the
latter), or copies: saugrinte.h beside this file and libsaugrinte.so in the package. What is made on the way lies in a
temporary folder, so that nothing is left here and nothing of an earlier build gets in. With SOURCE_DATE_EPOCH set the
same files give the same bytes.
"""
import os
import re
import shutil
import sys
import tempfile

from setuptools import Distribution, setup
from setuptools.command.build_py import build_py
try:
    from setuptools.command.bdist_wheel import bdist_wheel
except ImportError:
    from wheel.bdist_wheel import bdist_wheel

HERE = os.path.dirname(os.path.abspath(__file__))
ROOT = os.path.dirname(HERE)
HEADERS = (os.path.join(HERE, 'saugrinte.h'), os.path.join(ROOT, 'include', 'saugrinte.h'))
LIBRARIES = (os.path.join(HERE, 'saugrinte', 'libsaugrinte.so'),
             os.path.join(ROOT, 'target', 'shared', 'libsaugrinte.so'))


def first(files, advice):
    """The first of these files that is there."""
    for file in files:
        if os.path.isfile(file):
            return file
    sys.exit('setup: %s was not found%s' % (' or '.join(files), advice))


def version():
    with open(first(HEADERS, ''), encoding='utf-8') as header:
        figures = int(re.search(r'^#define SAUGRINTE_VERSION ([0-9]+)', header.read(), re.M).group(1))
    return '%d.%d.%d' % (figures // 10000, figures // 100 % 100, figures % 100)


class Package(build_py):
    """The package's files and the library, with the same rights whatever the checkout's are."""

    def run(self):
        super().run()
        folder = os.path.join(self.build_lib, 'saugrinte')
        shutil.copyfile(first(LIBRARIES, ': tools/shared builds it'), os.path.join(folder, 'libsaugrinte.so'))
        for file in os.listdir(folder):
            os.chmod(os.path.join(folder, file), 0o644)


class Wheel(bdist_wheel):
    """One for every Python 3: the library is called through ctypes."""

    def get_tag(self):
        return 'py3', 'none', 'linux_x86_64'


class Compiled(Distribution):
    """It has machine code, though no extension module."""

    def has_ext_modules(self):
        return True


os.umask(0o022)
with tempfile.TemporaryDirectory() as built:
    setup(version=version(), distclass=Compiled, cmdclass={'build_py': Package, 'bdist_wheel': Wheel},
          options={'build': {'build_base': built}, 'egg_info': {'egg_base': built}})
