"""What setuptools asks of this file: the wheel is not pure, since a library is in it, and is for every Python 3, which calls
that by ctypes. All else stands in pyproject.toml."""
from setuptools import Distribution, setup


class WithLibrary(Distribution):
    def has_ext_modules(self):
        return True


class ForEveryPython(Distribution().get_command_class("bdist_wheel")):
    def get_tag(self):
        return "py3", "none", self.plat_name


setup(distclass=WithLibrary, cmdclass={"bdist_wheel": ForEveryPython})
