"""Gives the wheel its version and its platform, which packaging/build passes in the environment."""
import os

from setuptools import Distribution, setup
from wheel.bdist_wheel import bdist_wheel


class PlatformDistribution(Distribution):
    def has_ext_modules(self):
        # There is none, but the shared library is as bound to the platform as one.
        return True


class PlatformWheel(bdist_wheel):
    def get_tag(self):
        return "py3", "none", os.environ["MESOSEV_PLATFORM"]


setup(
    version=os.environ["MESOSEV_VERSION"],
    distclass=PlatformDistribution,
    cmdclass={"bdist_wheel": PlatformWheel},
)
