"""What pyproject.toml can't say: tests stay out, and a wheel that carries the program is for one
platform.
"""
from __future__ import annotations

import pathlib

from setuptools import setup
from setuptools.command.build_py import build_py
from wheel.bdist_wheel import bdist_wheel

PROGRAM = pathlib.Path(__file__).resolve().parent / 'yoke' / 'bin' / 'yokeorange'


class WithoutTests(build_py):
    """Leaves out the modules of tests that are beside what they test."""

    def find_package_modules(self, package: str, package_dir: str) -> list[tuple[str, str, str]]:
        found = super().find_package_modules(package, package_dir)
        return [it for it in found if not it[1].startswith('test_')]


class ForPlatform(bdist_wheel):
    """Names the platform where the program is in the wheel. Any Python 3 may install it."""

    def finalize_options(self) -> None:
        super().finalize_options()
        if PROGRAM.is_file():
            self.root_is_pure = False

    def get_tag(self) -> tuple[str, str, str]:
        tag = super().get_tag()
        return ('py3', 'none', tag[2]) if PROGRAM.is_file() else tag


setup(cmdclass={'build_py': WithoutTests, 'bdist_wheel': ForPlatform})
