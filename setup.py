"""Puts the program into the package when that is built. pyproject.toml has the rest."""

import hashlib
import shutil
from pathlib import Path

from setuptools import setup
from setuptools.command.build_py import build_py

RELEASE = Path("release", "x86_64-linux")
"""The folder of the program that the repository keeps, and of its digest."""
FILES = ("chordsim", "chordsim.sha256")


def check_release() -> None:
    """Fails if the program is missing, or does not have its digest."""
    program, digest = (RELEASE / name for name in FILES)
    try:
        kept, found = digest.read_bytes().split()[:1], hashlib.sha256(program.read_bytes()).hexdigest()
    except OSError as fault:
        raise SystemExit(f"the program is missing: {fault.filename}: {fault.strerror}") from None
    if kept != [found.encode()]:
        raise SystemExit(f"{program} is damaged: it does not have the digest of {digest}")


class BuildWithProgram(build_py):
    """Builds the packages, and copies the program into one of them."""

    def run(self) -> None:
        """Begins with an empty folder: a wheel has all that is in it. An editable installation needs no copy."""
        check_release()
        if self.editable_mode:
            super().run()
            return
        shutil.rmtree(self.build_lib, ignore_errors=True)
        super().run()
        packaged = Path(self.build_lib, "chordsim_tools", "release")
        self.mkpath(str(packaged))
        for name in FILES:
            self.copy_file(str(RELEASE / name), str(packaged / name))


# The program is for this platform, and the Python code for all of Python's versions from 3.11 up.
setup(
    cmdclass={"build_py": BuildWithProgram},
    options={"build": {"build_base": "out/build"}, "bdist_wheel": {"plat_name": "linux_x86_64"}},
)
