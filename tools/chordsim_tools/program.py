"""Finds the program chordsim."""

import os
import shutil
import subprocess
from pathlib import Path

from chordsim_tools.cli import Failure
from chordsim_tools.files import sum_of
from chordsim_tools.place import FOLDER, IS_INSTALLED

TOP = FOLDER.parent
LAUNCHER = TOP / "chordsim"
PACKAGED = Path(__file__).resolve().parent / "release"
"""The folder of an installed package that has the program and its digest."""
STARTS_PACKAGED = b"chordsim_tools.scripts"
"""What is near the beginning of the script that starts the packaged program."""
DAMAGED = "is missing or damaged"
"""What the launcher says of a release that git can bring back. A start then builds no program in its place."""

LARGE_PAGES = "glibc.malloc.hugetlb=1"
"""Lets the program have large pages for what it allocates (docs/performance.md)."""


def environment() -> dict[str, str]:
    """The environment in which the program is started. A variable GLIBC_TUNABLES of the user's stays as it is."""
    return {"GLIBC_TUNABLES": LARGE_PAGES, **os.environ}


def find_program(build: bool) -> Path | None:
    """The program of the variable CHORDSIM, else that of the package, or the one that is built of these sources.

    In the repository it may be built first."""
    named = named_program()
    if named is not None:
        return named
    if IS_INSTALLED:
        return packaged_program()
    found, told = asked("--where")
    if found is not None or not build:
        return found
    refuse_damaged(told)
    built, _ = asked("--build")
    if built is None:
        raise Failure(3, f"the program is missing: CHORDSIM is not set, and {LAUNCHER} --build does not build it")
    return built


def named_program() -> Path | None:
    """The program of CHORDSIM. The launcher and an installed script count as none: the program is what they start."""
    named = os.environ.get("CHORDSIM")
    if not named:
        return None
    found = shutil.which(named)
    if found is None:
        raise Failure(3, f"the program is missing: CHORDSIM={named} is no file that can be run")
    path = Path(found).resolve()
    return None if path == LAUNCHER or (IS_INSTALLED and starts_packaged(path)) else path


def starts_packaged(path: Path) -> bool:
    """Whether this is the script `chordsim` that pip or apt has installed."""
    try:
        with open(path, "rb") as file:
            return STARTS_PACKAGED in file.read(1024)
    except OSError:
        return False


def packaged_program() -> Path:
    """The program of an installed package, if it has the digest that is kept beside it."""
    program = PACKAGED / "chordsim"
    try:
        kept = (PACKAGED / "chordsim.sha256").read_bytes().split()
        is_whole = kept[:1] == [sum_of(program.read_bytes()).encode()]
    except OSError:
        is_whole = False
    if not is_whole:
        again = "pip install --force-reinstall, or apt-get install --reinstall"
        raise Failure(3, f"the program {program} {DAMAGED}: install chordsim again ({again})")
    return program


def refuse_damaged(told: str) -> None:
    """Fails if that is what the launcher says. A proof takes long, and is done if somebody asks for it."""
    for line in told.splitlines():
        if DAMAGED in line:
            text = line.removeprefix("chordsim: ")
            raise Failure(3, f"{text}, or let {LAUNCHER} --build prove and build the program in its place")


def asked(option: str) -> tuple[Path | None, str]:
    """The path that the launcher prints for an option, if it does, and why not. A build says that to the user."""
    errors = None if option == "--build" else subprocess.PIPE
    try:
        told = subprocess.run([LAUNCHER, option], stdout=subprocess.PIPE, stderr=errors, text=True, check=False)
    except OSError:
        return None, ""
    lines = told.stdout.split("\n")
    return Path(lines[0]) if told.returncode == 0 and lines[0] else None, told.stderr or ""
