"""How the program is found, with a launcher of the test's own."""

import os
import tempfile
from collections.abc import Iterator
from contextlib import contextmanager
from pathlib import Path
from unittest import TestCase
from unittest.mock import patch

from chordsim.calling import Files, output_of
from chordsim_tools.cli import Failure
from chordsim_tools.explain.program import answered
from chordsim_tools.explain.traps import counted
from chordsim_tools.known import known
from chordsim_tools.program import DAMAGED, environment, find_program
from chordsim_tools.program import LAUNCHER as LAUNCHER_FILE
from chordsim_tools.study.program import Pipe

LAUNCHER = """\
#!/bin/sh
here=$(dirname "$0")
echo "$1" >> "$here/calls"
case $1 in
--where) cat "$here/reason" >&2; [ -e "$here/built" ] || exit 125 ;;
--build) [ ! -e "$here/broken" ] || exit 125; touch "$here/built" ;;
esac
echo "$here/built"
"""


STARTED = """\
#!/bin/sh
case $1 in
check) echo "refused: $GLIBC_TUNABLES" >&2; exit 1 ;;
glibc*) [ "$1" = "$GLIBC_TUNABLES" ] || exit 1 ;;
esac
echo "pages $GLIBC_TUNABLES"
echo events 7
"""


@contextmanager
def launcher(named: str = "") -> Iterator[Path]:
    """The folder of a launcher that has built nothing yet; CHORDSIM has this value."""
    with tempfile.TemporaryDirectory() as name:
        script = Path(name).resolve() / "chordsim"
        script.write_text(LAUNCHER, encoding="utf-8")
        script.chmod(0o755)
        (script.parent / "reason").write_text("chordsim: the sources have changed\n", encoding="utf-8")
        named = named.replace("LAUNCHER", str(script))
        with patch("chordsim_tools.program.LAUNCHER", script), patch.dict(os.environ, CHORDSIM=named):
            yield script.parent


class ProgramTest(TestCase):
    """The variable, the launcher, and what is built."""

    def test_built_when_it_is_wanted(self) -> None:
        """Nothing is built by the way; what is there is not built again. CHORDSIM may name the launcher itself."""
        for named in ("", "LAUNCHER"):
            with self.subTest(named=named), launcher(named) as folder:
                assert find_program(build=False) is None
                assert find_program(build=True) == folder / "built"
                assert find_program(build=False) == find_program(build=True) == folder / "built"
                calls = (folder / "calls").read_text(encoding="utf-8").split()
                assert calls == ["--where", "--where", "--build", "--where", "--where"]

    def test_environment(self) -> None:
        """The program has large pages, unless the user has set the variable."""
        others = {name: value for name, value in os.environ.items() if name != "GLIBC_TUNABLES"}
        with patch.dict(os.environ, others, clear=True):
            assert environment() == {**others, "GLIBC_TUNABLES": "glibc.malloc.hugetlb=1"}
        with patch.dict(os.environ, GLIBC_TUNABLES="glibc.malloc.hugetlb=0"):
            assert environment() == dict(os.environ)

    def test_starts(self) -> None:
        """Each start of the program has this environment."""
        wanted = "glibc.malloc.hugetlb=1"
        others = {name: value for name, value in os.environ.items() if name != "GLIBC_TUNABLES"}
        with tempfile.TemporaryDirectory() as folder, patch.dict(os.environ, others, clear=True):
            program = Path(folder) / "program"
            program.write_text(STARTED, encoding="utf-8")
            program.chmod(0o755)
            with Pipe() as pipe:
                pipe.start([str(program), "run"])
                assert known(pipe.processes[0].stdout).read() == f"pages {wanted}\nevents 7\n".encode()
            assert answered([str(program), "check"]) == f"refused: {wanted}"
            assert counted([str(program), wanted]) == 7
            with patch.dict(os.environ, CHORDSIM=str(program)):
                assert output_of(Files(b"", None), "run") == f"pages {wanted}\nevents 7\n"

    def test_named(self) -> None:
        """The launcher is not asked for another program that CHORDSIM names; it has to be one that can be run."""
        with launcher("sh") as folder:
            assert str(find_program(build=True)).startswith("/")
            assert not (folder / "calls").exists()
        with launcher("/nowhere/chordsim"), self.assertRaises(Failure) as caught:
            find_program(build=False)
        told = "the program is missing: CHORDSIM=/nowhere/chordsim is no file that can be run"
        assert (caught.exception.status, caught.exception.text) == (3, told)

    def test_damaged_release(self) -> None:
        """Nothing is built unasked; the line names both remedies. A program that was built is taken."""
        with launcher() as folder:
            reason = "the release in R is missing or damaged: run git checkout -- release in T"
            told = f"chordsim: {reason}\nchordsim: there is no program of these sources: ./chordsim --build makes it\n"
            (folder / "reason").write_text(told, encoding="utf-8")
            with self.assertRaises(Failure) as caught:
                find_program(build=True)
            remedy = f"or let {folder}/chordsim --build prove and build the program in its place"
            assert (caught.exception.status, caught.exception.text) == (3, f"{reason}, {remedy}")
            assert (folder / "calls").read_text(encoding="utf-8") == "--where\n"
            assert find_program(build=False) is None
            (folder / "built").touch()
            assert find_program(build=True) == folder / "built"

    def test_words_of_the_launcher(self) -> None:
        """./chordsim says so of a release that is damaged."""
        assert f'echo "the release in $release {DAMAGED}: ' in LAUNCHER_FILE.read_text(encoding="utf-8")

    def test_build_that_fails(self) -> None:
        """Status 3 if the launcher does not build it, and if there is no launcher."""
        with launcher() as folder:
            (folder / "broken").touch()
            with self.assertRaises(Failure) as caught:
                find_program(build=True)
            assert caught.exception.status == 3
            (folder / "chordsim").unlink()
            assert find_program(build=False) is None
