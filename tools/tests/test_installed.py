"""chordsim installed by pip: its commands, its program and its files. Nothing is fetched from a network."""

import shutil
import sys
import tempfile
from pathlib import Path
from unittest import SkipTest, TestCase

from chordsim_tools import __version__
from tests.support.programs import TOOLS, called
from tests.support.worlds import EXAMPLES

TOP = Path(__file__).resolve().parents[2]
SOURCES = ("pyproject.toml", "setup.py", "README.md", "release", "tools/chordsim_tools", "tools/chordsim")
"""What a package is made of."""
PACKAGES = f"lib/python{sys.version_info.major}.{sys.version_info.minor}/site-packages"
AGAIN = "install chordsim again (pip install --force-reinstall, or apt-get install --reinstall)"
OFFLINE = ("--no-index", "--no-build-isolation", "--no-deps", "--disable-pip-version-check", "--quiet")


def copy_sources(folder: Path) -> None:
    """Copies what a package is made of, so that nothing is built in the repository."""
    for name in SOURCES:
        source, target = TOP / name, folder / name
        target.parent.mkdir(parents=True, exist_ok=True)
        if source.is_dir():
            shutil.copytree(source, target, ignore=shutil.ignore_patterns("__pycache__"))
        else:
            shutil.copy2(source, target)


class InstalledTest(TestCase):
    """An environment of its own, into which pip has installed a copy of the repository."""

    folder: Path
    bin: Path

    @classmethod
    def setUpClass(cls) -> None:
        """Makes it, if Python has what is needed."""
        if called("uname", "-sm") != (0, "Linux x86_64\n", ""):
            raise SkipTest("the program is for Linux x86-64")
        if called(sys.executable, "-c", "import ensurepip, setuptools, venv, wheel")[0] != 0:
            raise SkipTest("packages are missing (apt-get install python3-venv python3-setuptools python3-wheel)")
        cls.folder = Path(cls.enterClassContext(tempfile.TemporaryDirectory()))
        cls.bin = cls.folder / "venv" / "bin"
        copy_sources(cls.folder / "source")
        made = called(sys.executable, "-m", "venv", "--system-site-packages", cls.folder / "venv")
        assert made[0] == 0, made
        made = called(cls.bin / "pip", "install", *OFFLINE, cls.folder / "source")
        assert made[0] == 0, made

    def call(self, name: str, *arguments: str | Path) -> tuple[int, str, str]:
        """The status of an installed command, and what it prints on both streams."""
        return called(self.bin / name, *arguments)

    def test_program(self) -> None:
        """The first command of README: arguments, streams and status are those of the program."""
        readme = (TOP / "README.md").read_text(encoding="utf-8")
        wanted = readme.partition("$ ./chordsim run --scenario examples/ring.toml --serial\n")[2].partition("...")[0]
        status, output, error = self.call("chordsim", "run", "--scenario", EXAMPLES / "ring.toml", "--serial")
        self.assertEqual((status, output[:len(wanted)], error), (0, wanted, ""))
        self.assertGreater(len(wanted), 100)
        refused = (1, "", "refused: cannot read no such file\n")
        self.assertEqual(self.call("chordsim", "check", "--scenario", "no such file"), refused)
        self.assertEqual(self.call("chordsim", "walk")[0], 2)

    def test_streams(self) -> None:
        """A closed output, and a file that may not grow, end the command as they end the program itself."""
        scenario = EXAMPLES / "churn64.toml"
        closed, limited = 'exec "$0" "$@" >&-', 'ulimit -f 1; exec "$0" "$@" > trace'
        for shell, wanted in ((closed, (3, "failed: 4 Write\n")), (limited, (-25, ""))):
            for program in (self.bin / "chordsim", TOP / "release" / "x86_64-linux" / "chordsim"):
                command = ("sh", "-c", f"cd {self.folder}; {shell}", program, "run", "--serial", "--scenario", scenario)
                with self.subTest(shell=shell, program=program):
                    self.assertEqual(called(*command)[::2], wanted)

    def test_damaged_program(self) -> None:
        """The program is not started if it does not have its digest: status 125, or 3 of a tool, and what to do."""
        program = self.folder / "venv" / PACKAGES / "chordsim_tools" / "release" / "chordsim"
        kept = program.read_bytes()
        told = f"the program {program} is missing or damaged: {AGAIN}\n"
        try:
            for content in (kept + b"#", b""):
                program.write_bytes(content)
                self.assertEqual(self.call("chordsim", "--version"), (125, "", f"chordsim: {told}"))
                answer = self.call("chordsim-explain", EXAMPLES / "ring.toml")
                self.assertEqual(answer, (3, "", f"failed: {told}"))
        finally:
            program.write_bytes(kept)
            program.chmod(0o755)
        self.assertEqual(self.call("chordsim-explain", EXAMPLES / "ring.toml")[0], 0)

    def test_tools(self) -> None:
        """Each tool calls itself as it was called, in its help and its messages; a file is that of the repository."""
        for tool in TOOLS:
            name = f"chordsim-{tool}"
            with self.subTest(tool=tool):
                self.assertEqual(self.call(name, "--version"), (0, f"{name} {__version__}\n", ""))
                status, text, error = self.call(name, "--help")
                self.assertEqual((status, error), (0, ""))
                self.assertTrue(text.startswith(f"usage: {name} "))
                self.assertNotIn("tools/", text)
                refused = self.call(name, "--walk")
                self.assertEqual((refused[0], refused[2].partition(":")[0]), (2, name))
        made = self.call("chordsim-generate", "--nodes", "5")
        self.assertEqual(made, called(TOP / "tools" / "generate", "--nodes", "5"))

    def test_swapped_files(self) -> None:
        """A message that names a tool, after a path that has the name of one."""
        scenario = self.folder / "tools" / "trace"
        scenario.parent.mkdir()
        shutil.copy(EXAMPLES / "ring.toml", scenario)
        told = f"{scenario} is a scenario: swap the two, as chordsim-trace TRACE SCENARIO"
        trace = self.folder / "ring.trace"
        trace.write_text("100 n0 lookup 1\n", encoding="utf-8")
        refused = self.call("chordsim-trace", scenario, trace)
        self.assertEqual(refused, (1, "", f"refused: {trace}: S1 NotToml; {told}\n"))

    def test_study(self) -> None:
        """A study finds the program of the package, also if CHORDSIM names the script that starts it."""
        text = 'question = "?"\ngenerate = ["--nodes", "4", "--duration", "1s"]\nseeds = 1\n[vary]\nlist = [1, 2]\n'
        (self.folder / "study.toml").write_text(text, encoding="utf-8")
        digest = (TOP / "release" / "x86_64-linux" / "chordsim.sha256").read_text(encoding="ascii").split()[0]
        for value in ("", str(self.bin / "chordsim")):
            out = self.folder / f"study{bool(value)}"
            command = (self.bin / "chordsim-study", "run", self.folder / "study.toml", "-o", out)
            told = f"tables in {out}; next: chordsim-study report {out}\n"
            with self.subTest(value=value):
                self.assertEqual(called(*command, CHORDSIM=value)[:2], (0, told))
                self.assertEqual(self.call("chordsim-study", "report", out)[0], 0)
                page = (out / "report.md").read_text(encoding="utf-8")
                self.assertIn("\nchordsim-study run study.toml -o FOLDER\n", page)
                self.assertNotIn("tools/", page)
                self.assertIn(f'"sha256": "{digest}"', (out / "manifest.json").read_text(encoding="utf-8"))

    def test_library(self) -> None:
        """The Python package runs a scenario with the program of the package."""
        ring = "from chordsim import Scenario, run; from chordsim_tools.program import find_program as find"
        code = f"{ring}; print(run(Scenario.read({str(EXAMPLES / 'ring.toml')!r}))['found'], find(build=False))"
        program = self.folder / "venv" / PACKAGES / "chordsim_tools" / "release" / "chordsim"
        self.assertEqual(self.call("python3", "-P", "-c", code), (0, f"1 {program}\n", ""))

    def test_files(self) -> None:
        """Each file that the tools read when they run is there."""
        package = TOP / "tools" / "chordsim_tools"
        read = {path.relative_to(package) for path in package.rglob("*") if path.is_file() and path.suffix != ".pyc"}
        data = {path for path in read if path.suffix != ".py"}
        self.assertIn(Path("trace/page/page.html"), data)
        there = self.folder / "venv" / PACKAGES / "chordsim_tools"
        self.assertEqual({path for path in data if not (there / path).is_file()}, set())
        missing = {path for path in read if not (there / path).is_file()}
        self.assertEqual({path.parts[0] for path in missing}, {"pages"})

    def test_platform(self) -> None:
        """The package is for Linux x86-64, and for every Python 3 that is new enough."""
        wheel = self.folder / "venv" / PACKAGES / f"chordsim-{__version__}.dist-info" / "WHEEL"
        self.assertIn("\nTag: py3-none-linux_x86_64\n", wheel.read_text(encoding="utf-8"))

    def test_damaged_release(self) -> None:
        """Nothing is built if the program in the repository is missing, or does not have its digest."""
        source = self.folder / "damaged"
        copy_sources(source)
        program = source / "release" / "x86_64-linux" / "chordsim"
        build: list[str | Path] = ["env", "--chdir", source, sys.executable, "setup.py", "--quiet", "build_py"]
        built = source / "out" / "build" / "lib" / "chordsim_tools" / "release" / "chordsim"
        kept = program.read_bytes()
        program.write_bytes(kept + b"#")
        told = "release/x86_64-linux/chordsim is damaged: it does not have the digest of"
        status, _, error = called(*build)
        self.assertEqual((status, error.splitlines()[-1]), (1, f"{told} release/x86_64-linux/chordsim.sha256"))
        program.unlink()
        told = "the program is missing: release/x86_64-linux/chordsim: No such file or directory"
        self.assertEqual(called(*build)[2].splitlines()[-1], told)
        self.assertFalse(built.exists())
        program.write_bytes(kept)
        self.assertEqual((called(*build)[0], built.read_bytes()), (0, kept))
