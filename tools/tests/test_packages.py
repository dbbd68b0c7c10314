"""Debian's package, and the archive of a commit: each is made, unpacked, and tried in a folder of its own."""

import shutil
import subprocess
import tempfile
from pathlib import Path
from unittest import SkipTest, TestCase

from chordsim_tools import __version__
from tests.support.programs import TOOLS, called

TOP = Path(__file__).resolve().parents[2]
README = (TOP / "README.md").read_text(encoding="utf-8")
FIRST_COMMAND = "./chordsim run --scenario examples/ring.toml --serial"
FIRST_RESULT = README.partition(f"$ {FIRST_COMMAND}\n")[2].partition("...")[0]
"""What README says that its first command prints, as far as that is shown."""
NEEDED = ("debhelper", "dh-python", "pybuild-plugin-pyproject", "python3-setuptools", "python3-wheel")
DPKG = ("dpkg", "--force-not-root", "--force-depends")


class DebianTest(TestCase):
    """Debian's package in an empty root. The dependencies are those of this machine."""

    folder: Path
    root: Path

    @classmethod
    def setUpClass(cls) -> None:
        """Makes the package and unpacks it, if Debian's tools are there."""
        if shutil.which("dpkg-query") is None or called("dpkg-query", "--show", *NEEDED)[0] != 0:
            raise SkipTest(f"packages are missing (apt-get install {' '.join(NEEDED)})")
        cls.folder = Path(cls.enterClassContext(tempfile.TemporaryDirectory()))
        package = cls.folder / f"chordsim_{__version__}_amd64.deb"
        made = called(TOP / "packaging" / "build-deb", cls.folder)
        assert made == (0, f"{package}\n", ""), made
        cls.root = cls.folder / "root"
        for name in ("info", "updates", "triggers"):
            (cls.root / "var" / "lib" / "dpkg" / name).mkdir(parents=True)
        (cls.root / "var" / "lib" / "dpkg" / "status").touch()
        made = called(*DPKG, f"--root={cls.root}", "--unpack", package)
        assert made[0] == 0, made

    def call(self, name: str, *arguments: str | Path) -> tuple[int, str, str]:
        """The status of a command of the package, and what it prints on both streams."""
        packages = str(self.root / "usr" / "lib" / "python3" / "dist-packages")
        return called("/usr/bin/python3", self.root / "usr" / "bin" / name, *arguments, PYTHONPATH=packages)

    def test_first_command(self) -> None:
        """The first command of README, on the scenario of the package."""
        scenario = self.root / "usr" / "share" / "doc" / "chordsim" / "examples" / "ring.toml"
        status, output, error = self.call("chordsim", "run", "--scenario", scenario, "--serial")
        self.assertEqual((status, output[:len(FIRST_RESULT)], error), (0, FIRST_RESULT, ""))
        self.assertGreater(len(FIRST_RESULT), 100)

    def test_tools(self) -> None:
        """Each tool is there, with its man page and its completions; one is tried."""
        share = self.root / "usr" / "share"
        for tool in TOOLS:
            name = f"chordsim-{tool}"
            self.assertEqual(self.call(name, "--version"), (0, f"{name} {__version__}\n", ""))
            self.assertTrue((share / "man" / "man1" / f"{name}.1.gz").is_file(), name)
            for script in (f"bash-completion/completions/{name}", f"fish/vendor_completions.d/{name}.fish"):
                self.assertIn(f" {name} ", (share / script).read_text(encoding="utf-8"))
        scenario = self.folder / "ring.toml"
        self.assertEqual(self.call("chordsim-generate", "--nodes", "5", "-o", scenario), (0, "", ""))
        self.assertEqual(self.call("chordsim", "check", "--scenario", scenario), (0, "ok nodes=5 commands=0\n", ""))

    def test_program(self) -> None:
        """It is the one of the repository, byte for byte."""
        program = self.root / "usr" / "lib" / "python3" / "dist-packages" / "chordsim_tools" / "release" / "chordsim"
        kept = TOP / "release" / "x86_64-linux" / "chordsim"
        self.assertTrue(program.read_bytes() == kept.read_bytes())

    def test_what_it_needs(self) -> None:
        """Its control file names the packages that it needs and those that plots and pages need."""
        control = called("dpkg-deb", "--field", self.folder / f"chordsim_{__version__}_amd64.deb")[1]
        fields = dict(line.split(": ", 1) for line in control.splitlines() if not line.startswith(" "))
        self.assertRegex(fields["Depends"], r"\blibc6 .*\bpython3 \(>= 3\.11\)")
        self.assertEqual(fields["Recommends"], "python3-matplotlib, python3-numpy")
        self.assertRegex(fields["Suggests"], r"\bnode-d3\b")

    def test_removal(self) -> None:
        """Nothing is left of a package that is removed."""
        root = self.folder / "second"
        shutil.copytree(self.root / "var", root / "var")
        shutil.copytree(self.root / "usr", root / "usr", symlinks=True)
        removed = called(*DPKG, f"--root={root}", "--purge", "chordsim")
        self.assertEqual(removed[0], 0, removed)
        self.assertEqual([path for path in root.glob("**/*chordsim*") if "/var/lib/dpkg/" not in str(path)], [])


class ArchiveTest(TestCase):
    """The archive of the last commit."""

    def test_archive(self) -> None:
        """It can be used without git: the version, and the first command of README."""
        folder = self.enterContext(tempfile.TemporaryDirectory())
        archive = f"{folder}/chordsim.tar"
        if called("git", "-C", TOP, "archive", f"--output={archive}", "HEAD")[0] != 0:
            self.skipTest("this is no repository of git")
        subprocess.run(["tar", "--extract", f"--file={archive}", f"--directory={folder}"], check=True)
        status, program, told = called(f"{folder}/chordsim", "--where")
        if status == 125:
            self.skipTest(told.splitlines()[0])
        self.assertEqual(program, f"{folder}/release/x86_64-linux/chordsim\n")
        self.assertEqual(called(f"{folder}/chordsim", "--version")[::2], (0, ""))
        status, output, error = called("env", f"--chdir={folder}", *FIRST_COMMAND.split())
        self.assertEqual((status, output[:len(FIRST_RESULT)], error), (0, FIRST_RESULT, ""))
