"""The man page, the completions and the version numbers against what the program prints with --help and --version."""

import re
import shutil
import subprocess
import tomllib
import unittest
from pathlib import Path

from tests.support.programs import program

TOP = Path(__file__).resolve().parents[2]
COMMANDS = ["check", "ids", "judge", "run"]
# The options that have a list of values.
CHOICES = ["--split", "--engine"]


def text_of(*arguments: str) -> str:
    """What the program prints on standard output."""
    done = subprocess.run([program(), *arguments], capture_output=True, text=True, check=True)
    return done.stdout


def options_in(text: str) -> set[str]:
    """The long options that a text names."""
    return set(re.findall(r"--[a-z]+", text.replace("\\-", "-")))


def options_of(command: str) -> set[str]:
    """The long options that the help of a command lists."""
    listed = text_of(command, "--help").partition("Options:\n")[2]
    return set(re.findall(r"^ +(?:-\w, |    )(--[a-z]+)", listed, re.MULTILINE))


def values_of(option: str) -> list[str]:
    """The values that an option of `run` may have."""
    found = re.search(rf"{option} <.*\[possible values: ([^]]+)\]", text_of("run", "--help"))
    assert found is not None
    return found.group(1).split(", ")


class Help(unittest.TestCase):
    """What is written by hand beside the help texts names the same commands and options."""

    def test_commands(self) -> None:
        """The program has the commands that these tests go through."""
        listed = text_of("--help").partition("Commands:\n")[2].partition("\n\n")[0]
        self.assertEqual(re.findall(r"^  (\w+)", listed, re.MULTILINE), [*COMMANDS, "help"])

    def test_options_are_found(self) -> None:
        """The help of `check` has these options, so that what is compared below is not empty."""
        self.assertEqual(options_of("check"), {"--scenario", "--latency", "--help"})

    def test_man_page(self) -> None:
        """Each option of a command is in its synopsis, and has its entry; no other has."""
        page = (TOP / "docs" / "chordsim.1").read_text(encoding="utf-8")
        synopsis = page.partition(".SH SYNOPSIS")[2].partition(".SH DESCRIPTION")[0].split(".br")
        entries = page.partition(".SH OPTIONS")[2].partition(".SH")[0].split(".TP\n")[1:]
        every = set[str]()
        for part, command in zip(synopsis, COMMANDS, strict=False):
            with self.subTest(command=command):
                self.assertIn(f"chordsim {command}", part)
                self.assertEqual(options_in(part), options_of(command) - {"--help"})
            every |= options_of(command)
        named = [options_in(entry.partition("\n")[0]) for entry in entries]
        self.assertEqual(set[str]().union(*named), every | {"--version"})
        self.assertEqual(len(named), len(every) + 1)
        for option in CHOICES:
            entry = next(entry for entry in entries if options_in(entry.partition("\n")[0]) == {option})
            for value in values_of(option):
                self.assertRegex(entry, rf"\.B {value}\n")

    def test_man_page_reads(self) -> None:
        """The page has no fault that `man` would tell."""
        if shutil.which("man") is None:
            self.skipTest("there is no man")
        command = ["man", "--warnings=all", "-l", str(TOP / "docs" / "chordsim.1")]
        done = subprocess.run(command, capture_output=True, text=True, check=False)
        self.assertEqual((done.returncode, done.stderr), (0, ""))

    def completed(self, *line: str) -> list[str]:
        """What bash completes the last of these arguments to."""
        script = 'source "$1"; shift; COMP_WORDS=(chordsim "$@"); COMP_CWORD=$#; _chordsim; echo "${COMPREPLY[@]}"'
        command = ["bash", "-c", script, "bash", str(TOP / "completions" / "chordsim.bash"), *line]
        return subprocess.run(command, capture_output=True, text=True, check=True).stdout.split()

    def test_bash(self) -> None:
        """Bash completes commands, the options of each, and the values of --split and --engine."""
        self.assertEqual(set(self.completed("")), {*COMMANDS, "help", "--help", "--version"})
        for command in COMMANDS:
            with self.subTest(command=command):
                self.assertEqual(set(self.completed(command, "--")), options_of(command))
        for option in CHOICES:
            self.assertEqual(self.completed("run", option, ""), values_of(option))
            self.assertEqual(self.completed("run", option, "="), values_of(option))
            first = values_of(option)[0]
            self.assertEqual(self.completed("run", option, "=", first[:1]), [first])
            self.assertEqual(set(self.completed("run", option, "=", first, "--")), options_of("run"))
        for option in ("--scenario", "--latency", "--trace"):
            for words in ((option, f"{TOP}/docs/rul"), (option, "=", f"{TOP}/docs/rul")):
                self.assertEqual(self.completed("run", *words), [f"{TOP}/docs/rules.md"])
        self.assertEqual(self.completed("run", "--sp"), ["--split"])

    def test_zsh(self) -> None:
        """The lists of the script for zsh have the options of the commands."""
        script = (TOP / "completions" / "_chordsim").read_text(encoding="utf-8")
        lists = {name: options_in(body) for name, body in re.findall(r"(\w+)=\(\n(.*?)\n    \)", script, re.DOTALL)}
        for command in COMMANDS:
            used = re.search(rf"{command}\) _arguments (.*) ;;", script)
            assert used is not None
            named = [lists[name] for name in re.findall(r"\$(\w+)", used.group(1))]
            with self.subTest(command=command):
                self.assertEqual(set[str]().union(*named), options_of(command))
        for option in CHOICES:
            self.assertRegex(script, rf"'{option}\[.*\({' '.join(values_of(option))}\)'")

    def test_fish(self) -> None:
        """The lines of the script for fish have the options of the commands."""
        script = (TOP / "completions" / "chordsim.fish").read_text(encoding="utf-8")
        for command in COMMANDS:
            lines = [line for line in script.splitlines() if "_from" not in line or re.search(rf"\b{command}\b", line)]
            named = {f"--{name}" for line in lines for name in re.findall(r" -l (\w+)", line)}
            with self.subTest(command=command):
                self.assertEqual(named - {"--version"}, options_of(command))
        for option in CHOICES:
            self.assertRegex(script, rf"-l {option[2:]} -x -a '{' '.join(values_of(option))}'")

    def test_version(self) -> None:
        """The program, the man page, CHANGELOG.md and pyproject.toml have one version."""
        version = text_of("--version").removeprefix("chordsim ").strip()
        self.assertRegex(version, r"^\d+\.\d+\.\d+$")
        project = tomllib.loads((TOP / "pyproject.toml").read_text(encoding="utf-8"))["project"]
        self.assertEqual(project["version"], version)
        page = (TOP / "docs" / "chordsim.1").read_text(encoding="utf-8")
        self.assertIn(f'"chordsim {version}"', page)
        changes = (TOP / "CHANGELOG.md").read_text(encoding="utf-8")
        newest = re.search(r"^## \[?(\d+\.\d+\.\d+)", changes, re.MULTILINE)
        self.assertEqual(newest and newest.group(1), version)


if __name__ == "__main__":
    unittest.main()
