"""The ring of three in which most tests of the program take place, rings of many nodes, and what the program does."""

import subprocess
from collections.abc import Iterable
from pathlib import Path
from tempfile import TemporaryDirectory
from typing import NamedTuple
from unittest import TestCase

from tests.support.programs import program
from tests.support.worlds import switched_off

TOP = "profile = 1\nbits = 3\nseed = 1\nlatency_us = 10\n"
"""What most scenarios have in common."""
SETTINGS = (
    "list = 2\nduration_us = 200\nwindow_us = 10\ntimeout_us = 40\naudit_us = 200\nstabilize_us = 1000\n"
    "finger_us = 1000\n"
)
"""The settings of most scenarios."""
THREE = (
    '[[node]]\nname = "n0"\nid = 0\ninitial = true\n'
    '[[node]]\nname = "n1"\nid = 1\ninitial = true\n'
    '[[node]]\nname = "n3"\nid = 3\ninitial = true\n'
)
"""The ring of three."""
TWO = '[[node]]\nname = "n0"\nid = 0\ninitial = true\n[[node]]\nname = "n4"\nid = 4\ninitial = true\n'
"""Two nodes opposite each other."""
FOUR = THREE + '[[node]]\nname = "n6"\nid = 6\n'
"""The ring of three, and a node that is down."""
IN_THE_PLANE = (
    '[[node]]\nname = "n0"\nid = 0\ninitial = true\nx_us = 0\ny_us = 0\nheight_us = 5\n'
    '[[node]]\nname = "n1"\nid = 1\ninitial = true\nx_us = 3\ny_us = 4\nheight_us = 6\n'
    '[[node]]\nname = "n3"\nid = 3\ninitial = true\nx_us = 2\ny_us = 2\nheight_us = 7\n'
)
"""The ring of three in the plane. The squares of the distances are 25, 8 and 5."""
NO_HOP = '[[command]]\nat_us = 100\ndo = "lookup"\nnode = "n0"\nkey = 1\n'
"""A lookup of n0, which knows the owner."""
ONE_HOP = '[[command]]\nat_us = 100\ndo = "lookup"\nnode = "n3"\nkey = 1\n'
"""A lookup of n3, which asks n0."""
WHOLE = "200 audit members=3 dead=0 ring=3 ordered=yes principals=3 sufficient=yes\n"
"""The audit of the ring of three, all of whose nodes are up."""

SERIAL = ("--serial",)
WORKERS = ("--workers", "2", "--parts", "3")
PLANS = (SERIAL, ("--engine", "crew", *WORKERS), ("--engine", "team", *WORKERS))
"""A plan of each engine."""

Change = tuple[str, str, str]
"""A text in a scenario, the one that replaces it, and the result: that of an accepted scenario, or the first fault."""


class Example(NamedTuple):
    """A scenario in three parts, with the trace and the whole report that it has by the rules."""

    settings: str
    nodes: str
    commands: str
    trace: str
    report: str

    def text(self, profile: str) -> str:
        """The scenario, with these settings in place of its profile."""
        return of_profile(profile, TOP + self.settings + self.nodes + self.commands)


class Left(NamedTuple):
    """What a run that reached its end has written."""

    trace: str
    report: str


def text_of_three(commands: str) -> str:
    """The ring of three with these commands."""
    return TOP + SETTINGS + THREE + commands


def of_profile(profile: str, text: str) -> str:
    """A scenario with these settings in place of its profile.

    In the extended profile the rules of Chord as published are switched off that the settings do not have.
    """
    lines = profile.split("\n")
    if lines[0] == "profile = 4":
        lines += switched_off(*lines)
    return text.replace("profile = 1", "\n".join(lines), 1)


def ring_of(bits: int, nodes: int, key: int) -> str:
    """A ring of so many nodes, each with its number as identifier, in which the first node looks a key up."""
    return (
        f"profile = 2\nbits = {bits}\nseed = 1\nlatency_us = 10\nlist = 16\nduration_us = 300\n"
        "window_us = 10\ntimeout_us = 40\naudit_us = 300\nstabilize_us = 1000\nfinger_us = 1000\n"
        + "".join(f'[[node]]\nname = "n{node}"\nid = {node}\ninitial = true\n' for node in range(nodes))
        + f'[[command]]\nat_us = 100\ndo = "lookup"\nnode = "n0"\nkey = {key}\n'
    )


def bytes_of(text: str | bytes) -> bytes:
    """A text as bytes."""
    return text.encode() if isinstance(text, str) else text


def numbers_of(report: str) -> str:
    """The lines of a report whose number is not 0."""
    return "".join(line for line in report.splitlines(keepends=True) if not line.endswith(" 0\n"))


class ProgramTest(TestCase):
    """Tests that give the program the two texts of a scenario."""

    def setUp(self) -> None:
        """A folder for the files."""
        self.program = str(program())
        folder = TemporaryDirectory()
        self.addCleanup(folder.cleanup)
        self.folder = Path(folder.name)

    def ended(self, command: str, toml: bytes, csv: bytes, *options: str) -> tuple[int, str, str]:
        """The status of a command with these texts, and what it printed on the two streams."""
        scenario, latency = self.folder / "scenario.toml", self.folder / "latency.csv"
        scenario.write_bytes(toml)
        latency.write_bytes(csv)
        arguments = [self.program, command, "--scenario", str(scenario), "--latency", str(latency), *options]
        done = subprocess.run(arguments, capture_output=True, encoding="utf-8", check=False)
        return done.returncode, done.stdout, done.stderr

    def has_answer(self, toml: str | bytes, csv: str | bytes, want: str) -> None:
        """Asserts that `check` returns this of two texts: `ok ..`, or the first fault."""
        answer = (0, f"{want}\n", "") if want.startswith("ok ") else (1, "", f"refused: {want}\n")
        self.assertEqual(self.ended("check", bytes_of(toml), bytes_of(csv)), answer)

    def have_results(self, base: str, changes: Iterable[Change]) -> None:
        """Asserts that a scenario with each of these changes has its result."""
        for old, new, want in changes:
            with self.subTest(old=old, new=new):
                self.assertIn(old, base)
                self.has_answer(base.replace(old, new, 1), "", want)

    def left(self, toml: str, csv: str = "", plan: tuple[str, ...] = SERIAL) -> Left:
        """What a run of two texts by a plan leaves. It must reach its end."""
        trace = self.folder / "trace"
        status, report, error = self.ended("run", toml.encode(), csv.encode(), *plan, "--trace", str(trace))
        self.assertEqual((status, error), (0, ""))
        return Left(trace.read_text(encoding="utf-8"), report)

    def all_leave(self, toml: str, trace: str, report: str) -> None:
        """Asserts that a scenario leaves this trace and this report by each engine."""
        for plan in PLANS:
            with self.subTest(plan=plan):
                self.assertEqual(self.left(toml, plan=plan), Left(trace, report))

    def all_write(self, toml: str, trace: str) -> None:
        """Asserts that a scenario leaves this trace by each engine."""
        for plan in PLANS:
            with self.subTest(plan=plan):
                self.assertEqual(self.left(toml, plan=plan).trace, trace)
