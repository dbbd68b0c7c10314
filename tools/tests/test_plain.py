"""The plain programs of examples/plain against chordsim: the same traces and reports. Skipped if there is no rustc."""

import re
import shutil
import subprocess
from collections.abc import Iterator
from pathlib import Path
from tempfile import TemporaryDirectory
from typing import ClassVar, NamedTuple
from unittest import SkipTest, TestCase

from chordsim_tools.flat import flat_form, main
from chordsim_tools.generate.command import main as generate
from chordsim_tools.generate.random_scenario import scenario_files
from chordsim_tools.scenario.reading import read_scenario
from tests.support.programs import ended, program
from tests.support.worlds import EXAMPLES, ring, with_detail
from tests.test_random import expected

SOURCES = {"plain": EXAMPLES / "plain" / "main.rs", "fast": EXAMPLES / "plain" / "fast.rs"}
COMMAND = EXAMPLES / "plain" / "flatten"
NAMES = (
    "ring", "churn64", "lossy64", "retries64", "half_crash", "join_storm", "slow_repair", "ninth_timeout", "join_stuck",
    "check_predecessor", "bootstrap_nodes", "deployed64", "coordinates64", "detail16", "square512",
)
# Of all profiles. Some have commands, some rows of latencies, and some more events than they allow.
SEEDS = range(12)
# Of the extended profile, with pauses between joins and checks in most of them.
EXTENDED_SEEDS = [seed for seed in range(60) if seed // 2 % 3 == 2]
FLAT_RING = """\
1 0 0 0 0 0 0 0
0 0 0 8 0 0 0 0 0 0
0 0 0
3 2 1 200 40 200 1000 1000 50000000 10
0
0
3
n0 0 1 0 0
n1 1 1 0 0
n3 3 1 0 0
1
0 2 12
0
1
100 0 lookup 1
"""


class Outcome(NamedTuple):
    """How a run ended, and what it wrote."""

    status: int
    report: str
    errors: str
    trace: str


def outcome(command: list[str], trace: Path) -> Outcome:
    """The outcome of a command that writes its trace to this file."""
    done = subprocess.run(command, capture_output=True, text=True, check=False)
    return Outcome(done.returncode, done.stdout, done.stderr, trace.read_text(encoding="utf-8"))


def generated(arguments: str) -> str:
    """What tools/generate writes, whatever it warns of."""
    status, text, _ = ended(generate, *arguments.split())
    assert status == 0
    return text


class Built(TestCase):
    """Tests that need the plain programs."""

    folder: ClassVar[Path]

    @classmethod
    def setUpClass(cls) -> None:
        """Builds the plain programs, which must have no warnings."""
        rustc = shutil.which("rustc")
        if rustc is None:
            raise SkipTest("there is no rustc")
        cls.folder = Path(cls.enterClassContext(TemporaryDirectory()))
        for name, source in SOURCES.items():
            command = [rustc, "--edition", "2021", "-O", "-D", "warnings", "-o", str(cls.folder / name), str(source)]
            done = subprocess.run(command, capture_output=True, text=True, check=False)
            assert done.returncode == 0, done.stderr

    def outcomes(self, scenario: str, latency: str) -> Iterator[tuple[str, Outcome]]:
        """Runs each of the plain programs on a scenario."""
        flat, trace = self.folder / "flat", self.folder / "ours"
        flat.write_text(flat_form(read_scenario(scenario.encode(), latency.encode())), encoding="utf-8")
        for name in SOURCES:
            yield name, outcome([str(self.folder / name), str(flat), str(trace)], trace)


class ReferenceTest(Built):
    """The plain programs and the reference simulator on the same scenarios."""

    def compare(self, toml: str, csv: str) -> None:
        """The same bytes; if there are too many events, one trace is the beginning of the other."""
        trace, report = expected(toml, csv)
        for name, plain in self.outcomes(toml, csv):
            self.assertEqual((plain.status, plain.report), (3, "") if report is None else (0, report), name)
            longer, shorter = sorted((plain.trace, trace), key=len, reverse=True)
            same = longer.startswith(shorter) if report is None else longer == shorter
            self.assertTrue(same, f"another trace of {name}")

    def test_extended_profile(self) -> None:
        """Random scenarios."""
        for seed in EXTENDED_SEEDS:
            with self.subTest(seed=seed):
                self.compare(*scenario_files(seed))

    def test_detail(self) -> None:
        """Random scenarios and an example whose traces tell of each message."""
        for seed in EXTENDED_SEEDS[::2]:
            toml, csv = scenario_files(seed)
            with self.subTest(seed=seed):
                self.compare(with_detail(toml), csv)
        self.compare((EXAMPLES / "detail16.toml").read_text(encoding="utf-8"), "")

    def test_coordinates(self) -> None:
        """Latencies by coordinates, which are near, or of two nodes so far that 2000^2 + 2000000^2 is 2000001^2 - 1."""
        places = iter(("x_us = 0\ny_us = 0\nheight_us = 10", "x_us = 2000\ny_us = 2000000\nheight_us = 5"))
        arguments = "--profile 4 --nodes 24 --coordinates square:90ms:10us..20ms --window 10us"
        arguments += " --duration 9s --check 500ms"
        text = generated(arguments)
        far = re.sub("x_us = .*\ny_us = .*\nheight_us = .*", lambda found: next(places, found.group()), text)
        for scenario in (text, far):
            self.compare(scenario, "")

    def test_ties(self) -> None:
        """Timers of all nodes at the same times, and lists that are longer than those in place of the fast program."""
        arguments = "--profile 4 --nodes 24 --list 12 --jitter 0us --latency 10ms --window 10ms --duration 6s"
        self.compare(generated(f"{arguments} --lookup-gap 500ms..500ms"), "")

    def test_many_rows(self) -> None:
        """Rows of a latency file for more nodes than are in a table."""
        text = generated("--profile 4 --nodes 4097 --latency 2s --window 1ms --duration 10ms --lookups 0.5")
        rows = "".join(f"n{i},n{(7 * i + 1) % 4097},{1000 + i}\n" for i in range(1, 600))
        self.compare(text, rows)


class PlainTest(Built):
    """The plain programs and chordsim on the same scenarios."""

    @classmethod
    def setUpClass(cls) -> None:
        """Nothing is built if there is nothing to compare with."""
        program()
        super().setUpClass()

    def compare(self, scenario: str, latency: str) -> int:
        """Runs the programs on a scenario, compares what they write, and returns the status."""
        path = {name: self.folder / name for name in ("scenario", "latency", "theirs")}
        path["scenario"].write_text(scenario, encoding="utf-8")
        path["latency"].write_text(latency, encoding="utf-8")
        inputs = ["--scenario", str(path["scenario"]), "--latency", str(path["latency"])]
        command = [str(program()), "run", "--serial", *inputs, "--trace", str(path["theirs"])]
        proved = outcome(command, path["theirs"])
        for name, plain in self.outcomes(scenario, latency):
            self.assertEqual(plain[:3], proved[:3], name)
            if plain.status == 0:
                self.assertTrue(plain.trace == proved.trace, f"another trace of {name}")
            else:
                # How much of the trace has been written by then is not the same.
                self.assertTrue(plain.trace.startswith(proved.trace) or proved.trace.startswith(plain.trace), name)
        return proved.status

    def test_examples(self) -> None:
        """Those that take no more than a second."""
        for name in NAMES:
            with self.subTest(name=name):
                scenario = (EXAMPLES / f"{name}.toml").read_text(encoding="utf-8")
                self.assertEqual(self.compare(scenario, ""), 0)

    def test_random_scenarios(self) -> None:
        """The scenarios that `tools/generate --random` makes."""
        for seed in SEEDS:
            with self.subTest(seed=seed):
                self.compare(*scenario_files(seed))

    def test_too_many_events(self) -> None:
        """All fail at the same event."""
        scenario = (EXAMPLES / "ring.toml").read_text(encoding="utf-8")
        longer = scenario.replace("duration_us = 200\n", "duration_us = 20000\n")
        self.assertEqual(self.compare(f"max_events = 100\n{longer}", ""), 3)


class FlattenTest(TestCase):
    """The flat form, which needs none of the programs."""

    def test_flat_form(self) -> None:
        """The ring with a row of latencies."""
        self.assertEqual(flat_form(ring(rows="n3,n0,12\n")), FLAT_RING)

    def test_commands(self) -> None:
        """The flat form of each kind of command, of churn and of lookups."""
        tables = "[churn]\nlife_min_us = 1\nlife_max_us = 2\ndown_min_us = 3\ndown_max_us = 4\n"
        tables += "[lookups]\ngap_min_us = 5\ngap_max_us = 6\n"
        commands = '[[command]]\nat_us = 110\ndo = "crash"\nnode = "n1"\n'
        commands += '[[command]]\nat_us = 120\ndo = "join"\nnode = "n1"\nvia = "n3"\n'
        flat = flat_form(ring(("[[node]]", f"{tables}[[node]]"), ("[[command]]", f"{commands}[[command]]")))
        self.assertIn("\n1 1 2 3 4 0\n1 5 6\n3\nn0", flat)
        self.assertTrue(flat.endswith("\n0\n0\n3\n110 1 crash\n120 1 join 2\n100 0 lookup 1\n"))

    def test_coordinates(self) -> None:
        """The flat form of coordinates, with and without a height, and of the keys of joins and checks."""
        keys = "retries = 1\njoin_pause_us = 70\njoin_forever = true\ncheck_us = 90\ndetail = true"
        keys += "\nfinger_jitter_us = 7"
        changes = [("profile = 1", f"profile = 4\n{keys}")]
        changes += [(f'"{name}"', f'"{name}"\nx_us = {x}\ny_us = 2\n{height}') for name, x, height in (
            ("n0", 1, "height_us = 9"), ("n1", 3, "height_us = 10"), ("n3", 5, "height_us = 8"),
        )]
        flat = flat_form(ring(*changes, ("window_us = 10", "window_us = 8"), ("height_us = 8", "")))
        self.assertTrue(flat.startswith("4 0 0 1 70 1 90 1\n1 1 1 32 1 1 1 1 1 0\n0 7 0\n3 2 1"))
        self.assertIn("\nn3 3 1 0 0\n0\n1\n1 2 9\n3 2 10\n5 2 0\n1\n100 0", flat)

    def test_leaves(self) -> None:
        """The flat form of a leave by command, and of leaves at ends of lives."""
        churn = "[churn]\nlife_min_us = 1\nlife_max_us = 2\ndown_min_us = 3\ndown_max_us = 4\nleave_ppm = 5\n"
        changes = [("profile = 1", "profile = 4"), ("[[node]]", f"{churn}[[node]]"), ('"lookup"', '"leave"')]
        flat = flat_form(ring(*changes))
        self.assertIn("\n1 1 2 3 4 5\n0\n3\nn0", flat)
        self.assertTrue(flat.endswith("\n1\n100 0 leave\n"))

    def test_bootstrap_nodes(self) -> None:
        """The flat form of a bootstrap node, and of the key of those that make rings."""
        flat = flat_form(ring(("profile = 1", "profile = 4\ncreate_alone = true"), ('"n1"', '"n1"\nbootstrap = true')))
        self.assertIn("\n1 1 1 32 1 1 1 1 1 1\n", flat)
        self.assertIn("\nn0 0 1 0 0\nn1 1 1 0 1\nn3 3 1 0 0\n", flat)

    def test_command(self) -> None:
        """The command writes the file, or says why a scenario is refused."""
        with TemporaryDirectory() as folder:
            latency, flat = Path(folder, "latency"), Path(folder, "flat")
            latency.write_text("n3,n0,12\n", encoding="utf-8")
            files = [str(EXAMPLES / "ring.toml"), str(latency)]
            self.assertEqual(ended(main, *files, "-o", str(flat)), (0, "", ""))
            self.assertEqual(flat.read_text(encoding="utf-8"), FLAT_RING)
            self.assertEqual(ended(main, *files), (0, FLAT_RING, ""))
            latency.write_text("n3,n0\n", encoding="utf-8")
            self.assertEqual(ended(main, *files), (1, "", "refused: S12 BadLatencyRow row 1\n"))

    def test_script(self) -> None:
        """The script is this command."""
        done = subprocess.run([COMMAND, str(EXAMPLES / "ring.toml")], capture_output=True, text=True, check=False)
        self.assertEqual((done.returncode, done.stdout), (0, flat_form(ring())))
