"""tools/trace on random scenarios: all lines are read, and answers are judged as by plain sets of members."""

import subprocess
from pathlib import Path
from tempfile import TemporaryDirectory
from unittest import TestCase

from chordsim_tools.generate.random_scenario import scenario_files
from chordsim_tools.scenario.reading import Scenario, read_scenario
from chordsim_tools.trace.reading import Run, read_run
from chordsim_tools.trace.summary import summary
from tests.support.programs import program

COUNT = 40
State = tuple[int, frozenset[str]]


def right_answers(scenario: Scenario, text: str) -> tuple[int, int]:
    """How many answers are right, strictly and defensibly, from all states of the members one after another."""
    idents = {node.name: node.ident for node in scenario.nodes}
    states: list[State] = [(-1, frozenset(node.name for node in scenario.nodes if node.initial))]
    strict = defensible = 0
    for fields in (line.split(" ") for line in text.splitlines() if " audit " not in line):
        time, members = int(fields[0]), states[-1][1]
        match fields[2]:
            case "member" | "create":
                states.append((time, members | {fields[1]}))
            case "crash" | "leave" | "stranded":
                states.append((time, members - {fields[1]}))
            case "found":
                owners = owners_since(states, time - int(fields[7].removeprefix("us=")), int(fields[3]), idents)
                strict += owners[0] == idents[fields[4]]
                defensible += idents[fields[4]] in owners
    return strict, defensible


def owners_since(states: list[State], begin: int, key: int, idents: dict[str, int]) -> list[int | None]:
    """The identifiers of the owners of a key, from the last state back to the one that `begin` finds."""
    owners: list[int | None] = []
    for time, members in reversed(states):
        after = [idents[name] for name in members if idents[name] >= key]
        owners.append(min(after or [idents[name] for name in members], default=None))
        if time < begin:
            break
    return owners


class RandomTraces(TestCase):
    """Traces of scenarios of all profiles, some of which end early."""

    def run_of(self, folder: Path, seed: int) -> tuple[Run, str]:
        """A run, and the text of its trace."""
        toml, csv = scenario_files(seed)
        (folder / "toml").write_text(toml, encoding="utf-8")
        (folder / "csv").write_text(csv, encoding="utf-8")
        files = ["--scenario", str(folder / "toml"), "--latency", str(folder / "csv"), "--trace", str(folder / "trace")]
        subprocess.run([str(program()), "run", "--serial", *files], capture_output=True, check=False)
        text = (folder / "trace").read_text(encoding="utf-8")
        return read_run(str(folder / "trace"), read_scenario(toml.encode(), csv.encode())), text

    def test_random_traces(self) -> None:
        """The lines that are kept are those of the trace, letter by letter; so are the right answers."""
        with TemporaryDirectory() as folder:
            for seed in range(COUNT):
                run, text = self.run_of(Path(folder), seed)
                lines, answers = run.history.lines, summary(run)["answers"]
                with self.subTest(seed=seed):
                    kept = "".join(lines.text(at) + "\n" for at in range(len(lines.times)))
                    self.assertEqual(kept + run.half_line, text)
                    wanted = right_answers(run.history.scenario, text.removesuffix(run.half_line))
                    self.assertEqual((answers["right_strict"], answers["right_defensible"]), wanted)
