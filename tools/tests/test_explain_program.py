"""The first fault is the program's: on 200 spoiled files of all profiles, and where the tool knows another one."""

import shutil
from unittest import TestCase

from chordsim_tools.explain.command import explanations
from chordsim_tools.explain.program import answer_of
from chordsim_tools.known import known
from tests.support.programs import program
from tests.support.spoiled import good_world, spoiled
from tests.test_explain import WORLD, told

SEEDS = range(200)


def answer(scenario: bytes, latency: bytes) -> str:
    """What the tool itself answers."""
    document, faults = explanations(scenario, latency, ("world.toml", "links.csv"))
    first = next(faults, None)
    accepted = f"accepted: {len(document.nodes)} nodes, {len(document.commands)} commands"
    return accepted if first is None else f"refused: {first.fault}"


class ExplainProgramTest(TestCase):
    """The answers of the tool and of the program."""

    def test_the_good_world_is_accepted(self) -> None:
        """Else the spoiled files would say nothing."""
        for profile in (1, 2, 4):
            files = good_world(profile).scenario().encode(), good_world(profile).latency().encode()
            assert answer(*files) == answer_of(program(), *files) == "accepted: 5 nodes, 4 commands"

    def test_spoiled_files(self) -> None:
        """The tool's first fault is the program's, and most of the sixteen kinds are among them."""
        kinds = set()
        for seed in SEEDS:
            files = spoiled(seed)
            said = answer_of(program(), *files)
            assert answer(*files) == said, seed
            kinds.add(said.split()[1])
        assert len(kinds) >= 12, kinds

    def test_forms_of_toml_1_1(self) -> None:
        """The program accepts them; that is said first, then that the tool cannot explain it."""
        text = WORLD.replace('node = "n0"', 'node = "\\x6e0"')
        assert text != WORLD
        status, out, _ = told(text, "", program=str(program()))
        lines = out.splitlines()
        assert (status, lines[0]) == (0, "accepted: 3 nodes, 1 commands")
        assert "cannot explain" in lines[1] and lines[1].endswith("refused: S1 NotToml")
        assert "TOML 1.1" in lines[2]

    def test_deep_nesting(self) -> None:
        """The program refuses 81 as no TOML."""
        status, out, _ = told("x = " + "[" * 81 + "]" * 81 + "\n" + WORLD, "", program=str(program()))
        lines = out.splitlines()
        assert (status, lines[0]) == (1, "refused: S1 NotToml")
        assert lines[1].endswith("refused: S2 UnknownKey top") and "80" in lines[2]

    def test_program_that_fails(self) -> None:
        """A program without an answer is told with its status."""
        status, out, err = told(WORLD, "", program=known(shutil.which("false")))
        assert (status, out) == (3, "") and err.endswith("false: status 1: nothing\n")
