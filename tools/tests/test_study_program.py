"""How a study calls the program: two processes and a pipe, with programs of the test's own."""

import os
import tempfile
import time
from collections.abc import Iterator
from contextlib import contextmanager
from pathlib import Path
from unittest import TestCase

from chordsim_tools.cli import Failure
from chordsim_tools.study.lookups import HEADING, Table
from chordsim_tools.study.program import Program
from chordsim_tools.study.reading import Readers

WHOLE = f"""\
run) printf '10 a lookup 5\\nevents 4\\nlookups 0\\n' ;;
judge) grep -v ' lookup ' > "$5"; echo "$@" > "$(dirname "$0")/words"; echo {HEADING} ;;
"""
WORKS = "run) echo events 4; exec sleep 0 ;;\n"
FILLS = "run) while :; do echo 10 a lookup 5; done 2> /dev/null; echo failed: 4 Write >&2; exit 3 ;;\n"
"""Writes until nobody reads it."""


@contextmanager
def program_of(cases: str) -> Iterator[Program]:
    """A program with these cases of a shell, which writes its number into a file."""
    with tempfile.TemporaryDirectory() as name:
        path = Path(name) / "program"
        path.write_text(f'#!/bin/sh\necho $$ >> "$(dirname "$0")/numbers"\ncase $1 in\n{cases}esac\n')
        path.chmod(0o755)
        yield Program(path, Path("s"), None)
        for number in (Path(name) / "numbers").read_text().split():
            assert not Path("/proc", number).exists(), "a process is left"


def told(cases: str) -> tuple[int, str]:
    """What stops a run of this program."""
    with program_of(cases) as one:
        try:
            one.judged([], Readers().read)
        except Failure as fault:
            return fault.status, fault.text.replace(f"{one.path} ", "")
    return 0, ""


class ProgramTest(TestCase):
    """Table and report, and what is told of failures."""

    def test_whole(self) -> None:
        """Edges are told in order, each once, and not the start."""
        with program_of(WHOLE) as one:
            assert one.judged([0, 30, 20, 30], Readers().read) == (Table(), {"events": 4, "lookups": 0})
            words = (one.path.parent / "words").read_text().split()
            assert words[-2:] == ["--edges", "20,30"] and words[:4] == ["judge", "--scenario", "s", "--digest"]
            assert not Path(words[4]).parent.exists()
            one.judged([0], Readers().read)
            assert "--edges" not in (one.path.parent / "words").read_text()

    def test_run_that_fails(self) -> None:
        """Its failure is told, whatever the other one says."""
        # As the program does, it goes on if nobody reads what it writes.
        run = "run) trap '' PIPE; echo 10 a loo 2> /dev/null; echo failed: 3 TooManyEvents >&2; exit 3 ;;\n"
        for judge in ("judge) cat > /dev/null; echo refused: line 1 >&2; exit 1 ;;\n", "judge) exit 0 ;;\n"):
            assert (answer := told(run + judge)) == (3, "the program says: failed: 3 TooManyEvents"), answer
        assert told("run) echo refused: S1 NotToml >&2; exit 1 ;;\njudge) cat ;;\n")[0] == 1
        assert told("run) kill -9 $$ ;;\njudge) cat ;;\n") == (3, "the program was ended by SIGKILL")

    def test_judge_that_fails(self) -> None:
        """That the pipe is closed then is no failure of its own."""
        for run in (WORKS, FILLS):
            fails = "judge) echo refused: line 2 is of no run of the scenario >&2; exit 1 ;;\n"
            assert told(run + fails) == (3, "the program says: refused: line 2 is of no run of the scenario")
        assert told(FILLS + "judge) kill -9 $$ ;;\n") == (3, "the program was ended by SIGKILL")

    def test_judge_that_does_not_read(self) -> None:
        """It ends well, with another output."""
        assert told(FILLS + "judge) echo no table ;;\n") == (3, "judge: the output is not that of chordsim")
        assert told(FILLS + f"judge) echo {HEADING} ;;\n") == (3, "judge: the output is not that of chordsim")
        assert told(WORKS + f'judge) echo {HEADING}; : > "$5" ;;\n') == (3, "run: the output is not that of chordsim")

    def test_interrupted(self) -> None:
        """Whatever ends the reading ends both processes."""
        slow = "run) exec sleep 60 ;;\njudge) exec sleep 60 ;;\n"
        with program_of(slow) as one, self.assertRaises(KeyboardInterrupt):
            numbers = one.path.parent / "numbers"
            with one.output(["run"], ["judge"]):
                begin = time.monotonic()
                while not numbers.exists() or numbers.read_text().count("\n") < 2:
                    assert time.monotonic() < begin + 60
                    time.sleep(0.01)
                raise KeyboardInterrupt

    def test_report_alone(self) -> None:
        """The trace goes nowhere; lines with a time are none of the report."""
        with program_of("run) echo 5 a; echo lookups 4 ;;\n") as one:
            self.assertRaises(Failure, one.run)
        with program_of('run) [ "$4 $5 $6" = "--serial --trace /dev/null" ] && echo 5 a && echo events 4 ;;\n') as one:
            assert one.run() == {"events": 4} and os.devnull == "/dev/null"
