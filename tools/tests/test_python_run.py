"""Runs from Python: reports, tables of traces, and what fails."""

import csv
import gc
import importlib
import json
import operator
import os
import pickle
import stat
import sys
import tempfile
from collections.abc import Callable
from functools import partial
from pathlib import Path
from types import SimpleNamespace
from typing import Any, TypeVar, cast
from unittest import SkipTest, TestCase, mock

from chordsim import ChordsimError, Failed, LookupRow, Refused, Scenario, Table, run
from chordsim_tools.trace.command import main as trace_tool
from tests.support.programs import ended, program
from tests.support.rings import ONE_HOP, WHOLE, text_of_three
from tests.support.worlds import EXAMPLES, RING

Error = TypeVar("Error", bound=ChordsimError)
ROW = ("n3", 1, 100, 120, 20, 1, 0, "n1", "n1", "right", "right")
"""The lookup of docs/rules.md, section 13: n3 asks n0, and n1 owns the key."""


def failure(kind: type[Error], call: Callable[[], object]) -> Error:
    """What a call raises, which is of this kind."""
    try:
        call()
    except kind as fault:
        return fault
    raise AssertionError("it did not fail")


def churn() -> Scenario:
    """A ring whose lookups end in all ways."""
    return Scenario.generate(nodes=24, seed=3, profile=4, list=2, duration="20s", lifetime="exp:5s", down="exp:2s")


class RunTest(TestCase):
    """Runs of the program."""

    def setUp(self) -> None:
        """A folder to work in, and for temporary files."""
        program()
        folder = tempfile.TemporaryDirectory()
        self.addCleanup(folder.cleanup)
        self.folder = Path(folder.name)
        self.enterContext(mock.patch("tempfile.tempdir", folder.name))

    def left(self) -> list[str]:
        """What is in the folder."""
        return sorted(os.listdir(self.folder))

    def test_report(self) -> None:
        """The numbers are those of the kept report, in its order; they cannot be changed, and no file is left."""
        result = run(Scenario.of_text(RING))
        words = [line.split() for line in (EXAMPLES / "reports" / "ring.report").read_text().splitlines()]
        self.assertEqual([[word, str(number)] for word, number in result.report.items()], words)
        self.assertEqual((result["lookups"], result["lost"], result.trace), (1, 0, None))
        with self.assertRaises(TypeError):
            operator.setitem(cast(Any, result.report), "lost", 1)
        with self.assertRaisesRegex(KeyError, "the report has no 'us-mediam': did you mean 'us-median'?"):
            _ = result["us-mediam"]
        self.assertEqual(self.left(), [])

    def test_plans(self) -> None:
        """Report and trace are equal for all engines; the trace is in the file that is named."""
        ring, traces = churn(), []
        plans: list[tuple[int, str | None, int | None, str | None]] = [
            (1, None, None, None), (3, None, 5, "block"), (2, "crew", None, None), (1, "serial", None, "rr"),
        ]
        results = [run(ring, *plan, trace=self.folder / f"{at}.trace") for at, plan in enumerate(plans)]
        for at, result in enumerate(results):
            self.assertEqual(result.trace, self.folder / f"{at}.trace")
            traces.append((self.folder / f"{at}.trace").read_bytes())
            self.assertEqual((result.report, traces[at]), (results[0].report, traces[0]))
        self.assertEqual(traces[0].count(b" found "), results[0]["found"])
        self.assertEqual({run(ring), run(ring, workers=4)}, {run(ring, workers=2)})
        again = pickle.loads(pickle.dumps(results[0]))
        self.assertEqual((again, again.lookups), (results[0], results[0].lookups))

    def test_tables(self) -> None:
        """The lookup and the audit of the worked example, and lists of named fields."""
        result = run(Scenario.of_text(text_of_three(ONE_HOP)), trace=True)
        self.assertEqual(list(result.lookups), [ROW])
        self.assertEqual((result.lookups[0].right_owner, result.lookups[0].us), ("n1", 20))
        [audit] = result.audits
        self.assertEqual(audit, (200, 3, 0, 3, True, 3, True, True, False))
        self.assertEqual(result.audits.columns["at_us"], [int(WHOLE.split()[0])])
        self.assertEqual(result.summary()["answers"]["right_strict"], 1)

    def test_rows_of_the_tool(self) -> None:
        """Lookups and counts of a ring with churn are those of tools/trace, with lookups that were cut off or lost."""
        ring = churn()
        ring.write(self.folder / "a.toml")
        result = run(ring, trace=self.folder / "a.trace")
        table = self.folder / "a.csv"
        arguments = [str(self.folder / name) for name in ("a.trace", "a.toml")]
        self.assertEqual(ended(trace_tool, *arguments, "--lookups", str(table))[0], 0)
        with open(table, encoding="ascii", newline="") as file:
            names, *rows = csv.reader(file)
        self.assertEqual([["" if cell is None else str(cell) for cell in row] for row in result.lookups], rows)
        self.assertEqual(names, list(result.lookups.names))
        self.assertEqual({row[9] for row in rows} - {"right", "wrong"}, {"lost", "cut-by-crash", "cut-by-end"})
        facts = json.loads(ended(trace_tool, *arguments, "--json")[1])
        self.assertEqual({**facts, "report": dict(result.report)}, {**result.summary(), "scenario": arguments[1]})
        counts = [sum(row.whole for row in result.audits), sum(row.torn for row in result.audits)]
        self.assertEqual(counts, [facts["audits"]["whole"], facts["audits"]["torn"]])
        self.assertEqual(len(result.audits), facts["audits"]["all"])

    def test_temporary_trace(self) -> None:
        """It is there as long as the result is, and the result stays in its process."""
        result = run(Scenario.of_text(RING), trace=True)
        assert result.trace is not None
        self.assertTrue(result.trace.exists())
        self.assertEqual(failure(ChordsimError, lambda: pickle.dumps(result)).remedy, "name a file: trace=PATH")
        del result
        gc.collect()
        self.assertEqual(self.left(), [])
        failure(Refused, lambda: run(Scenario.of_text("x"), trace=True))
        self.assertEqual(self.left(), [])

    def test_traces_that_cannot_be_read(self) -> None:
        """Without a trace there are no tables; a trace that is another run's by now is refused."""
        ring = Scenario.of_text(text_of_three(ONE_HOP))
        fault = failure(ChordsimError, lambda: run(ring).lookups)
        self.assertEqual(fault.remedy, "call run(scenario, trace=True), or trace=PATH")
        result = run(ring, trace=self.folder / "a.trace")
        run(Scenario.of_text(text_of_three("")), trace=self.folder / "a.trace")
        fault = failure(Refused, lambda: result.lookups)
        self.assertIn("has `lookups 1`, and the trace 0: is it the report of this run?", fault.text)

    def test_no_file_that_was_read_is_overwritten(self) -> None:
        """A trace that would replace a file of the scenario is refused, also after a change."""
        for name, text in (("a.toml", RING), ("a.csv", "n0,n1,20\n")):
            (self.folder / name).write_text(text)
        ring = Scenario.read(self.folder / "a.toml", self.folder / "a.csv").with_(seed=2)
        for name, text in (("a.toml", RING), ("a.csv", "n0,n1,20\n")):
            fault = failure(Refused, partial(run, ring, trace=self.folder / name))
            self.assertEqual(fault.text, f"trace: {self.folder / name} is a file that is read")
            self.assertEqual((self.folder / name).read_text(), text)

    def test_refused_arguments(self) -> None:
        """Arguments that the program refuses are refused by their names."""
        ring = Scenario.of_text(RING)
        calls: list[tuple[str, Callable[[], object]]] = [
            ("workers", lambda: run(ring, workers=0)), ("parts", lambda: run(ring, parts=513)),
            ("engine", lambda: run(ring, engine="fast")), ("split", lambda: run(ring, split="x")),
            ("trace", lambda: run(ring, trace="a\0b")), ("scenario", lambda: run(cast(Any, "ring.toml"))),
        ]
        for place, call in calls:
            self.assertEqual(failure(Refused, call).place, place)

    def test_failures(self) -> None:
        """A run that fails has the program's status and text; a missing program and a signal are told too."""
        ring = Scenario.of_text(text_of_three(ONE_HOP).replace("seed = 1", "seed = 1\nmax_events = 1"))
        stub = self.folder / "stub"
        nowhere = self.folder / "none" / "a.trace"
        faults = [failure(Failed, partial(run, ring, trace=file)) for file in (self.folder / "a.trace", nowhere)]
        for script in ("kill -9 $$", "echo unlike a report"):
            stub.write_text(f"#!/bin/sh\n{script}\n")
            stub.chmod(stub.stat().st_mode | stat.S_IXUSR)
            named = self.folder / str(len(faults))
            stub.rename(named)
            with mock.patch.dict(os.environ, CHORDSIM=str(named)):
                faults.append(failure(Failed, lambda: run(ring)))
        with mock.patch.dict(os.environ, CHORDSIM="/no/such/program"):
            faults.append(failure(Failed, lambda: run(ring)))
        self.assertEqual(
            [(fault.text.partition(" ")[0], fault.status) for fault in faults],
            [("3", 3), ("4", 3), ("the", -9), ("this", 3), ("the", 3)],
        )
        self.assertEqual(faults[0].text, "3 TooManyEvents")
        self.assertEqual((self.folder / "a.trace").read_text(), "100 n3 lookup 1\n")
        self.assertEqual(faults[2].text, "the program was ended by signal 9")
        self.assertEqual(faults[0].remedy, "take a greater max_events, or a shorter duration_us")
        self.assertIn("the program is missing: CHORDSIM=/no/such/program", faults[4].text)


class TableTest(TestCase):
    """Tables for other libraries."""

    rows = (LookupRow(*ROW), LookupRow("n0", 2**100, 7, None, None, None, None, None, None, "lost", "lost"))

    def table(self) -> Table[LookupRow]:
        """A table of two rows."""
        return Table(LookupRow._fields, self.rows)

    def library(self, name: str) -> Any:
        """A library, without which a test is skipped."""
        try:
            return importlib.import_module(name)
        except ImportError:
            raise SkipTest(f"{name} is not installed") from None

    def test_sequence(self) -> None:
        """A table is a sequence, and a part of it is a table."""
        table = self.table()
        self.assertEqual((len(table), table[-1], table[:1]), (2, self.rows[1], Table(LookupRow._fields, self.rows[:1])))
        self.assertEqual(table.columns["us"], [20, None])

    def test_pandas(self) -> None:
        """Whole numbers stay whole beside missing values, and wide keys stay exact."""
        pandas = self.library("pandas")
        frame = self.table().to_pandas()
        self.assertEqual(list(frame.columns), list(LookupRow._fields))
        self.assertEqual((str(frame["us"].dtype), frame["us"][0], frame["us"][1]), ("Int64", 20, pandas.NA))
        self.assertEqual(list(frame["key"]), [1, 2**100])
        self.assertEqual(list(frame["named"]), ["n1", pandas.NA])

    def test_arrow(self) -> None:
        """Whole numbers stay whole beside missing values, and wide keys are texts."""
        pyarrow = self.library("pyarrow")
        table = self.table().to_arrow()
        self.assertEqual(table.schema.field("us").type, pyarrow.int64())
        self.assertEqual(table.column("us").to_pylist(), [20, None])
        self.assertEqual(table.column("key").to_pylist(), ["1", str(2**100)])

    def test_arrow_by_a_stand_in(self) -> None:
        """The types and cells that pyarrow gets."""
        stand_in = SimpleNamespace(
            array=lambda cells, type: (type, cells), table=dict, int64=lambda: "int64", string=lambda: "string",
        )
        with mock.patch.dict(sys.modules, pyarrow=stand_in):
            table = self.table().to_arrow()
        self.assertEqual(table["us"], ("int64", [20, None]))
        self.assertEqual(table["key"], ("string", ["1", str(2**100)]))
        self.assertEqual(table["named"], ("string", ["n1", None]))

    def test_missing_library(self) -> None:
        """The error names the library and the remedy."""
        with mock.patch.dict(sys.modules, pyarrow=None, pandas=None):
            for call, name in ((self.table().to_arrow, "pyarrow"), (self.table().to_pandas, "pandas")):
                fault = failure(Failed, call)
                self.assertTrue(fault.text.startswith(f"{name} cannot be imported"))
                self.assertEqual(fault.remedy, f"install it, as by `pip install {name}`")
