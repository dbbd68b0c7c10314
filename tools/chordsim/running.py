"""One run of a scenario, and what came of it."""

import os
import shutil
import tempfile
import weakref
from collections.abc import Iterator, Mapping
from dataclasses import dataclass, field
from functools import cached_property
from pathlib import Path
from typing import Any, NamedTuple

from chordsim.calling import output_of
from chordsim.errors import ChordsimError, Failed, failures_raised, refused_argument
from chordsim.names import Name, name_of
from chordsim.scenario import Scenario, files_of
from chordsim.table import Table
from chordsim_tools.explain.hints import close_to
from chordsim_tools.files import check_output
from chordsim_tools.scenario.reading import read_scenario
from chordsim_tools.trace import reading
from chordsim_tools.trace.lines import Audit
from chordsim_tools.trace.lookups import LookupRow, lookup_rows
from chordsim_tools.trace.summary import summary


class Report(Mapping[str, int]):
    """The numbers of a report by their words, in its order."""

    def __init__(self, text: str) -> None:
        """The report that the program printed."""
        pairs = [line.split(" ") for line in text.splitlines()]
        try:
            self._numbers = {word: int(number) for word, number in pairs}
        except ValueError:
            raise Failed(f"this is no report of chordsim: {text[:80]!r}") from None

    def __getitem__(self, word: str) -> int:
        """A number. KeyError says which word was likely meant."""
        if word not in self._numbers:
            meant = close_to(str(word), self._numbers)
            hint = f"its words are {', '.join(self._numbers)}" if meant is None else f"did you mean {meant!r}?"
            raise KeyError(f"the report has no {word!r}: {hint}")
        return self._numbers[word]

    def __iter__(self) -> Iterator[str]:
        """The words."""
        return iter(self._numbers)

    def __len__(self) -> int:
        """How many numbers there are."""
        return len(self._numbers)

    def __hash__(self) -> int:
        """Equal reports have equal ones."""
        return hash(frozenset(self._numbers.items()))

    def __repr__(self) -> str:
        """As a dictionary."""
        return repr(self._numbers)


class AuditRow(NamedTuple):
    """An audit: the facts of its line, and whether tools/trace counts the ring as whole and as torn."""

    at_us: int
    members: int
    dead: int
    ring: int
    ordered: bool
    principals: int
    sufficient: bool
    whole: bool
    torn: bool


@dataclass(frozen=True)
class Result:
    """What a run left: its report, and its trace if one was kept."""

    scenario: Scenario
    report: Report
    trace: Path | None = None
    """The file of the trace. One of `trace=True` is removed with the result."""
    is_temporary: bool = field(default=False, repr=False)

    def __post_init__(self) -> None:
        """Sees to it that a temporary trace goes with the result."""
        if self.is_temporary and self.trace is not None:
            weakref.finalize(self, remove_folder, self.trace.parent, os.getpid())

    def __getitem__(self, word: str) -> int:
        """A number of the report."""
        return self.report[word]

    def __reduce__(self) -> Any:
        """Refuses to be sent to another process with a trace that goes with this one."""
        if self.is_temporary:
            raise ChordsimError("a result with a temporary trace stays in its process", "name a file: trace=PATH")
        return Result, (self.scenario, self.report, self.trace)

    @cached_property
    def lookups(self) -> Table[LookupRow]:
        """A row for each lookup, as `tools/trace --lookups` writes them."""
        return Table(LookupRow._fields, tuple(lookup_rows(self._run)))

    @cached_property
    def audits(self) -> Table[AuditRow]:
        """A row for each audit."""
        return Table(AuditRow._fields, tuple(audit_row(one) for one in self._run.history.lines.audits))

    def summary(self) -> dict[str, Any]:
        """The summary that `tools/trace --json` prints of the trace."""
        return summary(self._run)

    @cached_property
    def _run(self) -> reading.Run:
        """The trace, read."""
        if self.trace is None:
            raise ChordsimError("this run kept no trace", "call run(scenario, trace=True), or trace=PATH")
        files = files_of(self.scenario)
        with failures_raised():
            found = reading.read_run(str(self.trace), read_scenario(files.scenario, files.latency or b""))
            found.report.update(self.report)
            reading.check_report(str(self.trace), found)
        return found


def run(
    scenario: Scenario, workers: int = 1, engine: str | None = None, parts: int | None = None,
    split: str | None = None, trace: Name | bool | None = None,
) -> Result:
    """Runs a scenario. The options are those of `chordsim run`; without a trace none is written.

    A trace is a file that is written, or True for a temporary file that is removed with the result."""
    if not isinstance(scenario, Scenario):
        raise refused_argument("scenario", f"{scenario!r} is no Scenario", "Scenario.read(path) reads one")
    given = {"engine": engine, "parts": parts, "split": split}
    options = ["--workers", str(workers)]
    options += [word for name, value in given.items() if value is not None for word in (f"--{name}", str(value))]
    if trace is None or trace is False:
        return Result(scenario, report_of(scenario, options, os.devnull))
    if trace is True:
        return run_for_now(scenario, options)
    file = os.path.abspath(name_of("trace", trace))
    with failures_raised():
        check_output("trace", file, scenario.origins)
    return Result(scenario, report_of(scenario, options, file), Path(file))


def run_for_now(scenario: Scenario, options: list[str]) -> Result:
    """The result with a temporary trace. If the run fails, nothing is left."""
    with failures_raised():
        folder = Path(tempfile.mkdtemp(prefix="chordsim-"))
    try:
        report = report_of(scenario, options, str(folder / "trace"))
    except BaseException:
        shutil.rmtree(folder, ignore_errors=True)
        raise
    return Result(scenario, report, folder / "trace", True)


def report_of(scenario: Scenario, options: list[str], trace: str) -> Report:
    """The report of a run that writes this trace."""
    return Report(output_of(files_of(scenario), "run", *options, "--trace", trace))


def remove_folder(folder: Path, process: int) -> None:
    """Removes a folder, unless this is a copy of the process that made it."""
    if os.getpid() == process:
        shutil.rmtree(folder, ignore_errors=True)


def audit_row(one: Audit) -> AuditRow:
    """The row of an audit."""
    return AuditRow(
        one.time, one.members, one.dead, one.ring, one.is_ordered, one.principals, one.is_sufficient, one.is_whole,
        one.is_torn,
    )
