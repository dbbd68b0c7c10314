"""One run by itself: all that it needs as texts, so that any process or machine can do it."""

import gc
import tempfile
from collections.abc import Iterator
from contextlib import contextmanager
from dataclasses import dataclass
from pathlib import Path
from typing import Any

from chordsim_tools.cli import Failure
from chordsim_tools.members import Members
from chordsim_tools.scenario.classes import expanded
from chordsim_tools.study.answers import answer_numbers
from chordsim_tools.study.curves import Curves
from chordsim_tools.study.document import document_of, toml_text
from chordsim_tools.study.latencies import Latencies
from chordsim_tools.study.messages import Span, message_numbers
from chordsim_tools.study.pieces import Pieces
from chordsim_tools.study.program import Program
from chordsim_tools.study.reading import Readers
from chordsim_tools.study.repairs import Repairs
from chordsim_tools.study.served import scope_of
from chordsim_tools.study.trace import TraceReader
from chordsim_tools.study.trouble import Trouble


@dataclass(frozen=True)
class Task:
    """What a run is made of, and what is read from its trace."""

    name: str
    scenario: str
    latency: bytes | None
    window_us: int
    warmup_us: int
    cooldown_us: int
    made_of: str
    spans: tuple[tuple[str, int, int], ...] = ()


def readers_of(task: Task, top: dict[str, Any], idents: dict[str, int]) -> tuple[TraceReader, Curves, Trouble]:
    """The readers of the run's trace."""
    initial = [node["name"] for node in top["node"] if node.get("initial") is True]
    scope = scope_of(top, task.window_us, task.warmup_us, task.cooldown_us)
    curves = Curves(top["duration_us"], task.window_us)
    spans = {name: scope.within(begin, end) for name, begin, end in task.spans}
    reader = TraceReader(Members(idents, initial), scope, spans)
    return reader, curves, Trouble(reader.members, top, task.warmup_us)


def events_before(top: dict[str, Any], time: int, program: Path, latency: Path | None) -> int:
    """How many events a run has before a time: those of the same run that ends then."""
    if time == 0:
        return 0
    commands = [one for one in top.get("command", []) if one["at_us"] < time]
    with tempfile.TemporaryDirectory() as folder:
        scenario = Path(folder) / "warmup.toml"
        shorter = {word: value for word, value in top.items() if word != "detail"}
        text = toml_text({**shorter, "duration_us": min(time, top["duration_us"]), "command": commands})
        scenario.write_text(text, encoding="utf-8")
        return Program(program, scenario, latency).run()["events"]


def span_of(top: dict[str, Any], events: int, reader: TraceReader, latencies: Latencies) -> Span:
    """What messages are counted or estimated from. An estimate alone needs to know how many stabilizations begin."""
    if reader.scope.has_detail:
        return Span(top, events, reader.population)
    repairs = Repairs(top, latencies)
    begun = repairs.begun(reader.members, reader.scope.warmup_us, top["duration_us"])
    return Span(top, events, reader.population, begun, repairs.skipped())


@contextmanager
def without_collector() -> Iterator[None]:
    """Does not look for objects in circles: a run makes many objects, and none of these."""
    was_enabled = gc.isenabled()
    gc.disable()
    try:
        yield
    finally:
        if was_enabled:
            gc.enable()


@without_collector()
def result_of(task: Task, program: Path, scenario: Path, latency: Path | None) -> dict[str, Any]:
    """Runs the program with the task's two files, and gives the result as `done/` keeps it."""
    caller = Program(program, scenario, latency)
    written = document_of(task.scenario)
    top = expanded(written)
    idents = caller.idents([node["name"] for node in top["node"]])
    reader, curves, trouble = readers_of(task, top, idents)
    latencies = Latencies(top, task.latency or b"")
    pieces = Pieces(reader.scope, reader.members)
    readers = Readers(reader, curves, trouble, pieces)
    table, report = caller.judged(reader.scope.edges(), readers.read)
    if (len(table), len(table.answered)) != (report.get("lookups"), report.get("found")):
        raise Failure(3, "the report does not count the lookups of the trace")
    reader.take(table)
    numbers = reader.numbers()
    events = report["events"] - events_before(written, task.warmup_us, program, latency)
    span = span_of(top, events, reader, latencies)
    return {
        "made_of": task.made_of,
        "report": report,
        "numbers": {
            **numbers, **message_numbers(reader.traffic, span), **trouble.numbers(),
            **pieces.numbers(reader.judged), **answer_numbers(reader.judged.table.answered, reader.members, latencies),
            "scenario-list": top["list"], "scenario-bits": top["bits"],
        },
        "curves": curves.numbers(reader.judged),
        "series": reader.over_time.rows(),
    }
