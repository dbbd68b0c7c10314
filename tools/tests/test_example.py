"""The worked example of docs/rules.md, section 13, and the report of docs/formats.md, section 7."""

from unittest import TestCase

from chordsim_tools.reference.report import Report
from chordsim_tools.reference.simulation import Simulation, TooManyEvents
from chordsim_tools.reference.state import CmdLookup, Event, Owner, Step, StepReply, Timeout
from tests.support.worlds import EXAMPLES, ring

CHANGES = (('node = "n0"', 'node = "n3"'),)


class Recorded(Simulation):
    """A simulation that keeps the events it took."""

    taken: list[Event]

    def take(self, event: Event) -> list[str]:
        """Takes an event and keeps it."""
        self.taken = [*getattr(self, "taken", []), event]
        return super().take(event)


class ExampleTest(TestCase):
    """The start, the events, the trace and the report of the example."""

    def test_start(self) -> None:
        """The lists, predecessors, fingers and counts at the start."""
        nodes = Simulation(ring(*CHANGES)).nodes
        assert [node.succ for node in nodes] == [[1, 2], [2, 0], [0, 1]]
        assert [node.prdc for node in nodes] == [2, 0, 1]
        assert [node.fingers for node in nodes] == [{2: 2, 3: 0}, {2: 2, 3: 0}, {2: 0, 3: 0}]
        rest = [(node.count, node.place, node.epoch, node.via) for node in nodes]
        assert rest == [(2, 2, 1, 1), (2, 2, 1, 0), (2, 2, 1, 0)]

    def test_events(self) -> None:
        """The four events, under their keys."""
        run = Recorded(ring(*CHANGES))
        list(run.lines())
        assert run.taken == [
            Event(100, 1, 1, 2, CmdLookup(1)),
            Event(110, 4, 3, 0, Step(3, 1, [])),
            Event(120, 2, 3, 2, StepReply(3, Owner(1))),
            Event(140, 4, 4, 2, Timeout(3)),
        ]

    def test_trace_and_report(self) -> None:
        """The three lines, and the numbers that are not 0."""
        run = Simulation(ring(*CHANGES))
        report = Report(run.scenario.profile)
        lines = list(run.lines())
        for line in lines:
            report.read(line)
        assert lines == [
            "100 n3 lookup 1",
            "120 n3 found 1 n1 hops=1 timeouts=0 us=20",
            "200 audit members=3 dead=0 ring=3 ordered=yes principals=3 sufficient=yes",
        ]
        numbers = {word: number for word, number in report.numbers(run.events).items() if number != 0}
        ones = ("lookups", "found", "hops-sum", "hops-greatest", "audits")
        times = ("us-sum", "us-least", "us-median", "us-greatest")
        assert numbers == {"events": 4} | dict.fromkeys(ones, 1) | dict.fromkeys(times, 20)

    def test_report_of_the_ring(self) -> None:
        """The report of examples/ring.toml is the one kept in examples/reports, with 24 lines."""
        run = Simulation(ring())
        report = Report(run.scenario.profile)
        for line in run.lines():
            report.read(line)
        text = report.text(run.events)
        assert text == (EXAMPLES / "reports" / "ring.report").read_text()
        assert len(text.splitlines()) == 24

    def test_median(self) -> None:
        """The lower one of two in the middle, and 0 if no lookup was found."""
        medians: list[tuple[list[int], int]] = [([], 0), ([7], 7), ([9, 1, 5], 5), ([9, 1, 5, 7], 5)]
        for times, median in medians:
            report = Report(1)
            for us in times:
                report.read(f"10 n0 found 1 n1 hops=1 timeouts=0 us={us}")
            assert report.numbers(0)["us-median"] == median

    def test_too_many_events(self) -> None:
        """The example has four events: a limit of four is kept, a limit of three is not."""
        list(Simulation(ring(*CHANGES, ("seed = 1", "seed = 1\nmax_events = 4"))).lines())
        run = Simulation(ring(*CHANGES, ("seed = 1", "seed = 1\nmax_events = 3")))
        try:
            list(run.lines())
        except TooManyEvents:
            assert run.events == 3
        else:
            raise AssertionError("the fourth event was taken")
