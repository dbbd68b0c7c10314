"""The reports of the quick examples are those kept in examples/reports. Takes some seconds."""

from unittest import TestCase

from chordsim_tools.reference.report import Report
from chordsim_tools.reference.simulation import Simulation
from chordsim_tools.scenario.reading import read_scenario
from tests.support.worlds import EXAMPLES

QUICK = (
    "ring", "check_predecessor", "bootstrap_nodes", "half_crash", "join_storm", "churn64", "slow_repair", "lossy64",
    "retries64", "deployed64", "coordinates64", "detail16",
)


class ReportsTest(TestCase):
    """The reports of the examples."""

    def test_reports_of_the_quick_examples(self) -> None:
        """All but churn512, which takes minutes."""
        for name in QUICK:
            run = Simulation(read_scenario((EXAMPLES / f"{name}.toml").read_bytes(), b""))
            report = Report(run.scenario.profile)
            for line in run.lines():
                report.read(line)
            assert report.text(run.events) == (EXAMPLES / "reports" / f"{name}.report").read_text(), name
