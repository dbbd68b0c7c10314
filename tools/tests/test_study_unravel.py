"""Rings that unravel: what the page says of members that were stranded, by hand."""

from typing import Any
from unittest import TestCase

from chordsim_tools.members import Members
from chordsim_tools.study.page import page
from chordsim_tools.study.served import Scope
from chordsim_tools.study.trace import TraceReader
from tests.support.judging import read_trace
from tests.support.studies import row, table_of, tables_of, unwrapped

COUNTS = dict.fromkeys(
    ("cost-timeouts", "cost-timeouts-of-members", "cost-removed-members", "cost-again", "cost-stranded",
     "cost-join-failed"), "0",
)


def told(*rings: dict[str, Any], size: int = 4) -> str:
    """The page of one setting with these runs."""
    rows = []
    for seed, ring in enumerate(rings, start=1):
        cells = row(list=size, seed=seed) | COUNTS | {"stranded-at-us": ""}
        rows.append(cells | {word: str(value) for word, value in ring.items()})
    return unwrapped(page(tables_of(rows, vary={"list": [size]})))


def lost(at: int, count: int) -> dict[str, Any]:
    """A run whose ring was lost at 400 s, with so many stranded members, the first at this time in us."""
    cells = {"ringless": 3, "lost-at-us": 400_000_000, "stranded-at-us": at}
    return {**cells, "cost-stranded": count, "cost-join-failed": 2}


class UnravelTest(TestCase):
    """The head of the page and its last table."""

    def test_from_when_on(self) -> None:
        """The first stranded member of a run, and how many there were in the mean."""
        text = told({}, lost(362_040_000, 700), lost(371_000_000, 800))
        assert "list=4: 2 of 3 rings, from 362.0 s to 371.0 s on, 750 times a run." in text
        assert "list=4: 1 of 1 rings, from 362.0 s on, 700 times a run." in told(lost(362_040_000, 700))

    def test_rings_that_did_not_unravel(self) -> None:
        """Kept rings with a stranded member, rings lost without one or before one, and tables that do not say."""
        for ring in ({"stranded-at-us": 5}, {"ringless": 1, "lost-at-us": 9}, lost(401_000_000, 1)):
            assert "unravelled" not in told(ring)
        rows = [row(list=4, seed=1, **{"ringless": 1, "lost-at-us": 9})]
        assert "unravelled" not in page(tables_of(rows, vary={"list": [4]}))

    def test_table(self) -> None:
        """Counts of the rings lost beside the rates of the rings kept; in 1,000 s of members 5 are 18 an hour."""
        text = told({"cost-stranded": 5}, lost(1, 700), lost(2, 800))
        cells = table_of(text, "Who was taken for dead")["list=4"]
        assert cells["members stranded"] == "18 (1 of 3); lost rings: 750 (700..800) a run"
        assert cells["joins failed"] == "0 (1 of 3); lost rings: 2 (2..2) a run" and cells["timeouts"] == "0 (1 of 3)"
        dead = table_of(told(lost(1, 700)), "Who was taken for dead")["list=4"]
        assert (dead["members stranded"], dead["timeouts"]) == ("lost rings: 700 (700..700) a run", "-")

    def test_trace(self) -> None:
        """The first line `stranded` of the whole run, before the warm-up too."""
        for lines, wanted in ((("5 a stranded b", "7 b stranded a"), 5), ((), None)):
            reader = TraceReader(Members({"a": 1, "b": 2}, ["a", "b"]), Scope(100, 50, 50))
            read_trace(lines, reader)
            assert reader.numbers()["stranded-at-us"] == wanted
