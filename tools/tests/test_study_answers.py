"""The columns of runs.csv on whom answers name, and on stretch."""

from typing import Any
from unittest import TestCase

from chordsim_tools.members import Members
from chordsim_tools.study.answers import answer_numbers
from chordsim_tools.study.latencies import Latencies
from tests.support.judging import table_of

NODES: list[dict[str, Any]] = [{"name": name} for name in ("a", "b", "c", "d")]


def told(top: dict[str, Any], *lines: str, rows: bytes = b"") -> dict[str, int | str | None]:
    """The columns of a ring of a, b and c, which d joins: lookups begun from 100 to 800 us are judged."""
    members = Members({"a": 1, "b": 2, "c": 3, "d": 4}, ["a", "b", "c"])
    answered = table_of(lines, members).by_begins.between(100, 800).answered
    return answer_numbers(answered, members, Latencies(top, rows))


class AnswersTest(TestCase):
    """Answers to judged lookups: how many name each member of the end, and their times beside round trips."""

    def test_owned(self) -> None:
        """Of a, b, c and d the last two are named never and three times; what is not judged counts nowhere."""
        found = [f"{time} a found 9 {owner} hops=1 timeouts=0 us=50" for time, owner in (
            (149, "c"), (150, "a"), (300, "b"), (400, "d"), (500, "d"), (849, "d"), (850, "c"),
        )]
        columns = told({"node": NODES, "latency_us": 10}, "120 d member", "130 a lost 9 hops=1 timeouts=1 us=9", *found)
        owned = {word: number for word, number in columns.items() if word.startswith("owned")}
        assert owned == {"owned-p1": 0, "owned-p50": 1, "owned-p99": 3, "owned-most": 3}

    def test_stretch(self) -> None:
        """A row has 20 us one way, all others 10. Two and a half, four and seven and a half round trips."""
        top = {"node": NODES, "latency_us": 10}
        found = [f"500 a found 9 {owner} hops=1 timeouts=0 us={taken}" for owner, taken in (
            ("b", 100), ("c", 80), ("c", 150), ("a", 400),
        )]
        columns = told(top, *found, rows=b"a,b,20\n")
        assert [columns[f"stretch-p{share}"] for share in (10, 50, 90)] == ["2.500", "4.000", "7.500"]

    def test_coordinates(self) -> None:
        """Heights of 2 and 3 and a way of 5 make 10 us one way: 90 us are four and a half round trips."""
        places = [{"x_us": 0, "y_us": 0, "height_us": 2}, {"x_us": 3, "y_us": 4, "height_us": 3}]
        nodes = [node | places[node["name"] != "a"] for node in NODES]
        columns = told({"node": nodes, "latency_us": 1}, "500 a found 9 b hops=1 timeouts=0 us=90")
        assert columns["stretch-p50"] == "4.500"

    def test_nothing(self) -> None:
        """Without a judged answer members have none, and there is no stretch."""
        columns = told({"node": NODES, "latency_us": 10})
        assert (columns["owned-most"], columns["owned-p99"], columns["stretch-p50"]) == (0, 0, None)
