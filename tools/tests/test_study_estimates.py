"""Where messages are estimated, each number that rests on them has its bound. All by hand.

A setting has about 5,000 messages in 1,000 s of members, so 5 a member and second, of which 3 % are 0.15."""

import csv
import json
from pathlib import Path
from tempfile import TemporaryDirectory
from typing import Any
from unittest import TestCase
from unittest.mock import patch

from chordsim_tools.messages import MESSAGES
from chordsim_tools.study import comparison
from chordsim_tools.study.bounds import bound_of
from chordsim_tools.study.compare import Pair
from chordsim_tools.study.estimates import GROUPS, MOST_ERROR, WITHIN, most_off
from chordsim_tools.study.numbers import summaries
from chordsim_tools.study.outcome import outcome
from chordsim_tools.study.page import page
from chordsim_tools.study.tables import Tables
from tests.support.studies import row, tables_of, unwrapped

GOAL = {"limits": [{"number": "messages", "is_least": False, "value": 5.5}], "lost_max": None, "least": "messages"}
ONE_SIZE = dict.fromkeys(MESSAGES, 100)


def study(*messages: int, counted: int = 0, **changes: Any) -> Tables:
    """Settings list=1, list=2 and so on. Each of six seeds has about so many messages, ten of each kind but steps."""
    rows = [
        row(**{"list": size, "seed": seed, "messages": count + seed, "messages-counted": counted})
        | {"sent-step": str(count + seed - 80)}
        for size, count in enumerate(messages, start=1) for seed in range(6)
    ]
    return tables_of(rows, vary={"list": list(range(1, len(messages) + 1))}, **changes)


class EstimatesTest(TestCase):
    """Bounds of numbers, and where they are printed."""

    def test_bytes(self) -> None:
        """With one size they are off by as much as messages. If a group alone has a size they are off by its bound."""
        # Nodes of the profiles whose messages are estimated do not leave.
        assert sorted(kind for kinds in GROUPS for kind in kinds) == sorted({*MESSAGES} - {"leave"})
        assert abs(most_off(ONE_SIZE) - 100 * MOST_ERROR) < 1e-9
        nothing = dict.fromkeys(MESSAGES, 0)
        for kinds, error in GROUPS.items():
            assert abs(most_off({**nothing, **dict.fromkeys(kinds, 100)}) - 100 * len(kinds) * error) < 1e-9
        # Two kinds of a group are 50 more and 50 less than its mean.
        assert abs(most_off({**nothing, "ping": 100}) - 50 * 2 * GROUPS["ping", "pong"] - 100 * WITHIN) < 1e-9
        # One group may have too many, and another one too few.
        sizes = {**dict.fromkeys(MESSAGES, 50), "step": 100, "step-reply": 100, "ping": 0, "pong": 0}
        wanted = 50 * MOST_ERROR + 100 * GROUPS["step", "step-reply"] + 100 * GROUPS["ping", "pong"]
        assert abs(most_off(sizes) - wanted) < 1e-9

    def test_bounds(self) -> None:
        """Those of a goal are moved by 0.15, of upkeep by as many, and of bytes of one size by 3 % of all bytes."""
        [one] = summaries(study(5000, sizes=ONE_SIZE))
        assert abs(one.error("messages") - 0.150075) < 1e-9 and one.error("upkeep") == one.error("messages")
        assert abs(one.error("bytes") - 15.008) < 0.001 and one.error("events") == 0
        bare = one.numbers["messages"].bound(0.95, 1)
        assert abs(bound_of(one, "messages", 0.95, 1) - bare - 0.150075) < 1e-9
        [counted] = summaries(study(5000, counted=1, sizes=ONE_SIZE))
        assert not any(counted.error(number) for number in ("messages", "upkeep", "bytes"))

    def test_tables_of_an_older_tool(self) -> None:
        """Their estimates may be further off, and say nothing of bytes."""
        tables = study(5000, sizes=ONE_SIZE)
        for cells in tables.runs:
            del cells["pieces-messages"]
        [one] = summaries(tables)
        assert abs(one.error("messages") - 0.30015) < 1e-9 and one.error("bytes") == float("inf")
        assert "Messages are estimated, to within 6 %, and bytes have no bound." in unwrapped(page(tables))

    def test_page(self) -> None:
        """The warning, the answer, its limit, and what is not decided have the bound."""
        text = unwrapped(page(study(5000, 5290, goal=GOAL, sizes=ONE_SIZE)))
        assert "Warning: Messages are estimated, to within 3 %, and bytes to within 3 %." in text
        off = "5.0025 ± 0.0020 (estimated, off by 0.16 at most)"
        assert f"with the least messages per member and second, {off}, of those that reach" in text, text
        assert f"messages per member and second {off}, rings kept" in text
        assert "estimated" not in page(study(5000, 5290, counted=1, goal=GOAL)).split("## Settings", maxsplit=1)[0]

    def test_comparison(self) -> None:
        """A difference of 0.25 is not more than 0.15 and 0.158, one of 0.35 is. Text and table have the bound."""
        for more, off, is_apart in ((250, 0.31, False), (350, 0.32, True)):
            tables = study(5000, 5000 + more)
            first, second = summaries(tables)
            pair = Pair(first, second)
            assert pair.is_apart("messages") == is_apart
            told = f"/member/s  estimated, off by {off} at most" + ("\n" if is_apart else "  not told apart\n")
            assert told in comparison.text_of(pair)
        with TemporaryDirectory() as name, patch.object(comparison, "whole_tables", lambda *_: tables):
            with patch.object(comparison, "write_out"):
                comparison.write_comparison(Path(name), "1", "2")
            table = (Path(name) / "compare.csv").read_text()
        lines = {line["number"]: line for line in csv.DictReader(table.splitlines())}
        assert lines["messages"]["estimate-off"] == "0.31065" and lines["served"]["estimate-off"] == "0"

    def test_answer_for_programs(self) -> None:
        """The error is told by itself, and is in the bounds."""
        [setting] = json.loads(outcome(study(5000, goal=GOAL)))["worlds"][0]["settings"]
        cost, limit = setting["cost"], setting["limits"][0]
        assert abs(cost["error"] - 0.150075) < 1e-9 and abs(limit["error"] - 0.150075) < 1e-9
        assert cost["low"] < cost["mean"] - 0.15 and cost["high"] > cost["mean"] + 0.15 and limit["shown"] > 5.15

    def test_precision(self) -> None:
        """Narrow intervals say nothing of an estimate."""
        wanted = {"number": "upkeep", "half": 0.01, "least_seeds": 5, "most_seeds": 9}
        estimate = "± says nothing of the error of an estimate."
        for counted in (0, 1):
            assert (estimate in unwrapped(page(study(5000, counted=counted, precision=wanted)))) == (not counted)
