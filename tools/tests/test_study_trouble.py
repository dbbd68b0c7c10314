"""Members that are taken for dead, by hand and as the reference simulator removes them from successor lists."""

import tomllib
from collections.abc import Iterable
from unittest import TestCase

from chordsim_tools.members import Members
from chordsim_tools.reference.simulation import Simulation
from chordsim_tools.reference.state import Event, Purpose, Status, Timeout
from chordsim_tools.scenario.reading import read_scenario
from chordsim_tools.study.page import page
from chordsim_tools.study.reading import LineReader, Taker
from chordsim_tools.study.served import Scope, scope_of
from chordsim_tools.study.trouble import Trouble
from tests.support.judging import read_digest
from tests.support.studies import row, table_of, tables_of
from tests.support.worlds import EXAMPLES, SWITCHED_OFF

NAMES = ("timeouts", "timeouts-of-members", "removed-members", "again", "stranded", "join-failed")
IDENTS = {"a": 10, "b": 20, "c": 30, "d": 40}


def numbers_of(*lines: str, warmup_us: int = 0, detail: bool = False) -> list[int | str | None]:
    """What is counted in these lines; a, b and c are members, and a timeout takes 100 us."""
    trouble = Trouble(Members(IDENTS, ["a", "b", "c"]), {"timeout_us": 100, "detail": detail}, warmup_us)
    read_digest(lines, Scope(1000, 1000), trouble)
    return [trouble.numbers()[f"cost-{name}"] for name in NAMES]


def with_detail(*lines: str) -> list[int | str | None]:
    """The same of a run with detail."""
    return numbers_of(*lines, detail=True)


class Removing(Simulation):
    """A simulation that counts the members that leave a successor list after a timeout."""

    removed = 0

    def take(self, event: Event) -> list[str]:
        """Takes an event."""
        call = self.nodes[event.target].calls.get(event.body.call) if isinstance(event.body, Timeout) else None
        asked = None if call is None or call.purpose is not Purpose.STATE else self.nodes[call.asked]
        lines = super().take(event)
        if asked is not None and asked.status == Status.MEMBER and any(" timeout " in line for line in lines):
            self.removed += 1
        return lines


class Following(LineReader):
    """Reads who is a member."""

    def __init__(self, members: Members) -> None:
        """The members, which change."""
        self.members = members

    def takers(self) -> Iterable[tuple[str, Taker]]:
        """Lines of nodes that come and go."""
        return [("member", self.come), *((word, self.go) for word in ("crash", "leave", "stranded"))]

    def come(self, _: int, fields: list[str]) -> None:
        """A node is a member."""
        self.members.add(fields[1])

    def go(self, _: int, fields: list[str]) -> None:
        """A node is no member."""
        self.members.remove(fields[1])


class TroubleTest(TestCase):
    """What is counted."""

    def test_members_and_others(self) -> None:
        """b is a member and d is none; a node may be called as a word is."""
        assert numbers_of("100 a timeout b", "100 a timeout d", "105 timeout timeout c") == [3, 2, 0, 0, 0, 0]
        assert numbers_of("100 a again step b", "100 a stranded c", "101 d join-failed") == [0, 0, 0, 1, 1, 1]
        audit = "100 audit members=3 dead=0 ring=3 ordered=yes principals=3 sufficient=yes"
        assert numbers_of("99 a timeout b", audit, "100 a timeout b", warmup_us=100) == [1, 1, 0, 0, 0, 0]

    def test_removed(self) -> None:
        """A request for the state or its reply was lost within a timeout; each loss removes one node at most."""
        assert numbers_of("50 a lose get-state b", "150 a timeout b", "150 a timeout b") == [2, 2, 1, 0, 0, 0]
        assert numbers_of("60 b lose state-reply a", "150 a timeout b") == [1, 1, 1, 0, 0, 0]
        for lost in ("50 a lose step b", "60 a lose state-reply b", "50 a lose get-state c", "49 a lose get-state b"):
            assert numbers_of(lost, "150 a timeout b") == [1, 1, 0, 0, 0, 0]
        again = ("50 a lose get-state b", "150 a again get-state b", "160 b lose state-reply a", "250 a timeout b")
        assert numbers_of(*again) == [1, 1, 1, 1, 0, 0]

    def test_owners(self) -> None:
        """With detail a request to the owner of a key is known by its key: it removes no successor."""
        lost, timeout = "50 a lose get-state b", "150 a timeout b"
        assert with_detail(lost, "50 a ask get-state b call=7 key=5 since=40", timeout) == [1, 1, 0, 0, 0, 0]
        assert with_detail(lost, "50 a ask get-state b call=7", timeout) == [1, 1, 1, 0, 0, 0]
        assert with_detail(lost, "51 a ask get-state b call=7", "52 c ask step a call=3", timeout) == [1, 1, 0, 0, 0, 0]
        assert with_detail("50 a ask get-state b call=7", "60 b lose state-reply a", timeout) == [1, 1, 1, 0, 0, 0]

    def test_as_the_reference_simulator_removes_them(self) -> None:
        """A tenth of the messages lost: the members that leave lists, with and without requests sent again.

        The rules of Chord as published are switched off: a member leaves a list only if it was asked for its state.
        With detail it is the same if lookups ask the owner for its state too.
        """
        text = (EXAMPLES / "lossy64.toml").read_text().replace("duration_us = 120000000", "duration_us = 20000000")
        text = text.replace("loss_ppm = 20000", "loss_ppm = 100000").replace("profile = 2", "profile = 4")
        counts = []
        asks_owner = "detail = true\n" + SWITCHED_OFF.replace("ask_owner = false", "ask_owner = true")
        for retries, more in ((0, SWITCHED_OFF), (1, SWITCHED_OFF), (0, asks_owner)):
            changed = text.replace("profile = 4", f"profile = 4\nretries = {retries}\n{more}")
            scenario, top = read_scenario(changed.encode(), b""), tomllib.loads(changed)
            idents = {node.name: node.ident for node in scenario.nodes}
            members = Members(idents, [node.name for node in scenario.nodes if node.initial])
            trouble, simulation = Trouble(members, top, 0), Removing(scenario)
            read_digest(simulation.lines(), scope_of(top, 1, 0, 0), Following(members), trouble)
            assert trouble.removed == simulation.removed
            counts.append(simulation.removed)
        assert counts[0] > 3 * counts[1] > 0 and counts[2] > 0

    def test_table(self) -> None:
        """A third table, for each member and hour: the rows have 1,000 seconds of members.

        If five seeds have no timeout, at most 1 - 0.05 ** 0.2 = 45.1 % of worlds have one."""
        counts = {f"cost-{name}": 10 * number for number, name in enumerate(NAMES)}
        rows = [row(list=2, seed=seed) | {word: str(count) for word, count in counts.items()} for seed in range(1, 6)]
        text = page(tables_of(rows, vary={"list": [2]}))
        assert table_of(text, "Who was taken for dead")["list=2"] == {
            "setting": "list=2", "timeouts": "none (< 46 %)", "members taken for dead": "36",
            "removed as successors": "72",
            "requests sent again": "108", "members stranded": "144", "joins failed": "180",
        }
        few = [one | {"cost-timeouts": str(int(one["seed"] in "12"))} for one in rows]
        cells = table_of(page(tables_of(few, vary={"list": [2]})), "Who was taken for dead")["list=2"]
        # Two timeouts in 5,000 seconds of members are 1.44 an hour.
        assert cells["timeouts"] == "1.4, in 2 seeds"
        assert "All numbers are for each member and hour, from the warm-up to the end." in text
        assert "taken for dead" not in page(tables_of([row(list=2, seed=1)], vary={"list": [2]}))
