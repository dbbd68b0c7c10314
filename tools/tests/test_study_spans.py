"""Spans of a study: what they have of a trace, by hand, and the goals and tables that are made of it."""

from typing import Any
from unittest import TestCase

from chordsim_tools.members import Members
from chordsim_tools.study.goal import Limit
from chordsim_tools.study.page import page
from chordsim_tools.study.served import Scope
from chordsim_tools.study.trace import TraceReader
from tests.support.judging import read_trace
from tests.support.studies import row, table_of, tables_of, unwrapped
from tests.test_study_plan import HEAD, MADE, SEEDS, in_folder

SPAN = '[span.outage]\nfrom = "100us"\nto = "150us"\n'
LINES = (
    "90 a lookup 15", "100 a lookup 15", "120 a found 15 b hops=2 timeouts=0 us=20", "120 a lookup 15",
    "130 b crash", "140 a lookup 25", "141 b lookup 25", "160 a found 15 b hops=4 timeouts=1 us=40",
    "170 a lost 25 hops=1 timeouts=2 us=30", "180 a found 15 c hops=9 timeouts=9 us=90",
)


def outage_of(*lines: str, gap_us: float | None = None) -> dict[str, Any]:
    """The numbers of the span from 100 to 150 us, of a run of members a, b and c at 10, 20 and 30."""
    scope = Scope(250, 100, 0, 0, gap_us)
    members = Members({"a": 10, "b": 20, "c": 30}, ["a", "b", "c"])
    reader = TraceReader(members, scope, {"outage": scope.within(100, 150)})
    read_trace(lines, reader)
    head = "outage."
    return {word.removeprefix(head): value for word, value in reader.numbers().items() if word.startswith(head)}


def setting(size: int, p99: int, seeds: int = 6) -> list[dict[str, str]]:
    """The rows of a setting whose whole span is the same, and whose 99th percentile in the outage is this, in ms."""
    rows = []
    for seed in range(1, seeds + 1):
        plain = row(list=size, seed=seed)
        outage = {f"outage.{word}": cell for word, cell in plain.items() if word not in ("list", "seed")}
        rows.append(plain | outage | {"outage.all-us-p99": str(1000 * p99 + seed)})
    return rows


def told(*settings: list[dict[str, str]], limits: list[Limit]) -> str:
    """The page of these settings and limits."""
    goal = {"limits": [vars(limit) for limit in limits], "lost_max": None, "least": "messages"}
    vary = {"list": [int(rows[0]["list"]) for rows in settings]}
    spans = {"outage": [360_000_000, 420_000_000]}
    rows = [one for rows in settings for one in rows]
    return unwrapped(page(tables_of(rows, vary=vary, goal=goal, spans=spans)))


class StudySpansTest(TestCase):
    """Lookups of a span, its limits, and its table."""

    def test_lookups_that_begin_in_the_span(self) -> None:
        """Those begun at 100 to 149 us, whenever they end: two found, one of them wrong as b is gone; one given up."""
        numbers = outage_of(*LINES)
        wanted = {
            "judged-lookups": 4, "judged-found": 2, "judged-lost": 1, "right": 1, "wrong": 1, "right-defensible": 2,
            "wrong-down": 1, "ended-us": 90, "ended-hops": 7, "ended-timeouts": 3, "cut-by-end": 1, "wanted": "4.000",
            "us-p50": 20, "us-p99": 40, "all-us-p50": 40, "all-us-p99": "never",
        }
        assert {word: numbers[word] for word in wanted} == wanted

    def test_time_in_the_span(self) -> None:
        """Three nodes are up for 50 us, and b for 30 of them; without a lookup of its own nothing is wanted of it."""
        numbers = outage_of(*LINES, "200 b join a")
        assert (numbers["up-us"], numbers["member-us"]) == (130, 130)
        away = outage_of("90 b stranded a", "120 b member a", "140 b crash", gap_us=10)
        assert (away["up-us"], away["member-us"], away["wanted"]) == (140, 120, "2.000")

    def test_a_span_changes_nothing_else(self) -> None:
        """The numbers of the whole are those without a span."""
        both: list[dict[str, Scope]] = [{}, {"outage": Scope(250, 100, 100, 100)}]
        readers = [TraceReader(Members({"a": 10, "b": 20, "c": 30}, ["a", "b", "c"]), Scope(250, 100), spans)
                   for spans in both]
        for reader in readers:
            read_trace(LINES, reader)
        plain, with_span = (reader.numbers() for reader in readers)
        assert plain == {word: value for word, value in with_span.items() if "." not in word or word[:3] == "all"}

    def test_study_file(self) -> None:
        """The ends of a span, and its limits after those of [goal]."""
        goal = "[goal]\nserved_min = 0.5\n"
        study = in_folder(HEAD + SEEDS + goal + SPAN + "[span.outage.goal]\np99_ms_max = '2s'\n")
        assert study.spans == {"outage": (100, 150)}
        assert study.goal.limits == (Limit("served", True, 0.5), Limit("outage.p99_ms", False, 2000.0))
        alone = in_folder(HEAD + SEEDS + SPAN + "[span.outage.goal]\nserved_min = 0.5\n")
        assert (alone.goal.limits, alone.goal.least) == ((Limit("outage.served", True, 0.5),), "messages")
        assert in_folder(HEAD + SEEDS + SPAN).goal is None

    def test_faults(self) -> None:
        """Each fault names the span and the key."""
        goal = SPAN + "[span.outage.goal]\n"
        for text, wanted in (
            ("[span]\noutage = 1\n", "a span is a table of its own, as [span.outage]"),
            ("[span.Outage]\nfrom = 1\nto = 2\n", "[span.Outage]: a span's name has small letters"),
            ("[span.outage]\nfrom = 1\n", "[span.outage] to has to be an integer, 0 or more, or a time"),
            ("[span.outage]\nfrom = '1 s'\nto = 2\n", "[span.outage] from has to be an integer, 0 or more, or a time"),
            ("[span.outage]\nfrom = 2\nto = 2\n", "[span.outage]: from (2us) has to be before to (2us)"),
            ("[span.outage]\nfrom = 2\nto = 201\n", "[span.outage] to (201us) is after the end of the run (200us)"),
            (SPAN + "till = 1\n", "[span.outage] till: a span has from, to and [span.outage.goal]"),
            (SPAN + "goal = 1\n", "[span.outage.goal] has to be a table"),
            (goal + "least = 'hops'\n", "[span.outage.goal] least: rings lost, costs and `least` are of [goal]"),
            (goal + "messages_max = 1\n", "[span.outage.goal] messages_max: rings lost, costs and `least` are of"),
            (goal + "p99_max = 1\n", "did you mean `p99_ms_max`?"),
        ):
            with self.subTest(study=text):
                answer = in_folder(HEAD + SEEDS + text)
                assert isinstance(answer, str) and wanted in answer, answer

    def test_runs_of_several_lengths(self) -> None:
        """A span has to end before the shortest of them does, also if tools/generate makes them."""
        made = MADE + SEEDS + '[vary]\n"--duration" = ["9s", "5s"]\n[span.outage]\nfrom = "2s"\nto = '
        assert in_folder(made + '"5s"\n').spans == {"outage": (2_000_000, 5_000_000)}
        assert in_folder(made + '"6s"\n').endswith("[span.outage] to (6s) is after the end of the run (5s)")

    def test_an_answer_needs_all_spans(self) -> None:
        """Lists of 2 reach the limit of the whole, and lists of 4 that of the outage too."""
        whole, outage = Limit("p99_ms", False, 2500.0), Limit("outage.p99_ms", False, 3000.0)
        text = told(setting(2, 4000), setting(4, 2900), limits=[whole, outage])
        assert text.splitlines()[2].startswith("**list=4** is the setting with the least messages")
        assert "at most 2500 ms p99 and at most 3000 ms p99 in outage" in text
        text = told(setting(2, 4000), limits=[whole, outage])
        assert "missed: p99 in outage, shown to be at most 4001 ms (limit 3000 ms)" in text

    def test_table_of_a_span(self) -> None:
        """It has the numbers that a goal names, under the names of the other tables."""
        text = told(setting(2, 4000), limits=[Limit("outage.defensible", True, 0.5)])
        cells = table_of(text, "Span outage")["list=2"]
        assert cells["p99, ms"] == "4000.0035 ± 0.0020" and cells["defensible, %"].startswith("96.84")
        assert cells["members, %"].startswith("98 (") and cells["members, %"].endswith("..99.1)")
        assert "Of the lookups that began from 360s to 420s, 1000 to 1000 in a run." in text
        assert table_of(text, "Settings")["list=2"]["p99, ms"] == "2000"
