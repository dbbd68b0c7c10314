"""What tools/trace tells of a run with detail, by hand: nodes a to d of tests.test_trace, with a timeout of 40.

The latency is 10, so that a request arrives 10 after its line `ask`.
"""

import json
import re
import shutil
import subprocess
from contextlib import suppress
from pathlib import Path
from tempfile import TemporaryDirectory
from unittest import TestCase, skipUnless

from chordsim_tools.cli import Failure, Refused
from chordsim_tools.generate.random_scenario import scenario_files
from chordsim_tools.reference.simulation import Simulation, TooManyEvents
from chordsim_tools.scenario.reading import read_scenario
from chordsim_tools.trace.detail import join_story, lookup_requests, removal_story
from chordsim_tools.trace.lines import TIMEOUT
from chordsim_tools.trace.messages import message_counts, message_table
from chordsim_tools.trace.page import data, writing
from chordsim_tools.trace.reading import Run, read_run
from chordsim_tools.trace.requests import calls_of
from chordsim_tools.trace.stories import lookup_story
from chordsim_tools.trace.summary import summary
from tests.support.worlds import with_detail
from tests.test_trace import SCENARIO, audit, run_of_text

DETAIL = SCENARIO.replace("profile = 1", "profile = 4\ndetail = true\nretries = 1")
LATE = DETAIL.replace("profile = 4", "profile = 4\nspread_us = 5")
LOOKUP = (
    "20 a lookup 35",
    "20 a lose step c", "20 a ask step c call=7 key=35 since=20",
    "60 a again step c", "60 a ask step c call=7 key=35 since=20", "70 c lose step-reply a",
    "100 a timeout c", "100 a ask step b call=11 key=35 since=20",
    "105 b crash", "110 b drop step a",
    "140 a again step b", "140 a ask step b call=11 key=35 since=20", "150 b drop step a",
    "180 a timeout b", "180 a ask step d call=15 key=35 since=20", "190 d send step-reply a",
    "200 a found 35 c hops=1 timeouts=2 us=180",
)
JOIN = (
    "10 d join a",
    "10 d ask step a call=3", "20 a send step-reply d",
    "30 d ask step c call=5", "40 c lose step-reply d",
    "70 d again step c", "70 d ask step c call=5", "80 c send step-reply d",
    "90 d ask get-list c call=9", "100 c send list-reply d",
    "110 d member c",
)
REMOVAL = (
    "10 a ask get-state b call=4", "15 b crash", "20 b drop get-state a",
    "50 a again get-state b", "50 a lose get-state b", "50 a ask get-state b call=4",
    "90 a timeout b", "90 a lose get-state c", "90 a ask get-state c call=8",
    "130 a again get-state c", "130 a ask get-state c call=8", "140 c lose state-reply a",
    "170 a timeout c", "170 a stranded b", "170 a ask step b call=12", "180 b drop step a",
)
LINES_OF_PAGE = "run.lines.time.forEach((_, at) => console.log(lineText(at)));"
"""What prints all lines that a page has."""
NO_NODE = "node is not there: apt-get install nodejs"


def run_of(*lines: str, scenario: str = DETAIL) -> Run:
    """A run with detail, from its lines."""
    return run_of_text("".join(line + "\n" for line in lines), scenario)


def printed_by_page(run: Run, script: str) -> list[str]:
    """The lines that a script prints which follows run.js on the page of a run."""
    page = json.dumps(data.page_data(run, "ring.toml"))
    head = f"const document = {{getElementById: () => ({{textContent: {json.dumps(page)}}})}};"
    before = (Path(writing.__file__).parent / "run.js").read_text(encoding="utf-8")
    done = subprocess.run(["node", "-e", head + before + script], capture_output=True, text=True, check=True)
    return done.stdout.splitlines()


def requests(*lines: str, scenario: str = DETAIL, number: int = 0) -> tuple[list[str], list[str]]:
    """The lines of the story of a lookup, without their times, and what is said of its calls."""
    run = run_of(*lines, scenario=scenario)
    return parted(list(lookup_requests(run, run.history.lines.lookups[number])))


def parted(story: list[str]) -> tuple[list[str], list[str]]:
    """The marked lines of a story, with times in microseconds, and the lines behind the next empty one."""
    at = story.index("")
    lines = [line[:2] + line[2:].replace(" s  ", " ").strip().replace("0.000", "") for line in story[:at]]
    return lines, story[at + 1:]


class Lines(TestCase):
    """Lines `ask` and `send`."""

    def test_kept(self) -> None:
        """They are kept letter by letter; keys may have 128 bits."""
        wide = "1 a ask step b call=1099511627775 key=340282366920938463463374607431768211455 since=0"
        for lines, scenario in ((LOOKUP, DETAIL), (JOIN, DETAIL), (REMOVAL, DETAIL),
                                ((wide, "11 b send pong b"), DETAIL.replace("bits = 6", "bits = 128"))):
            run = run_of(*lines, scenario=scenario)
            kept = run.history.lines
            self.assertEqual([kept.text(at) for at in range(len(kept.times))], list(lines))

    def test_refused(self) -> None:
        """Other words, kinds, keys and times; and all such lines if the scenario has no detail."""
        for line, word in (
            ("10 a ask step b", "6 words"), ("10 a ask ping b call=3 key=1 since=5", "6 words"),
            ("10 a ask step b call=3 key=64 since=5", "not below 64"),
            ("10 a ask step b call=3 key=1 since=11", "not below 11"),
            ("10 a ask step b call=99999999999999999999", "99999999999999999999 is not below 9223372036854775808"),
            ("10 a ask notify b call=3", "(no line ask notify)"), ("10 a ask step x call=3", "(no node x)"),
            ("10 a ask step b calls=3", "no call="), ("10 a ask step b call=3 since=5 key=1", "no key="),
            ("10 a send step b", "(no line send step)"), ("10 a send pong", "5 words"),
        ):
            with self.subTest(line=line), self.assertRaises(Refused) as caught:
                run_of(line)
            self.assertIn(word, caught.exception.text)
        for line in ("10 a ask ping b call=3", "10 a send pong b"):
            with self.assertRaises(Refused) as caught:
                run_of(line, scenario=DETAIL.replace("detail = true", "detail = false"))
            self.assertIn("has no `detail = true`", caught.exception.text)

    def test_page(self) -> None:
        """A page has what the lines say behind the node that was asked."""
        page = data.page_data(run_of(*JOIN), "ring.toml")
        self.assertEqual(page["asks"], [" call=3", " call=5", " call=5", " call=9"])

    @skipUnless(shutil.which("node"), NO_NODE)
    def test_lines_of_a_page(self) -> None:
        """The page shows the lines as the trace has them."""
        for lines in (LOOKUP, JOIN, REMOVAL):
            self.assertEqual(printed_by_page(run_of(*lines), LINES_OF_PAGE), list(lines))


class Messages(TestCase):
    """Messages by kind."""

    def test_counts(self) -> None:
        """A lost request has a line `ask` too, and is counted once; a lost reply has no line `send`."""
        run = run_of(*LOOKUP, "210 c send notify a", "210 a lose notify b", "220 a late pong b", audit(500, 2))
        counts = message_counts(run)
        assert counts is not None
        rows = {kind: tuple(row.values()) for kind, row in counts.items() if any(row.values())}
        self.assertEqual(rows, {
            "step": (5, 1, 2, 2, 0), "step-reply": (2, 1, 0, 0, 0), "notify": (2, 1, 0, 0, 0), "pong": (0, 0, 0, 0, 1),
        })
        table = message_table(counts)
        self.assertEqual([table[2].split(), table[3].split(), table[-1].split()], [
            ["kind", "made", "lost", "sent", "again", "dropped", "late"], ["step", "5", "1", "2", "2", "0"],
            ["all", "9", "3", "2", "2", "1"],
        ])

    def test_without_detail(self) -> None:
        """They cannot be counted."""
        self.assertIsNone(summary(run_of(audit(500, 3), scenario=SCENARIO))["messages"])


class Lookups(TestCase):
    """The requests of a lookup."""

    def test_all_fates(self) -> None:
        """Lost, reply lost, dropped and replied."""
        lines, calls = requests("0 d join a", "5 d member c", *LOOKUP)
        self.assertEqual(lines, [
            "  020 a lookup 35", "  020 a lose step c", "  020 a ask step c call=7 key=35 since=20",
            "  060 a again step c", "  060 a ask step c call=7 key=35 since=20", "| 070 c lose step-reply a",
            "  100 a timeout c", "  100 a ask step b call=11 key=35 since=20", "| 110 b drop step a",
            "  140 a again step b", "  140 a ask step b call=11 key=35 since=20", "| 150 b drop step a",
            "  180 a timeout b", "  180 a ask step d call=15 key=35 since=20", "| 190 d send step-reply a",
            "  200 a found 35 c hops=1 timeouts=2 us=180",
        ])
        self.assertEqual(calls, [
            "call 7, step to c, sent 2 times: lost, reply lost; timeout after 0.00008 s",
            "call 11, step to b, sent 2 times: dropped, dropped; timeout after 0.00008 s",
            "call 15, step to d, sent once: replied; reply after 0.00002 s",
        ])
        story = lookup_story(run_of("0 d join a", "5 d member c", *LOOKUP), "1")
        self.assertEqual(story[1:3] + story[-1:], ["verdict: wrong, misses a member", "", "  from 0.00002 s: d"])

    def test_requests_of_one_time(self) -> None:
        """Two lookups ask c at once: the first request arrives first. Other requests of a are none of theirs."""
        lines = (
            "5 a ask get-state b call=2", "15 b send state-reply a",
            "20 a lookup 35", "20 a ask step c call=4 key=35 since=20",
            "20 a lookup 36", "20 a ask step c call=6 key=36 since=20",
            "30 c lose step-reply a", "30 c send step-reply a",
            "40 a found 36 c hops=1 timeouts=0 us=20", "60 a again step c", "60 a ask step c call=4 key=35 since=20",
        )
        self.assertEqual(requests(*lines)[1], [
            "call 4, step to c, sent 2 times: reply lost, on the way when the trace ends; open when the trace ends",
        ])
        self.assertEqual(requests(*lines, number=1), (
            ["  020 a lookup 36", "  020 a ask step c call=6 key=36 since=20", "| 030 c send step-reply a",
             "  040 a found 36 c hops=1 timeouts=0 us=20"],
            ["call 6, step to c, sent once: replied; reply after 0.00002 s"],
        ))

    def test_spread(self) -> None:
        """With a spread of 5 the first request can arrive from 30 to 35, and the second one from 33 to 38."""
        lines = (
            "20 a lookup 35", "20 a ask step c call=4 key=35 since=20",
            "23 a lookup 36", "23 a ask step c call=6 key=36 since=23",
            "34 c lose step-reply a", "35 c send step-reply a", "49 a found 35 c hops=1 timeouts=0 us=29",
            "63 a again step c", "63 a ask step c call=6 key=36 since=23", "75 c send step-reply a",
            "85 a found 36 c hops=1 timeouts=0 us=62",
        )
        told, calls = requests(*lines, scenario=LATE)
        self.assertEqual(told[2:4], ["? 034 c lose step-reply a", "? 035 c send step-reply a"])
        self.assertEqual(calls, ["call 4, step to c, sent once: reply lost or replied; reply after 0.000029 s"])
        told, calls = requests(*lines, scenario=LATE, number=1)
        self.assertEqual(told[-2], "| 075 c send step-reply a")
        fates = "reply lost or replied, replied"
        self.assertEqual(calls, [f"call 6, step to c, sent 2 times: {fates}; reply after 0.000062 s"])

    def test_late_reply(self) -> None:
        """The timeout of 15 is below the round trip, so that each reply comes too late."""
        lines = ("20 a lookup 35", "20 a ask step c call=4 key=35 since=20", "30 c send step-reply a",
                 "35 a timeout c", "35 a lost 35 hops=0 timeouts=1 us=15", "40 a late step-reply c")
        impatient = DETAIL.replace("timeout_us = 40", "timeout_us = 15").replace("retries = 1", "retries = 0")
        self.assertEqual(requests(*lines, scenario=impatient)[1],
                         ["call 4, step to c, sent once: replied too late; timeout after 0.000015 s"])

    def test_ends(self) -> None:
        """Lookups that are cut off by a crash or by stranding, and one that asks nobody."""
        begin = ("20 a lookup 35", "20 a ask step c call=4 key=35 since=20")
        told, calls = requests(*begin, "25 a crash", "30 c send step-reply a")
        self.assertEqual(told[-2:], ["  025 a crash", "| 030 c send step-reply a"])
        self.assertEqual(calls, ["call 4, step to c, sent once: replied; cut off"])
        # The reply of 30 may arrive from 40 to 45. It has not arrived at 42, since a would have done something more.
        calls = requests(*begin, "30 c send step-reply a", "42 a crash", scenario=LATE)[1]
        self.assertEqual(calls, ["call 4, step to c, sent once: replied; cut off"])
        told, calls = requests("19 a lookup 1", *begin, "25 a stranded b", "25 a lost 1 hops=0 timeouts=0 us=6",
                               "25 a lost 35 hops=0 timeouts=0 us=5", "30 c send step-reply a", number=1)
        self.assertEqual(told[2:4], ["  025 a stranded b", "  025 a lost 35 hops=0 timeouts=0 us=5"])
        self.assertEqual(calls, ["call 4, step to c, sent once: replied; cut off"])
        self.assertEqual(requests("20 a lookup 15", "20 a found 15 b hops=0 timeouts=0 us=0"), (
            ["  020 a lookup 15", "  020 a found 15 b hops=0 timeouts=0 us=0"], ["no node was asked"],
        ))

    def test_owner(self) -> None:
        """d names c as the owner, which is asked for its state, twice."""
        lines = (
            "20 a lookup 35", "20 a ask step d call=7 key=35 since=20", "30 d send step-reply a",
            "40 a lose get-state c", "40 a ask get-state c call=9 key=35 since=20",
            "80 a again get-state c", "80 a ask get-state c call=9 key=35 since=20", "90 c send state-reply a",
            "100 a found 35 c hops=1 timeouts=0 us=80",
        )
        run = run_of(*lines)
        calls = parted(list(lookup_requests(run, run.history.lines.lookups[0])))[1]
        self.assertEqual(calls, [
            "call 7, step to d, sent once: replied; reply after 0.00002 s",
            "call 9, get-state to c, sent 2 times: lost, replied; reply after 0.00006 s",
        ])

    def test_lookups_that_are_alike(self) -> None:
        """Two lookups of one key begun at one time."""
        lines = ("20 a lookup 35", "20 a ask step c call=4 key=35 since=20",
                 "20 a lookup 35", "20 a ask step c call=6 key=35 since=20")
        self.assertEqual(requests(*lines)[1][-1],
                         "(these are the requests of all 2 lookups of this key that it began at this time)")

    def test_other_latencies(self) -> None:
        """A latency file that is not given is missed: c does nothing at 30."""
        lines = ("20 a lookup 35", "20 a ask step c call=4 key=35 since=20", "35 c send step-reply a", audit(500, 3))
        with self.assertRaises(Refused) as caught:
            requests(*lines)
        self.assertIn("line 2: the request does not arrive when it must", caught.exception.text)
        self.assertIn("--latency", caught.exception.text)


class Joins(TestCase):
    """The story of a join."""

    def test_join(self) -> None:
        """A step to the node through which d joins, one more, and the list; a finger's lookup begins after it."""
        run = run_of(*JOIN, "110 d ask step c call=12 key=3 since=110", "120 c send step-reply d", audit(500, 4))
        story = join_story(run, "d")
        self.assertEqual(story[:2], ["d joins at 0.00001 s, and is a member after 0.0001 s", ""])
        told, calls = parted(story[2:])
        self.assertEqual(told[:4], [
            "  010 d join a", "  010 d ask step a call=3", "| 020 a send step-reply d", "  030 d ask step c call=5"])
        self.assertEqual((told[-1], len(told)), ("  110 d member c", len(JOIN)))
        self.assertEqual(calls, [
            "call 3, step to a, sent once: replied; reply after 0.00002 s",
            "call 5, step to c, sent 2 times: reply lost, replied; reply after 0.00006 s",
            "call 9, get-list to c, sent once: replied; reply after 0.00002 s",
        ])
        self.assertEqual(join_story(run, "d@10us"), story)

    def test_first_successor(self) -> None:
        """The successor that d has found is silent; the request is sent again, and lost. d tries again, and asks c."""
        asks = (
            "110 d ask get-state b call=11", "120 b drop get-state d",
            "150 d again get-state b", "150 d lose get-state b", "150 d ask get-state b call=11",
            "190 d timeout b", "230 d ask step a call=16", "240 a send step-reply d",
            "250 d ask get-list a call=18", "260 a send list-reply d",
            "270 d ask get-state c call=20", "280 c send state-reply d", "290 d member a", "290 d send notify c",
        )
        run = run_of("5 b crash", *JOIN[:-1], *asks)
        told, calls = parted(join_story(run, "d")[2:])
        self.assertEqual(told[-1], "  290 d member a")
        self.assertIn("  150 d lose get-state b", told)
        self.assertEqual(calls[3], "call 11, get-state to b, sent 2 times: dropped, lost; timeout after 0.00008 s")
        self.assertEqual(calls[-1], "call 20, get-state to c, sent once: replied; reply after 0.00002 s")
        # A node that joins has no successor that it could remove.
        self.assertEqual(
            removal_story(run, "d"), ["successors that d has removed because they did not send their state: 0"])
        plain = [line for line in ("5 b crash", *JOIN[:-1], *asks) if line.split()[2] not in ("ask", "send", "drop")]
        story = join_story(run_of(*plain, scenario=DETAIL.replace("detail = true", "detail = false")), "d")
        self.assertEqual([line.split("  ")[-1] for line in story[2:-2]], [
            "d join a", "d again step c", "d again get-state b", "d lose get-state b", "d timeout b", "d member a"])

    def test_pause(self) -> None:
        """c says after 20 that it knows nobody, or names a wrong list. After the pause of 70 d asks a again."""
        lines = ("10 d join a", "10 d ask step a call=3", "20 a send step-reply d", "100 d ask step a call=6",
                 "105 d crash", "110 a send step-reply d", "120 d drop step-reply a")
        story = join_story(run_of(*lines, scenario=DETAIL.replace("retries", "join_pause_us = 70\nretries")), "d")
        self.assertEqual(story[0], "d joins at 0.00001 s, and crashes after 0.000095 s")
        self.assertEqual(story[-2:], ["call 3, step to a, sent once: replied; a reply",
                                      "call 6, step to a, sent once: replied; cut off"])
        story = join_story(run_of(*lines[:3], "51 d crash", scenario=DETAIL), "d")
        self.assertEqual(story[-1], "call 3, step to a, sent once: replied; a reply")

    def test_stranded(self) -> None:
        """a is stranded, and joins again through b, which is down."""
        story = join_story(run_of(*REMOVAL), "a")
        self.assertEqual(story[0], "a is stranded, and joins again at 0.00017 s, and still joins when the trace ends")
        self.assertEqual(story[-1], "call 12, step to b, sent once: dropped; open when the trace ends")

    def test_without_detail(self) -> None:
        """The node's own lines are there; those of messages are of the join, since it makes no others."""
        plain = [line for line in JOIN if line.split()[2] not in ("ask", "send")]
        story = join_story(run_of(*plain, scenario=DETAIL.replace("detail = true", "detail = false")), "d")
        self.assertEqual([line.split("  ")[-1] for line in story[2:-2]], ["d join a", "d again step c", "d member c"])
        self.assertIn("has no `detail = true`", story[-1])

    def test_which_join(self) -> None:
        """A node that joins twice; one that never joins; what is no time."""
        run = run_of("10 d join a", "15 d crash", "20 d join a", "25 d crash", "25 d join a")
        for spec, word in (
            ("d", "d joins 3 times; name one by its begin: d@10us, d@20us, d@25us"), ("a", "a never joins"),
            ("d@11us", "d does not begin to join at 0.000011 s; its joins are: d@10us"), ("d@soon", "NODE@TIME"),
            ("x", "the scenario has no node 'x'"),
        ):
            with self.subTest(spec=spec), self.assertRaises(Failure) as caught:
                join_story(run, spec)
            self.assertEqual(caught.exception.status, 2)
            self.assertIn(f"--join: {word}" if spec != "d@soon" else word, caught.exception.text)
        self.assertEqual(join_story(run, "d@20us")[0], "d joins at 0.00002 s, and crashes after 0.000005 s")


class Removals(TestCase):
    """Why a node has removed its successors."""

    def test_removals(self) -> None:
        """b is down, and the second request to it is lost. c is a member, whose request and reply are lost."""
        story = removal_story(run_of(*REMOVAL), "a")
        self.assertEqual([line for line in story if not line.startswith((" ", "|"))], [
            "successors that a has removed because they did not send their state: 2",
            "",
            "at 0.00009 s: b, which was down then (0.000015 s  b crash)",
            "call 4, get-state to b, sent 2 times: dropped, lost; timeout after 0.00008 s",
            "",
            "at 0.00017 s: c, which was a member then, as at the start",
            "call 8, get-state to c, sent 2 times: lost, reply lost; timeout after 0.00008 s",
        ])
        told = [line.split(" s  ")[-1] for line in story if line.startswith((" ", "|"))]
        self.assertEqual(told[:8], [line.partition(" ")[2] for line in REMOVAL if line != "15 b crash"][:8])
        self.assertEqual(told[-2:], ["a timeout c", "a stranded b"])

    def test_rescue(self) -> None:
        """b is down, and a has nobody else in its list: a finger, d, is its successor now, and is asked."""
        rescue = ("90 a timeout b", "90 a rescue d", "90 a ask get-state d call=8", "100 d send state-reply a")
        run = run_of(*REMOVAL[:6], *rescue)
        told = [line.split(" s  ")[-1] for line in removal_story(run, "a") if line.startswith((" ", "|"))]
        self.assertEqual(told[-3:], ["a timeout b", "a rescue d", "a ask get-state d call=8"])
        self.assertEqual(summary(run)["rescues"], 1)

    def test_none(self) -> None:
        """Timeouts of lookups remove nobody, and none does that of an owner that a lookup asks for its state."""
        none = ["successors that a has removed because they did not send their state: 0"]
        self.assertEqual(removal_story(run_of(*LOOKUP[:14], "190 d drop step a"), "a"), none)
        lines = [line.replace("step-reply", "state-reply").replace("step", "get-state") for line in LOOKUP[:14]]
        self.assertEqual(removal_story(run_of(*lines, "190 d drop get-state a"), "a"), none)

    def test_without_detail(self) -> None:
        """No line says what a timeout was for."""
        self.assertRaises(Failure, removal_story, run_of("90 a timeout b", scenario=SCENARIO), "a")


class RandomTraces(TestCase):
    """Traces of the reference simulator, of random scenarios with detail."""

    def run_of(self, folder: Path, seed: int) -> tuple[Run, Simulation]:
        """A run, and the simulation."""
        toml, csv = scenario_files(seed)
        scenario = read_scenario(with_detail(toml).encode(), csv.encode())
        simulation = Simulation(scenario)
        with (folder / "trace").open("w", encoding="utf-8") as file, suppress(TooManyEvents):
            file.writelines(line + "\n" for line in simulation.lines())
        return read_run(str(folder / "trace"), scenario), simulation

    def test_random_traces(self) -> None:
        """Messages are counted as the simulation makes them. Each timeout is of a call, and lookups have as many
        replies and timeouts as their ends say."""
        with TemporaryDirectory() as folder:
            for seed in range(4, 100, 6):
                run, simulation = self.run_of(Path(folder), seed)
                counts = message_counts(run)
                assert counts is not None
                made = {kind: row["made"] - row["lost"] for kind, row in counts.items()}
                with self.subTest(seed=seed):
                    self.assertEqual(made, {kind: simulation.messages[kind] for kind in counts})
                    self.check_timeouts(run)
                    self.check_lookups(run)
                    for name in run.history.names:
                        removal_story(run, name)
                    for join in run.history.joins:
                        with suppress(Failure):
                            join_story(run, f"{run.history.names[join.node]}@{join.begin}us")

    def check_timeouts(self, run: Run) -> None:
        """Each line `timeout` is that of one call."""
        lines = run.history.lines
        for node in range(len(run.history.names)):
            found = [call.timeout for call in calls_of(run, node) if call.timeout is not None]
            there = [at for at, kind in enumerate(lines.kinds) if kind == TIMEOUT and lines.nodes[at] == node]
            self.assertEqual(sorted(found), there)

    def check_lookups(self, run: Run) -> None:
        """The calls of those that were found, unless another one is like it."""
        every = run.history.lines.lookups
        alike = [(one.node, one.key, one.begin) for one in every]
        for one in every:
            if one.outcome == "found" and alike.count((one.node, one.key, one.begin)) == 1:
                told = parted(list(lookup_requests(run, one)))[1]
                timeouts = sum("; timeout after" in line for line in told)
                hops = hops_of(told, run.history.scenario.ways.goes_on)
                self.assertEqual((hops, timeouts), (one.hops, one.timeouts), told)


def hops_of(told: list[str], goes_on: bool) -> int:
    """The hops of a lookup by the lines of its calls. A node that is asked again, to go on from it, counts once.

    The node before the last one is asked again only if the last one knew nobody."""
    hops, last, before = 0, "", ""
    for line in told:
        match = re.fullmatch(r"call \d+, step to (\S+), sent .*; (reply|timeout) after .*", line)
        if match is None:
            continue
        asked, ended = match.groups()
        if ended == "timeout":
            last, before = ("", "") if asked == last else (last, before)
        elif not goes_on:
            hops += 1
        elif asked in (last, before):
            last, before = asked, ""
        else:
            hops, last, before = hops + 1, asked, last
    return hops
