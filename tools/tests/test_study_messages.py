"""The estimate of messages against those that the reference simulator counts, and what a longer run changes."""

import csv
import heapq
import tomllib
from collections.abc import Iterable, Iterator
from random import Random
from typing import Any
from unittest import TestCase

from chordsim_tools.generate import command as generate
from chordsim_tools.known import known
from chordsim_tools.members import Members
from chordsim_tools.messages import MESSAGES
from chordsim_tools.reference.report import Report
from chordsim_tools.reference.simulation import Simulation
from chordsim_tools.reference.state import Event
from chordsim_tools.scenario.reading import Scenario, read_scenario
from chordsim_tools.study.document import toml_text
from chordsim_tools.study.estimates import GROUPS, MOST_ERROR, WITHIN, most_off
from chordsim_tools.study.latencies import Latencies
from chordsim_tools.study.messages import OF_LOOKUPS, Traffic, exact, message_numbers
from chordsim_tools.study.served import scope_of
from chordsim_tools.study.task import events_before, span_of
from chordsim_tools.study.trace import TraceReader
from tests.support.judging import read_digest, read_trace
from tests.support.programs import ended, program
from tests.support.worlds import EXAMPLES
from tests.test_study_run import call, study_folder

SIZES = {kind: 40 * place**2 for place, kind in enumerate(MESSAGES)}
"""Sizes of 0 to 2,560 bytes."""


def shortened(name: str, duration_us: int) -> str:
    """An example that ends earlier."""
    lines = (EXAMPLES / name).read_text().splitlines()
    found = [f"duration_us = {duration_us}" if line.startswith("duration_us") else line for line in lines]
    return "\n".join(found)


class Watched(Simulation):
    """A simulation that notes the events and the messages before a time. The report reads each line as it comes."""

    def __init__(self, scenario: Scenario, report: Report, time: int) -> None:
        """The start."""
        super().__init__(scenario)
        self.report, self.time = report, time
        self.before: tuple[int, dict[str, int]] | None = None

    def take(self, event: Event) -> list[str]:
        """Takes an event; notes what there was if it is the first one of the time or later."""
        if self.before is None and event.time >= self.time:
            self.before = self.events, sent(self, self.report)
        return super().take(event)


def counted(text: str, warmup_us: int = 0, rows: bytes = b"") -> tuple[dict[str, int], dict[str, int]]:
    """The messages of each kind from a time on, as a study counts them and as the reference simulator makes them."""
    numbers, made = numbers_of(text, warmup_us, rows)
    return {kind: int(numbers[f"sent-{kind}"] or 0) for kind in MESSAGES}, made


def numbers_of(
    text: str, warmup_us: int = 0, rows: bytes = b""
) -> tuple[dict[str, int | str | None], dict[str, int]]:
    """What a row of runs.csv has of cost, and the messages of each kind as the reference simulator makes them."""
    scenario, top = read_scenario(text.encode(), rows), tomllib.loads(text)
    report = Report(scenario.profile)
    simulation = Watched(scenario, report, warmup_us)
    idents = {node.name: node.ident for node in scenario.nodes}
    initial = [node.name for node in scenario.nodes if node.initial]
    reader = TraceReader(Members(idents, initial), scope_of(top, top["audit_us"], warmup_us, 0))
    read_trace(noted(simulation.lines(), report), reader)
    before = known(simulation.before)
    made = {kind: count - before[1][kind] for kind, count in sent(simulation, report).items()}
    span = span_of(top, simulation.events - before[0], reader, Latencies(top, rows))
    return message_numbers(reader.traffic, span), made


def noted(lines: Iterable[str], report: Report) -> Iterator[str]:
    """These lines, each of which a report reads before."""
    for line in lines:
        report.read(line)
        yield line


def traffic_of(*lines: str, duration_us: int = 100, warmup_us: int = 10) -> Traffic:
    """What these lines of a run with detail say of messages."""
    scope = scope_of({"duration_us": duration_us, "node": [], "detail": True}, 50, warmup_us, 0)
    traffic = Traffic(scope)
    read_digest(lines, scope, traffic)
    return traffic


def sent(simulation: Simulation, report: Report) -> dict[str, int]:
    """The messages made until now, the lost ones with them."""
    return {kind: simulation.messages[kind] + report.lost_messages[kind] for kind in MESSAGES}


def check_bounds(about: dict[str, int], made: dict[str, int]) -> None:
    """Asserts that the total, each kind and the bytes are within the bounds that pages print."""
    total = sum(made.values())
    off = {kind: (about[kind] - made[kind]) / total for kind in MESSAGES}
    assert abs(sum(off.values())) < MOST_ERROR, (about, made)
    for kinds, error in GROUPS.items():
        mean = sum(off[kind] for kind in kinds) / len(kinds)
        assert abs(mean) < error and all(abs(off[kind] - mean) < WITHIN for kind in kinds), (kinds, about, made)
    assert abs(sum(SIZES[kind] * off[kind] for kind in MESSAGES)) < most_off(SIZES), (about, made)


class StudyMessagesTest(TestCase):
    """The total is near, and so are the kinds that make most of it."""

    def check(self, text: str, warmup_us: int = 0, kinds: tuple[str, ...] = ()) -> None:
        """The total within the error that pages print; steps, stabilizations and these kinds within a twentieth."""
        about, made = counted(text, warmup_us)
        check_bounds(about, made)
        for kind in ("step", "step-reply", "get-state", "state-reply", "notify", *kinds):
            assert abs(about[kind] - made[kind]) < max(0.05 * made[kind], 30), (kind, about, made)

    def test_examples(self) -> None:
        """Churn, half of the nodes gone at once, loss and spread, repair that is too slow."""
        for name, seconds in (("churn64", 30), ("half_crash", 40), ("lossy64", 20), ("slow_repair", 60)):
            with self.subTest(name=name):
                self.check(shortened(f"{name}.toml", seconds * 1_000_000))

    def test_round_trips_above_the_period(self) -> None:
        """A member whose stabilization waits for a reply skips the next one: 400 ms last two turns of 250 ms."""
        words = "--nodes 12 --duration 45s --window 1ms --timeout 1s --audit 5s --stabilize 250ms --finger 1s"
        for more in (
            "--latency 200ms --jitter 50ms --lookup-gap 5s..15s", "--latency 200ms --jitter 0us",
            "--profile 2 --latency 120ms --spread 40ms --jitter 20ms", "--latency 400ms --jitter 50ms",
        ):
            with self.subTest(more=more):
                text = ended(generate.main, *words.split(), *more.split())[1]
                about, made = counted(text)
                check_bounds(about, made)
                # Without a skipped turn there would be twelve each 250 to 275 ms, from 164 to 180 for each.
                assert made["notify"] < 1300 and abs(about["notify"] / made["notify"] - 1) < 0.05, (about, made)

    def test_hidden_kinds(self) -> None:
        """Random scenarios of profiles 1 and 2, of 40 timeouts or more: churn, loss, spread, long round trips, also in
        a latency file."""
        for seed in range(8):
            draws = Random(seed)
            latency, timeout = draws.choice([20, 130, 300]), draws.choice([650, 1000])
            words = f"--nodes {draws.randint(8, 20)} --duration 45s --window 1ms --audit 5s --finger 500ms "
            words += "--jitter 50ms "
            words += f"--latency {latency}ms --timeout {timeout}ms --stabilize {draws.choice([250, 400, 1000])}ms "
            words += draws.choice(["", "--profile 2 --loss 10000 ", "--profile 2 --spread 40ms "])
            words += draws.choice(["", "--lifetime exp:40s --down exp:8s", "--churn-uniform 20s..60s 5s..15s"])
            with self.subTest(words=words):
                text = ended(generate.main, *words.split(), "--seed", str(seed))[1]
                names = [node["name"] for node in tomllib.loads(text)["node"]] if seed % 2 else []
                pairs = ((a, b) for place, a in enumerate(names) for b in names[:place])
                rows = "".join(f"{a},{b},{draws.randint(2000, 300_000)}\n" for a, b in pairs)
                check_bounds(*counted(text, 0, rows.encode()))

    def test_round_trips_of_a_period(self) -> None:
        """A reply that comes with the next turn: of the two the event of the node that is listed first comes first."""
        words = "--nodes 12 --duration 45s --window 1ms --timeout 1s --audit 5s --finger 1s --jitter 0us"
        for more in ("--latency 200ms --stabilize 400ms", "--latency 200ms --stabilize 200ms"):
            with self.subTest(more=more):
                about, made = counted(ended(generate.main, *words.split(), *more.split())[1])
                check_bounds(about, made)
                assert abs(about["notify"] - made["notify"]) < 0.01 * made["notify"], (about, made)

    def test_calls_without_a_reply_and_long_round_trips(self) -> None:
        """A timeout of 12 turns takes the place of two stabilizations, since each of these takes five turns. What is
        removed is found again by a list."""
        words = "--nodes 24 --duration 65s --window 1ms --audit 5s --finger 500ms --jitter 50ms --latency 300ms "
        words += "--profile 2 --loss 20000 --timeout 1500ms --stabilize 100ms"
        about, made = counted(ended(generate.main, *words.split())[1])
        check_bounds(about, made)
        for kind, most in (("notify", 0.02), ("get-state", 0.02), ("get-list", 0.15)):
            assert abs(about[kind] - made[kind]) < most * made[kind], (kind, about, made)

    def test_latency_file(self) -> None:
        """The round trip to the next member counts: one pair of three is far apart, so that one member skips turns."""
        nodes = "".join(f'[[node]]\nname = "n{i}"\nid = {i * 80}\ninitial = true\n' for i in range(3))
        text = (
            "profile = 1\nbits = 8\nseed = 1\nlatency_us = 10000\nlist = 2\nduration_us = 40000000\nwindow_us = 1000\n"
            "timeout_us = 900000\naudit_us = 5000000\nstabilize_us = 100000\nfinger_us = 5000000\n" + nodes
        )
        about, made = counted(text, 0, b"n0,n1,225000\n")
        # Of 399 turns n1 and n2 use all, and n0, whose round trip is 450 ms, every fifth.
        assert abs(made["notify"] - 877) < 9 and abs(about["notify"] - made["notify"]) < 9, (about, made)

    def test_detail(self) -> None:
        """The lines of a run with detail give the numbers themselves, also after a warm-up."""
        text = shortened("lossy64.toml", 12_000_000).replace("profile = 2", "profile = 4\ndetail = true", 1)
        text = text.replace("life_min_us = 20", "leave_ppm = 500000\nlife_min_us = 2")
        for warmup in (0, 5_000_000):
            found, made = counted(text, warmup)
            assert found == made and min(made.values()) > 0, (found, made)

    def test_detail_of_requests_sent_again(self) -> None:
        """A tenth of the messages lost, requests sent again twice, pauses of joins and checks: counted all the same."""
        more = "profile = 4\ndetail = true\nretries = 2\njoin_pause_us = 500000\ncheck_us = 400000"
        text = shortened("lossy64.toml", 12_000_000).replace("profile = 2", more, 1)
        found, made = counted(text.replace("loss_ppm = 20000", "loss_ppm = 100000", 1))
        assert found == made and made["ping"] > 0, (found, made)

    def test_runs_of_a_study_are_counted(self) -> None:
        """A run of profile 4 has detail without being asked for it; profile 2 has an estimate, and says so."""
        for profile, wanted in ((4, 1), (2, 0)):
            words = f"--profile {profile} --nodes 12 --duration 40s --stabilize 100ms --latency 80ms --timeout 400ms"
            text = 'question = "How?"\nseeds = 1\ngenerate = ' + str(words.split()).replace("'", '"')
            with study_folder(text) as folder:
                assert call(folder, chordsim=program())[0] == 0
                [cells] = csv.DictReader((folder / "study" / "runs.csv").read_text().splitlines())
                _, made = counted(next((folder / "study" / "done").glob("*.toml")).read_text())
            assert cells["messages-counted"] == str(wanted) and bool(cells["pieces-messages"]) == (profile == 4)
            for word in ("cost-member-us", "ended-us", "ended-hops", "judged-found", "right-defensible", "sent-step",
                         "messages", "messages-lookups"):
                pieces = cells[f"pieces-{word}"].split()
                assert len(pieces) == 6 and sum(map(int, pieces)) == int(cells[word]) or not pieces, (word, cells)
            assert wanted == 0 or int(cells["messages"]) == sum(made.values()), (cells, made)

    def test_names_that_are_words_of_detail(self) -> None:
        """Nodes that are called ask and send, and messages, of whose stabilization a digest has the line."""
        traffic = traffic_of(
            "9 ask lookup 5", "9 send ask step ask call=3", "10 send timeout ask", "10 ask ask step send call=4",
            "11 ask found 5 send hops=1 timeouts=0 us=2", "12 ask send notify ask",
            "13 messages ask get-state ask call=5", "14 messages timeout ask", "14 messages drop ping send",
        )
        assert +traffic.lines == {"ask step": 1, "send notify": 1, "ask get-state": 1, "drop ping": 1}

    def test_pieces(self) -> None:
        """Six pieces of 15 us from 10 on."""
        kinds = ["step", "ping"]
        traffic = traffic_of(*(f"{time} a ask {kinds[time % 2]} b call={time}" for time in range(100)))
        assert [piece["ask step"] for piece in traffic.pieces] == [8, 7, 8, 7, 8, 7]
        assert traffic.lines["ask step"] == 45 and traffic.lines["ask ping"] == 45

    def test_lookups_by_hand(self) -> None:
        """A step to b; one to c, which is sent again and has no reply; one to b again; and one to d, the owner.

        These are five requests, and three of four calls have a reply. A request of a finger is none of a lookup.
        """
        of, of_finger = "key=5 since=100", "key=8 since=130"
        lines = [
            "100 a lookup 5", f"100 a ask step b call=1 {of}", f"120 a ask step c call=2 {of}",
            f"130 a ask step b call=3 {of_finger}", "150 a again step c", f"150 a ask step c call=2 {of}",
            "180 a timeout c", f"180 a ask step b call=4 {of}", f"200 a ask get-state d call=5 {of}",
            "220 a found 5 d hops=1 timeouts=1 us=120", f"230 a ask step b call=6 {of}", "240 a ask get-state b call=7",
        ]
        traffic = traffic_of(*lines, duration_us=300, warmup_us=0)
        assert traffic.lines[OF_LOOKUPS] == 8
        # Pieces of 50 us: from 100, 150 and 200 on.
        assert [piece[OF_LOOKUPS] for piece in traffic.pieces] == [0, 0, 2, 2, 4, 0]
        lines += ["250 e lookup 5", "250 e crash", f"250 e ask step b call=9 {of.replace('100', '250')}"]
        assert traffic_of(*lines, duration_us=300, warmup_us=0).lines[OF_LOOKUPS] == 8

    def test_lookups_that_are_alike(self) -> None:
        """Two lookups of one key that begin at one time: a request and a reply for each."""
        lines = [
            "100 a lookup 5", "100 a ask step b call=1 key=5 since=100", "100 a lookup 5",
            "100 a ask step b call=2 key=5 since=100", *["150 a found 5 b hops=1 timeouts=0 us=50"] * 2,
        ]
        traffic = traffic_of(*lines, duration_us=300, warmup_us=0)
        assert [piece[OF_LOOKUPS] for piece in traffic.pieces] == [0, 0, 2, 2, 0, 0]

    def test_run_of_lookups_alone(self) -> None:
        """A fourth of the nodes crashes and nothing is repaired: all messages are of lookups, and none is upkeep.

        Lookups begin from the crash on until 15 s, so that no crash and not the end cuts one off.
        """
        words = "--profile 4 --nodes 40 --crash 25%@1s --lookups 1 --lookup-gap none --stabilize 1000s --finger 1000s "
        words += "--no-random-start --jitter 0 --duration 20s --retries 1 --detail"
        top = tomllib.loads(ended(generate.main, *words.split())[1])
        times = range(1_000_001, 15_000_000)
        top["command"] = [one for one in top["command"] if one["do"] == "crash" or one["at_us"] in times]
        numbers, made = numbers_of(toml_text(top))
        assert numbers["messages"] == numbers["messages-lookups"] == sum(made.values()), (numbers, made)
        assert made["step"] > made["step-reply"] and made["get-state"] > made["state-reply"] > 0, made

    def test_detail_after_a_warmup(self) -> None:
        """The lines from 10 on. A lost request has two lines, and another lost message has one."""
        traffic = traffic_of(
            "9 a ask step b call=3", "10 a lose step b", "10 a ask step b call=3", "11 a again step b",
            "11 a ask step b call=3", "12 b send step-reply a", "13 b lose step-reply a", "14 b drop ping a",
            "15 a send notify b",
        )
        assert {kind: count for kind, count in exact(traffic).items() if count} == {
            "step": 2, "step-reply": 2, "notify": 1}

    def test_after_a_warmup(self) -> None:
        """The same from the tenth second on."""
        self.check(shortened("churn64.toml", 40_000_000), 10_000_000)

    def test_churn_by_commands(self) -> None:
        """Crashes, joins and lookups by commands, no other lookups."""
        words = ("--nodes", "30", "--duration", "60s", "--lifetime", "exp:20s", "--down", "exp:5s", "--lookups", "0.5")
        status, text, _ = ended(generate.main, *words)
        assert status == 0
        self.check(text)

    def test_events_before_a_time(self) -> None:
        """Those of the program up to a time, as the reference simulator takes them."""
        words = ("--nodes", "12", "--duration", "20s", "--lifetime", "exp:5s", "--down", "exp:5s")
        text = ended(generate.main, *words)[1]
        simulation = Simulation(read_scenario(text.encode(), b""))
        while simulation.pending[0].time < 7_000_000:
            simulation.take(heapq.heappop(simulation.pending))
        top: dict[str, Any] = tomllib.loads(text)
        assert events_before(top, 7_000_000, program(), None) == simulation.events
        assert events_before(top, 0, program(), None) == 0
