"""The worked examples that the program was made by: each in plain words, with the whole result that it must have.

Their traces, reports and refusals were worked out by hand before there was a program, and are never taken from it.
Each run is made by every engine. Calls that the program does not show are tested in crates: `IN_CRATES` names them.
"""

import re
import unittest
from dataclasses import dataclass
from pathlib import Path

from chordsim_tools.reference.chacha import Stream
from tests.support.rings import FOUR, PLANS, SERIAL, THREE, TOP, TWO, ProgramTest
from tests.support.worlds import LATER, SWITCHED_OFF

TOP_FOLDER = Path(__file__).parents[2]
WORDS = (
    "events", "members", "join-failed", "crashes", "stranded", "drops", "late", "timeouts", "lookups", "found", "lost",
    "busy", "ignored", "unfinished", "hops-sum", "hops-greatest", "us-sum", "us-least", "us-median", "us-greatest",
    "audits", "ringless", "unordered", "insufficient",
)
FULL = "200 audit members=3 dead=0 ring=3 ordered=yes principals=3 sufficient=yes"
TWO_LEFT = "audit members=2 dead=0 ring=2 ordered=yes principals=2 sufficient=no"
NONE_LEFT = "audit members=0 dead=0 ring=0 ordered=yes principals=0 sufficient=no"
TIMES = ("us_sum", "us_least", "us_median", "us_greatest")
BASE = {
    "list": 2, "duration_us": 200, "window_us": 10, "timeout_us": 40, "audit_us": 200, "stabilize_us": 1000,
    "finger_us": 1000,
}


def command(time: int, action: str, node: str, **others: int | str) -> str:
    """The text of a command."""
    keys = "".join(f"{key} = {value if isinstance(value, int) else repr(value)}\n" for key, value in others.items())
    return f'[[command]]\nat_us = {time}\ndo = "{action}"\nnode = "{node}"\n{keys}'


def ring(*commands: str, nodes: str = THREE, head: str = "", **settings: int) -> str:
    """The ring of three with these commands, or other nodes and settings."""
    keys = "".join(f"{key} = {value}\n" for key, value in (BASE | settings).items())
    return TOP + head + keys + nodes + "".join(commands)


def numbers(**others: int) -> dict[str, int]:
    """A report whose other numbers are 0."""
    return {word: others.get(word.replace("-", "_"), 0) for word in WORDS}


@dataclass
class Run:
    """A scenario whose run is done, with its whole trace; and its whole report, or some of its numbers."""

    name: str
    toml: str
    trace: list[str]
    report: dict[str, int]
    latency: str = ""


LOOK_AT_1 = command(100, "lookup", "n3", key=1)
OPPOSITE = command(100, "lookup", "n0", key=4) + LOOK_AT_1
OPPOSITE_TRACE = [
    "100 n0 lookup 4", "100 n3 lookup 1", "120 n3 found 1 n1 hops=1 timeouts=0 us=20",
    "120 n0 found 4 n0 hops=1 timeouts=0 us=20", FULL,
]
ONE_HOP_TRACE = ["100 n3 lookup 1", "120 n3 found 1 n1 hops=1 timeouts=0 us=20", FULL]
ONE_HOP_REPORT = numbers(
    events=4, lookups=1, found=1, hops_sum=1, hops_greatest=1, audits=1, **dict.fromkeys(TIMES, 20)
)
JOIN_THROUGH_DEAD = (command(50, "crash", "n1"), command(100, "join", "n6", via="n1"))

BASE_RUN = Run(
    "the base run: the owner is the first successor", ring(command(100, "lookup", "n0", key=1)),
    ["100 n0 lookup 1", "100 n0 found 1 n1 hops=0 timeouts=0 us=0", FULL],
    numbers(events=1, lookups=1, found=1, audits=1),
)
OWN_SUCCESSOR = Run(
    "a node whose list names only itself asks itself",
    ring(
        command(50, "crash", "n1"), command(155, "crash", "n3"), command(235, "crash", "n0"), timeout_us=30,
        stabilize_us=100, duration_us=240, audit_us=240,
    ),
    [
        "50 n1 crash", "110 n1 drop get-state n0", "130 n0 timeout n1", "155 n3 crash", "160 n1 drop get-list n0",
        "180 n0 timeout n1", "190 n3 drop notify n0", "210 n3 drop get-state n0", "230 n0 timeout n3", "235 n0 crash",
        f"240 {NONE_LEFT}",
    ],
    {"events": 24},
)
SILENT_OWNER = Run(
    "the owner is silent", ring(command(50, "crash", "n1"), command(100, "lookup", "n0", key=2)),
    [
        "50 n1 crash", "100 n0 lookup 2", "110 n1 drop step n0", "140 n0 timeout n1",
        "140 n0 found 2 n3 hops=0 timeouts=1 us=40", f"200 {TWO_LEFT}",
    ],
    {"events": 4},
)
AUDIT_AT_A_CRASH = Run(
    "an audit at the time of a crash sees the node up", ring(command(100, "crash", "n1"), audit_us=100),
    [
        "100 audit members=3 dead=0 ring=3 ordered=yes principals=3 sufficient=yes", "100 n1 crash",
        f"200 {TWO_LEFT}",
    ],
    {"audits": 2},
)
LATE_REPLY = Run(
    "a reply that comes after the timeout is late", ring(LOOK_AT_1, timeout_us=15),
    [
        "100 n3 lookup 1", "115 n3 timeout n0", "115 n3 found 1 n1 hops=0 timeouts=1 us=15",
        "120 n3 late step-reply n0", FULL,
    ],
    {"events": 4},
)
CRASH_AND_REJOIN = Run(
    "crash and rejoin at one time: the earlier life's reply is late",
    ring(LOOK_AT_1, command(115, "crash", "n3"), command(115, "join", "n3", via="n0")),
    ["100 n3 lookup 1", "115 n3 crash", "115 n3 join n0", "120 n3 late step-reply n0", f"200 {TWO_LEFT}"],
    numbers(events=17, crashes=1, late=1, lookups=1, unfinished=1, audits=1, insufficient=1),
)
JOIN = Run(
    "a join", ring(command(100, "join", "n6", via="n0"), nodes=FOUR),
    ["100 n6 join n0", "160 n6 member n3", "200 audit members=4 dead=0 ring=3 ordered=yes principals=3 sufficient=yes"],
    {"events": 10},
)
JOIN_AND_REPAIR = Run(
    "a join, and the repair that takes the new member into the ring",
    ring(command(100, "join", "n6", via="n0"), nodes=FOUR, stabilize_us=170, duration_us=400, audit_us=400),
    ["100 n6 join n0", "160 n6 member n3", "400 audit members=4 dead=0 ring=4 ordered=yes principals=3 sufficient=yes"],
    {"events": 47},
)
CHURN = Run(
    "one cycle of churn",
    ring(
        "[churn]\nlife_min_us = 100\nlife_max_us = 100\ndown_min_us = 50\ndown_max_us = 50\n", duration_us=160,
        audit_us=160, nodes=THREE.replace('name = "n1"\n', 'name = "n1"\nchurn = true\n'),
    ),
    ["100 n1 crash", "150 n1 join n0", f"160 {TWO_LEFT}"],
    {"events": 2},
)
STRANDED = Run(
    "a node is stranded when its list is empty",
    ring(command(50, "crash", "n4"), command(100, "lookup", "n0", key=5), nodes=TWO, list=1, stabilize_us=150),
    [
        "50 n4 crash", "100 n0 lookup 5", "110 n4 drop step n0", "140 n0 timeout n4",
        "140 n0 lost 5 hops=0 timeouts=1 us=40", "160 n4 drop get-state n0", "190 n0 timeout n4", "190 n0 stranded n4",
        f"200 {NONE_LEFT}",
    ],
    {"events": 8},
)
EIGHT_FAILURES = Run(
    "a join that fails eight times", ring(*JOIN_THROUGH_DEAD, nodes=FOUR, duration_us=500, audit_us=500),
    [
        "50 n1 crash", "100 n6 join n1",
        *(
            line
            for k in range(8)
            for line in (f"{110 + 40 * k} n1 drop step n6", f"{140 + 40 * k} n6 timeout n1")
        ),
        "420 n6 join-failed", f"500 {TWO_LEFT}",
    ],
    {"events": 18},
)
CRASHED_FINGER = Run(
    "a finger that is refreshed through a crashed node", ring(command(50, "crash", "n1"), finger_us=60),
    [
        "50 n1 crash", "70 n1 drop step n0", "100 n0 timeout n1", "190 n1 drop step n0", f"200 {TWO_LEFT}",
    ],
    numbers(events=14, crashes=1, drops=2, timeouts=1, audits=1, insufficient=1),
)
ONE_HOP = Run("one hop", ring(LOOK_AT_1), ONE_HOP_TRACE, ONE_HOP_REPORT)
TWO_LOOKUPS = Run("two lookups in two parts", ring(OPPOSITE), OPPOSITE_TRACE, {"events": 8})
RUNS = (
    Run(
        "three lookups on the first ring", ring(*(command(100, "lookup", "n0", key=key) for key in (1, 2, 6))),
        [
            "100 n0 lookup 1", "100 n0 found 1 n1 hops=0 timeouts=0 us=0", "100 n0 lookup 2", "100 n0 lookup 6",
            "120 n0 found 2 n3 hops=1 timeouts=0 us=20", "120 n0 found 6 n0 hops=1 timeouts=0 us=20", FULL,
        ],
        {"lookups": 3},
    ),
    BASE_RUN, ONE_HOP,
    Run(
        "a latency equal to the window", ring(command(100, "lookup", "n0", key=5), nodes=TWO, list=1),
        [
            "100 n0 lookup 5", "120 n0 found 5 n0 hops=1 timeouts=0 us=20",
            "200 audit members=2 dead=0 ring=2 ordered=yes principals=2 sufficient=yes",
        ],
        {"events": 4},
    ),
    OWN_SUCCESSOR, TWO_LOOKUPS, AUDIT_AT_A_CRASH, SILENT_OWNER, LATE_REPLY, CRASH_AND_REJOIN,
    Run("no commands", ring(), [FULL], numbers(audits=1)),
    JOIN, JOIN_AND_REPAIR, CHURN, STRANDED, EIGHT_FAILURES,
    Run(
        "sixty lookups in progress, and one more", ring(*[LOOK_AT_1] * 61),
        ["100 n3 lookup 1"] * 60 + ["100 n3 busy 1"] + ["120 n3 found 1 n1 hops=1 timeouts=0 us=20"] * 60 + [FULL],
        {"events": 241},
    ),
    Run(
        "a second crash is ignored", ring(command(50, "crash", "n1"), command(50, "crash", "n1")),
        ["50 n1 crash", "50 n1 ignored crash", f"200 {TWO_LEFT}"], {"events": 2},
    ),
    Run(
        "a latency of its own for one pair", ring(LOOK_AT_1),
        ["100 n3 lookup 1", "130 n3 found 1 n1 hops=1 timeouts=0 us=30", FULL], {"events": 4}, "n0,n3,15\n",
    ),
    CRASHED_FINGER,
)
# Those that draw nothing that makes a difference: the base run, one hop, and all with joins, crashes and timeouts.
WITHOUT_DRAWS = (
    BASE_RUN, ONE_HOP, OWN_SUCCESSOR, TWO_LOOKUPS, AUDIT_AT_A_CRASH, SILENT_OWNER, LATE_REPLY, CRASH_AND_REJOIN, JOIN,
    JOIN_AND_REPAIR, CHURN, STRANDED, EIGHT_FAILURES,
)
DIVISIONS = ("--parts 1", "--parts 3", "--parts 5", "--parts 2 --split block", "--parts 3 --workers 64")
LOSE_ALL = Run(
    "profile 2 loses all messages", ring(LOOK_AT_1, head="loss_ppm = 1000000\n").replace("profile = 1", "profile = 2"),
    [
        "100 n3 lookup 1", "100 n3 lose step n0", "140 n3 timeout n0", "140 n3 found 1 n1 hops=0 timeouts=1 us=40",
        FULL,
    ],
    numbers(events=2, timeouts=1, lookups=1, found=1, audits=1, **dict.fromkeys(TIMES, 40)) | {"losses": 1},
)


@dataclass
class Refusal:
    """Changes of the base file, old texts to new ones, and the refusal that it must have, or an accepted file."""

    name: str
    changes: dict[str, str]
    result: str
    latency: str = ""


LOOKUP = command(100, "lookup", "n0", key=1)
REFUSALS = (
    Refusal("too few initial nodes", {"id = 3\ninitial = true": "id = 3"}, "S10 TooFewInitial"),
    Refusal("two nodes with one identifier", {"id = 1\n": "id = 0\n"}, "S8 SameId n0 n1"),
    Refusal("a latency below the window", {"window_us = 10": "window_us = 11"}, "S15 LatencyBelowWindow n0 n1"),
    Refusal("a latency row below the window", {}, "S15 LatencyBelowWindow n0 n3", "n0,n3,9\n"),
    Refusal("a row of an unknown node after a link to itself", {}, "S9 UnknownNode row 2", "n0,n0,10\nn0,n9,10\n"),
    Refusal("a link to itself", {}, "S13 SelfLink row 1", "n0,n0,10\n"),
    Refusal("a pair in two rows", {}, "S14 SameLinkTwice row 2", "n0,n3,10\nn3,n0,10\n"),
    Refusal("a command at the end", {"at_us = 100": "at_us = 200"}, "S11 TimeAfterEnd command 1"),
    Refusal("the base file", {}, "ok nodes=3 commands=1"),
    Refusal("a number as a text", {"bits = 3": 'bits = "3"'}, "S4 WrongType top bits"),
    Refusal("a name of two nodes", {'name = "n1"': 'name = "n0"'}, "S7 SameName node 1 node 2"),
    Refusal("a command of an unknown node", {'node = "n0"': 'node = "n9"'}, "S9 UnknownNode command 1"),
    Refusal("too few bits", {"bits = 3": "bits = 2"}, "S5 OutOfRange top bits"),
    Refusal("too many bits", {"bits = 3": "bits = 65"}, "S5 OutOfRange top bits"),
    Refusal("a profile that there is not", {"profile = 1": "profile = 3"}, "S5 OutOfRange top profile"),
    Refusal(
        "more audits than a million", {"duration_us = 200": "duration_us = 1000001", "audit_us = 200": "audit_us = 1"},
        "S5 OutOfRange top audit_us",
    ),
    Refusal("an identifier off the circle", {"id = 0\n": "id = 8\n"}, "S5 OutOfRange node 1 id"),
    Refusal("the same as a text", {"id = 0\n": 'id = "8"\n'}, "S5 OutOfRange node 1 id"),
    Refusal("an empty identifier", {"id = 0\n": 'id = ""\n'}, "S5 OutOfRange node 1 id"),
    Refusal("a command that there is not", {'do = "lookup"': 'do = "leave"'}, "S5 OutOfRange command 1 do"),
    Refusal("a lookup without a key", {"key = 1\n": ""}, "S3 MissingKey command 1 key"),
    Refusal("a node named as the audit", {'name = "n1"': 'name = "audit"'}, "S6 BadName node 2"),
    Refusal("a name of 33 letters", {'name = "n1"': f'name = "{"n" * 33}"'}, "S6 BadName node 2"),
    Refusal("a row of two fields", {}, "S12 BadLatencyRow row 1", "n0,n3\n"),
    Refusal("a row without a number", {}, "S12 BadLatencyRow row 1", "n0,n3,\n"),
    Refusal("a row above a thousand seconds", {}, "S12 BadLatencyRow row 1", "n0,n3,1000000001\n"),
    Refusal("a row of eleven digits", {}, "S12 BadLatencyRow row 1", "n0,n3,00000000010\n"),
    Refusal(
        "profile 2 with a latency below the window",
        {"profile = 1": "profile = 2\nspread_us = 5", "window_us = 10": "window_us = 11"},
        "S15 LatencyBelowWindow n0 n1",
    ),
    Refusal("loss in profile 1", {"profile = 1": "profile = 1\nloss_ppm = 0"}, "S2 UnknownKey top"),
    Refusal("17 digits in profile 1", {"id = 3\n": f'id = "{"0" * 17}"\n'}, "S5 OutOfRange node 3 id"),
)
CUT = (
    ("a text that ends behind its first line", "profile = 1\n", "S3 MissingKey top bits"),
    ("the same with an unknown key", "profile = 1\nx = 1\n", "S2 UnknownKey top"),
    ("a text that ends within a heading", "profile = 1\n[[nod", "S1 NotToml"),
)

# Worked examples of calls that the program does not show: where the crates test each.
IN_CRATES = {
    "the initial ring's lists, predecessors and fingers": "first_ring.rs:the_first_ring",
    "identifiers from names": "first_ring.rs:a_ring_of_names",
    "between, at the ends of an interval": "circles.rs:between_at_the_ends",
    "a circle of 128 bits": "circles.rs:the_widest_circle",
    "an arena of two chunks": "arenas.rs:records_are_placed_up_to_the_room",
    "an arena drops its records": "arenas.rs:records_are_dropped_by_clear_and_at_the_end",
    "draws of three parts by two seats": "crews.rs:numbers_come_in_turn",
    "the least key first": "queues.rs:a_window_queue_gives_events_in_key_order",
    "pending events up to a time": "queues.rs:events_come_in_key_order",
    "a thousand events, twice": "queues.rs:a_window_queue_is_used_again",
    "divisions that are refused": "divisions.rs:a_list_that_is_no_division_is_refused_for_the_first_fault",
    "a division of another number of nodes": "divisions.rs:a_division_of_another_number_of_nodes",
    "two workers pass a gate in pairs": "crews.rs:two_workers_pass_in_pairs",
    "steps as they are picked": "windows.rs:steps_as_they_are_picked",
    "one worker's window": "crews.rs:one_worker_alone",
    "two workers without picks": "by_engine.rs:two_workers_without_picks",
    "streams of nodes, in any order of places": "streams.rs:places_in_any_order",
    "bytes that are written by the end of each window": "crews.rs:each_window_is_put_out_at_its_end",
    "divisions dealt in turn": "dealers.rs:each_window_has_its_own_parts",
    "a dealer's loads": "dealers.rs:a_dealer_is_told_the_loads",
    "a dealer whose division is refused": "dealers.rs:a_dealer_without_a_division_ends_the_run",
    "a writer that fails after k bytes": "writer_failures.rs:writers_that_fail_by_engines",
    "a start that is refused": "dealers.rs:a_refused_start_ends_the_run",
    "readers that fail after k bytes": "reader_failures.rs:readers_that_fail",
    "readers of single bytes": "reader_failures.rs:readers_of_single_bytes",
    "texts one byte above the limit": "reader_failures.rs:texts_that_are_too_long",
    "the event limit by each engine": "by_engine.rs:too_many_events_by_engines",
    "512 nodes in 512 parts": "by_engine.rs:a_part_for_each_of_512_nodes",
    "copies of states and events": "copies.rs:a_copy_of_each_body",
}


class WorkedRuns(ProgramTest):
    """Runs, by each engine."""

    def has_run(self, run: Run, toml: str, plan: tuple[str, ...], more: str = "") -> None:
        """Asserts that a run leaves its trace and the numbers of its report, with these lines behind the 24 first."""
        trace, report = self.left(toml, run.latency, plan)
        self.assertEqual(trace.splitlines(), run.trace)
        self.assertTrue(report.endswith(more))
        found = {word: int(number) for word, number in (line.split() for line in report.splitlines())}
        self.assertEqual(list(found)[:24], list(WORDS))
        self.assertEqual({word: found[word] for word in run.report}, run.report)
        self.assertEqual(len(found), 24 + more.count("\n"))

    def test_runs(self) -> None:
        """Those of profile 1."""
        for run in RUNS:
            for plan in PLANS:
                with self.subTest(run.name, plan=plan):
                    self.has_run(run, run.toml, plan)

    def test_lossless_runs_of_later_profiles(self) -> None:
        """Without loss and spread profile 2 has the same traces, and one line more in its reports.

        So has profile 4, with seven lines more, if the rules of Chord as published are switched off.
        """
        for run in WITHOUT_DRAWS:
            late = sum(int(line.split()[6].removeprefix("timeouts=")) for line in run.trace if " found " in line)
            numbers_of_4 = dict.fromkeys(LATER, 0) | {"timeouts-sum": late}
            more = "".join(f"{word} {number}\n" for word, number in numbers_of_4.items())
            for profile, lines in (("profile = 2", "losses 0\n"), (f"profile = 4\n{SWITCHED_OFF}", more)):
                with self.subTest(run.name, profile=profile):
                    self.has_run(run, run.toml.replace("profile = 1", profile, 1), SERIAL, lines)

    def test_lost_messages(self) -> None:
        """All messages of profile 2 are lost."""
        for plan in PLANS:
            with self.subTest(plan=plan):
                self.has_run(LOSE_ALL, LOSE_ALL.toml, plan, "losses 1\n")

    def test_spread_messages(self) -> None:
        """In profile 2 a request and its reply each take up to five microseconds longer, by words of their senders."""
        toml = ring(LOOK_AT_1, head="spread_us = 5\n").replace("profile = 1", "profile = 2")
        late = Stream(1, 2).word(3) % 6 + Stream(1, 0).word(3) % 6
        wanted = ["100 n3 lookup 1", f"{120 + late} n3 found 1 n1 hops=1 timeouts=0 us={20 + late}", FULL]
        for plan in PLANS:
            with self.subTest(plan=plan):
                self.assertEqual(self.left(toml, plan=plan).trace.splitlines(), wanted)

    def test_divisions(self) -> None:
        """One part, three, five of which two are empty, and 64 workers for three parts: the same bytes."""
        for engine in ("crew", "team"):
            for division in DIVISIONS:
                with self.subTest(engine=engine, division=division):
                    self.has_run(TWO_LOOKUPS, TWO_LOOKUPS.toml, ("--engine", engine, *division.split()))

    def test_event_limit(self) -> None:
        """Eight events are enough; with each lower limit what was written is a beginning."""
        whole = "".join(f"{line}\n" for line in TWO_LOOKUPS.trace)
        for limit in range(1, 9):
            toml = TWO_LOOKUPS.toml.replace("profile = 1\n", f"profile = 1\nmax_events = {limit}\n", 1)
            for plan in PLANS:
                with self.subTest(limit=limit, plan=plan):
                    status, output, error = self.ended("run", toml.encode(), b"", *plan)
                    if limit == 8:
                        self.assertEqual((status, error, output.startswith(whole)), (0, "", True))
                    else:
                        self.assertEqual((status, error), (3, "failed: 3 TooManyEvents\n"))
                        self.assertTrue(whole.startswith(output))

    def test_generated_lookups(self) -> None:
        """Each node draws from a stream of its own: three different keys at the same time."""
        toml = ring("[lookups]\ngap_min_us = 50\ngap_max_us = 50\n", nodes=THREE)
        lines = self.left(toml).trace.splitlines()
        begun = [line for line in lines if line.startswith("50 ") and " lookup " in line]
        self.assertEqual(begun, ["50 n0 lookup 2", "50 n1 lookup 5", "50 n3 lookup 1"])

    def test_padding(self) -> None:
        """A text of 16,777,216 bytes is read, and one of a byte more is too long."""
        padded = BASE_RUN.toml.encode().ljust(16_777_216, b"\n")
        self.assertEqual(self.ended("run", padded, b"")[1].splitlines()[:3], BASE_RUN.trace)
        status, output, error = self.ended("run", padded + b"\n", b"")
        self.assertEqual((status, output), (1, ""))
        self.assertEqual(error, f"refused: too long {self.folder / 'scenario.toml'}\n")

    def test_many_nodes(self) -> None:
        """512 and 4,096 nodes, each in its place of the circle, by as many parts as there may be."""
        for profile, bits, workers in ((1, 9, 64), (2, 12, 8)):
            nodes = "".join(f'[[node]]\nname = "n{i}"\nid = {i}\ninitial = true\n' for i in range(2**bits))
            toml = ring(LOOK_AT_1, nodes=nodes, list=16).replace("bits = 3", f"bits = {bits}")
            toml = toml.replace("profile = 1", f"profile = {profile}")
            wanted = self.left(toml)
            for engine in ("crew", "team"):
                plan = ("--engine", engine, "--parts", "512", "--workers", str(workers))
                with self.subTest(nodes=2**bits, engine=engine):
                    self.assertEqual(self.left(toml, plan=plan), wanted)


class WorkedTexts(ProgramTest):
    """Texts that are refused, and what `ids` prints."""

    def test_refusals(self) -> None:
        """Each change of the base file has its first fault."""
        base = ring(LOOKUP)
        for one in REFUSALS:
            with self.subTest(one.name):
                toml = base
                for old, new in one.changes.items():
                    self.assertIn(old, toml)
                    toml = toml.replace(old, new, 1)
                self.has_answer(toml, one.latency, one.result)

    def test_latency_below_the_window(self) -> None:
        """Two nodes opposite each other, a microsecond too near."""
        self.has_answer(ring(nodes=TWO, list=1, window_us=11), "", "S15 LatencyBelowWindow n0 n4")

    def test_texts_that_are_cut(self) -> None:
        """A text that ends early has the fault of what is left."""
        for name, text, result in CUT:
            with self.subTest(name):
                self.has_answer(text, "", result)
        base = ring(LOOKUP)
        end = base.index("id = 3\n") + len("id = 3\n")
        self.has_answer(base[:end], "", "S10 TooFewInitial")
        for place in (0, len(base) // 2, len(base)):
            spoiled = base.encode()[:place] + b"\xff" + base.encode()[place:]
            self.has_answer(spoiled, b"", "S1 NotToml")

    def test_numbers_of_tables(self) -> None:
        """One node, 513, 4,097 in profile 2, and 100,001 commands are out of range."""
        for bits, count, profile in ((3, 1, 1), (10, 513, 1), (13, 4097, 2)):
            nodes = "".join(f'[[node]]\nname = "n{i}"\nid = {i}\ninitial = true\n' for i in range(count))
            toml = ring(nodes=nodes).replace("profile = 1\nbits = 3", f"profile = {profile}\nbits = {bits}")
            with self.subTest(nodes=count):
                self.has_answer(toml, "", "S5 OutOfRange top node")
        self.has_answer(ring(*[LOOKUP] * 100_001), "", "S5 OutOfRange top command")

    def test_identifiers(self) -> None:
        """Of names, on circles of 8, 3 and 128 bits, and as texts of 32 and 17 digits."""
        named = "".join(f'[[node]]\nname = "{name}"\ninitial = true\n' for name in "abc")
        ids = self.ended("ids", ring(nodes=named).replace("bits = 3", "bits = 8").encode(), b"")
        self.assertEqual(ids, (0, "a 134\nb 233\nc 132\n", ""))
        self.has_answer(ring(nodes=named), "", "S8 SameId a c")
        wide = ring(nodes=named).replace("profile = 1\nbits = 3", "profile = 2\nbits = 128")
        first = self.ended("ids", wide.encode(), b"")[1].splitlines()[0]
        self.assertEqual(first, f"a {0x86F7E437FAA5A7FCE15D1DDCB9EAEAEA}")
        far = BASE_RUN.toml.replace("id = 3\n", f'id = "{"f" * 32}"\n')
        far = far.replace("profile = 1\nbits = 3", "profile = 2\nbits = 128")
        ids = self.ended("ids", far.encode(), b"")
        self.assertEqual(ids, (0, f"n0 0\nn1 1\nn3 {2**128 - 1}\n", ""))
        self.assertEqual(self.left(far).trace.splitlines(), BASE_RUN.trace)
        zero = BASE_RUN.toml.replace("id = 3\n", f'id = "{"0" * 17}"\n').replace("profile = 1", "profile = 2")
        self.has_answer(zero, "", "S8 SameId n0 n3")


class InCrates(unittest.TestCase):
    """The worked examples that crates test."""

    def test_each_is_there(self) -> None:
        """The named test is in its file."""
        folder = TOP_FOLDER / "crates" / "chord_examples" / "src" / "tests"
        for name, place in IN_CRATES.items():
            file, function = place.replace(".rs:", ".rt:").split(":")
            with self.subTest(name):
                text = (folder / file).read_text(encoding="utf-8")
                self.assertIsNotNone(re.search(rf"#\[test\]\n(?:#\[.*\]\n)*fn {function}\b", text))


if __name__ == "__main__":
    unittest.main()
