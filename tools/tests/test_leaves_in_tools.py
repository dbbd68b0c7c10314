"""Leaves in the tools: what explain, generate, trace, study and the Python package say and make of them."""

import shutil
import tomllib
from collections import Counter
from pathlib import Path
from tempfile import TemporaryDirectory
from typing import Any
from unittest import TestCase, skipUnless

from chordsim import Scenario
from chordsim.errors import Refused
from chordsim_tools.cli import Refused as RefusedFile
from chordsim_tools.explain.world_traps import alone_traps, bootstrap_traps, leave_traps, mean_life, second_ring_traps
from chordsim_tools.generate.command import main as generate
from chordsim_tools.messages import MESSAGES, REPLIES, REQUESTS, messages_made
from chordsim_tools.study.keys import varied_keys
from chordsim_tools.study.messages import Traffic, in_pieces
from chordsim_tools.study.pieces import Pieces
from chordsim_tools.study.served import Scope
from chordsim_tools.study.sizes import bytes_of, check_leaves, sizes_of
from chordsim_tools.study.worlds import scenario_of
from chordsim_tools.trace.detail import join_story
from chordsim_tools.trace.lookups import lookup_rows
from chordsim_tools.trace.messages import message_counts
from chordsim_tools.trace.page import data
from chordsim_tools.trace.reading import Run
from chordsim_tools.trace.stories import answer_story
from chordsim_tools.trace.summary import summary
from chordsim_tools.trace.tables import node_rows, step_rows, step_table, verdict
from chordsim_tools.trace.text import report_text, summary_text
from tests.support.judging import AskLines, read_digest
from tests.support.programs import ended
from tests.support.worlds import RING
from tests.test_churn_trace import TRACE, written
from tests.test_churn_trace import made as of_arguments
from tests.test_explain import SOUND, faults
from tests.test_explain_time import TOP, command, nodes
from tests.test_explain_traps import spoken
from tests.test_generate import churn_of, made, text_of
from tests.test_study_plan import SEEDS, in_folder
from tests.test_study_trace import numbers_of, reader
from tests.test_trace import SCENARIO, audit, run_of_text
from tests.test_trace_detail import LINES_OF_PAGE, NO_NODE, printed_by_page, requests
from tests.test_trace_detail import run_of as detailed

EXTENDED = SCENARIO.replace("profile = 1", "profile = 4")
LINES = (
    "10 b lookup 5", "20 d join a", "25 d leave", "30 b leave", "40 a drop leave b", "45 d ignored leave",
    "50 d join a", "60 a lookup 15", "70 a found 15 b hops=1 timeouts=0 us=10", "80 d member c", "90 a lookup 1",
    audit(500, 3), audit(1000, 3),
)


def run_of(*lines: str) -> Run:
    """A run of the extended profile, from its lines."""
    return run_of_text("".join(line + "\n" for line in lines), EXTENDED)


class ExplainTest(TestCase):
    """Refusals and traps."""

    def explained(self, old: str, new: str, profile: int = 1) -> tuple[str, str, list[str]]:
        """The first fault of the ring after a change, what is allowed, and what was likely meant."""
        [found] = faults(RING.replace("profile = 1", f"profile = {profile}").replace(old, new, 1))
        return found.fault, found.allowed, found.hints

    def test_command(self) -> None:
        """Profile 4 alone has it, and lists it with the others."""
        wanted = 'one of "join", "crash", "lookup"'
        for profile in (1, 2):
            assert self.explained('"lookup"', '"leave"', profile) == (
                "S5 OutOfRange command 1 do", wanted, ['profile 4 has "leave": write profile = 4']
            )
        assert self.explained('"lookup"', '"Leave"', 4) == (
            "S5 OutOfRange command 1 do", f'{wanted}, "leave"', ['did you mean "leave"?']
        )
        assert self.explained('"lookup"', '"look"')[2] == ['did you mean "lookup"?']
        assert self.explained('"lookup"', '"jump"')[2] == []

    def test_key(self) -> None:
        """It is a key of [churn] in profile 4, and out of its range there."""
        churn = "[churn]\nlife_min_us = 1\nlife_max_us = 2\ndown_min_us = 3\ndown_max_us = 4\n"
        assert self.explained("[[node]]", f"{churn}leave_ppm = 1\n[[node]]")[::2] == (
            "S2 UnknownKey churn", ["profile 4 has `leave_ppm`: write profile = 4"]
        )
        assert self.explained("[[node]]", f"{churn}leave_ppm = 1000001\n[[node]]", 4)[:2] == (
            "S5 OutOfRange churn leave_ppm", "an integer from 0 to 1000000"
        )
        assert self.explained("[[node]]", f"{churn}leave_ppn = 1\n[[node]]", 4)[2] == ["did you mean `leave_ppm`?"]

    def test_trap(self) -> None:
        """Without a node that churns by itself it changes nothing. With one it does, and 0 is none."""
        text = SOUND.replace("profile = 1", "profile = 4").replace("[churn]\n", "[churn]\nleave_ppm = 7\n")
        told = "leave_ppm = 7, and no node has churn = true: only such nodes leave by themselves, so it changes nothing"
        assert spoken(text) == [told]
        assert leave_traps({"churn": {"leave_ppm": 7}, "node": nodes(2, 1)}) == []
        assert leave_traps({"churn": {"leave_ppm": 0}, "node": nodes(2)}) == leave_traps({"node": nodes(2)}) == []

    def test_traps_of_who_is_up(self) -> None:
        """A leave ends a life by command, as a crash does: nobody is up then, and another ring is no second one."""
        top: dict[str, Any] = {**TOP, "profile": 4, "node": nodes(2)}
        moves = [command(10, "leave", 0), command(20, "crash", 1)]
        for commands in (moves, [command(10, "crash", 0), command(20, "leave", 1)]):
            told = alone_traps({**top, "command": commands})
            assert len(told) == 1 and told[0].startswith("commands: no node is up from 20s on; ")
        own = {**command(30, "join", 0), "via": "n0"}
        assert second_ring_traps({**top, "command": [*moves, own]}) == []
        assert len(second_ring_traps({**top, "command": [moves[0], own]})) == 1
        bootstrap = [{**node, "bootstrap": node["name"] == "n0"} for node in nodes(2)]
        told = bootstrap_traps({**top, "node": bootstrap, "command": moves[:1]})
        assert len(told) == 1 and told[0].startswith("commands: no bootstrap node is up from 10s on; ")
        # n0 is up for 10 s, and n1 for 20 s.
        assert mean_life({**top, "command": moves}) == 15_000_000


class GenerateTest(TestCase):
    """The option --leaves."""

    def test_program_draws(self) -> None:
        """With --churn-uniform it is `leave_ppm`, the last key of [churn]. Without it, and with 0, there is none."""
        arguments = "--profile 4 --churn-uniform 20s..30s 1s..2s"
        ring = tomllib.loads(text_of(f"{arguments} --leaves 250000"))
        assert list(ring["churn"].items())[3:] == [("down_max_us", 2_000_000), ("leave_ppm", 250_000)]
        for other in ("", " --leaves 0"):
            assert "leave_ppm" not in text_of(f"{arguments}{other}")
        assert "command" not in ring and "leave," not in text_of(f"{arguments} --leaves 250000")

    def test_commands(self) -> None:
        """All ends of lives, half of them, or none: the times are the same, and so are joins and lookups."""
        arguments = "--profile 4 --nodes 40 --lifetime exp:20s --down exp:5s --lookups 0.1 --duration 100s"
        plain = made(arguments)
        crashes = [(one.at_us, one.node) for one in plain.commands if one.do == "crash"]
        for leaves, least, most in ((1_000_000, 1, 1), (500_000, 0.4, 0.6), (0, 0, 0)):
            ring = made(f"{arguments} --leaves {leaves}")
            gone = [(one.at_us, one.node) for one in ring.commands if one.do == "leave"]
            stay = [(one.at_us, one.node) for one in ring.commands if one.do == "crash"]
            assert sorted(gone + stay) == sorted(crashes)
            assert least * len(crashes) <= len(gone) <= most * len(crashes)
            others = [[one for one in each.commands if one.do in ("join", "lookup")] for each in (ring, plain)]
            assert others[0] == others[1]

    def test_lives_of_one_node(self) -> None:
        """Leaves and joins take turns."""
        ring = made("--profile 4 --nodes 6 --lifetime exp:5s --down exp:5s --stay 5 --duration 200s --leaves 1000000")
        moves = [move.do for move in churn_of(ring, 5)]
        assert len(moves) > 10 and moves == (["leave", "join"] * len(moves))[: len(moves)]

    def test_outages(self) -> None:
        """Who is struck crashes. The lives of the others end as without the outage."""
        arguments = "--profile 4 --nodes 30 --lifetime exp:60s --down exp:9s --duration 100s --leaves 1000000"
        ring = made(f"{arguments} --crash 40%@50s")
        crashes = [one for one in ring.commands if one.do == "crash"]
        assert crashes and {one.at_us for one in crashes} == {50_000_000}
        struck = {one.node for one in crashes}
        ends = [
            {(one.at_us, one.node) for one in each.commands if one.do == "leave" and one.node not in struck}
            for each in (ring, made(arguments))
        ]
        assert ends[0] == ends[1] and len(ends[0]) > 5

    def test_churn_trace(self) -> None:
        """A session that ends within the run ends with a leave, unless an outage cuts it. That of b ends the run.

        The one that ends at the time of an outage ends with a crash too."""
        with TemporaryDirectory() as folder:
            words = ("--profile", "4", "--churn-trace", written(folder, TRACE), "--leaves", "1000000")
            rings = [of_arguments(*words, *more) for more in ((), ("--crash", "x@15s"), ("--crash", "x@20s"))]
        moves = [[(one.at_us // 10**6, one.do, ring.nodes[one.node].name) for one in ring.commands] for ring in rings]
        of_a = [(30, "leave", "a"), (45, "join", "a"), (60, "leave", "a")]
        assert moves[0] == [(10, "join", "x-1"), (20, "leave", "x-1"), *of_a]
        assert moves[1] == [(10, "join", "x-1"), (15, "crash", "x-0"), (15, "crash", "x-1"), *of_a]
        assert moves[2] == [(10, "join", "x-1"), (20, "crash", "x-0"), (20, "crash", "x-1"), *of_a]

    def test_groups(self) -> None:
        """A group with lives of 3 s and down times of 1 s leaves at 3, 7 and 11 s, and the one without stays."""
        groups = "--group a:4:lifetime=uniform:3s..3s,down=uniform:1s..1s --group b:4 --stay 0"
        ring = made(f"--profile 4 {groups} --duration 12s --leaves 1000000")
        moves = Counter((one.at_us // 10**6, one.do, ring.nodes[one.node].name[0]) for one in ring.commands)
        assert moves == {
            **{(second, "leave", "a"): 4 for second in (3, 7, 11)}, **{(second, "join", "a"): 4 for second in (4, 8)},
        }

    def test_head(self) -> None:
        """It names the option and counts the leaves, if there may be some."""
        text = text_of("--profile 4 --nodes 6 --lifetime exp:5s --leaves 1000000")
        count = text.count('do = "leave"')
        assert f"Commands: 0 crash, {count} leave, " in text and "--leaves 1000000\n" in text.split("\n\n")[0]
        assert " leave" not in text_of("--profile 4 --nodes 6 --lifetime exp:5s")

    def test_refusals(self) -> None:
        """Other profiles, nodes that do not go, and other numbers."""
        for arguments, told in (
            ("--leaves 5 --lifetime exp:5s", "--leaves: only with --profile 4"),
            ("--profile 2 --leaves 5 --lifetime exp:5s", "--leaves: only with --profile 4"),
            ("--profile 4 --leaves 5", "--leaves: only with --churn-uniform, --lifetime or --churn-trace"),
            ("--profile 4 --lifetime exp:5s --leaves 1000001", "--leaves: ends of lives per million that are leaves, "),
            ("--profile 4 --lifetime exp:5s --leaves 50%", "0 to 1000000 (500000 is half of them), not '50%'"),
        ):
            status, out, err = ended(generate, *arguments.split())
            assert (status, out) == (2, "") and told in err, err

    def test_few(self) -> None:
        """A few of a million: per cent were meant."""
        err = ended(generate, *"--profile 4 --lifetime exp:50s --leaves 90".split())[2]
        assert "--leaves 90: 90 of a million lives end with a leave, 0.009 %; 90 % are 900000" in err


class TraceTest(TestCase):
    """What tools/trace makes of lines of leaves."""

    def test_summary(self) -> None:
        """b left with a lookup, and d while it joined. b is no member at 60, though a takes it for the owner."""
        facts = summary(run_of(*LINES))
        words = ("begun", "found", "cut_by_crash", "cut_by_leave", "cut_by_end", "ignored_commands")
        assert [facts["lookups"][word] for word in words] == [3, 1, 0, 1, 1, 1]
        assert (facts["leaves"], facts["crashes"], facts["drops"]) == (2, 0, 1)
        assert [facts["joins"][word] for word in ("begun", "done", "cut_by_leave")] == [2, 1, 1]
        assert (facts["answers"]["wrong_names_no_member"], facts["answers"]["right_defensible"]) == (1, 0)
        told = list(summary_text(facts))
        assert "leaves                  2; nodes that told their neighbours before they went" in told
        assert "  cut off by a leave    1 (33.33 %)" in told
        assert "joins begun             2; 1 done, 1 cut off by a leave" in told

    def test_other_runs(self) -> None:
        """Without leaves no line tells of them, and the other profiles have no such number."""
        quiet = ("10 b lookup 5", audit(500, 3), audit(1000, 3))
        told = "\n".join(summary_text(summary(run_of(*quiet))))
        assert "leave" not in told and summary(run_of(*quiet))["leaves"] == 0
        assert summary(run_of_text("".join(f"{line}\n" for line in quiet)))["leaves"] is None

    def test_lives(self) -> None:
        """A leave ends a life, and a line of a node that is down cannot be one."""
        run = run_of(*LINES)
        lives = [[(life.begin, life.end) for life in lives] for lives in run.history.lives]
        assert lives == [[(0, None)], [(0, 30)], [(0, None)], [(20, 25), (50, None)]]
        assert [row["lives"] for row in node_rows(run)] == [1, 1, 1, 2]
        assert [run.history.lines.text(at) for at in range(len(LINES))] == list(LINES)
        for line in ("10 d leave", "10 a leave b", "10 a ignored leave b", "10 a leave d d"):
            self.assertRaises(RefusedFile, run_of, line)
        self.assertRaisesRegex(RefusedFile, "the node was down", run_of, "10 a leave", "20 a leave")

    def test_report(self) -> None:
        """The number of the report is that of the lines, and is named."""
        text = "".join(f"{line}\n" for line in LINES)
        assert run_of_text(text + "leaves 2\ncrashes 0\n", EXTENDED).report == {"leaves": 2, "crashes": 0}
        wrong = "has `leaves 3`, and the trace 2"
        self.assertRaisesRegex(RefusedFile, wrong, run_of_text, text + "leaves 3\n", EXTENDED)
        told = "".join(report_text("report", {"leaves": 2}))
        assert told.endswith("  leaves          2, nodes that told their neighbours before they went")

    def test_over_time(self) -> None:
        """The steps count leaves. Without any there is no column."""
        rows = step_rows(run_of(*LINES), 500)
        assert [(row["leaves"], row["crashes"], row["members"]) for row in rows] == [(2, 0, 3), (0, 0, 3)]
        assert " leaves " in "\n".join(step_table(rows))
        assert "leaves" not in "\n".join(step_table(step_rows(run_of(audit(500, 3), audit(1000, 3)), 500)))

    def test_lookups(self) -> None:
        """The first lookup is cut off by the leave."""
        run = run_of(*LINES)
        first, _, last = lookup_rows(run)
        assert (first.strict, first.defensible) == ("cut-by-leave", "cut-by-leave")
        assert (first.ended_us, first.hops) == (30, None)
        assert last.strict == "cut-by-end"
        one = run.history.lines.lookups[0]
        assert verdict(one) == "cut off by a leave"
        assert list(answer_story(run, one)) == ["its asker left before it ended"]

    def test_page(self) -> None:
        """Changes of nodes are kept, and outcomes have a number each beside the other flags."""
        page = data.page_data(run_of(*LINES), "ring.toml")
        assert page["bins"]["leaves"][-1] == 2 and page["bins"]["cut"][-1] == 1 and page["bins"]["crashes"][-1] == 0
        run = run_of(*LINES)
        assert [data.flags_of(one) for one in run.history.lines.lookups] == [4, 0, 3]

    @skipUnless(shutil.which("node"), NO_NODE)
    def test_script_of_a_page(self) -> None:
        """It shows the lines as they are, what became of the lookups, and how many are down, joining and members."""
        run = run_of(*LINES)
        assert printed_by_page(run, LINES_OF_PAGE) == [line for line in LINES if " audit " not in line]
        verdicts = printed_by_page(run, "for (const one of [0, 1, 2]) console.log(verdict(one));")
        assert verdicts == ["cut off by a leave", "names no member", "cut off by the end"]
        counts = "goTo(time); console.log(...statusCounts().slice(0, 3));"
        told = printed_by_page(run, f"for (const time of [0, 20, 25, 30, 50, 80]) {{ {counts} }}")
        assert told == ["1 0 3", "0 1 3", "1 0 3", "2 0 2", "1 1 2", "1 0 3"]

    def test_detail(self) -> None:
        """Lines `send leave` count as messages, as lost ones do. A story ends with the leave."""
        lines = (
            "20 a lookup 35", "20 a ask step c call=4 key=35 since=20", "25 a leave", "25 a send leave b",
            "25 a lose leave c", "30 c send step-reply a", "35 b drop leave a", "40 a drop step-reply c",
        )
        counts = message_counts(detailed(*lines))
        assert counts is not None
        assert counts["leave"] == {"made": 2, "lost": 1, "again": 0, "drops": 1, "late": 0}
        told, calls = requests(*lines)
        assert calls == ["call 4, step to c, sent once: replied; cut off"]
        assert told == ["  020 a lookup 35", "  020 a ask step c call=4 key=35 since=20", "  025 a leave",
                        "| 030 c send step-reply a"]
        joined = detailed("10 d join a", "10 d ask step a call=3", "15 d leave", "20 a send step-reply d")
        assert join_story(joined, "d")[0] == "d joins at 0.00001 s, and leaves after 0.000005 s"

    def test_kinds(self) -> None:
        """A leave is made by a line `send` or a line `lose`, and asks for no reply."""
        assert MESSAGES[4:6] == ("notify", "leave") and "leave" not in REQUESTS
        assert list(REPLIES.values()) == list(MESSAGES[6:])
        assert messages_made("leave", Counter({"send leave": 2, "lose leave": 1, "drop leave": 1})) == 3


class StudyTest(TestCase):
    """What a study takes from lines of leaves."""

    def test_cut_off(self) -> None:
        """A lookup of a node that leaves is cut off, and counts with those of crashes."""
        words = ("judged-lookups", "judged-found", "cut-by-crash", "cut-by-end")
        lines = ("10 a lookup 15", "20 b lookup 15", "30 b leave", "40 c lookup 15", "45 c crash")
        assert [numbers_of(*lines)[word] for word in words] == [3, 0, 2, 1]

    def test_right_answers(self) -> None:
        """b owns 15 until it leaves, and then c does."""
        named = ((20, "b"), (40, "b"), (50, "c"))
        lines = [f"{time} a found 15 {owner} hops=1 timeouts=0 us=5" for time, owner in named]
        numbers = numbers_of("10 d member c", lines[0], "30 b leave", *lines[1:])
        assert [numbers[word] for word in ("right", "wrong", "wrong-down")] == [2, 1, 1]

    def test_time_up(self) -> None:
        """The run ends at 250. b is up until 30. d is up from 10 on, and until a leave at 50 if there is one.

        This leave is ignored, since the join of d has failed."""
        plain, left = numbers_of(), numbers_of("30 b leave")
        assert int(plain["up-us"] or 0) - int(left["up-us"] or 0) == 220
        assert int(plain["member-us"] or 0) - int(left["member-us"] or 0) == 220
        failed = ("10 d join a", "20 d join-failed")
        assert int(numbers_of(*failed)["up-us"] or 0) - int(plain["up-us"] or 0) == 240
        ignored = numbers_of(*failed, "50 d ignored leave")
        assert int(ignored["up-us"] or 0) - int(plain["up-us"] or 0) == 40

    def test_pieces(self) -> None:
        """The members of each piece: b is none from 30 on, and c from 200 on."""
        one = reader()
        pieces = Pieces(one.scope, one.members)
        for line in ("30 b leave", "200 c crash"):
            one.read(line)
            pieces.read(line)
        pieces.numbers(one.judged)
        assert (pieces.member_time.count, sum(pieces.member_time.sums)) == (1, 30 + 200 + 250)

    def test_messages(self) -> None:
        """A leave is made by a line `send` or `lose`, in the piece of its time, and in a column of its own."""
        scope = Scope(600, 100, 0, 0, None, True, True)
        traffic = Traffic(scope)
        lines = ("5 a leave", "5 a send leave b", "150 b leave", "150 b send leave a", "160 b drop leave a")
        read_digest((*lines, "170 c lose leave a"), scope, traffic)
        assert (traffic.lines["send leave"], traffic.lines["lose leave"]) == (2, 1)
        counts = in_pieces(traffic)["sent-leave"]
        assert (counts[0], sum(counts)) == (1, 3)

    def test_messages_of_lookups(self) -> None:
        """The lookups of a node that leaves are over: a later one of the same key has its own messages."""
        asked = AskLines()
        lines = b"10 a lookup 5\n10 a ask step b call=3 key=5 since=10\n"
        assert asked.read(lines) == 1 and asked.open
        assert asked.read(b"20 a leave\n") == 0 and not asked.open
        assert asked.read(b"20 b ignored leave\n25 a send leave b\n") == 0

    def test_sizes(self) -> None:
        """The size of a leave is required if nodes leave. Tables without the column have none."""
        path = Path("study.toml")
        sizes = sizes_of(path, {kind: 10 for kind in MESSAGES if kind != "leave"})
        check_leaves(path, sizes, {"churn": {"leave_ppm": 0}, "command": [{"do": "crash"}]})
        tops: list[dict[str, Any]] = [{"churn": {"leave_ppm": 1}}, {"command": [{"do": "join"}, {"do": "leave"}]}]
        for top in tops:
            with self.assertRaisesRegex(RefusedFile, r"study.toml: \[sizes\] leave is required"):
                check_leaves(path, sizes, top)
            check_leaves(path, sizes_of(path, dict.fromkeys(MESSAGES, 10)), top)
            check_leaves(path, {}, top)
        with self.assertRaisesRegex(RefusedFile, "pong, and leave if nodes leave"):
            sizes_of(path, {"leave": 10})
        numbers = {f"sent-{kind}": 2 for kind in MESSAGES}
        assert bytes_of(sizes, numbers) == 9 * 20 and bytes_of(dict.fromkeys(MESSAGES, 10), numbers) == 10 * 20
        del numbers["sent-leave"]
        assert bytes_of(dict.fromkeys(MESSAGES, 10), numbers) == 9 * 20

    def test_key_that_is_varied(self) -> None:
        """It is one of [churn], also if the base does not have it."""
        assert "churn.leave_ppm" in varied_keys() and "leave_ppm" not in varied_keys()
        words = '["--profile", "4", "--nodes", "5", "--churn-uniform", "5s..9s", "1s..2s"]'
        study = in_folder(f'question = "?"\ngenerate = {words}\n{SEEDS}[vary]\n"churn.leave_ppm" = [0, 7]\n')
        churns = [tomllib.loads(scenario_of(study, setting, 1))["churn"] for setting in study.settings()]
        assert [list(churn.items())[3:] for churn in churns] == [
            [("down_max_us", 2_000_000), ("leave_ppm", ppm)] for ppm in (0, 7)
        ]


class PythonTest(TestCase):
    """The call of the Python package."""

    def test_leave(self) -> None:
        """A command for each node, after those that are there."""
        ring = Scenario.of_text(RING.replace("profile = 1", "profile = 4")).leave(["n1", "n3"], at="50us")
        commands = tomllib.loads(ring.text)["command"]
        assert commands[1:] == [{"at_us": 50, "do": "leave", "node": name} for name in ("n1", "n3")]
        with self.assertRaises(Refused):
            ring.leave("n2", at=50)
