"""What tools/trace counts, by hand: nodes a to d at 10, 20, 30 and 40 of a circle of 64 places; d is not initial."""

import tempfile
from pathlib import Path
from typing import Any
from unittest import TestCase

from chordsim_tools.cli import Refused
from chordsim_tools.scenario.reading import read_scenario
from chordsim_tools.trace.reading import Run, read_report, read_run
from chordsim_tools.trace.summary import doubts, summary
from chordsim_tools.trace.tables import node_rows, step_rows
from chordsim_tools.trace.text import summary_text

SCENARIO = """\
profile = 1
bits = 6
list = 2
seed = 1
duration_us = 1000
window_us = 10
latency_us = 10
timeout_us = 40
audit_us = 500
stabilize_us = 100
finger_us = 100
""" + "".join(f'[[node]]\nname = "{name}"\nid = {ident}\ninitial = {initial}\n' for name, ident, initial in (
    ("a", 10, "true"), ("b", 20, "true"), ("c", 30, "true"), ("d", 40, "false"),
))


def audit(time: int, members: int, facts: str = "dead=0 ring={} ordered=yes") -> str:
    """An audit line."""
    return f"{time} audit members={members} {facts.format(members)} principals={members} sufficient=yes"


def run_of_text(text: str, scenario: str = SCENARIO) -> Run:
    """A run, from the text of its trace."""
    with tempfile.NamedTemporaryFile("w", suffix=".trace") as file:
        file.write(text)
        file.flush()
        return read_run(file.name, read_scenario(scenario.encode(), b""))


def run_of(*lines: str) -> Run:
    """A run, from its lines."""
    return run_of_text("".join(line + "\n" for line in lines))


def facts_of(*lines: str) -> dict[str, Any]:
    """The summary of a run."""
    return summary(run_of(*lines))


class Answers(TestCase):
    """Right and wrong answers, and what became of lookups."""

    def test_join_of_the_true_owner_just_before(self) -> None:
        """d joins 1 us before an answer that names a for a key of d's: strictly wrong, and defensible."""
        lines = ("10 d join a", "20 a lookup 35", "49 d member c", "50 a found 35 a hops=1 timeouts=0 us=30")
        answers = facts_of(*lines)["answers"]
        self.assertEqual(answers, {
            "right_strict": 0, "right_defensible": 1, "wrong_strict": 1, "wrong_names_no_member": 0,
            "wrong_misses_a_member": 1,
        })

    def test_names_a_node_that_has_crashed(self) -> None:
        """b crashes while a lookup of its key runs; and before one."""
        lines = ("10 a lookup 15", "20 b crash", "50 a found 15 b hops=1 timeouts=0 us=40",
                 "60 a lookup 15", "90 a found 15 b hops=1 timeouts=0 us=30")
        answers = facts_of(*lines)["answers"]
        words = ("right_strict", "right_defensible", "wrong_names_no_member")
        self.assertEqual([answers[word] for word in words], [0, 1, 2])

    def test_tie_of_times(self) -> None:
        """Within one time the order of the lines decides: the answer is ahead of the crash, or behind it."""
        found = "50 a found 15 b hops=1 timeouts=0 us=40"
        ahead = facts_of("10 a lookup 15", found, "50 b crash")["answers"]
        behind = facts_of("10 a lookup 15", "50 b crash", found)["answers"]
        self.assertEqual((ahead["right_strict"], behind["right_strict"], behind["right_defensible"]), (1, 0, 1))

    def test_crash_of_the_asker(self) -> None:
        """Its lookups are cut off. One of its next life of the same key is another one."""
        facts = facts_of(
            "10 b lookup 5", "20 b lookup 6", "30 b crash", "40 b join a", "60 b member a", "70 b lookup 5",
            "90 b found 5 a hops=1 timeouts=0 us=20", "95 b lookup 5", audit(500, 3), audit(1000, 3),
        )
        self.assertEqual(facts["lookups"], {
            "begun": 4, "found": 1, "lost": 0, "cut_by_crash": 2, "cut_by_leave": 0, "cut_by_end": 1, "busy": 0,
            "ignored_commands": 0,
        })

    def test_lookups_at_one_time(self) -> None:
        """Two lookups of one key begun at one time, and a third of another key, are all matched."""
        run = run_of("10 a lookup 5", "10 a lookup 5", "10 a lookup 6", "30 a found 5 a hops=1 timeouts=0 us=20",
                     "40 a lost 6 hops=0 timeouts=1 us=30", "50 a found 5 a hops=3 timeouts=0 us=40")
        self.assertEqual([(one.outcome, one.end, one.hops) for one in run.history.lines.lookups],
                         [("found", 30, 1), ("found", 50, 3), ("lost", 40, 0)])

    def test_stranded_and_lost(self) -> None:
        """A stranded node is no member; its lookups are lost, by the lines that follow."""
        facts = facts_of("10 b lookup 5", "20 b stranded a", "20 b lost 5 hops=0 timeouts=0 us=10", "30 a lookup 15",
                         "30 a found 15 b hops=0 timeouts=0 us=0", "60 b member a")
        self.assertEqual((facts["lookups"]["lost"], facts["answers"]["wrong_names_no_member"]), (1, 1))
        self.assertEqual((facts["stranded"]["done"], facts["stranded"]["times_us"]["p50"]), (1, 40))
        self.assertEqual(facts["joins"]["begun"], 0)

    def test_busy_and_ignored(self) -> None:
        """They are counted, and are no lookups."""
        lookups = facts_of("10 b busy 5", "20 d ignored crash", "30 d ignored lookup")["lookups"]
        self.assertEqual((lookups["begun"], lookups["busy"], lookups["ignored_commands"]), (0, 1, 2))


class Percentiles(TestCase):
    """Percentiles of the found ones, and of all."""

    def test_lost_is_never(self) -> None:
        """Of 100 lookups 95 take 1 s and 5 are lost: p90 of all is 1 s, and p99 is never reached."""
        lines = [f"{time} a lookup 5" for time in range(100)]
        lines += [f"{1_000_000 + time} a found 5 a hops=2 timeouts=0 us=1000000" for time in range(95)]
        lines += [f"{1_000_000 + time} a lost 5 hops=2 timeouts=9 us=1000000" for time in range(95, 100)]
        long = SCENARIO.replace("duration_us = 1000", "duration_us = 2000000")
        facts = summary(run_of_text("\n".join(lines) + "\n", long))
        self.assertEqual(facts["times_us"]["all"], {"p50": 1_000_000, "p90": 1_000_000, "p99": "never"})
        self.assertEqual(facts["times_us"]["found"]["p99"], 1_000_000)
        self.assertEqual(facts["hops"], {"p50": 2, "p90": 2, "p99": 2})

    def test_cut_off_is_no_loss(self) -> None:
        """Three found after 10, 20 and 30, one cut off at 15: at 20 the curve is 3/4 * 1/2, and at 30 it is 0."""
        facts = facts_of(
            "0 a lookup 5", "0 a lookup 6", "0 a lookup 7", "0 b lookup 8", "10 a found 5 a hops=1 timeouts=0 us=10",
            "15 b crash", "20 a found 6 a hops=1 timeouts=0 us=20", "30 a found 7 a hops=1 timeouts=0 us=30",
        )
        self.assertEqual(facts["times_us"]["all"], {"p50": 20, "p90": 30, "p99": 30})

    def test_nothing(self) -> None:
        """Without lookups there are none."""
        facts = facts_of(audit(500, 3), audit(1000, 3))
        for some in (facts["times_us"]["all"], facts["times_us"]["found"], facts["hops"]):
            self.assertEqual(some, {"p50": None, "p90": None, "p99": None})


class Nodes(TestCase):
    """Joins, audits, steps and nodes."""

    def test_joins(self) -> None:
        """One is done after 30, one is cut off by a crash, one fails, one is open at the end."""
        joins = facts_of(
            "10 d join a", "40 d member c", "50 d crash", "60 d join a", "70 d crash", "80 d join a",
            "90 d join-failed", "95 d join a",
        )["joins"]
        self.assertEqual(joins, {"begun": 4, "done": 1, "failed": 1, "cut_by_crash": 1, "cut_by_leave": 0,
                                 "open_at_end": 1, "went_on": 0, "times_us": {"p50": 30, "p90": 30, "p99": 30}})

    def test_joins_that_go_on(self) -> None:
        """d fails at 40 and at 70 and is a member after 80; b is stranded, fails once, and crashes."""
        text = "".join(line + "\n" for line in (
            "10 d join a", "20 b stranded a", "40 d join-failed", "50 b join-failed", "60 b crash", "70 d join-failed",
            "90 d member a", audit(500, 3), audit(1000, 3),
        ))
        forever = SCENARIO.replace("profile = 1", "profile = 4\njoin_forever = true")
        run = run_of_text(text, forever)
        facts = summary(run)
        self.assertEqual(facts["joins"], {
            "begun": 1, "done": 1, "failed": 0, "cut_by_crash": 0, "cut_by_leave": 0, "open_at_end": 0, "went_on": 2,
            "times_us": {"p50": 80, "p90": 80, "p99": 80},
        })
        words = ("begun", "cut_by_crash", "went_on")
        self.assertEqual([facts["stranded"][word] for word in words], [1, 1, 1])
        told = list(summary_text(facts))
        self.assertIn("  failed, went on       2; after eight failures each", told)
        lives = [[(life.begin, life.end) for life in lives] for lives in run.history.lives]
        self.assertEqual(lives, [[(0, None)], [(0, 60)], [(0, None)], [(10, None)]])
        # Where joins end by failures b is down at 60 already. A member or a node that is down cannot fail.
        for scenario in (SCENARIO, forever.replace("true", "false", 1)):
            self.assertRaisesRegex(Refused, "line 5 .*the node was down", run_of_text, text, scenario)
        for line in ("10 a join-failed\n", "10 d join-failed\n"):
            self.assertRaises(Refused, run_of_text, line, forever)

    def test_rings_that_nodes_make(self) -> None:
        """d joins through itself, and b makes a ring when it is stranded. They are members, and counted."""
        text = "".join(line + "\n" for line in (
            "10 d join d", "10 d create", "20 b stranded b", "20 b create", "30 d crash", audit(500, 3), audit(1000, 3),
        ))
        run = run_of_text(text, SCENARIO.replace("profile = 1", "profile = 4"))
        facts = summary(run)
        self.assertEqual((facts["creates"], facts["joins"]["done"], facts["stranded"]["done"]), (2, 1, 1))
        self.assertIn("rings made", "".join(summary_text(facts)))
        self.assertEqual([run.history.lines.text(at) for at in range(2)], text.splitlines()[:2])
        lives = [[(life.begin, life.end) for life in lives] for lives in run.history.lives]
        self.assertEqual(lives, [[(0, None)], [(0, None)], [(0, None)], [(10, 30)]])
        self.assertEqual(run_of_text(text + "creates 2\n").report, {"creates": 2})
        self.assertRaisesRegex(Refused, "has `creates 1`, and the trace 2", run_of_text, text + "creates 1\n")
        for line in ("10 d create", "10 a create", "10 d create d"):
            self.assertRaises(Refused, run_of, line)
        self.assertIsNone(facts_of("10 d join a")["creates"])

    def test_rings_after_eight_failures(self) -> None:
        """d has not failed, and is up all the time, also where joins end by failures."""
        lines = ("10 d join a", "50 d join-failed", "50 d create", "70 d crash", audit(500, 3), audit(1000, 3))
        text = "".join(line + "\n" for line in lines)
        for forever in ("true", "false"):
            run = run_of_text(text, SCENARIO.replace("profile = 1", f"profile = 4\njoin_forever = {forever}"))
            joins = summary(run)["joins"]
            self.assertEqual((joins["done"], joins["failed"], joins["times_us"]["p50"]), (1, 0, 40))
            self.assertEqual([(life.begin, life.end) for life in run.history.lives[3]], [(10, 70)])
        late = text.replace("50 d create", "60 d create")
        ends = SCENARIO.replace("profile = 1", "profile = 4\njoin_forever = false")
        self.assertRaisesRegex(Refused, "line 3 .*the node was down", run_of_text, late, ends)

    def test_forgotten_predecessors(self) -> None:
        """They are counted in the extended profile, and compared with the report. A line names one node."""
        text = "50 c timeout b\n50 c forget b\n" + "".join(audit(time, 3) + "\n" for time in (500, 1000))
        for profile, wanted in ((1, None), (2, None), (4, 1)):
            run = run_of_text(text, SCENARIO.replace("profile = 1", f"profile = {profile}"))
            self.assertEqual(summary(run)["forgotten"], wanted)
        self.assertIn("predecessors forgotten  1", list(summary_text(summary(run))))
        self.assertEqual([run.history.lines.text(at) for at in range(2)], text.splitlines()[:2])
        self.assertEqual(run_of_text(text + "forgotten 1\n").report, {"forgotten": 1})
        self.assertRaisesRegex(Refused, "has `forgotten 0`, and the trace 1", run_of_text, text + "forgotten 0\n")
        for line in ("50 c forget", "50 c forget x", "50 c forget b a", "50 c forget ping b"):
            self.assertRaises(Refused, run_of, line)

    def test_many_nodes(self) -> None:
        """Nodes beyond the first 32,768 keep their names."""
        more = "".join(f'[[node]]\nname = "n{i}"\n' for i in range(33_000))
        scenario = SCENARIO.replace("profile = 1", "profile = 4").replace("bits = 6", "bits = 64") + more
        run = run_of_text("10 n32999 join n32998\n20 n32999 drop step n32998\n", scenario)
        self.assertEqual([run.history.lines.text(at) for at in range(2)],
                         ["10 n32999 join n32998", "20 n32999 drop step n32998"])

    def test_requests_sent_again(self) -> None:
        """They and the lost ones are counted if the profile has them. Notifies and replies are never sent again."""
        lines = (
            "10 a lose step b", "50 a again step b", "90 a again step b", "95 c again get-list a", "130 a timeout b",
            audit(500, 3), audit(1000, 3),
        )
        text = "".join(line + "\n" for line in lines)
        for profile, wanted in ((1, [1, None, None]), (2, [1, 1, None]), (4, [1, 1, 3])):
            facts = summary(run_of_text(text, SCENARIO.replace("profile = 1", f"profile = {profile}")))
            self.assertEqual([facts[word] for word in ("timeouts", "losses", "again")], wanted)
        told = list(summary_text(facts))
        self.assertIn("requests sent again     3", told)
        run = run_of_text(text + "events 9\nlosses 1\nagain 3\n")
        self.assertEqual("".join(run.history.lines.text(at) + "\n" for at in range(len(run.history.lines.times))), text)
        self.assertRaises(Refused, run_of_text, text + "again 2\n")
        for kind in ("notify", "step-reply", "pong", "sing"):
            self.assertRaises(Refused, run_of, f"10 a again {kind} b")

    def test_audits(self) -> None:
        """Torn and lost for the first time, with the members then: those before the lines of the time."""
        audits = facts_of(
            audit(500, 3), "600 b crash", audit(700, 2, "dead=1 ring=1 ordered=yes"), "700 a crash",
            audit(1000, 1, "dead=1 ring=0 ordered=yes"),
        )["audits"]
        self.assertEqual([audits[word] for word in ("all", "whole", "partial", "torn", "lost")], [3, 1, 0, 2, 1])
        self.assertEqual((audits["first_torn"]["at_us"], audits["first_torn"]["members"]), (700, ["a", "c"]))
        self.assertEqual((audits["first_lost"]["at_us"], audits["first_lost"]["members"]), (1000, ["c"]))

    def test_audits_add_up(self) -> None:
        """Of four rings one is whole, one lacks a member, one is out of order and one is lost, which is torn too."""
        facts = facts_of(
            audit(100, 3), audit(200, 3, "dead=0 ring=2 ordered=yes"), audit(300, 3, "dead=0 ring=3 ordered=no"),
            audit(1000, 3, "dead=0 ring=0 ordered=yes"),
        )
        audits = facts["audits"]
        self.assertEqual([audits[word] for word in ("whole", "partial", "torn", "lost")], [1, 1, 2, 1])
        told = "\n".join(summary_text(facts))
        self.assertIn("""
audits                  4
  ring whole            1 (25.00 %)
  not all on it         1 (25.00 %); the ring skips a member, such as one that has just joined
  ring torn             2 (50.00 %)
    ring lost           1 (25.00 %)
""", told)

    def test_doubts(self) -> None:
        """Key 15 is b's. Of twenty answers eleven name c, and two of three audits find a ring in order."""
        def answer(time: int, owner: str) -> list[str]:
            """A lookup that ends at once."""
            return [f"{time} a lookup 15", f"{time} a found 15 {owner} hops=0 timeouts=0 us=0"]

        audits = (audit(100, 3), audit(200, 3), audit(300, 3, "dead=0 ring=3 ordered=no"))
        torn = audit(200, 3, "dead=1 ring=2 ordered=yes")
        for right, wrong, there, doubted in ((9, 11, audits, 1), (10, 10, audits, 0), (8, 11, audits, 0),
                                             (9, 11, audits[1:], 0), (0, 20, audits[2:], 0),
                                             (9, 11, (audits[0], torn), 0)):
            with self.subTest(right=right, wrong=wrong, audits=len(there)):
                owners = ["b"] * right + ["c"] * wrong
                lines = [line for at, owner in enumerate(owners) for line in answer(at, owner)]
                self.assertEqual(len(doubts(run_of(*lines, *there))), doubted)
        self.assertEqual(doubts(run_of(*(line for at in range(20) for line in answer(at, "c")), audits[0])), [
            "100.00 % of the audits find no torn ring, but 100.00 % of the answers are wrong: "
            "are trace and scenario of one run?"
        ])

    def test_steps(self) -> None:
        """A step has its first instant; members are those at its end."""
        rows = step_rows(run_of(
            "399 a lookup 15", "400 b crash", "410 a found 15 b hops=1 timeouts=0 us=11", "420 a timeout b",
            audit(500, 2), "800 b join a", "820 b member a", audit(1000, 3),
        ), 400)
        words = ("from_us", "begun", "found", "right", "timeouts", "members", "crashes", "joined")
        self.assertEqual([[row[word] for word in words] for row in rows],
                         [[0, 1, 0, 0, 0, 3, 0, 0], [400, 0, 1, 0, 1, 2, 1, 0], [800, 0, 0, 0, 0, 3, 0, 1]])

    def test_nodes(self) -> None:
        """Timeouts that a node meets and those on it, its lives and its time up."""
        rows = node_rows(run_of("10 a timeout b", "20 c timeout b", "100 b crash", "200 b join a", "230 b member a",
                                "300 b timeout a", audit(500, 3), audit(1000, 3)))
        b = next(row for row in rows if row["node"] == "b")
        self.assertEqual((b["timeouts_met"], b["timeouts_on_it"], b["lives"], b["up_us"]), (1, 2, 2, 900))
        self.assertEqual((rows[3]["lives"], rows[3]["up_us"]), (0, 0))


class Files(TestCase):
    """Traces that end early, do not fit, or carry a report."""

    def test_whole(self) -> None:
        """A trace is whole if its last line is the audit at the scenario's end."""
        self.assertTrue(run_of(audit(500, 3), audit(1000, 3)).is_whole)
        self.assertFalse(run_of(audit(500, 3)).is_whole)
        self.assertFalse(run_of_text("").is_whole)

    def test_half_line(self) -> None:
        """Half a last line is left out, and told."""
        facts = summary(run_of_text("10 a lookup 5\n30 a found 5 a hops=1 timeouts=0 us=20\n70 a look"))
        words = ("is_whole", "half_line", "reached_us", "lines")
        self.assertEqual([facts[word] for word in words], [False, "70 a look", 30, 2])

    def test_no_trace(self) -> None:
        """A file of something else is refused, even if it has no line feed, or is one long line."""
        for text in ("what", "1" * 5000, "{}\n", "1" * 5000 + "\n"):
            with self.subTest(text=text[:9]):
                self.assertRaises(Refused, run_of_text, text)

    def test_report_after_the_trace(self) -> None:
        """What a run without --trace prints is a trace and its report. A report of another run is refused."""
        whole = audit(500, 3) + "\n" + audit(1000, 3) + "\n"
        run = run_of_text(whole + "events 7\naudits 2\n")
        self.assertEqual((run.report, run.is_whole), ({"events": 7, "audits": 2}, True))
        self.assertRaises(Refused, run_of_text, whole + "audits 3\n")
        with tempfile.TemporaryDirectory() as folder:
            report = Path(folder) / "report"
            for text in ("lookups 1\n", "lookups many\n", "events " + "9" * 5000, ""):
                report.write_text(text)
                self.assertRaises(Refused, read_report, str(report), run_of_text(whole))
        with self.assertRaises(Refused) as caught:
            run_of_text(whole + "events 7\n8 a crash\n")
        self.assertIn("(a line of the report has WORD NUMBER)", caught.exception.text)

    def test_lines_that_do_not_fit(self) -> None:
        """Each is refused, and named by its number."""
        for line, word in (
            ("x", "(a line has TIME NAME WORD)"), ("10 e crash", "(no node e)"), ("10", "(a line has TIME NAME WORD)"),
            ("10 a timeout e", "(no node e)"), ("10 a drop song b", "(no line drop song)"),
            ("10 a found", "(it has too few words)"), ("10 audit b", "(it is no audit line)"),
            ("10 audit members=3", "(it is no audit line)"), ("profile = 1", "(a line has TIME NAME WORD)"),
            ("10 a found 5 a hops=1 timeouts=0 us=20", "begins"),
            ("10 d member a", "down"), ("10 a join b", "not down"), (audit(10, 4), "leave 3 members"),
            ("4 a crash", "below"), ("10 a crash now", "3 words"), ("10 a", "(a line has TIME NAME WORD)"),
            ("10 a sings", "(no line sings)"),
            ("1O a crash", "number"), ("10 a audit b", "more words"), ("10 a lookup 5 b", "4 words"),
            ("10 a lookup 64", "not below 64"), ("10 a busy 64", "not below 64"),
            ("30 a found 5 a is hops=1 timeouts=0 us=25", "other words"),
            ("1000 a lookup 5", "(its time is not within the run)"), (audit(1001, 3), "not within the run"),
            ("99999999999999999999 a crash", "not within the run"),
        ):
            with self.subTest(line=line), self.assertRaises(Refused) as caught:
                run_of("5 a lookup 5", line)
            self.assertIn("line 2 is no line of a trace of this scenario", caught.exception.text)
            self.assertIn(word, caught.exception.text)
