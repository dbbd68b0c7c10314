"""The command tools/trace: what it prints, its statuses, and the run that README tells of."""

import json
import re
import subprocess
import tempfile
from pathlib import Path
from unittest import TestCase

from chordsim_tools.reference.command import main as reference
from chordsim_tools.trace.command import main
from chordsim_tools.trace.page.writing import D3
from chordsim_tools.trace.wording import seconds, share
from tests.support.programs import ended, program
from tests.test_trace import SCENARIO, audit
from tests.test_trace_detail import DETAIL, REMOVAL

TOP = Path(__file__).resolve().parents[2]
EXAMPLES = TOP / "examples"
LINES = [
    "10 d join a", "20 a lookup 35", "25 a timeout b", "40 d drop step a", "49 d member c",
    "50 a found 35 a hops=1 timeouts=1 us=30", "60 b lookup 15", "70 b crash", "80 a lookup 15",
    "180 a lost 15 hops=0 timeouts=9 us=100", audit(500, 3), audit(1000, 3),
]


class Commands(TestCase):
    """The command on a trace by hand."""

    def setUp(self) -> None:
        """A folder with a trace and its scenario."""
        folder = tempfile.TemporaryDirectory()
        self.addCleanup(folder.cleanup)
        self.folder = Path(folder.name)
        self.write("a.trace", "".join(line + "\n" for line in LINES))
        self.write("a.toml", SCENARIO)

    def write(self, name: str, text: str) -> str:
        """Writes a file, and returns its path."""
        (self.folder / name).write_text(text, encoding="utf-8")
        return str(self.folder / name)

    def trace(self, *options: str) -> str:
        """What the command prints, with status 0."""
        status, out, err = ended(main, str(self.folder / "a.trace"), str(self.folder / "a.toml"), *options)
        self.assertEqual((status, err), (0, ""))
        return out

    def refused(self, *arguments: str) -> tuple[int, str]:
        """The status, and the line of the reason."""
        status, out, err = ended(main, *arguments)
        self.assertEqual((out, err.count("\n")), ("", 1))
        return status, err

    def test_summary(self) -> None:
        """Some of its lines, with units and shares."""
        out = self.trace("--report", self.write("a.report", "events 7\nlookups 3\nfound 1\nus-sum 30\nus-median 30\n"))
        for line in (
            "time                    0 to 0.001 s of 0.001 s", "lookups begun           3",
            "  found                 1 (33.33 %)",
            "  cut off by a crash    1 (33.33 %)", "events                  7", "joins begun             1; 1 done",
            "                        1 (100.00 %) miss a member nearer to the key",
            "  us-median       0.00003 s, median",
            "  ring whole            2 (100.00 %)",
        ):
            self.assertIn(line, out)
        self.assertNotIn("EARLY", out)

    def test_early_end(self) -> None:
        """It is said, with the time that is reached."""
        self.write("a.trace", "".join(line + "\n" for line in LINES[:-1]) + "600 a cra")
        head = "THE TRACE ENDS EARLY    it reaches 0.0005 s, and has no audit at the end. "
        self.assertIn(head + "Its last line is half a line", self.trace())

    def test_report_of_a_cut_trace(self) -> None:
        """All 23 numbers but `events`, of the lines that are there. Of three lookups one was found and one lost."""
        self.write("a.trace", "".join(line + "\n" for line in LINES[:-1]) + "600 a cra")
        head, _, numbers = self.trace().partition(
            "\nreport of the lines until 0.0005 s. The trace was cut, and no trace says how many events there were\n"
        )
        self.assertIn("THE TRACE ENDS EARLY", head)
        counts = {line.split()[0]: line.split()[1].rstrip(",") for line in numbers.splitlines()}
        ones = ("members", "crashes", "drops", "timeouts", "found", "lost", "unfinished", "hops-sum", "hops-greatest",
                "audits")
        times = ("us-sum", "us-least", "us-median", "us-greatest")
        wanted = dict.fromkeys(ones, "1") | dict.fromkeys(times, "0.00003") | {"lookups": "3"}
        self.assertEqual({word: count for word, count in counts.items() if count != "0"}, wanted)
        self.assertEqual((len(counts), list(counts)[0], list(counts)[-1]), (23, "members", "insufficient"))
        found = json.loads(self.trace("--json"))
        self.assertEqual((found["report"], found["report_of_lines"]["us-sum"]), (None, 30))
        self.assertNotIn("events", found["report_of_lines"])

    def test_no_report_of_a_whole_trace(self) -> None:
        """Its report is the program's."""
        self.assertNotIn("report", self.trace().partition("\n")[2])
        self.assertIsNone(json.loads(self.trace("--json"))["report_of_lines"])

    def test_cut_trace_of_the_extended_profile(self) -> None:
        """The seven numbers that it has more."""
        self.write("a.toml", SCENARIO.replace("profile = 1", "profile = 4"))
        self.write("a.trace", "10 a lookup 5\n10 a lose step b\n50 a again step b\n90 a timeout b\n90 a forget b\n"
                   "90 a rescue c\n100 a found 5 c hops=1 timeouts=1 us=90\n")
        out = self.trace()
        self.assertIn("\n  losses          1\n  again           1, requests sent again\n"
                      "  forgotten       1, predecessors that did not reply to a check\n"
                      "  leaves          0, nodes that told their neighbours before they went\n"
                      "  rescues         1, members that took a finger as successor\n"
                      "  creates         0, nodes that made a ring of their own\n"
                      "  timeouts-sum    1 (1.00 a lookup), timeouts of found lookups\n", out)
        self.assertRegex(out, r"\nrescues +1; members whose list had nobody else left took a finger\n")

    def test_tables(self) -> None:
        """By steps, by node, and the worst lookups."""
        out = self.trace("--over-time", "500us", "--per-node", "--worst", "2")
        self.assertRegex(out, r"\n0 s +3 +1 +0 +1 +1 +3 +1 +1 +0.00 % +0.00003 s +- +-\n0.0005 s +0 ")
        self.assertRegex(out, r"\nb +1 +0 +0 +0 +0 +0 +1 +1 +0.00007 s +-\n")
        self.assertRegex(out, r"\na +2 +1 +0 +1 +1 ")
        self.assertRegex(out, r"\n3 +a@0.00008s +0.0001 s +0 +9 +- +- +0 +lost\n")
        self.assertRegex(out, r"\n1 +a@0.00002s .* +1 +defensible, misses a member\n")

    def test_node(self) -> None:
        """The lines of a node and those that name it, with times in seconds."""
        out = self.trace("--node", "b")
        self.assertEqual(out.splitlines()[-3:], [
            "|        0.000025 s  a timeout b", "         0.000060 s  b lookup 15", "         0.000070 s  b crash",
        ])
        self.assertIn("1 life: 0 s to 0.00007 s", out)

    def test_lookup(self) -> None:
        """By number, and by asker and time, with the owners while it ran."""
        out = self.trace("--lookup", "a@20us")
        self.assertEqual(out, self.trace("--lookup", "1"))
        for line in (
            "verdict: defensible, misses a member",
            "timeouts of the asker meanwhile: 1; of these the lookup's own: 1",
            "the answer names a, and the owner when it arrived was d",
            "1 member lay between the key and a, the nearest of them d: 0.000049 s  d member c (0.000001 s before)",
            "  from 0.00002 s: a\n  from 0.000049 s: d\n",
        ):
            self.assertIn(line, out)
        self.assertIn("its asker crashed before it ended", self.trace("--lookup", "2"))
        self.assertIn("it was lost after 0 hops and 9 timeouts", self.trace("--lookup", "3"))

    def test_detail(self) -> None:
        """The summary has a table of messages behind it. The stories are printed one behind the other."""
        self.write("a.toml", DETAIL)
        self.write("a.trace", "".join(line + "\n" for line in REMOVAL))
        head, _, kinds = self.trace().partition("\nmessages by kind")
        self.assertIn("it reaches 0.00018 s", head)
        self.assertRegex(kinds, r"\nget-state +4 +2 +2 +1 +0\n")
        self.assertRegex(kinds, r"\nall +6 +3 +2 +2 +0\n$")
        out = self.trace("--removed", "a", "--join", "a")
        self.assertTrue(out.startswith("a is stranded, and joins again at 0.00017 s, and still joins"))
        removed = "successors that a has removed because they did not send their state: 2"
        self.assertIn(f"open when the trace ends\n\n{removed}\n", out)
        facts = json.loads(self.trace("--json", "--removed", "a"))
        self.assertEqual(facts["removed"][0], removed)
        self.assertEqual(facts["messages"]["get-state"], {"made": 4, "lost": 2, "again": 2, "drops": 1, "late": 0})

    def test_json(self) -> None:
        """The summary and the tables as one object."""
        facts = json.loads(self.trace("--json", "--over-time", "1ms", "--per-node", "--worst", "1"))
        self.assertEqual(facts["lookups"]["begun"], 3)
        self.assertEqual((len(facts["over_time"]), len(facts["per_node"])), (1, 4))
        self.assertEqual(facts["worst"]["slowest"][0]["number"], 3)

    def test_statuses(self) -> None:
        """1 for files, 2 for arguments, one line each."""
        trace, scenario = str(self.folder / "a.trace"), str(self.folder / "a.toml")
        long = self.write("long.toml", SCENARIO.replace("duration_us = 1000", "duration_us = 1000000"))
        late = self.write("long.trace", "".join(line + "\n" for line in [*LINES, audit(1_000_000, 3)]))
        for arguments, status, word in (
            (["none", scenario], 1, "refused: cannot read none: No such file"),
            ([trace, "none"], 1, "refused: cannot read none"),
            ([scenario, scenario], 1, "line 1 is no line of a trace"),
            ([trace, trace], 1, f"refused: {trace}: S1 NotToml; tools/explain says more"),
            ([trace, scenario, "--report", scenario], 1, "is no line of a report"),
            ([trace, scenario, "--report", self.write("empty", "")], 1, f"refused: {self.folder}/empty has no report"),
            ([trace], 2, "SCENARIO"),
            ([trace, scenario, "--node", "x"], 2, "no node 'x'"),
            ([trace, scenario, "--lookup", "4"], 2, "not from 1 to 3"),
            ([trace, scenario, "--lookup", "a@30us"], 2, "the nearest ones are: a@20us, a@80us"),
            ([trace, scenario, "--lookup", "what"], 2, "neither a number nor NODE@TIME"),
            ([trace, scenario, "--removed", "x"], 2, "--removed: the scenario has no node 'x'"),
            ([trace, scenario, "--removed", "a"], 2, "has no `detail = true`"),
            ([trace, scenario, "--join", "a"], 2, "a never joins"),
            ([trace, scenario, "--over-time", "0s"], 2, "no time above 0"),
            ([late, long, "--over-time", "5"], 2, "--over-time: 200000 steps of 5us; 100000 at most"),
            ([trace, scenario, "--over-time", "-5s"], 2, "--over-time: '-5s' is no time above 0"),
            ([trace, scenario, "--worst", "0"], 2, "no integer from 1 up"),
            ([trace, scenario, "--html", trace], 2, "is a file that is read"),
            ([trace, scenario, "--html", f"{self.folder}/../{self.folder.name}/a.toml"], 2, "is a file that is read"),
        ):
            with self.subTest(arguments=arguments[-2:]):
                ended_with, told = self.refused(*arguments)
                self.assertEqual(ended_with, status)
                self.assertIn(word, told)

    def test_trace_of_another_run(self) -> None:
        """A trace whose answers are wrong by the scenario: the numbers are there, with a warning and status 0."""
        lines = [f"{at} a lookup 15\n{at} a found 15 c hops=0 timeouts=0 us=0\n" for at in range(20)]
        trace = self.write("a.trace", "".join(lines) + audit(1000, 3) + "\n")
        status, out, err = ended(main, trace, str(self.folder / "a.toml"))
        self.assertEqual((status, err.count("\n")), (0, 1))
        self.assertTrue(err.startswith("warning: ") and err.endswith(": are trace and scenario of one run?\n"), err)
        self.assertIn("wrong, strict         20 (100.00 %)", out)

    def test_wording(self) -> None:
        """Times with all digits; shares that are neither none nor all are never 0 or 100."""
        self.assertEqual([seconds(us) for us in (0, 1, 120000, 10**12, None, "never")],
                         ["0 s", "0.000001 s", "0.12 s", "1000000 s", "-", "never"])
        self.assertEqual([share(*of) for of in ((0, 9), (9, 9), (1, 100000), (99999, 100000), (1, 3), (0, 0))],
                         ["0.00 %", "100.00 %", "0.01 %", "99.99 %", "33.33 %", "-"])


class Page(TestCase):
    """docs/trace.md."""

    def test_commands(self) -> None:
        """All of its commands can be typed in as they stand, in the top folder; here in one that has links to it."""
        text = (TOP / "docs" / "trace.md").read_text(encoding="utf-8")
        commands = re.findall(r"^```\n(.*?)^```", text, re.MULTILINE | re.DOTALL)[0]
        self.assertEqual((commands.count("./chordsim "), commands.count("tools/trace ")), (1, 8))
        if not D3.exists():
            commands = re.sub(".*--html.*", "", commands)
        with tempfile.TemporaryDirectory() as folder:
            for name in ("examples", "tools"):
                (Path(folder) / name).symlink_to(TOP / name)
            (Path(folder) / "chordsim").symlink_to(program())
            done = subprocess.run(["sh", "-e"], input=commands, cwd=folder, capture_output=True, text=True, check=False)
            self.assertEqual((done.returncode, done.stderr), (0, ""))
            self.assertIn("first torn, and lost    at 220 s", done.stdout)
            self.assertIn("the answer names n20, and the owner when it arrived was n59", done.stdout)


    def test_detail(self) -> None:
        """The second commands are answered with the lines that follow them, and the trace is short."""
        text = (TOP / "docs" / "trace.md").read_text(encoding="utf-8")
        blocks = re.findall(r"^```\n(.*?)^```", text, re.MULTILINE | re.DOTALL)
        name, option = "examples/detail16.toml", "--lookup n3@100ms"
        self.assertTrue(blocks[1].endswith(f"\ntools/trace detail16.trace {name} {option}\n"))
        with tempfile.TemporaryDirectory() as folder:
            trace = f"{folder}/detail16.trace"
            self.assertEqual(ended(reference, str(TOP / name), "--trace", trace)[0], 0)
            self.assertLessEqual(len(Path(trace).read_text(encoding="utf-8").splitlines()), 300)
            status, out, err = ended(main, trace, str(TOP / name), *option.split())
        self.assertEqual((status, err), (0, ""))
        self.assertIn(f"\n\n{blocks[2]}\n", out)


class Churn64(TestCase):
    """The run of examples/churn64.toml, by the program."""

    def test_readme(self) -> None:
        """144 of 6,356 answers name another node than the right owner. The report fits."""
        with tempfile.TemporaryDirectory() as folder:
            trace, report = Path(folder) / "trace", Path(folder) / "report"
            scenario = EXAMPLES / "churn64.toml"
            command = [str(program()), "run", "--scenario", str(scenario), "--serial", "--trace", str(trace)]
            report.write_bytes(subprocess.run(command, capture_output=True, check=True).stdout)
            status, out, _ = ended(main, str(trace), str(scenario), "--report", str(report), "--json")
        facts = json.loads(out)
        self.assertEqual((status, facts["is_whole"]), (0, True))
        self.assertEqual((facts["answers"]["wrong_strict"], facts["lookups"]["found"]), (144, 6356))
        self.assertEqual(facts["report"]["us-median"], facts["times_us"]["found"]["p50"])
