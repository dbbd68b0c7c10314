"""Whole studies: with a program of the test's own, and with chordsim."""

import csv
import hashlib
import io
import json
import os
import resource
import signal
import subprocess
import sys
import tempfile
import time
from collections.abc import Callable, Iterator
from contextlib import contextmanager, redirect_stderr
from pathlib import Path
from unittest import TestCase
from unittest.mock import patch

from chordsim_tools.scenario.reading import read_scenario
from chordsim_tools.study.command import main
from chordsim_tools.study.stops import STOPS
from tests.support.programs import ended, program

TOP = Path(__file__).resolve().parents[2]
TOOL = TOP / "tools" / "study"
STUDY = 'question = "How?"\nbase = "base.toml"\nseeds = [1, 2]\n[vary]\nlist = [1, 2]\n'
BASE = """\
profile = 1
bits = 16
list = 2
seed = 7
duration_us = 20000000
window_us = 1000
latency_us = 20000
timeout_us = 100000
audit_us = 3000000
stabilize_us = 250000
finger_us = 250000

[churn]
life_min_us = 5000000
life_max_us = 15000000
down_min_us = 500000
down_max_us = 1500000

[lookups]
gap_min_us = 100000
gap_max_us = 300000
""" + "".join(f'\n[[node]]\nname = "n{i}"\ninitial = true\nchurn = {str(i > 1).lower()}\n' for i in range(16))
FAKE = """\
#!/bin/sh
here=$(dirname "$0")
echo "$1 $3" >> "$here/calls"
case $1 in
ids) for i in 0 1 2 3 4 5 6 7 8 9 10 11 12 13 14 15; do echo "n$i $((10 + i))"; done ;;
run)
    if grep -qsx "$(cat "$here/sleep")" "$3"; then echo $$ > "$here/pid"; exec sleep 60; fi
    if grep -qsx "$(cat "$here/fail")" "$3"; then echo '5 n0 loo'; echo 'failed: 3 TooManyEvents' >&2; exit 3; fi
    printf '10 n0 lookup 11\\n30 n0 found 11 n1 hops=1 timeouts=0 us=20\\n'
    if grep -qx 'profile = [24]' "$3"; then echo '40 n0 lose step n1'; fi
    if grep -qx 'profile = 4' "$3"; then printf '50 n0 again step n1\\n60 n0 forget n1\\n'; fi
    printf 'events 4\\nlookups 1\\nfound 1\\nringless 0\\n'
    if grep -qx 'profile = [24]' "$3"; then echo 'losses 1'; fi
    if grep -qx 'profile = 4' "$3"; then printf 'again 1\\nforgotten 2\\n'; fi ;;
judge)
    until [ "$1" = --digest ]; do shift; done
    trace=$(cat)
    echo "$trace" | grep -v ' lookup \\| found ' > "$2"
    echo asker,key,begun_us,ended_us,us,hops,timeouts,named,right_owner,strict,defensible
    case $trace in
    *' found 11 n1 '*) echo n0,11,10,30,20,1,0,n1,n1,right,right ;;
    *) echo n0,11,10,30,20,1,0,n2,n1,wrong,wrong ;;
    esac ;;
esac
"""


@contextmanager
def study_folder(study: str = STUDY) -> Iterator[Path]:
    """A folder with a study, its base and a program that answers each run alike."""
    with tempfile.TemporaryDirectory() as name:
        folder = Path(name)
        (folder / "study.toml").write_text(study)
        (folder / "base.toml").write_text(BASE)
        (folder / "fake").write_text(FAKE)
        (folder / "fake").chmod(0o755)
        for word in ("sleep", "fail"):
            (folder / word).write_text("nothing")
        yield folder


def words_of(folder: Path, *words: str) -> list[str]:
    """The command."""
    return [sys.executable, str(TOOL), "run", str(folder / "study.toml"), "--jobs", "1", *words]


def call(folder: Path, *words: str, chordsim: Path | None = None) -> tuple[int, str]:
    """The status of `tools/study run`, and the line that it says."""
    status, _, told = called(folder, *words, chordsim=chordsim)
    assert told.count("\n") <= 1, told
    return status, told.strip()


def called(folder: Path, *words: str, chordsim: Path | None = None) -> tuple[int, str, str]:
    """The status of `tools/study run`, and what it writes to its two streams."""
    with patch.dict(os.environ, CHORDSIM=str(chordsim or folder / "fake")):
        return ended(main, *words_of(folder, *words)[2:])


def stopped(folder: Path, number: signal.Signals, kill: Callable[[int, int], None]) -> tuple[int, str]:
    """The status of `tools/study run` and what it says, if it is sent a signal in this way once a run sleeps."""
    environment = os.environ | {"CHORDSIM": str(folder / "fake"), "TMPDIR": str(folder / "tmp")}
    tool = subprocess.Popen(  # pylint: disable=subprocess-popen-preexec-fn
        words_of(folder), env=environment, stderr=subprocess.PIPE, text=True, start_new_session=True,
        preexec_fn=heed_signals,
    )
    for _ in range(3000):
        if (folder / "pid").exists() and (folder / "pid").read_text():
            break
        time.sleep(0.02)
    kill(tool.pid, number)
    _, told = tool.communicate(timeout=60)
    return tool.returncode, told


def heed_signals() -> None:
    """Undoes that whoever started the tests ignores these signals, as nohup does, and a shell in the background."""
    for number in STOPS:
        signal.signal(number, signal.SIG_DFL)


def call_with_limit(folder: Path, limit: int) -> tuple[int, str]:
    """The same, where no file can be larger than the limit."""
    told = subprocess.run(
        words_of(folder), env=os.environ | {"CHORDSIM": str(folder / "fake")}, capture_output=True, text=True,
        check=False, preexec_fn=lambda: resource.setrlimit(resource.RLIMIT_FSIZE, (limit, limit)),
    )
    return told.returncode, told.stderr.strip()


def runs_called(folder: Path) -> int:
    """How many runs were begun."""
    return (folder / "calls").read_text().count("run ")


def table(folder: Path, name: str) -> list[dict[str, str]]:
    """A table of the study."""
    with (folder / "study" / name).open(newline="") as file:
        return list(csv.DictReader(file))


def left_overs(folder: Path) -> list[str]:
    """Files that are half written."""
    return [str(path) for path in folder.rglob("*.part")]


def said(word: str, folder: Path) -> tuple[int, str]:
    """Status and line of a command with a folder."""
    status, _, told = ended(main, word, str(folder))
    return status, told.strip()


def naive_right(scenario: str, trace: list[str]) -> int:
    """Right answers, with the owner sought among all members by its distance from the key."""
    world = read_scenario(scenario.encode(), b"")
    idents = {node.name: node.ident for node in world.nodes}
    members = {node.name for node in world.nodes if node.initial}
    right = 0
    for line in trace:
        words = line.split(" ")
        if words[2] == "member":
            members.add(words[1])
        elif words[2] in ("crash", "leave", "stranded"):
            members.discard(words[1])
        elif words[2] == "found":
            ways = {(idents[name] - int(words[3])) % 65536: name for name in members}
            right += bool(ways) and words[4] == ways[min(ways)]
    return right


def steps_of(folder: Path, row: dict[str, str]) -> list[dict[str, str]]:
    """The steps of a run; they end at the times of audits."""
    keys = ("list", "stabilize_us", "seed")
    return [line for line in table(folder, "series.csv") if all(line[key] == row[key] for key in keys)]


class StudyRunTest(TestCase):
    """Tables, faults, interruptions, and what is done again."""

    def test_rows_of_the_programs_own_answers(self) -> None:
        """Four runs, each with the one lookup of the fake program."""
        with study_folder() as folder:
            assert call(folder) == (0, "")
            rows = table(folder, "runs.csv")
            assert [(row["list"], row["seed"]) for row in rows] == [("1", "1"), ("1", "2"), ("2", "1"), ("2", "2")]
            assert {(row["events"], row["right"], row["us-p50"]) for row in rows} == {("4", "1", "20")}
            manifest = json.loads((folder / "study" / "manifest.json").read_text())
            assert (manifest["nodes"], manifest["study"], manifest["window_us"]) == (16, "study.toml", 3000000)
            assert not left_overs(folder)

    def test_losses_of_the_second_profile(self) -> None:
        """A column `losses` behind the report if a run has the second profile; of the others none are lost."""
        for study, wanted in (
            (STUDY.replace("list = [1, 2]", "profile = [1, 2]"), ["0", "0", "1", "1"]),
            (STUDY.replace("list = [1, 2]", "profile = [2, 1]"), ["1", "1", "0", "0"]),
            (STUDY.replace("list = [1, 2]", "profile = [2]\nloss_ppm = [0, 5]\nspread_us = [7]"), ["1", "1", "1", "1"]),
        ):
            with study_folder(study) as folder:
                assert call(folder) == (0, "")
                rows = table(folder, "runs.csv")
                assert [row["losses"] for row in rows] == wanted
                columns = list(rows[0])
                assert columns[columns.index("ringless") :][:3] == ["ringless", "losses", "judged-lookups"]
                assert {row["right"] for row in rows} == {"1"}
        with study_folder(STUDY.replace("list = [1, 2]", "profile = [1]")) as folder:
            assert call(folder) == (0, "") and "losses" not in table(folder, "runs.csv")[0]

    def test_numbers_of_the_extended_profile(self) -> None:
        """Columns `losses`, `again` and `forgotten` if a run has the extended profile; 0 in the runs of the others."""
        for study, wanted in (
            (STUDY.replace("list = [1, 2]", "profile = [1, 2, 4]"), ["00", "00", "10", "10", "11", "11"]),
            (STUDY.replace("list = [1, 2]", "profile = [4, 1]"), ["11", "11", "00", "00"]),
            (STUDY.replace("list = [1, 2]", "profile = [4]\nretries = [0, 3]"), ["11", "11", "11", "11"]),
        ):
            with study_folder(study) as folder:
                assert call(folder) == (0, "")
                rows = table(folder, "runs.csv")
                assert [row["losses"] + row["again"] for row in rows] == wanted
                assert [row["forgotten"] for row in rows] == [str(2 * int(one[1])) for one in wanted]
                columns = list(rows[0])
                later = ["ringless", "losses", "again", "forgotten", "judged-lookups"]
                assert columns[columns.index("ringless") :][:5] == later
                firsts = [step for step in table(folder, "steps.csv") if step["from_us"] == "0"]
                assert [step["losses"] + step["again"] for step in firsts] == wanted
        with study_folder(STUDY.replace("list = [1, 2]", "profile = [1, 2]")) as folder:
            assert call(folder) == (0, "") and not {"again", "forgotten"} & set(table(folder, "runs.csv")[0])
            assert list(table(folder, "steps.csv")[0])[-2:] == ["timeouts", "losses"]

    def test_boolean_that_is_varied(self) -> None:
        """Its values are as they are written, in the table and in the names of files."""
        with study_folder(STUDY.replace("list = [1, 2]", "join_forever = [true, false]")) as folder:
            (folder / "base.toml").write_text(BASE.replace("profile = 1", "profile = 4\njoin_pause_us = 1000"))
            assert call(folder) == (0, "")
            rows = table(folder, "runs.csv")
            assert [row["join_forever"] for row in rows] == ["true", "true", "false", "false"]
            text = (folder / "study" / "done" / "join_forever=false,seed=2.toml").read_text()
            assert "\njoin_forever = false\n" in text

    def test_value_with_a_slash(self) -> None:
        """A rate as 1/d can be varied. The files of such a run have a digest as their name."""
        made = 'generate = ["--nodes", "16", "--duration", "20s"]'
        rates = '"--arrivals" = ["0.00001/d", "0.00002/d"]'
        study = STUDY.replace('base = "base.toml"', made).replace("list = [1, 2]", rates)
        with study_folder(study) as folder:
            status, _, told = called(folder)
            assert status == 0, told
            found = [row["generate.--arrivals"] for row in table(folder, "runs.csv")]
            assert found == ["0.00001/d", "0.00001/d", "0.00002/d", "0.00002/d"]
            names = [path.stem for path in (folder / "study" / "done").glob("*.json")]
            assert len(names) == 4 and all(len(name) == 64 for name in names), names
            assert called(folder)[0] == 0 and runs_called(folder) == 4
            assert said("report", folder / "study")[0] == 0
            page = (folder / "study" / "report.md").read_text()
            assert sum(f"FOLDER/done/{name}.toml" in page for name in names) == 1

    def test_varied_options_that_are_no_numbers(self) -> None:
        """They are refused before anything is computed from them, here those of the second setting."""
        made = 'generate = ["--nodes", "16", "--duration", "20s"]'
        for option, value in (("--nodes", "x"), ("--bits", "1e3")):
            varied = f'"{option}" = ["16", "{value}"]'
            study = STUDY.replace('base = "base.toml"', made).replace("list = [1, 2]", varied)
            with study_folder(study) as folder, self.subTest(option=option):
                status, told = call(folder)
                assert status == 1 and told.startswith(f"refused: {folder}/study.toml: generate: "), told
                assert f"{option}: " in told and f"not '{value}'" in told, told

    def test_what_failed_is_told_and_what_was_done_is_kept(self) -> None:
        """The third run fails; the next call runs what is left, and the one after it nothing."""
        with study_folder() as folder:
            (folder / "fail").write_text("list = 2")
            status, told = call(folder)
            assert (status, told) == (3, "failed: list=2, seed=1: the program says: failed: 3 TooManyEvents")
            assert not (folder / "study" / "runs.csv").exists() and runs_called(folder) == 3
            (folder / "fail").write_text("nothing")
            assert call(folder) == (0, "") and runs_called(folder) == 5
            whole = (folder / "study" / "runs.csv").read_bytes()
            assert call(folder) == (0, "") and runs_called(folder) == 5
            assert whole.count(b"\n") == 5 and (folder / "study" / "runs.csv").read_bytes() == whole

    def test_changed_study_runs_only_what_is_new(self) -> None:
        """One more seed: two runs more. Another base: all again. A result that is cut off: this one."""
        with study_folder() as folder:
            call(folder)
            (folder / "study.toml").write_text(STUDY.replace("[1, 2]\n[", "[1, 2, 3]\n["))
            assert call(folder) == (0, "") and runs_called(folder) == 6
            (folder / "base.toml").write_text(BASE.replace("bits = 16", "bits = 17"))
            assert call(folder) == (0, "") and runs_called(folder) == 12
            (folder / "study" / "done" / "list=1,seed=2.json").write_text('{"made_of": "')
            assert call(folder) == (0, "") and runs_called(folder) == 13

    def test_interrupted_and_gone_on(self) -> None:
        """In the third run, by signals at the tool alone and at all of its processes: none of these is left, nor is a
        temporary folder, and the same command goes on."""
        interrupted = (130, "interrupted: run the same command again to continue\n")
        for number, kill, wanted in (
            (signal.SIGINT, os.kill, interrupted), (signal.SIGINT, os.killpg, interrupted),
            (signal.SIGTERM, os.kill, (143, "")), (signal.SIGTERM, os.killpg, (143, "")),
            (signal.SIGHUP, os.kill, (129, "")), (signal.SIGHUP, os.killpg, (129, "")),
        ):
            with study_folder() as folder, self.subTest(signal=number, by=kill.__name__):
                (folder / "sleep").write_text("list = 2")
                (folder / "tmp").mkdir()
                found = stopped(folder, number, kill)
                assert found == wanted, found
                assert not Path("/proc", (folder / "pid").read_text().strip()).exists()
                assert not list((folder / "tmp").iterdir())
                assert not (folder / "study" / "runs.csv").exists() and not left_overs(folder)
                (folder / "sleep").write_text("nothing")
                assert call(folder) == (0, "") and runs_called(folder) == 5

    def test_failures_of_the_system_in_a_run(self) -> None:
        """They are told in one line, as those of the tool itself."""
        for fault, told in (
            (OSError(28, "No space left on device", "/tmp/x"), "/tmp/x: No space left on device"),
            (MemoryError(), "no memory is left"),
        ):
            with study_folder() as folder, patch("chordsim_tools.study.runs.result_of", side_effect=fault):
                assert call(folder) == (3, f"failed: list=1, seed=1: {told}")

    def test_files_that_change_while_a_study_runs(self) -> None:
        """The latency file, or the program: no result is kept, since its digest would be of what was there before."""
        for change, name in (("echo n0,n1,30000 >> $here/rows.csv", "rows.csv"), ("touch $here/fake", "fake")):
            with study_folder('latency = "rows.csv"\n' + STUDY) as folder, self.subTest(file=name):
                (folder / "rows.csv").write_text("n0,n2,40000\n")
                (folder / "fake").write_text(FAKE.replace("\nrun)", f"\nrun)\n    {change}"))
                told = f"failed: list=1, seed=1: {folder}/{name} has changed since the study began: start again"
                assert call(folder) == (3, told)
                assert not list((folder / "study" / "done").glob("*.json"))
                (folder / "fake").write_text(FAKE)
                assert call(folder) == (0, "")

    def test_missing_program(self) -> None:
        """No file, one that cannot be run, and one that is no program of this kind."""
        with study_folder() as folder:
            told = f"failed: the program is missing: CHORDSIM={folder}/gone is no file that can be run"
            assert call(folder, chordsim=folder / "gone") == (3, told)
            (folder / "bad").write_text("#!/no/such/thing\n")
            (folder / "bad").chmod(0o755)
            status, told = call(folder, chordsim=folder / "bad")
            assert status == 3 and f"cannot run {folder}/bad" in told
            status, told = call(folder, chordsim=Path("/bin/echo"))
            assert status == 3 and told.endswith("/echo ids: the output is not that of chordsim")

    def test_full_disk(self) -> None:
        """At runs.csv, at the folder, and at a result (with a limit on the size of files)."""
        with study_folder() as folder:
            (folder / "study").mkdir()
            (folder / "study" / "runs.csv.part").symlink_to("/dev/full")
            status, told = call(folder)
            assert (status, told) == (3, f"failed: cannot write {folder}/study/runs.csv: No space left on device")
            assert not (folder / "study" / "runs.csv").exists() and not left_overs(folder)
            assert call(folder) == (0, "") and runs_called(folder) == 4
            status, told = call(folder, "-o", "/dev/null/out")
            assert status == 3 and told.startswith("failed: cannot make the folder /dev/null/out")
        with study_folder("window_us = 50000\n" + STUDY) as folder:
            status, told = call_with_limit(folder, 4000)
            assert (status, told.rpartition(": ")[2]) == (3, "File too large") and "list=1,seed=1.json" in told
            assert [path.suffix for path in (folder / "study" / "done").iterdir()] == [".toml"] * 2

    def test_faults_of_words_and_files(self) -> None:
        """Status 1 for a file, 2 for words."""
        with study_folder("question = 1") as folder:
            assert call(folder) == (1, f"refused: {folder}/study.toml: either base or generate is required: a scenario")
            (folder / "study.toml").unlink()
            assert call(folder)[0] == 1
            told = io.StringIO()
            with redirect_stderr(told):
                try:
                    main(["run", "study.toml", "--jobs", "0"])
                except SystemExit as end:
                    assert end.code == 2 and "--jobs: 1 to 1024 is wanted" in told.getvalue()
                else:
                    raise AssertionError("0 jobs")

    def test_plot_and_report_want_a_study_that_was_run(self) -> None:
        """No folder, and a table that was changed since."""
        with study_folder() as folder:
            call(folder)
            runs = folder / "study" / "runs.csv"
            for word in ("plot", "report"):
                missing = f"refused: {folder} has no manifest.json: tools/study run writes it with the tables"
                assert said(word, folder) == (1, missing)
            assert said("report", folder / "study") == (0, "") and (folder / "study" / "report.md").is_file()
            runs.write_text(runs.read_text().replace("\n1,1,4,", "\n1,1,5,"))
            for word in ("plot", "report"):
                assert said(word, folder / "study") == (1, f"refused: {runs} is not the one that manifest.json names")

    def test_two_by_two_with_the_program(self) -> None:
        """Each row has the numbers of the program's own report for the scenario with these values."""
        chordsim = program()
        study = STUDY.replace("list = [1, 2]", "list = [2, 4]\nstabilize_us = [100000, 500000]")
        with study_folder(study) as folder:
            assert call(folder, "--jobs", "2", chordsim=chordsim) == (0, "")
            rows = table(folder, "runs.csv")
            assert len(rows) == 8
            wrong = 0
            for row in rows:
                text = BASE.replace("list = 2", f"list = {row['list']}").replace("seed = 7", f"seed = {row['seed']}")
                text = text.replace("stabilize_us = 250000", f"stabilize_us = {row['stabilize_us']}")
                (folder / "one.toml").write_text(text)
                words = [str(chordsim), "run", "--scenario", str(folder / "one.toml"), "--serial"]
                lines = subprocess.run(words, capture_output=True, text=True, check=True).stdout.splitlines()
                report = dict(line.split(" ") for line in lines if not line[0].isdigit())
                assert len(report) == 24 and {word: row[word] for word in report} == report
                trace = [line for line in lines if line[0].isdigit()]
                assert int(row["right"]) == naive_right(text, trace)
                assert int(row["right"]) + int(row["wrong"]) == int(report["found"]) > 0
                assert row["us-p50"] == report["us-median"]
                wrong += int(row["wrong"])
                audits = [line.split(" ")[2] for line in trace if line.split(" ")[1] == "audit"]
                steps = steps_of(folder, row)
                assert [f"members={step['members']}" for step in steps] == audits
                for word in ("lookups", "found", "right"):
                    assert sum(int(step[word]) for step in steps) == int(row[word])
            assert wrong > 0

    def test_both_profiles_with_the_program(self) -> None:
        """The column `losses` counts the lines of lost messages, and is 0 in the first profile."""
        chordsim = program()
        base = BASE.replace("profile = 1", "profile = 2\nloss_ppm = 20000\nspread_us = 5000")
        with study_folder(STUDY.replace("list = [1, 2]", "loss_ppm = [0, 20000]")) as folder:
            (folder / "base.toml").write_text(base)
            assert call(folder, chordsim=chordsim) == (0, "")
            for row in table(folder, "runs.csv"):
                text = base.replace("loss_ppm = 20000", f"loss_ppm = {row['loss_ppm']}")
                (folder / "one.toml").write_text(text.replace("seed = 7", f"seed = {row['seed']}"))
                words = [str(chordsim), "run", "--scenario", str(folder / "one.toml"), "--serial"]
                lines = subprocess.run(words, capture_output=True, text=True, check=True).stdout.splitlines()
                report = dict(line.split(" ") for line in lines if not line[0].isdigit())
                assert len(report) == 25 and {word: row[word] for word in report} == report
                assert len([line for line in lines if " lose " in line]) == int(row["losses"])
                assert (row["losses"] == "0") == (row["loss_ppm"] == "0")
        with study_folder(STUDY.replace("list = [1, 2]", "profile = [1, 2]")) as folder:
            assert call(folder, chordsim=chordsim) == (0, "")
            assert [row["losses"] for row in table(folder, "runs.csv")] == ["0"] * 4

    def test_extended_profile_with_the_program(self) -> None:
        """The columns `again` and `forgotten` count lines of their kinds."""
        chordsim = program()
        base = BASE.replace("profile = 1", "profile = 4\nloss_ppm = 20000\nretries = 2\ncheck_us = 1000000")
        with study_folder(STUDY.replace("list = [1, 2]", "retries = [0, 2]")) as folder:
            (folder / "base.toml").write_text(base)
            assert call(folder, chordsim=chordsim) == (0, "")
            for row in table(folder, "runs.csv"):
                text = base.replace("retries = 2", f"retries = {row['retries']}")
                (folder / "one.toml").write_text(text.replace("seed = 7", f"seed = {row['seed']}"))
                words = [str(chordsim), "run", "--scenario", str(folder / "one.toml"), "--serial"]
                lines = subprocess.run(words, capture_output=True, text=True, check=True).stdout.splitlines()
                report = dict(line.split(" ") for line in lines if not line[0].isdigit())
                assert len(report) == 31 and {word: row[word] for word in report} == report
                for column, word in (("again", "again"), ("forgotten", "forget")):
                    assert len([line for line in lines if line.split(" ")[2:3] == [word]]) == int(row[column])
                assert (row["again"] == "0") == (row["retries"] == "0") and "0" not in (row["losses"], row["forgotten"])

    def test_setting_that_the_program_refuses(self) -> None:
        """Nothing is run, since the settings are checked first."""
        with study_folder(STUDY.replace("[1, 2]\n[vary]\nlist = [1, 2]", "[1, 2]\n[vary]\nlist = [1, 17]")) as folder:
            status, told = call(folder, chordsim=program())
            assert status == 1 and told == (
                f"refused: {folder}/study.toml: the setting list=17 is refused: S5 OutOfRange top list: `list` is out "
                "of range: 17; allowed: an integer from 1 to 16; profile 4 allows up to 32: write profile = 4"
            ), told
            assert not list((folder / "study" / "done").glob("*.json"))

    def test_another_study_in_the_folder(self) -> None:
        """Its results are replaced, and a warning says so. A run of the same study has none."""
        with study_folder() as folder:
            assert call(folder)[0] == 0 and "are replaced" not in call(folder)[1]
            (folder / "study.toml").rename(folder / "other.toml")
            (folder / "study.toml").symlink_to("other.toml")
            told = f"warning: {folder / 'study'} has results of ../study.toml, which are replaced: -o takes another"
            assert told in call(folder)[1] and told not in call(folder)[1]

    def test_refusals_of_settings_in_words(self) -> None:
        """A list of 9 needs ten nodes; latencies and coordinates exclude each other. Both name the setting."""
        program()
        lists = 'generate = ["--nodes", "8", "--duration", "20s"]\n[vary]\nlist = [1, 9]\n'
        king = '"--profile", "4", "--nodes", "8", "--duration", "20s", "--coordinates", "king", "--timeout", "400ms"'
        both = f'generate = [{king}]\nlatency = ["--plane", "60ms"]\n'
        for text, told in (
            (lists, "the setting list=9 is refused: S10 TooFewInitial: too few nodes are members at the start: list = "
                    "9, and 8 nodes are initial; allowed: list + 1 = 10 initial nodes or more; there are only 8 nodes: "
                    "write more; or list = 7; profile 4 allows any number of initial nodes: write profile = 4"),
            (both, "the setting base is refused: the nodes have coordinates and there are latencies: drop `latency`, "
                   "or --coordinates of `generate`"),
        ):
            with study_folder('question = "How?"\nseeds = 1\n' + text) as folder:
                answer = call(folder, chordsim=program())
                assert answer == (1, f"refused: {folder}/study.toml: {told}"), answer

    def test_same_bytes_by_any_number_of_jobs(self) -> None:
        """The tables and the manifest."""
        chordsim = program()
        with study_folder() as folder:
            call(folder, "-o", str(folder / "one"), chordsim=chordsim)
            call(folder, "-o", str(folder / "four"), "--jobs", "4", chordsim=chordsim)
            for name in ("runs.csv", "series.csv", "manifest.json"):
                assert (folder / "one" / name).read_bytes() == (folder / "four" / name).read_bytes()

    def test_files_of_the_examples(self) -> None:
        """What the studies of examples/ keep is what their manifests name: 12 settings by 20 seeds, and 30 by 8."""
        tables = {"study.toml", "runs.csv", "series.csv", "steps.csv", "cdf.csv"}
        for name, later in (("study", {"tail.csv", "confirm.csv"}), ("loss", set[str]())):
            folder = TOP / "examples" / name
            manifest = json.loads((folder / "manifest.json").read_text())
            with self.subTest(study=name):
                assert set(manifest["sha256"]) == tables | later
                for file, digest in manifest["sha256"].items():
                    assert hashlib.sha256((folder / file).read_bytes()).hexdigest() == digest, file
                assert len((folder / "runs.csv").read_text().splitlines()) == 1 + 240
