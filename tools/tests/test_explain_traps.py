"""Traps: what is accepted and hardly meant, told by each tool that can know it, with the status unchanged."""

import io
import tempfile
from contextlib import redirect_stderr
from pathlib import Path
from subprocess import TimeoutExpired
from unittest import TestCase
from unittest.mock import patch

from chordsim_tools.explain.traps import events_trap, events_until, greatest_latency
from chordsim_tools.generate.command import main as generate
from chordsim_tools.latency.command import main as latency
from chordsim_tools.scenario.tables import parse_toml
from chordsim_tools.study.command import main as study
from tests.support.programs import ended, program
from tests.test_explain import SOUND, WORLD, told
from tests.test_study_run import BASE, STUDY, call, study_folder

def spoken(text: str, rows: str = "") -> list[str]:
    """The traps that `explain` names, as its lines."""
    status, out, err = told(text, rows)
    assert (status, err) == (0, ""), (out, err)
    lines = out.splitlines()
    assert lines[0].startswith("accepted: ") and lines[1].startswith("Each finger is refreshed about every ")
    assert lines[2:3] in ([], ["accepted, but:"])
    return [line.removeprefix("- ") for line in lines[3:]]


class ExplainTrapsTest(TestCase):
    """The section "accepted, but:"."""

    def test_none(self) -> None:
        """A sound world has none, and there is no section."""
        assert spoken(SOUND) == []

    def test_timeout(self) -> None:
        """Below twice the greatest latency, by a row or by `latency_us` with the spread; not at it."""
        assert spoken(SOUND, "n0,n1,20\n") == []
        assert spoken(SOUND, "n0,n1,21\n")[0].startswith("timeout_us = 40 (40us) is below the greatest round trip, 42 ")
        second = SOUND.replace("profile = 1", "profile = 2").replace("seed = 1", "seed = 1\nspread_us = 11")
        assert "greatest round trip, 42 " in spoken(second)[0]
        top = parse_toml(second.encode())
        # Rows for all pairs leave nothing to `latency_us`.
        assert greatest_latency(top, b"n0,n1,12\nn0,n3,12\nn1,n3,12\n") == 23
        assert greatest_latency(top, b"n0,n1,12\n") == 23 and greatest_latency(top, b"n0,n1,8\n") == 21

    def test_timeout_with_retries(self) -> None:
        """A call lasts for three timeouts, 120: a round trip of 120 is answered late, and one of 122 never."""
        extended = SOUND.replace("profile = 1", "profile = 4\nretries = 2")
        assert spoken(extended, "n0,n1,20\n") == []
        assert spoken(extended, "n0,n1,60\n")[0].endswith("120 (120us): calls between such nodes are always sent again")
        assert spoken(extended, "n0,n1,61\n")[0].endswith("122 (122us): calls between such nodes always time out")

    def test_duration(self) -> None:
        """Below a period: each one that is longer is named."""
        lines = spoken(WORLD)
        assert len(lines) == 1 and "duration_us = 200 (200us) is below stabilize_us = 1000 (no node" in lines[0]
        assert "finger_us = 1000" in lines[0] and "audit_us" not in lines[0]

    def test_duration_below_lives_and_gaps(self) -> None:
        """No life ends and no gap passes. If first timers are drawn, some nodes look up a key all the same."""
        gaps = "[lookups]\ngap_min_us = 9002\ngap_max_us = 9003\n[[node]]"
        long = SOUND.replace("life_min_us = 5\nlife_max_us = 5", "life_min_us = 9001\nlife_max_us = 9001")
        long = long.replace("[[node]]", gaps, 1)
        drawn = long.replace("profile = 1", "profile = 4")
        for scenario, missing in ((long, "no node looks up a random key"), (drawn, "some nodes look up no random key")):
            (line,) = spoken(scenario)
            assert line.startswith(
                "duration_us = 9000 (9ms) is below churn.life_min_us = 9001 (no life ends), "
                f"lookups.gap_min_us = 9002 ({missing})"
            ), line
        assert spoken(long.replace("9001", "9000").replace("9002", "9000")) == []

    def test_json_and_refused_files(self) -> None:
        """JSON has the list; files that are refused have no traps."""
        assert '"traps": [\n    "duration_us = 200' in told(WORLD, "", "--json")[1]
        assert "but:" not in told(WORLD.replace("list = 2", "list = 17"), "")[1]


class EventsTrapTest(TestCase):
    """The estimate of events."""

    def test_estimate(self) -> None:
        """Within a quarter of the whole run, though churn begins later; a limit above is no trap, one below is."""
        words = "--ids names --nodes 24 --duration 40s --stabilize 200ms --finger 100ms"
        text = generated(f"{words} --churn-uniform 5s..9s 1s..2s")
        top = parse_toml(text.encode())
        whole = events_until(program(), top, b"", 40_000_000)
        assert whole is not None
        found = events_trap(program(), {**top, "max_events": whole // 2}, b"")
        assert len(found) == 1
        assert found[0].startswith(f"max_events = {whole // 2}, and the run is likely to need about ")
        assert "(tried: its first 3s have " in found[0] and "and its first 6s " in found[0]
        guess = int(found[0].partition("about ")[2].partition(" ")[0].replace(",", ""))
        assert abs(guess / whole - 1) < 0.25, (guess, whole)
        assert events_trap(program(), {**top, "max_events": 2 * whole}, b"") == []

    def test_run_that_takes_too_long(self) -> None:
        """The timers stand for it: 16 nodes make 8 events a stabilization, and 10 a finger and a lookup, in 20 s.

        Periods are 250 ms and gaps 200 ms on the mean: 16 times 20 s times (8 + 10) / 250 ms + 10 / 200 ms are 39040.
        """
        top = parse_toml(BASE.encode()) | {"max_events": 20_000}
        with patch("chordsim_tools.explain.traps.events_until", side_effect=TimeoutExpired("chordsim", 20)):
            assert events_trap(Path("/none"), top, b"") == [
                "max_events = 20000, and the run is likely to need about 39,000 (by its timers alone: its first 6s "
                "take too long to try): it would end with `3 TooManyEvents`, without a report"
            ]
            assert events_trap(Path("/none"), {**top, "max_events": 40_000}, b"") == []

    def test_jitter_of_each_timer(self) -> None:
        """A stabilization each 250 ms to 3.25 s: four of the longest are 13 s, and their mean is 1.75 s.

        16 times 20 s times 8 / 1.75 s + 10 / 250 ms + 10 / 200 ms are 30263 events.
        """
        jitter = {"profile": 4, "stabilize_jitter_us": 3_000_000, "check_us": 0, "max_events": 20_000}
        top = parse_toml(BASE.encode()) | jitter
        with patch("chordsim_tools.explain.traps.events_until", side_effect=(10_000, 20_000)):
            assert "its first 6500ms have 10000 and its first 13s 20000," in events_trap(Path("/none"), top, b"")[0]
        with patch("chordsim_tools.explain.traps.events_until", side_effect=TimeoutExpired("chordsim", 20)):
            assert "likely to need about 30,000 (by its timers alone: its" in events_trap(Path("/none"), top, b"")[0]

    def test_profile_that_allows_more(self) -> None:
        """3 s have 10,000,000 events and 6 s 20,000,000: 20 s need 66,666,666. Profiles 1 and 2 allow 50,000,000."""
        for profile, hint in ((1, "; profile 4 allows up to 100000000000"), (4, "")):
            top = parse_toml(BASE.encode()) | {"profile": profile, "stabilize_us": 100, "max_events": 50_000_000}
            with patch("chordsim_tools.explain.traps.events_until", side_effect=(10_000_000, 20_000_000)):
                lines = events_trap(Path("/none"), top, b"")
            tried = "tried: its first 3s have 10000000 and its first 6s 20000000, and so on"
            assert len(lines) == 1 and f"is likely to need about 67,000,000 ({tried})" in lines[0]
            assert lines[0].endswith(f"without a report{hint}")

    def test_no_run_where_the_timers_are_few(self) -> None:
        """A small scenario with the default limit asks no program: that of the test is not there."""
        top = parse_toml(BASE.encode())
        assert events_trap(Path("/none"), top, b"") == []
        assert events_trap(Path("/none"), {**top, "max_events": 100}, b"") == []


def generated(words: str) -> str:
    """What `generate` writes, whatever it warns of."""
    status, out, _ = ended(generate, *words.split())
    assert status == 0
    return out


class OtherTrapsTest(TestCase):
    """The lines of generate, latency and study."""

    def test_generate(self) -> None:
        """Bare numbers that are short, also in spans and laws; a timeout below the round trip. Others are silent."""
        for words, wanted in (
            ("--duration 30", "--duration 30: 30 without a unit is 30 microseconds; write 30ms, 30s or 30m,"),
            ("--lifetime exp:600", "--lifetime exp:600: 600 without a unit"),
            ("--churn-uniform 30..90s 5s..15s", "--churn-uniform 30..90s 5s..15s: 30 without"),
            ("--latency 60 --timeout 1s", "--latency 60: 60 without a unit"),
            ("--spread 1 --profile 2", "--spread 1: 1 without a unit is 1 microsecond; write 1ms, 1s or 1m, or 1us"),
            ("--finger-jitter 50 --profile 4", "--finger-jitter 50: 50 without a unit is 50 microseconds; write 50ms,"),
            ("--timeout 39ms", "timeout_us = 39000 (39ms) is below the greatest round trip, 40000 (40ms)"),
            ("--profile 2 --spread 81ms", "timeout_us = 200000 (200ms) is below the greatest round trip, 202000"),
            ("--profile 4 --spread 81ms --retries 1", "timeout_us = 200000 (200ms) is below the greatest round trip,"),
            ("--duration 400ms", "duration_us = 400000 (400ms) is below stabilize_us = 500000"),
        ):
            with self.subTest(words=words):
                status, out, err = ended(generate, *words.split())
                assert status == 0 and out.startswith("# A scenario") and f"warning: {wanted}" in err, err
        for words in ("", "--duration 30s", "--stabilize 250000 --latency 5000", "--jitter 0", "--duration 60000000"):
            with self.subTest(words=words):
                assert ended(generate, *words.split())[2] == ""

    def test_latency(self) -> None:
        """Pings in milliseconds that are read as microseconds, unless the unit is given; a scenario's timeout."""
        with tempfile.TemporaryDirectory() as name:
            folder = Path(name)
            (folder / "pings").write_text("1 2 60\n1 3 80\n2 3 90\n")
            (folder / "world.toml").write_text(SOUND)
            words = (str(folder / "pings"), "--form", "lines", "--names", str(folder / "world.toml"))
            lines = ended(latency, *words)[2].splitlines()
            assert lines[1].startswith("warning: the median latency is 40 us, below 1 ms: are the round trips in milli")
            assert lines[2].startswith("warning: timeout_us = 40 (40us) is below the greatest round trip, 90")
            status, _, err = ended(latency, *words[:3], "--nodes", "3", "--unit", "us")
            assert status == 0 and "warning" not in err
            assert "warning" not in ended(latency, *words[:3], "--nodes", "3", "--unit", "ms")[2]

    def test_bare_times_of_latency(self) -> None:
        """Short numbers without a unit, by rows and by coordinates."""
        plane = "--plane 60: 60 without a unit is 60 microseconds; write 60ms, 60s or 60m, or 60us for this"
        floor = "--floor 5: 5 without a unit is 5 microseconds; write 5ms, 5s or 5m, or 5us for this"
        cases: tuple[tuple[str, list[str]], ...] = (
            ("--plane 60", [plane]), ("--plane 999us --floor 5", [floor]), ("--plane 60 --floor 5", [plane, floor]),
            ("--king --floor 5", [floor]), ("--plane 1000 --floor 5us", []),
        )
        for words, wanted in cases:
            with self.subTest(words=words):
                status, _, err = ended(latency, *words.split(), "--nodes", "3")
                assert (status, err.splitlines()[1:]) == (0, [f"warning: {one}" for one in wanted])

    def test_study(self) -> None:
        """Each kind once, with the first setting and how many more have it; the study is run."""
        with study_folder(STUDY.replace("list = [1, 2]", "timeout_us = [30000, 39999, 40000]")) as folder:
            status, line = call(folder)
            assert status == 0 and line.startswith("warning: timeout_us=30"), line
            assert "seed=1: timeout_us = 30000 (30ms) is below the greatest round trip, 40000" in line
            assert line.endswith("(and in 1 more setting)")
            assert (folder / "study" / "manifest.json").exists()
            assert call(folder) == (0, "")

    def test_setting_that_needs_most_events(self) -> None:
        """Stabilizations are each 250, 25 or 24 ms. The last setting is tried: 1,000 + 2,000 * 17 / 3 = 12,333 events.

        In each microsecond a node of it has 8 / 24000 + 10 / 250000 + 10 / 200000 = 0.000423 events by its timers. The
        second setting has 0.000410, and the first one 0.000122. In proportion to this they need 11,900 and 3,500.
        """
        with study_folder(STUDY.replace("list = [1, 2]", "stabilize_us = [250000, 25000, 24000]")) as folder:
            base = BASE.replace("seed = 7", "seed = 7\nmax_events = 11000")
            (folder / "base.toml").write_text(base)
            with patch("chordsim_tools.explain.traps.events_until", side_effect=(1000, 3000)):
                status, line = call(folder)
            assert status == 0 and line == (
                "warning: stabilize_us=24ms, seed=1: max_events = 11000, and the run is likely to need about 12,000 "
                "(tried: its first 3s have 1000 and its first 6s 3000, and so on): it would end with "
                "`3 TooManyEvents`, without a report (and in 1 more setting)"
            )
        with study_folder(STUDY.replace("list = [1, 2]", "stabilize_us = [250000, 25000, 24000]")) as folder:
            (folder / "base.toml").write_text(base.replace("max_events = 11000", "max_events = 12400"))
            with patch("chordsim_tools.explain.traps.events_until", side_effect=(1000, 3000)):
                assert call(folder) == (0, "")

    def test_study_that_needs_more_events(self) -> None:
        """The estimate comes before the run that fails by it."""
        chordsim = program()
        with study_folder() as folder:
            base = BASE.replace("seed = 7", "seed = 7\nmax_events = 20000")
            (folder / "base.toml").write_text(base.replace("duration_us = 2", "duration_us = 20"))
            out = io.StringIO()
            with patch.dict("os.environ", CHORDSIM=str(chordsim)), redirect_stderr(out):
                status = study(["run", str(folder / "study.toml"), "--jobs", "1"])
            lines = out.getvalue().splitlines()
            assert status == 3 and lines[0].startswith("warning: list=1, seed=1: max_events = 20000, and the run")
            assert "TooManyEvents" in lines[1]
