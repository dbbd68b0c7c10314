"""What tools/explain says of the later keys of the extended profile: coordinates, pauses and checks.

The nodes n0, n1 and n3 begin at the lines 17, 21 and 25; in profile 4 nothing else is changed but what a test says.
"""

from unittest import TestCase

from chordsim_tools.scenario.tables import WAYS
from tests.test_explain import SOUND, changed, faults
from tests.test_explain_traps import spoken

EXTENDED = ("profile = 1", "profile = 4")
IDS = ("id = 0", "id = 1", "id = 3")


def placed(*lines: str, window: int = 1) -> str:
    """The world in profile 4, with these lines behind the identifiers of its three nodes."""
    changes = [(ident, f"{ident}\n{line}") for ident, line in zip(IDS, lines, strict=True) if line]
    return changed(EXTENDED, ("window_us = 10", f"window_us = {window}"), *changes)


class ExplainCoordinatesTest(TestCase):
    """Faults of coordinates, with their lines and hints."""

    def test_missing_keys(self) -> None:
        """Each place that lacks one is told, and why it has to be there."""
        found = faults(placed("", "x_us = 5", ""))
        places = ("node 1 x_us", "node 1 y_us", "node 2 y_us", "node 3 x_us", "node 3 y_us")
        missing = [f"S3 MissingKey {place}" for place in places]
        assert [one.fault for one in found] == [*missing, "S15 LatencyBelowWindow n0 n1"]
        hint = "if one table of nodes has `x_us`, `y_us`, `height_us` or `side_us`, each has `x_us` and `y_us`"
        assert (found[0].line, found[0].hints, found[0].allowed) == (17, [hint], "an integer from 0 to 500000000")

    def test_other_profiles(self) -> None:
        """The keys belong to profile 4, also if they are misspelled or in another table."""
        hint = "profile 4 has `height_us`: write profile = 4"
        for profile in (1, 2):
            (found,) = faults(changed(("profile = 1", f"profile = {profile}"), ("id = 1", "id = 1\nheight_us = 5")))
            assert (found.fault, found.line, found.hints) == ("S2 UnknownKey node 2", 24, [hint])
        (found,) = faults(changed(("id = 1", "id = 1\nheigth_us = 5")))
        assert found.hints == [f"did you mean `height_us`? {hint}"]
        (found,) = faults(changed(("seed = 1", "seed = 1\nheight_us = 5")))
        assert found.hints == [f"{hint}, and put it below a heading [[node]]"]
        (found,) = faults(changed(EXTENDED, ("seed = 1", "seed = 1\nheight_us = 5")))
        assert found.hints == ["`height_us` is a key of [[node]] and of [[nodes]]"]

    def test_low_heights(self) -> None:
        """Both nodes and their heights are told, at the first one's line: 25 and two lines for the coordinates."""
        place = "x_us = 0\ny_us = 0\n"
        (found,) = faults(placed(place + "height_us = 9", place, place + "height_us = 2", window=3))
        assert (found.fault, found.place, found.line) == ("S15 LatencyBelowWindow n1 n3", "node 2", 24)
        assert found.found == "height_us = 0 and height_us = 2, together 2"
        assert found.allowed == "window_us = 3 or more together"
        assert found.hints == ["raise them, or lower `window_us` (line 6)"]

    def test_rows(self) -> None:
        """S16 is at the first row."""
        place = "x_us = 0\ny_us = 0\nheight_us = 5"
        (found,) = faults(placed(place, place, place), "n0,n1,20\nn0,n3,20\n")
        assert (found.fault, found.file, found.line) == ("S16 RowsAndCoordinates", "links.csv", 1)
        assert (found.found, found.allowed) == ("2 rows", "no row: the coordinates give all latencies")
        assert found.hints == ["run it without the latency file, or take the coordinates away, from node 1 on"]


class ExplainLaterTest(TestCase):
    """The later keys of the top, wider ranges, and traps."""

    def test_later_keys(self) -> None:
        """Each is named with its profile, and checked in it."""
        for key in ("join_pause_us", "join_forever", "check_us", "detail", *(key.name for key in WAYS)):
            (found,) = faults(changed(("seed = 1", f"seed = 1\n{key} = 1")))
            assert found.hints == [f"profile 4 has `{key}`: write profile = 4"]
        (found,) = faults(changed(EXTENDED, ("seed = 1", "seed = 1\njoin_forever = 1")))
        assert (found.fault, found.hints) == ("S4 WrongType top join_forever", ["join_forever = true"])
        (found,) = faults(changed(EXTENDED, ("seed = 1", 'seed = 1\ndetail = "yes"')))
        assert (found.fault, found.hints) == ("S4 WrongType top detail", ["detail = true"])
        for key in (key.name for key in WAYS if key.kind == "boolean"):
            (found,) = faults(changed(EXTENDED, ("seed = 1", f'seed = 1\n{key} = "no"')))
            assert (found.fault, found.hints) == (f"S4 WrongType top {key}", [f"{key} = false"])
        for key in ("stabilize_jitter_us", "finger_jitter_us", "check_jitter_us"):
            (found,) = faults(changed(EXTENDED, ("seed = 1", f"seed = 1\n{key} = 1000000001")))
            assert (found.fault, found.allowed) == (f"S5 OutOfRange top {key}", "an integer from 0 to 1000000000")
        (found,) = faults(changed(EXTENDED, ("seed = 1", "seed = 1\nlookup_timeouts = 65")))
        assert (found.fault, found.allowed) == ("S5 OutOfRange top lookup_timeouts", "an integer from 0 to 64")
        (found,) = faults(changed(EXTENDED, ("seed = 1", 'seed = 1\ncheck_us = "5s"')))
        assert (found.fault, found.hints) == ("S4 WrongType top check_us", ["in microseconds: 5000000"])

    def test_wider_ranges(self) -> None:
        """Events and nodes that profile 4 allows, from profile 1 and 2; and those that no profile allows."""
        for profile in (1, 2):
            lines = f"profile = {profile}\nmax_events = 50000001"
            (found,) = faults(changed(("profile = 1", lines)))
            assert found.hints == ["profile 4 allows up to 100000000000: write profile = 4"]
        nodes = "".join(f'[[node]]\nname = "x{i}"\n' for i in range(4094))
        second = ("profile = 1", "profile = 2"), ("bits = 3", "bits = 64")
        (found,) = faults(changed(*second, ("[[command]]", nodes + "[[command]]")))
        assert found.hints == ["profile 4 allows up to 65536 tables: write profile = 4"]
        (found,) = faults(changed(("seed = 1", "seed = 1\nmax_events = 100000000001")))
        assert (found.fault, found.hints) == ("S5 OutOfRange top max_events", [])

    def test_timeout_of_coordinates(self) -> None:
        """n0 and n3 are farthest from each other, with 5 + 9 + 7: a round trip of 42 is above the timeout of 40."""
        text = SOUND.replace("profile = 1", "profile = 4")
        for ident, line in zip(IDS, ("x_us = 0\ny_us = 0\nheight_us = 9", "x_us = 1\ny_us = 1\nheight_us = 9",
                                     "x_us = 3\ny_us = 4\nheight_us = 7"), strict=True):
            text = text.replace(ident, f"{ident}\n{line}", 1)
        (line,) = spoken(text)
        assert line.startswith("timeout_us = 40 (40us) is below the greatest round trip, 42 (42us)")
        assert spoken(text.replace("height_us = 7", "height_us = 6")) == []

    def test_duration(self) -> None:
        """A run that is shorter than a check or a pause. If first timers are drawn, some checks come."""
        short = SOUND.replace("profile = 1", "profile = 4\ncheck_us = 9001\njoin_pause_us = 9002")
        for text, told in (
            (short, "some nodes never check their predecessor"),
            (short.replace("check_us", "random_start = false\ncheck_us"), "no predecessor is checked"),
        ):
            (line,) = spoken(text)
            assert line.startswith(
                f"duration_us = 9000 (9ms) is below check_us = 9001 ({told}), "
                "join_pause_us = 9002 (no join is tried again)"
            )
        assert spoken(SOUND.replace("profile = 1", "profile = 4\ncheck_us = 9000\njoin_pause_us = 9000")) == []
