"""What tools/explain says of files with faults: each a change of a world whose lines are numbered here by hand."""

import json
import os
import tempfile
from contextlib import redirect_stderr, redirect_stdout
from io import StringIO
from pathlib import Path
from unittest import TestCase
from unittest.mock import patch

from chordsim_tools.explain.command import explanations, main
from chordsim_tools.explain.files import Explanation
from chordsim_tools.explain.wording import explained

# Lines 1 to 11 are the top, 12 to 16 [churn]; the nodes n0, n1 and n3 begin at 17, 21 and 25, the command at 29.
TOP = """profile = 1
bits = 3
list = 2
seed = 1
duration_us = 200
window_us = 10
latency_us = 10
timeout_us = 40
audit_us = 200
stabilize_us = 1000
finger_us = 1000
[churn]
life_min_us = 5
life_max_us = 5
down_min_us = 5
down_max_us = 5
"""
NODES = "".join(f'[[node]]\nname = "n{i}"\nid = {i}\ninitial = true\n' for i in (0, 1, 3))
WORLD = TOP + NODES + '[[command]]\nat_us = 100\ndo = "lookup"\nnode = "n0"\nkey = 1\n'

FAULTS = [
    ("seed = 1", "seed = 1,000", "S1 NotToml", 4, 9, "without separators or with underscores: 1000"),
    ("seed = 1", "seed = 0x8000_0000_0000_0000", "S1 NotToml", 4, 8, None),
    ("seed = 1", f"seed = -{'9' * 5000}", "S1 NotToml", 4, 8, None),
    ("seed = 1", f"seed = 0x{'f' * 5000}", "S1 NotToml", 4, 8, None),
    ("seed = 1", f"seed{'.a' * 3000} = 1", "S1 NotToml", 33, None, None),
    ("seed = 1", f"seed = 00{'1' * 5000}", "S1 NotToml", 4, 9, f"without leading zeros: {'1' * 57}..."),
    ("seed = 1", "seed = 00", "S1 NotToml", 4, 9, "without leading zeros: 0"),
    ("[[node]]", "[[nod", "S1 NotToml", 17, 6, None),
    ("seed = 1", "bits = 4", "S1 NotToml", 4, 9, "`bits` stands twice in one table: at line 2 and line 4"),
    ('name = "n1"', 'nam = "n1"', "S2 UnknownKey node 2", 22, 1, "did you mean `name`?"),
    ("list = 2\n", "", "S3 MissingKey top list", 1, None, None),
    ("key = 1\n", "", "S3 MissingKey command 1 key", 29, 1, "a lookup needs `key`"),
    ("window_us = 10", "window_us = 10.0", "S4 WrongType top window_us", 6, 13,
     "an integer has no point and no exponent: 10 for 10.0"),
    ("id = 3\ninitial = true", 'id = 3\ninitial = "yes"', "S4 WrongType node 3 initial", 28, 11, "initial = true"),
    ("list = 2", "list = 17", "S5 OutOfRange top list", 3, 8, None),
    ("id = 3", "id = 8", "S5 OutOfRange node 3 id", 27, 6, "it has 4 bits, and bits = 3"),
    ("id = 3", 'id = "0x3"', "S5 OutOfRange node 3 id", 27, 6, 'did you mean "3"?'),
    ("life_max_us = 5", "life_max_us = 4", "S5 OutOfRange churn life_max_us", 14, 15,
     "life_min_us = 5 stands at line 13"),
    ("duration_us = 200", "duration_us = 200000001", "S5 OutOfRange top audit_us", 9, 12,
     "a run has at most 1000000 audits, so for duration_us = 200000001 201 is the least"),
    ('do = "lookup"', 'do = "lokup"', "S5 OutOfRange command 1 do", 31, 6, 'did you mean "lookup"?'),
    ('name = "n1"', 'name = "n 1"', "S6 BadName node 2", 22, 8, '"n-1" is allowed'),
    ('name = "n3"', 'name = "n1"', "S7 SameName node 2 node 3", 26, 8, None),
    ("id = 3", "id = 1", "S8 SameId n1 n3", 27, 6, None),
    ('node = "n0"', 'node = "N0"', "S9 UnknownNode command 1", 32, 8, 'did you mean "n0"?'),
    ("id = 1\ninitial = true", "id = 1", "S10 TooFewInitial", 3, 8, "write initial = true at 1 more node"),
    ("at_us = 100", "at_us = 200", "S11 TimeAfterEnd command 1", 30, 9, "duration_us = 200 stands at line 5"),
    ('do = "lookup"', 'do = "join"\nvia = "n0"', "S13 SelfLink command 1", 32, 7,
     "profile 4 allows it, and the node makes a ring of its own then: write profile = 4"),
    ("window_us = 10", "window_us = 11", "S15 LatencyBelowWindow n0 n1", 7, 14,
     "raise it, or lower `window_us` (line 6)"),
]
ROWS = [
    ("n0,n9,10", "S9 UnknownNode row 1", 1, None),
    ("n0,n1,10\n\nn0, n3,10", "S9 UnknownNode row 2", 3, 'without the blanks: "n3"'),
    ("a,b,us", "S9 UnknownNode row 1", 1, "this looks like a heading: take it away, the file has none"),
    ("n0;n1;10", "S12 BadLatencyRow row 1", 1, "the fields are parted by semicolons, not by commas: write n0,n1,10"),
    ("n0\tn1\t10", "S12 BadLatencyRow row 1", 1, "the fields are parted by tabs, not by commas: write n0,n1,10"),
    ("n0,n1,12.5", "S12 BadLatencyRow row 1", 1, "whole microseconds, without a point: 12"),
    (f"n0,n1,{'9' * 400}.5", "S12 BadLatencyRow row 1", 1, None),
    ("n0,n1,10ms", "S12 BadLatencyRow row 1", 1, "in microseconds: 10000"),
    ("n0,n0,10", "S13 SelfLink row 1", 1, None),
    ("n0,n3,10\r\nn3,n0,10", "S14 SameLinkTwice row 2", 2, "a row holds in both directions"),
    ('"n0",n3,10\n"n3",n1,9', "S15 LatencyBelowWindow n1 n3", 2, None),
]


def changed(*changes: tuple[str, str]) -> str:
    """The world with texts replaced by others."""
    text = WORLD
    for old, new in changes:
        assert old in text, old
        text = text.replace(old, new, 1)
    return text


# A world without traps: its duration is above its periods.
SOUND = changed(
    ("duration_us = 200", "duration_us = 9000"), ("stabilize_us = 1000", "stabilize_us = 100"),
    ("finger_us = 1000", "finger_us = 100"),
)


def faults(text: str, rows: str = "") -> list[Explanation]:
    """All faults of two texts."""
    return list(explanations(text.encode(), rows.encode(), ("world.toml", "links.csv"))[1])


def told(scenario: str, rows: str, *words: str, program: str = "") -> tuple[int, str, str]:
    """The status of the tool for these files, and what it writes to its two streams."""
    out, err = StringIO(), StringIO()
    with tempfile.TemporaryDirectory() as folder, patch.dict(os.environ, CHORDSIM=program):
        files = [Path(folder) / "world.toml", Path(folder) / "links.csv"]
        for file, text in zip(files, (scenario, rows), strict=True):
            file.write_text(text)
        alone = [] if program else ["--alone"]
        with redirect_stdout(out), redirect_stderr(err):
            status = main([str(files[0]), str(files[1]), *alone, *words])
    return status, out.getvalue(), err.getvalue()


class ExplainTest(TestCase):
    """Each fault with its line and column, what was likely meant, and how it is told."""

    def test_faults_of_the_scenario(self) -> None:
        """Each fault with its line and column, and what was likely meant. None brings another fault with it."""
        assert faults(WORLD) == []
        for old, new, fault, line, column, hint in FAULTS:
            with self.subTest(change=new):
                found = faults(changed((old, new)))
                assert (found[0].fault, found[0].line, found[0].column) == (fault, line, column), found
                assert found[0].file == "world.toml"
                assert hint is None or hint in found[0].hints, found

    def test_faults_of_rows(self) -> None:
        """Each fault of the latency file with its line."""
        for rows, fault, line, hint in ROWS:
            with self.subTest(rows=rows):
                found = faults(WORLD, rows)
                assert (found[0].fault, found[0].line, found[0].file) == (fault, line, "links.csv"), found
                assert hint is None or hint in found[0].hints, found

    def test_single_faults_stay_single(self) -> None:
        """What only follows from another fault is left out: a number out of range, a name twice, a row of one node."""
        for change in (("bits = 3", "bits = 65"), ("duration_us = 200", "duration_us = 0"), ("list = 2", "list = 0")):
            assert len(faults(changed(change))) == 1
        twin = '[[node]]\nname = "x"\n'
        text = changed(("[[command]]", twin + twin + "[[command]]"), ("bits = 3", "bits = 64"))
        assert [one.fault for one in faults(text)] == ["S7 SameName node 4 node 5"]
        twice = faults(WORLD, "n0,n0,10\nn0,n0,10")
        assert [one.fault for one in twice] == ["S13 SelfLink row 1", "S13 SelfLink row 2"]

    def test_misspelled_key(self) -> None:
        """The unknown key and the missing one point to each other."""
        unknown, missing = faults(changed(("stabilize_us", "stabilise_us")))
        assert (unknown.fault, unknown.line) == ("S2 UnknownKey top", 10)
        assert unknown.hints == ["did you mean `stabilize_us`?"]
        assert missing.fault == "S3 MissingKey top stabilize_us"
        assert missing.hints == ["`stabilise_us` stands there and is no key: did you mean `stabilize_us` by it?"]

    def test_misspelled_heading(self) -> None:
        """[[nodes]] beside [[node]], and in its place."""
        (found,) = faults(changed(("[[command]]", '[[nodes]]\nname = "x"\n[[command]]')))
        assert (found.fault, found.line, found.hints) == ("S2 UnknownKey top", 29, ["did you mean [[node]]?"])
        unknown, missing = faults(WORLD.replace("[[node]]", "[[nodes]]"))
        assert (unknown.line, unknown.hints) == (17, ["did you mean [[node]]?"])
        assert missing.fault == "S3 MissingKey top node"

    def test_keys_of_the_other_profile(self) -> None:
        """Keys of the network in profile 1, misspelled and below a heading; in profile 2 they are like all others."""
        (found,) = faults(changed(("seed = 1", "seed = 1\nloss_ppm = 5")))
        assert (found.fault, found.line, found.hints) == (
            "S2 UnknownKey top", 5, ["profile 2 has `loss_ppm`: write profile = 2"]
        )
        assert "loss_ppm" not in found.allowed
        (found,) = faults(changed(("seed = 1", "seed = 1\nspreads_us = 5")))
        assert found.hints == ["did you mean `spread_us`? profile 2 has `spread_us`: write profile = 2"]
        (found,) = faults(changed(("[churn]", "[churn]\nspread_us = 5")))
        assert found.hints == ["profile 2 has `spread_us`: write profile = 2, and put it above the first heading"]
        (found,) = faults(changed(("profile = 1", "profile = 2\nloss_pmm = 5")))
        assert (found.hints, "loss_ppm, spread_us" in found.allowed) == (["did you mean `loss_ppm`?"], True)
        (found,) = faults(changed(("profile = 1", "profile = 2"), ("[churn]", "[churn]\nspread_us = 5")))
        assert found.hints == ["`spread_us` is a key of the top: put it above the first heading"]
        unknown, wrong = faults(changed(("profile = 1", 'profile = "2"\nloss_ppm = 5')))
        assert (unknown.fault, wrong.fault) == ("S2 UnknownKey top", "S4 WrongType top profile")
        assert (wrong.allowed, wrong.hints) == ("the integers 1, 2 and 4", ["without quotes: profile = 2"])
        assert faults(changed(("profile = 1", "profile = 2\nloss_ppm = 5\nspread_us = 5"))) == []

    def test_keys_of_the_extended_profile(self) -> None:
        """Its own key in other profiles, misspelled, below a heading, out of range; other ranges are the second's."""
        hint = "profile 4 has `retries`: write profile = 4"
        for profile in (1, 2):
            (found,) = faults(changed(("profile = 1", f"profile = {profile}\nretries = 1")))
            assert (found.fault, found.line, found.hints) == ("S2 UnknownKey top", 2, [hint])
        (found,) = faults(changed(("profile = 1", "profile = 2\nretires = 1")))
        assert found.hints == [f"did you mean `retries`? {hint}"]
        (found,) = faults(changed(("profile = 1", "profile = 2"), ("[churn]", "[churn]\nretries = 1")))
        assert found.hints == [f"{hint}, and put it above the first heading"]
        (found,) = faults(changed(("profile = 1", "profile = 4"), ("[churn]", "[churn]\nretries = 1")))
        assert found.hints == ["`retries` is a key of the top: put it above the first heading"]
        (found,) = faults(changed(("profile = 1", "profile = 4\nretries = 4")))
        assert (found.fault, found.allowed) == ("S5 OutOfRange top retries", "an integer from 0 to 3")
        assert faults(changed(("profile = 1", "profile = 4\nloss_ppm = 5\nspread_us = 5\nretries = 3"))) == []
        (found,) = faults(changed(("profile = 1", "profile = 4"), ("bits = 3", "bits = 129")))
        assert (found.allowed, found.hints) == ("an integer from 3 to 128", [])

    def test_ranges_of_both_profiles(self) -> None:
        """What profile 1 refuses and profile 2 allows, and what both refuse."""
        second = ("profile = 1", "profile = 2")
        (found,) = faults(changed(("bits = 3", "bits = 65")))
        assert (found.allowed, found.hints) == (
            "an integer from 3 to 64", ["profile 2 allows up to 128: write profile = 2"]
        )
        (found,) = faults(changed(second, ("bits = 3", "bits = 129")))
        assert (found.allowed, found.hints) == ("an integer from 3 to 128", [])
        (found,) = faults(changed(("id = 3", 'id = "00000000000000003"')))
        assert found.hints == [
            '16 digits at most: "3"', "profile 2 allows up to 32 hexadecimal digits, and 128 bits: write profile = 2"
        ]
        assert "1 to 16 hexadecimal digits" in found.allowed
        (found,) = faults(changed(second, ("id = 3", f'id = "{"3":0>33}"')))
        assert (found.fault, found.hints) == ("S5 OutOfRange node 3 id", ['32 digits at most: "3"'])
        assert "1 to 32 hexadecimal digits" in found.allowed
        assert faults(changed(second, ("id = 3", f'id = "{"3":0>32}"'))) == []
        more = "".join(f'[[node]]\nname = "x{i}"\n' for i in range(510))
        (found,) = faults(changed(("[[command]]", more + "[[command]]"), ("bits = 3", "bits = 64")))
        assert (found.fault, found.hints) == (
            "S5 OutOfRange top node", ["profile 2 allows up to 4096 tables: write profile = 2"]
        )
        assert faults(changed(second, ("[[command]]", more + "[[command]]"), ("bits = 3", "bits = 64"))) == []
        (found,) = faults(changed(("profile = 1", "profile = 5")))
        assert (found.fault, found.allowed) == ("S5 OutOfRange top profile", "the integers 1, 2 and 4")
        assert found.hints == []

    def test_number_that_is_not_in_use(self) -> None:
        """There is no profile 3: the file says so whether the number itself or a key of profile 4 is refused first."""
        hint = ["the number 3 is not in use: the profile after 2 is 4, so write profile = 4"]
        (found,) = faults(changed(("profile = 1", "profile = 3")))
        assert (found.fault, found.hints) == ("S5 OutOfRange top profile", hint)
        found = faults(changed(("profile = 1", "profile = 3\nretries = 1")))[0]
        assert (found.fault, found.hints) == ("S2 UnknownKey top", hint)

    def test_window_and_spread(self) -> None:
        """A spread does not make a latency long enough."""
        text = changed(("profile = 1", "profile = 2\nspread_us = 5"), ("window_us = 10", "window_us = 11"))
        (found,) = faults(text)
        assert found.fault == "S15 LatencyBelowWindow n0 n1"
        assert found.hints[1:] == ["`spread_us` does not count here: a message may come without it"]

    def test_rows_that_are_no_heading(self) -> None:
        """A first row with a name or a number is none."""
        for rows in ("n0;n1;10", "n0,n1", "x,y,5.5"):
            assert not any("heading" in hint for one in faults(WORLD, rows) for hint in one.hints), rows
        assert all("heading" in one.hints[0] for one in faults(WORLD, "node1;node2;us"))

    def test_key_below_the_wrong_heading(self) -> None:
        """A key of the top that stands in [churn]."""
        unknown, missing = faults(changed(("seed = 1\n", ""), ("[churn]\n", "[churn]\nseed = 1\n")))
        assert (unknown.fault, unknown.line) == ("S2 UnknownKey churn", 12)
        assert unknown.hints == ["`seed` is a key of the top: put it above the first heading"]
        assert missing.hints == ["it stands in churn, line 12: put it above the first heading"]

    def test_one_bracket(self) -> None:
        """[node] for [[node]], once (no array) and twice (no TOML)."""
        text = TOP + NODES.split("[[node]]\n")[1].join(["[node]\n", ""])
        (found,) = faults(text)
        assert (found.fault, found.line) == ("S4 WrongType top node", 17)
        assert found.hints == ["[node] is one table: begin each with the heading [[node]]"]
        (found,) = faults(changed(("[[node]]", "[node]"), ("[[node]]", "[node]")))
        assert (found.fault, found.line) == ("S1 NotToml", 21)
        assert found.hints == ["begin each node with the heading [[node]], with two brackets on each side"]

    def test_several_at_once(self) -> None:
        """In the order of S1 to S15, and within each in that of the places, the rows last."""
        text = changed(
            ("seed = 1", "seed = true"), ("finger_us = 1000", "finger_us = 0"), ("life_min_us = 5", "life_min = 5"),
            ('name = "n1"', 'name = "n3"'), ("id = 3", "id = 9"), ("at_us = 100", "at_us = 300"),
            ('node = "n0"', 'node = "n7"'),
        )
        assert [one.fault for one in faults(text, "n0,n3\nn0,n8,5\nn3,n0,10\nn0,n3,9")] == [
            "S2 UnknownKey churn",
            "S3 MissingKey churn life_min_us",
            "S4 WrongType top seed",
            "S5 OutOfRange top finger_us",
            "S5 OutOfRange node 3 id",
            "S7 SameName node 2 node 3",
            "S9 UnknownNode command 1",
            "S9 UnknownNode row 2",
            "S11 TimeAfterEnd command 1",
            "S12 BadLatencyRow row 1",
            "S14 SameLinkTwice row 4",
            "S15 LatencyBelowWindow n0 n3",
        ]

    def test_no_toml_and_broken_rows(self) -> None:
        """Of a latency file beside a text that is no TOML only what it says by itself."""
        assert [one.fault for one in faults("bits: 3", "n0,n1\na,a,5")] == [
            "S1 NotToml", "S12 BadLatencyRow row 1", "S13 SelfLink row 2"
        ]

    def test_many_pairs_below_the_window(self) -> None:
        """latency_us is named once for all pairs, each row by itself, in the order of their first pairs."""
        found = faults(changed(("window_us = 10", "window_us = 20")), "n1,n3,19\nn0,n3,20")
        assert [(one.fault, one.file, one.line) for one in found] == [
            ("S15 LatencyBelowWindow n0 n1", "world.toml", 7), ("S15 LatencyBelowWindow n1 n3", "links.csv", 1)
        ]

    def test_texts_and_statuses(self) -> None:
        """Accepted files, refused ones, some of each kind, and the words for a reader."""
        fingers = "Each finger is refreshed about every 200us: 2 fingers in turn, one each 100us.\n"
        assert told(SOUND, "n0,n1,10\n") == (0, "accepted: 3 nodes, 1 commands\n" + fingers, "")
        status, out, err = told(changed(("bits = 3", 'bits = "3"')), "n0,n1\nn0\nn1,n3\n", "--most", "2")
        lines = out.splitlines()
        assert (status, err, lines[0], lines[1]) == (1, "", "refused: S4 WrongType top bits", "4 faults:")
        assert lines[3] == "1. S4 WrongType top bits"
        assert lines[4].endswith("world.toml, line 2, column 8: `bits` has a value of another type")
        assert lines[5:7] == ['   there:   "3"', "   allowed: an integer from 3 to 64"]
        assert lines[7] == "   hint:    without quotes: bits = 3"
        assert lines[-1] == "and 1 more of S12 BadLatencyRow"

    def test_faults_that_are_left_out(self) -> None:
        """They are counted and not put into words: of five unknown names two are."""
        rows = "".join(f"n0,x{number},10\n" for number in range(5))
        with patch("chordsim_tools.explain.command.explained", wraps=explained) as worded:
            out = told(WORLD, rows, "--most", "2")[1]
        assert worded.call_count == 2 and out.endswith("\nand 3 more of S9 UnknownNode\n")

    def test_json(self) -> None:
        """The same for other programs."""
        status, out, _ = told(changed(("list = 2", "list = 17")), "", "--json")
        said = json.loads(out)
        assert (status, said["answer"], said["accepted"]) == (1, "refused: S5 OutOfRange top list", False)
        (fault,) = said["faults"]
        assert (fault["number"], fault["fault"]) == (1, "S5 OutOfRange top list")
        assert (fault["place"], fault["key"]) == ("top", "list")
        assert (fault["line"], fault["column"], fault["near"], fault["found"]) == (3, 8, False, "17")
        assert fault["allowed"] == "an integer from 1 to 16"
        assert json.loads(told(WORLD, "", "--json")[1])["accepted"] is True

    def test_files_that_cannot_be_read(self) -> None:
        """One line, with the name and the reason."""
        err = StringIO()
        with redirect_stderr(err):
            assert main(["/nowhere/world.toml", "--alone"]) == 1
        assert err.getvalue() == "refused: cannot read /nowhere/world.toml: No such file or directory\n"

    def test_program_that_is_not_there(self) -> None:
        """A program that is named has to be there."""
        assert told(WORLD, "", program="/nowhere/chordsim") == (
            3, "", "failed: the program is missing: CHORDSIM=/nowhere/chordsim is no file that can be run\n"
        )
