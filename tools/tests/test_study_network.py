"""What a page says of latencies: one test for each place that they come from."""

from pathlib import Path
from typing import Any
from unittest import TestCase

from chordsim_tools.files import sum_of
from chordsim_tools.study.network import input_sums
from chordsim_tools.study.page import page
from chordsim_tools.study.plan import read_study
from chordsim_tools.study.tables import manifest_of
from chordsim_tools.study.worlds import latency_of
from tests.support.programs import program
from tests.support.studies import tables_of, unwrapped
from tests.test_study_page import setting, told
from tests.test_study_run import BASE, STUDY, call, said, study_folder

PLACES = "".join(f"n{number},{1000 * number},0,5000\n" for number in range(8))
GENERATED = (
    'question = "How?"\ngenerate = ["--profile", "4", "--nodes", "8", "--duration", "20s", "--timeout", "400ms", '
    '"--coordinates", "{law}"]\nseeds = 2\n[vary]\nlist = [1, 2]\n'
)
PLACED = "coordinates of the nodes, which give the latencies"
NAMES = '[[node]]\nname = "n3"\n[[node]]\nname = "n1"\n'
TRIPS = STUDY.replace("seeds", 'latency = ["trips.txt", "--names", "names.toml"]\nseeds')


def sentence(text: str) -> str:
    """The page's sentence on what is new and what is the same."""
    [found] = [line for line in text.splitlines() if "New in each: " in line]
    return found


def sentence_of(**changes: Any) -> str:
    """The sentence of a study with these things in its manifest."""
    return sentence(told(setting(4, 900, 5000), **changes))


def generated(*words: str, **changes: Any) -> str:
    """The sentence of a study with these arguments of tools/generate."""
    return sentence_of(base=None, generate=["--nodes", "8", *words], **changes)


class LatenciesTest(TestCase):
    """The sentence, by the manifest."""

    def test_for_all_pairs(self) -> None:
        """Without a file and without coordinates it is latency_us."""
        assert "**The same in all: latencies (latency_us for all pairs).**" in generated()
        assert "identifiers, latencies (latency_us for all pairs).**" in sentence_of()

    def test_file(self) -> None:
        """A latency file is the same for all seeds."""
        assert "The same in all: latencies (king.csv)." in generated(latency="king.csv")

    def test_drawn_for_each_seed(self) -> None:
        """Arguments of tools/latency make a file for each seed."""
        text = generated(latency_arguments=["--plane", "1s"])
        assert text.endswith("New in each: timers and random keys, identifiers, latencies.")

    def test_drawn_coordinates(self) -> None:
        """Laws of --coordinates draw for each seed, in both forms of the argument."""
        for words in (("--coordinates", "king"), ("--coordinates=square:1ms:1ms..2ms",)):
            text = generated(*words)
            assert text.endswith(f"New in each: timers and random keys, identifiers, {PLACED}."), text

    def test_coordinates_of_a_file(self) -> None:
        """They are the same for all seeds, and named."""
        text = generated("--coordinates", "file:places.csv")
        assert "**The same in all: latencies (by the coordinates in places.csv).**" in text and PLACED not in text

    def test_varied_coordinates(self) -> None:
        """The values of [vary] count, and not the argument whose place they take."""
        vary = {"list": [4], "generate.--coordinates": ["king", "file:far.csv"]}
        laws = ("king", "file:far.csv")
        rows = [{**one, "generate.--coordinates": law} for law in laws for one in setting(4, 900, 5)]
        tables = tables_of(rows, vary=vary, base=None, generate=["--coordinates", "file:near.csv"])
        text = sentence(unwrapped(page(tables)))
        assert PLACED in text and "latencies (by the coordinates in far.csv)" in text and "near.csv" not in text

    def test_coordinates_of_a_base(self) -> None:
        """They are in the base, whatever latency_us says."""
        assert "latencies (by the coordinates in base.toml).**" in sentence_of(placed_base=True)

    def test_drawn_coordinates_of_a_base(self) -> None:
        """A class with a side has other places in each seed."""
        text = sentence_of(placed_base=True, drawn_base=True)
        assert PLACED in text and "by the coordinates in" not in text


class CoordinateFilesTest(TestCase):
    """Files of coordinates, and bases that have some."""

    def test_manifest(self) -> None:
        """It has the digest of a file of coordinates, and says whether a base has some."""
        with study_folder(GENERATED.format(law="file:places.csv")) as folder:
            (folder / "places.csv").write_text(PLACES)
            manifest = manifest_of(read_study(folder / "study.toml"), Path("/chordsim"), "f00")
            # sha256sum of the eight lines of PLACES.
            assert manifest["sha256"]["places.csv"].startswith("4cdddbb881ac3a7c") and not manifest["placed_base"]
        with study_folder() as folder:
            text = BASE.replace("profile = 1", "profile = 4").replace(
                "initial = true", "initial = true\nx_us = 1\ny_us = 1\nheight_us = 9000")
            drawn = f'{text}\n[[nodes]]\ncount = 2\nprefix = "m"\nx_us = 1\ny_us = 1\nside_us = 9\n'
            for base, placed in ((BASE, (False, False)), (text, (True, False)), (drawn, (True, True))):
                (folder / "base.toml").write_text(base)
                manifest = manifest_of(read_study(folder / "study.toml"), Path("/x"), "f00")
                assert (manifest["placed_base"], manifest["drawn_base"]) == placed

    def test_measured_latencies(self) -> None:
        """The round trips, and the scenario whose names are taken, are beside the study. Both have a digest."""
        with study_folder(TRIPS) as folder:
            (folder / "trips.txt").write_text("0 30000\n30000 0\n")
            (folder / "names.toml").write_text(NAMES)
            study = read_study(folder / "study.toml")
            # A latency is half a round trip.
            assert latency_of(study, study.settings()[0], 1) == b"n3,n1,15000\n"
            sums = input_sums(study)
            assert sums == {"trips.txt": sum_of("0 30000\n30000 0\n"), "names.toml": sum_of(NAMES)}
            assert manifest_of(study, Path("/x"), "f00")["sha256"].items() >= sums.items()

    def test_files_that_change_between_two_studies(self) -> None:
        """Each file is read again, also in the same process."""
        trips = ("0 30000\n30000 0\n", "0 50000\n50000 0\n")
        places = (PLACES, PLACES.replace("5000", "6000"))
        for text, name, contents, made, marks in (
            (TRIPS, "trips.txt", trips, "list=1,seed=1.csv", ("n3,n1,15000\n", "n3,n1,25000\n")),
            (GENERATED.format(law="file:places.csv"), "places.csv", places, "list=1,seed=1.toml",
             ("height_us = 5000\n", "height_us = 6000\n")),
        ):
            with study_folder(text) as folder, self.subTest(file=name):
                (folder / "names.toml").write_text(NAMES)
                for content, mark in zip(contents, marks, strict=True):
                    (folder / name).write_text(content)
                    assert call(folder, chordsim=program()) == (0, "")
                    assert mark in (folder / "study" / "done" / made).read_text()

    def test_changed_file(self) -> None:
        """After a change of the file the report says so, on the page too; the runs are those of the old file."""
        with study_folder(GENERATED.format(law="file:places.csv")) as folder:
            places, report = folder / "places.csv", folder / "study" / "report.md"
            places.write_text(PLACES)
            assert call(folder, chordsim=program()) == (0, "")
            assert said("report", folder / "study") == (0, "")
            assert "(by the coordinates in places.csv)" in report.read_text() and "changed" not in report.read_text()
            places.write_text(PLACES.replace("5000", "6000"))
            status, text = said("report", folder / "study")
            assert status == 0 and text.startswith(f"warning: {places} has changed since the study was run"), text
            assert "**places.csv has changed since the study was run.**" in report.read_text()

    def test_changed_base(self) -> None:
        """A base is noticed too; a file that is gone, or a study that was never run again, is not."""
        with study_folder(STUDY) as folder:
            assert call(folder)[0] == 0
            (folder / "base.toml").write_text(BASE + "\n")
            status, text = said("report", folder / "study")
            assert status == 0 and "base.toml has changed since the study was run" in text
            (folder / "base.toml").unlink()
            assert said("report", folder / "study") == (0, "")
