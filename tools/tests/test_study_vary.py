"""The table [vary] of a study file: values that belong together, and ranges."""

import tomllib
from pathlib import Path
from unittest import TestCase

from chordsim_tools.known import known
from chordsim_tools.scenario.classes import node_count
from chordsim_tools.study.comparison import named
from chordsim_tools.study.numbers import summaries
from chordsim_tools.study.plan import label
from chordsim_tools.study.starts import longest_round, nodes_in
from chordsim_tools.study.worlds import latency_of, scenario_of
from tests.support.studies import row, tables_of
from tests.test_study_plan import BASE, HEAD, MADE, SEEDS, in_folder

VARY = HEAD + SEEDS + "[vary]\n"
MADE_VARY = MADE + SEEDS + "[vary]\n"


def labels(text: str) -> list[str]:
    """The settings of a study file with this [vary]."""
    return [label(setting) for setting in in_folder(VARY + text).settings()]


class StudyVaryTest(TestCase):
    """Settings by values that belong together, and by ranges."""

    def test_values_that_belong_together(self) -> None:
        """They change together, in every combination with the others."""
        study = in_folder(VARY + '"stabilize_us, finger_us" = [["1s", "2s"], ["3s", "2s"]]\nlist = [1, 2]\n')
        assert [label(one) for one in study.settings()] == [
            f"stabilize_us={period}, finger_us=2s, list={size}" for period in ("1s", "3s") for size in (1, 2)
        ]
        assert study.vary == {"stabilize_us": [1_000_000, 3_000_000], "finger_us": [2_000_000], "list": [1, 2]}

    def test_options_that_belong_together(self) -> None:
        """Options of tools/generate need no `generate.`; each scenario is made with both of its values."""
        study = in_folder(MADE_VARY + '"--nodes, --bits" = [[5, 9], [7, 12]]\n')
        assert [label(one) for one in study.settings()] == ["--nodes=5, --bits=9", "--nodes=7, --bits=12"]
        assert list(study.vary) == ["generate.--nodes", "generate.--bits"]
        worlds = [tomllib.loads(scenario_of(study, setting, 4)) for setting in study.settings()]
        assert [(len(world["node"]), world["bits"]) for world in worlds] == [(5, 9), (7, 12)]
        churn = in_folder(MADE_VARY + '"--lifetime, --down" = [["exp:9s", "exp:1s"], ["exp:5s", "exp:2s"]]\n')
        assert label(churn.settings()[1]) == "--lifetime=exp:5s, --down=exp:2s"

    def test_nodes_of_a_class(self) -> None:
        """`nodes.count` is that of the only class. A base with none or with two is refused, and a made world."""
        nodes = '[[nodes]]\ncount = 9\nprefix = "m"\n'
        base = BASE.replace("profile = 1", "profile = 4").replace("[[command]]", nodes + "[[command]]", 1)
        study = in_folder(VARY + '"nodes.count" = [2, 30]\n', base)
        assert [label(setting) for setting in study.settings()] == ["nodes.count=2", "nodes.count=30"]
        worlds = [tomllib.loads(scenario_of(study, setting, 4)) for setting in study.settings()]
        assert [world["nodes"] for world in worlds] == [[{"count": count, "prefix": "m"}] for count in (2, 30)]
        assert [nodes_in(study, setting) for setting in study.settings()] == [5, 33]
        assert (node_count(study.scenario), longest_round(study)) == (12, 2 * 1000)
        needs = "[vary] nodes.count needs a base with one table [[nodes]]; the base has"
        assert in_folder(VARY + "nodes.count = [2]\n") == f"study.toml: {needs} 0"
        twice = base.replace(nodes, nodes + nodes.replace('"m"', '"k"'))
        assert in_folder(VARY + "nodes.count = [2]\n", twice) == f"study.toml: {needs} 2"
        assert "a study with `generate` has --nodes" in in_folder(MADE_VARY + '"nodes.count" = [2]\n')

    def test_latencies_of_a_class(self) -> None:
        """They are between all nodes of the setting: three, and two or four of the class. The base needs no count."""
        base = BASE.replace("profile = 1", "profile = 4").replace("seed = 1\n", "") + '[[nodes]]\nprefix = "m"\n'
        study = in_folder('latency = ["--plane", "60ms"]\n' + VARY + '"nodes.count" = [2, 4]\n', base)
        rows = [known(latency_of(study, setting, 1)) for setting in study.settings()]
        assert [one.count(b"\n") for one in rows] == [5 * 4 / 2, 7 * 6 / 2] and b"\nm2,m3," in rows[1]

    def test_ranges(self) -> None:
        """The end is a value if a step reaches it; counts go up by 1; options take times as texts."""
        ranges = {"1s..2s step 500ms": ("1s", "1500ms", "2s"), "0..25ms step 10ms": ("0us", "10ms", "20ms")}
        for text, values in ranges.items():
            assert labels(f'stabilize_us = "{text}"') == [f"stabilize_us={time}" for time in values]
        assert labels('list = "2..8 step 3"') == ["list=2", "list=5", "list=8"]
        assert labels('list = "2..4"') == ["list=2", "list=3", "list=4"]
        made = in_folder(MADE_VARY + '"--stabilize" = "1s..2s step 1s"\n"--nodes" = "5..6"\n')
        assert made.vary == {"generate.--stabilize": ["1s", "2s"], "generate.--nodes": [5, 6]}

    def test_faults(self) -> None:
        """Each is refused with the key and what is wrong."""
        for text, told in (
            ('stabilize_us = "1s..4s"', 'a range of times needs a step, as "1s..4s step 1s"'),
            ('stabilize_us = "4s..1s step 1s"', "a range goes up, in steps above 0"),
            ('stabilize_us = "1s..4s step 0"', "a range goes up, in steps above 0"),
            ('stabilize_us = "1s..4 step 1s"', "4 is no time with a unit"),
            ('stabilize_us = "1us..4s step 1us"', "a range has at most 1000 values"),
            ('list = "2-8"', 'a range is as "2..8 step 2" or "1s..4s step 1s"'),
            ('"list, jitter_us" = [[1, 2], [3]]', '"list, jitter_us" has to be a list of lists of 2 values each'),
            ('"list, jitter_us" = [1, 2]', '"list, jitter_us" has to be a list of lists of 2 values each'),
            ('"list, jitter_us" = [[1, 2], [1, 2]]', '"list, jitter_us" has the same values twice'),
            ('"list, jitter_us" = [[1, "2 s"]]', "jitter_us cannot be '2 s': an integer is wanted"),
            ('"list, jiter_us" = [[1, 2]]', "did you mean `jitter_us`?"),
            ('list = [1]\n"list, jitter_us" = [[1, 2]]', "[vary] list is there twice"),
            ('"churn.life_min_us" = [1]\n[vary.churn]\nlife_min_us = [2]', "[vary] churn.life_min_us is there twice"),
            ('"--nodes" = [5]', "generate.--nodes is of a study with `generate`, and this one has a base"),
            ('"join_forever, list" = [[1, 1]]', "join_forever has to be a list of different booleans"),
        ):
            with self.subTest(vary=text):
                answer = in_folder(VARY + text)
                assert isinstance(answer, str) and told in answer, answer

    def test_keys_of_a_label_in_any_order(self) -> None:
        """`compare` takes them so, with or without blanks; numbers are those of the page."""
        rows = [row(list=size, retries=count, seed=1) for size in (4, 8) for count in (0, 1)]
        found = summaries(tables_of(rows, vary={"list": [4, 8], "retries": [0, 1]}))
        for name in ("retries=1, list=8", "list=8,retries=1", "4"):
            assert named(found, name).label == "list=8, retries=1"

    def test_examples_of_the_page(self) -> None:
        """The study file of docs/studies.md is one, and so are its other tables in place of its [vary]."""
        page = (Path(__file__).resolve().parents[2] / "docs" / "studies.md").read_text(encoding="utf-8")
        whole, vary, span, search = (block.split("```")[0] for block in page.split("```toml\n")[1:5])
        assert len(in_folder(whole).settings()) == 8
        head, goal = whole.split("[vary]")[0], "[goal]" + whole.split("[goal]")[1]
        lively = '["exp:2h", "exp:10m"]', '["exp:1h", "exp:5m"]'
        assert all(pair in vary for pair in lively)
        study = in_folder(head.replace('"--nodes", "200"', '"--nodes", "200", "--profile", "4"') + vary)
        assert len(study.settings()) == 2 * 4 * 4 * 2 * 2
        assert in_folder(head + span + goal).spans == {"outage": (360_000_000, 420_000_000)}
        assert len(in_folder(head + goal + search).settings()) == 9
