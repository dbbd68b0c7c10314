"""Study files and the scenarios that are written of them."""

import tempfile
import tomllib
from pathlib import Path
from typing import Any
from unittest import TestCase
from unittest.mock import patch

from chordsim_tools.cli import Refused
from chordsim_tools.known import known
from chordsim_tools.scenario.reading import read_scenario
from chordsim_tools.study.document import document_of, toml_text
from chordsim_tools.study.goal import Goal, Limit, Precision
from chordsim_tools.study.plan import label, read_study
from chordsim_tools.study.worlds import argument_traps, latency_of, scenario_of
from tests.support.programs import checked
from tests.support.worlds import EXAMPLES, RING

CHURN = "churn = { life_min_us = 5, life_max_us = 6, down_min_us = 7, down_max_us = 8 }\n"
BASE = RING.replace("[[node]]", CHURN + "[[node]]", 1).replace("id = 3", 'id = "3"\nchurn = true')
HEAD = 'question = "How?"\nbase = "base.toml"\n'
SEEDS = "seeds = [4, 9]\n"
MADE = """question = "How?"
generate = ["--nodes", "6", "--bits", "16", "--lifetime", "exp:20s", "--down", "exp:5s", "--lookups", "0.5"]
"""
PLANE = 'latency = ["--plane", "100ms", "--floor", "20ms"]\n'


def in_folder(text: str, base: str = BASE) -> Any:
    """The study of this text, or why it is refused."""
    with tempfile.TemporaryDirectory() as name:
        folder = Path(name)
        (folder / "base.toml").write_text(base)
        (folder / "study.toml").write_text(text)
        try:
            return read_study(folder / "study.toml")
        except Refused as stop:
            assert stop.status == 1
            return stop.text.removeprefix(f"{name}/")


class StudyPlanTest(TestCase):
    """Settings, seeds, scenarios and faults."""

    def test_settings(self) -> None:
        """Every combination, the last key first."""
        study = in_folder(HEAD + SEEDS + "[vary]\nlist = [1, 2]\nstabilize_us = [30, 20]\n")
        assert [label(setting) for setting in study.settings()] == [
            f"list={size}, stabilize_us={period}us" for size in (1, 2) for period in (30, 20)
        ]

    def test_defaults_and_seeds(self) -> None:
        """Steps as long as between audits, no warm-up, one setting where nothing is varied."""
        study = in_folder(HEAD + 'seeds = "8-11"\n')
        assert (study.seeds, study.window_us, study.warmup_us) == ([8, 9, 10, 11], tomllib.loads(BASE)["audit_us"], 0)
        assert [label(setting) for setting in study.settings()] == ["base"]

    def test_scenario_says_the_same_but_for_the_varied_keys(self) -> None:
        """Read back as TOML, and as a scenario."""
        study = in_folder(HEAD + SEEDS + "[vary]\nlist = [1]\nchurn.life_max_us = [9]\njitter_us = [3]\n")
        text = scenario_of(study, study.settings()[0], 9)
        wanted = tomllib.loads(BASE)
        assert (wanted["list"], wanted["seed"], wanted["churn"]["life_max_us"]) == (2, 1, 6)
        assert "jitter_us" not in wanted
        wanted |= {"list": 1, "seed": 9, "jitter_us": 3}
        wanted["churn"]["life_max_us"] = 9
        assert tomllib.loads(text) == wanted
        theirs, ours = read_scenario(BASE.encode(), b""), read_scenario(text.encode(), b"")
        assert (ours.nodes, ours.commands, ours.lookups) == (theirs.nodes, theirs.commands, theirs.lookups)
        assert (known(ours.churn).life_max_us, known(ours.churn).life_min_us, ours.list, ours.seed) == (9, 5, 1, 9)

    def test_base_is_not_changed_by_a_setting(self) -> None:
        """The second setting has nothing of the first."""
        study = in_folder(HEAD + SEEDS + '[vary]\n"churn.life_max_us" = [9, 10]\n')
        texts = [scenario_of(study, setting, 1) for setting in study.settings()]
        assert [tomllib.loads(text)["churn"]["life_max_us"] for text in texts] == [9, 10]
        assert study.scenario["churn"]["life_max_us"] == 6

    def test_texts_and_keys_of_all_kinds(self) -> None:
        """Quotes, backslashes, control characters, other alphabets, keys in quotes, tables after plain keys."""
        top = {
            "table": {"a key": True, "b": -5}, "text": 'a"b\\c\n\t\x00\x7f\u00e9\U0001f600', "none": [],
            "items": [{"x": 1}, {}, {"y": "z"}], "last": 2**63 - 1,
        }
        assert tomllib.loads(toml_text(top)) == top and document_of(toml_text(top)) == top

    def test_plain_documents(self) -> None:
        """They are read by JSON, and have the same as by the TOML reader; all others are read by that."""
        items: list[dict[str, Any]] = [{"x": 1}, {}, {"y": "z,", "t": True}]
        tops: list[dict[str, Any]] = [{}, {"n": {"x": 10}}, {"x": [{}, {}]}]
        tops.append({"a": 0, "b-c": "x: [y],", "n": {}, "items": items, "m": {"k": "\u00e9"}})
        for top in tops:
            with patch("tomllib.loads", side_effect=AssertionError):
                assert document_of(toml_text(top)) == top
        values = ("1 # one", "0x10", "1_0", "-1", "[1]", '"b = c"', '"\t"', "'x'", '"\\u0041"')
        for text in (*(f"a = {value}\n" for value in values), "[a.b]\nc = 1", "\n"):
            assert document_of(text) == tomllib.loads(text)
        self.assertRaises(tomllib.TOMLDecodeError, document_of, "a = 01\n")

    def test_base_with_what_no_scenario_has(self) -> None:
        """A float, a list of numbers, a table within a table."""
        for value in ("1.5", "[1, 2]", "{ y = { z = 1 } }"):
            study = in_folder(HEAD + SEEDS, BASE.replace("profile = 1", f"profile = 1\nx = {value}"))
            try:
                scenario_of(study, (), 1)
            except Refused as stop:
                assert stop.status == 1 and "base.toml: " in stop.text
            else:
                raise AssertionError(value)

    def test_times_with_units_and_a_number_of_seeds(self) -> None:
        """Units in [vary] and of the times of the study; three seeds are 1 to 3."""
        times = 'warmup_us = "50us"\ncooldown_us = "20us"\n[vary]\nstabilize_us = ["1s", "250ms", 30]\n'
        study = in_folder(HEAD + "seeds = 3\n" + times)
        assert study.seeds == [1, 2, 3] and study.times()[1:] == (50, 20)
        assert study.settings() == [(("stabilize_us", value),) for value in (1_000_000, 250_000, 30)]
        assert [label(one) for one in study.settings()] == [f"stabilize_us={time}" for time in ("1s", "250ms", "30us")]

    def test_booleans(self) -> None:
        """`join_forever` is varied as a boolean, and named as it is written."""
        study = in_folder(HEAD + SEEDS + "[vary]\njoin_forever = [false, true]\n", BASE.replace("= 1", "= 4", 1))
        assert [label(one) for one in study.settings()] == ["join_forever=false", "join_forever=true"]
        texts = [scenario_of(study, setting, 1) for setting in study.settings()]
        assert [read_scenario(text.encode(), b"").join_forever for text in texts] == [False, True]

    def test_worlds_follow_the_seed(self) -> None:
        """Commands, identifiers and latencies of two seeds differ; those of one seed are the same in all settings."""
        study = in_folder(MADE + PLANE + SEEDS + "[vary]\nlist = [1, 2]\n")
        worlds = {(setting, seed): tomllib.loads(scenario_of(study, setting, seed)) for setting in study.settings()
                  for seed in study.seeds}
        one, two = study.settings()
        for key in ("command", "node"):
            assert worlds[one, 4][key] == worlds[two, 4][key] != worlds[one, 9][key], key
        assert [worlds[key]["list"] for key in worlds] == [1, 1, 2, 2] and worlds[one, 9]["seed"] == 9
        idents = [node["id"] for node in worlds[one, 4]["node"]]
        assert len(set(idents)) == 6 and all(ident < 2**16 for ident in idents)
        assert {node["name"] for node in worlds[one, 4]["node"]} == {f"n{number}" for number in range(6)}
        rows = [latency_of(study, one, seed) for seed in study.seeds]
        assert rows[0] == latency_of(study, two, 4) != rows[1] and known(rows[0]).count(b"\n") == 15
        read_scenario(scenario_of(study, one, 4).encode(), known(rows[0]))

    def test_options_of_generate_can_be_varied(self) -> None:
        """They take the place of the study's own; latencies are made for as many nodes."""
        varied = '[vary]\n"generate.--nodes" = [5, 7]\n"generate.--lifetime" = ["exp:9s", "uniform:1s..9s"]\n'
        study = in_folder(MADE + PLANE + SEEDS + varied)
        assert label(study.settings()[3]) == "--nodes=7, --lifetime=uniform:1s..9s"
        worlds = [tomllib.loads(scenario_of(study, setting, 4)) for setting in study.settings()]
        assert [len(world["node"]) for world in worlds] == [5, 5, 7, 7]
        assert worlds[0]["command"] != worlds[1]["command"]
        rows = [known(latency_of(study, setting, 4)).count(b"\n") for setting in study.settings()]
        assert rows == [10, 10, 21, 21]

    def test_few_bits(self) -> None:
        """As many nodes as places: each has its own."""
        study = in_folder('question = "How?"\ngenerate = ["--nodes", "8", "--bits", "3"]\nseeds = 2\n')
        for seed in (1, 2):
            nodes = tomllib.loads(scenario_of(study, (), seed))["node"]
            assert sorted(node["id"] for node in nodes) == list(range(8))

    def test_wide_identifiers(self) -> None:
        """Of 64 bits and more they are hexadecimal texts."""
        words = '"--nodes", "8", "--profile", "2", "--bits", "128"'
        study = in_folder(f'question = "How?"\ngenerate = [{words}]\nseeds = 2\n')
        assert len({node.ident for node in read_scenario(scenario_of(study, (), 1).encode(), b"").nodes}) == 8

    def test_example_of_the_document(self) -> None:
        """The study file of docs/studies.md is one, and the program accepts its first world."""
        text = (EXAMPLES.parent / "docs" / "studies.md").read_text().partition("```toml\n")[2].partition("```")[0]
        study = in_folder(text)
        assert len(study.settings()) == 8 and study.seeds == list(range(1, 21))
        with tempfile.TemporaryDirectory() as name:
            scenario, rows = Path(name) / "world.toml", Path(name) / "rows.csv"
            scenario.write_text(scenario_of(study, study.settings()[0], 1))
            rows.write_bytes(known(latency_of(study, study.settings()[0], 1)))
            assert checked(scenario, rows).startswith("ok nodes=200 commands=")

    def test_goal_and_precision(self) -> None:
        """What they name."""
        study = in_folder(
            HEAD + "[precision]\nserved = 0.002\nmost_seeds = 20\n"
            "[goal]\nright_of_begun_min = 0.99\np99_ms_max = 300\nlost_max = 0.5\n"
        )
        assert study.precision == Precision("served", 0.002, 10, 20) and study.seeds == list(range(1, 11))
        limits = (Limit("right_of_begun", True, 0.99), Limit("p99_ms", False, 300.0))
        assert study.goal == Goal(limits, 0.5, "messages")

    def test_times_without_a_unit(self) -> None:
        """A text that is no time: the line says how one is written; of other numbers it does not."""
        for value in ('"20"', '"2min"', '"1 s"', "-1", "true"):
            answer = in_folder(f"{HEAD}{SEEDS}warmup_us = {value}\n")
            wanted = 'warmup_us has to be an integer, 0 or more, or a time such as "20s" (us, ms, s, m, h, d)'
            assert answer == f"study.toml: {wanted}", answer
        assert in_folder(HEAD + SEEDS + 'warmup_us = "20us"\n').times()[1] == 20

    def test_what_was_meant(self) -> None:
        """A key that is like the one of the study file, and what has no such key."""
        vary = "[vary]\n"
        for text, wanted in (
            (MADE + SEEDS + vary + "'generate.--nodez' = [64]",
             "[vary] generate.--nodez: tools/generate has no --nodez: did you mean `generate.--nodes`?"),
            (MADE + SEEDS + vary + "'generate.--colour' = [64]",
             "[vary] generate.--colour: tools/generate has no --colour"),
            (MADE + SEEDS + vary + "nodes = [64]",
             "[vary] nodes is no key of a scenario that can be varied: did you mean `generate.--nodes`?"),
            (HEAD + SEEDS + vary + "stabilise_us = [64]",
             "[vary] stabilise_us is no key of a scenario that can be varied: did you mean `stabilize_us`?"),
            (HEAD + SEEDS + vary + "colour = [64]", "[vary] colour is no key of a scenario that can be varied"),
            (HEAD + SEEDS + "warm_up_us = 5", "no key of a study: warm_up_us: did you mean `warmup_us`?"),
        ):
            with self.subTest(study=text):
                assert in_folder(text) == f"study.toml: {wanted}"

    def test_keys_of_later_profiles(self) -> None:
        """The base has profile 1. Each key says which profiles have it, also if the profile is varied."""
        vary = HEAD + SEEDS + "[vary]\n"
        wanted = {"retries": "4", "join_pause_us": "4", "loss_ppm": "2 or 4", "spread_us": "2 or 4"}
        for key, profiles in wanted.items():
            answer = in_folder(f"{vary}{key} = [0, 1]\n")
            assert answer == f"study.toml: [vary] {key} needs profile = {profiles}; the base has 1", answer
        answer = in_folder(vary + "detail = [true]\n")
        assert answer == "study.toml: [vary] detail needs profile = 4; the base has 1"
        answer = in_folder(vary + "profile = [4, 2]\nretries = [0, 1]\n")
        setting = "the setting profile=2, retries=0"
        assert answer == f"study.toml: [vary] retries needs profile = 4; {setting} has 2", answer
        answer = in_folder(MADE + SEEDS + "[vary]\nretries = [1]\n")
        assert answer == "study.toml: [vary] retries needs profile = 4; the scenario of generate has 1"
        for text in (vary + "profile = [4]\nretries = [0, 1]\n", vary + "bits = [16, 17]\n",
                     MADE + SEEDS + "[vary]\n'generate.--profile' = [4]\nretries = [0, 1]\n"):
            assert not isinstance(in_folder(text), str), in_folder(text)

    def test_bare_times_of_generate(self) -> None:
        """What tools/generate warns of by itself, once for all settings and seeds; what is varied counts too."""
        bare = MADE.replace("exp:20s", "exp:30")
        wanted = "generate: --lifetime exp:30: 30 without a unit is 30 microseconds; write 30ms, 30s or 30m, or 30us"
        traps = argument_traps(in_folder(bare + SEEDS + "[vary]\nlist = [1, 2]\n"))
        assert [trap.startswith(wanted) for trap in traps] == [True]
        traps = argument_traps(in_folder(MADE + SEEDS + "[vary]\n'generate.--lifetime' = ['exp:30', 'exp:9s']\n"))
        assert [trap.startswith(wanted) for trap in traps] == [True]
        traps = argument_traps(in_folder(MADE + PLANE.replace("20ms", "20") + SEEDS))
        wanted = "latency: --floor 20: 20 without a unit is 20 microseconds"
        assert [trap.startswith(wanted) for trap in traps] == [True]
        assert not argument_traps(in_folder(MADE + PLANE + SEEDS)) and not argument_traps(in_folder(HEAD + SEEDS))

    def test_faults_of_the_base(self) -> None:
        """Wrong types, also of keys that its profile lacks, and keys that a node or a command lacks."""
        tables = BASE[BASE.index("[[node]]") :]
        nodes = tables.partition("[[command]]")[0]
        for old, new, told in (
            ("finger_us = ", "finger_us = '250ms' # ", "S4 WrongType top finger_us"),
            ("bits = ", "bits = 'x' # ", "S4 WrongType top bits"),
            ("profile = ", "profile = 'x' # ", "S4 WrongType top profile"),
            ("profile = ", "nodes = 5\nprofile = ", "S4 WrongType top nodes"),
            ("[[node]]", "retries = '1'\n[[node]]", "S4 WrongType top retries"),
            (CHURN, "churn = 5\n", "S4 WrongType top churn"),
            (tables, "node = 5\n", "S4 WrongType top node"),
            (tables, f"command = 5\n{nodes}", "S4 WrongType top command"),
            (tables, "", "S3 MissingKey top node"),
            ("audit_us = ", "# ", "S3 MissingKey top audit_us"),
            ('name = "n1"\n', "", "S3 MissingKey node 2 name"),
            ('do = "lookup"\n', "", "S3 MissingKey command 1 do"),
            ("[[node]]", "[[nodes]]\ncount = 2\n[[node]]", "S3 MissingKey nodes 1 prefix"),
        ):
            with self.subTest(new=new):
                assert BASE.count(old) > 0
                answer = in_folder(HEAD + SEEDS, BASE.replace(old, new, 1))
                assert answer == f"base.toml: {told}", answer
        varied = in_folder(HEAD + SEEDS + "[vary]\nchurn.life_max_us = [9]\n", BASE.replace("life_max_us = 6, ", ""))
        assert "life_max_us = 9\n" in scenario_of(varied, varied.settings()[0], 1)

    def test_faults(self) -> None:
        """Each fault is told with the file and the key."""
        vary = HEAD + SEEDS + "[vary]\n"
        for text, told in (
            ("question = ", "study.toml: no TOML 1.0"),
            (SEEDS, "study.toml: either base or generate is required: a scenario"),
            ('base = "base.toml"\n' + SEEDS, "study.toml: question is required: a text"),
            (HEAD.replace('"How?"', '" "') + SEEDS, "study.toml: question has to be a text"),
            (MADE.replace('"--nodes", "6"', '"--nodes 6"') + SEEDS,
             'study.toml: generate has "--nodes 6" as one argument: write "--nodes", "6"'),
            (MADE + SEEDS + 'latency = "--plane 60ms"',
             'latency has arguments, so that it has to be a list: latency = ["--plane", "60ms"]'),
            (HEAD + SEEDS + "warmup_us = 200", "study.toml: warmup_us leaves nothing of 200 us"),
            (HEAD, "study.toml: seeds or [precision] is required"),
            (HEAD + "seeds = [1, 1]", "study.toml: seeds has to be"),
            (HEAD + 'seeds = "3-2"', "study.toml: seeds has to be"),
            (HEAD + "seeds = [-1]", "study.toml: seeds has to be"),
            (HEAD + "seeds = [1, 1000000000]", "study.toml: seeds has 1000000000: a seed is below 1000000000"),
            (HEAD + "seeds = 10001", "study.toml: seeds has 10001 of them, and a study has at most 10000"),
            (HEAD + 'seeds = "1-999999999"', "seeds has 999999999 of them, and a study has at most 10000"),
            (HEAD + "seeds = 9223372036854775808", "no TOML 1.0: an integer is beyond 64 bits: 9223372036854775808"),
            (HEAD + f"seeds = 1{'0' * 5000}", "study.toml: no TOML 1.0: an integer is beyond 64 bits: 1000"),
            (HEAD + SEEDS + f"[goal]\nmessages_max = 1{'0' * 400}", "no TOML 1.0: an integer is beyond 64 bits: 1000"),
            (HEAD + SEEDS + "x = 1", "study.toml: no key of a study: x"),
            (HEAD + SEEDS + "window_us = 0", "study.toml: window_us has to be an integer, 1 or more"),
            (HEAD + SEEDS + "warmup_us = true", "study.toml: warmup_us has to be an integer, 0 or more"),
            (HEAD.replace("base.toml", "gone.toml") + SEEDS, "gone.toml: No such file"),
            (HEAD + SEEDS + 'latency = "gone.csv"', "gone.csv: No such file"),
            (vary + "lists = [1]", "study.toml: [vary] lists is no key"),
            (vary + "seed = [1]", "study.toml: [vary] seed is no key"),
            (vary + "node = [1]", "study.toml: [vary] node is no key"),
            (vary + "list = []", "study.toml: [vary] list has to be a list"),
            (vary + "list = [2, 2]", "study.toml: [vary] list has to be a list"),
            (vary + "list = [true]", "study.toml: [vary] list has to be a list"),
            (HEAD + SEEDS + "window_us = 1\n[vary]\nduration_us = [100001]", "window_us makes more than 100000 steps"),
            (HEAD + "seeds = 0", "study.toml: seeds has to be"),
            (HEAD + SEEDS + "warmup_us = \"1 s\"", "study.toml: warmup_us has to be an integer"),
            (HEAD + SEEDS + "warmup_us = 100\ncooldown_us = 100", "warmup_us and cooldown_us leave nothing of 200 us"),
            (HEAD + SEEDS + "generate = []", "study.toml: either base or generate"),
            (HEAD + SEEDS + "latency = [1]", "study.toml: latency has to be a list of arguments"),
            (MADE + SEEDS + "latency = ['--seed', '4']", "study.toml: latency has --seed, which the study sets"),
            (MADE.replace("--bits", "--bit") + SEEDS, "study.toml: generate: tools/generate: "),
            (vary + "'generate.--nodes' = [3]", "[vary] generate.--nodes is of a study with `generate`, and this"),
            (MADE + SEEDS + "[vary]\n'generate.--seed' = [3]", "[vary] generate.--seed: `seeds` sets it"),
            (vary + "list = ['1s']", "study.toml: [vary] list has to be a list"),
            (vary + "join_forever = [0, 1]", "study.toml: [vary] join_forever has to be a list of different booleans"),
            (vary + "join_forever = [true, true]", "study.toml: [vary] join_forever has to be a list of different"),
            (vary + "join_forever = true", "study.toml: [vary] join_forever has to be a list of different booleans"),
            (vary + "join_forever = ['true']", "study.toml: [vary] join_forever has to be a list of different"),
            (vary + "jitter_us = ['1 s']", "study.toml: [vary] jitter_us has to be a list"),
            (HEAD + SEEDS + "[goal]\nbest = 1", "study.toml: [goal] best: NUMBER_min or NUMBER_max"),
            (HEAD + SEEDS + "[goal]\nserved_min = 99", "study.toml: [goal] served_min has to be a share"),
            (HEAD + SEEDS + "[goal]\nleast = 'work'", "study.toml: [goal] least has to be one of"),
            (HEAD + SEEDS + "[precision]\nserved = 0.1", "study.toml: seeds and [precision] exclude each other"),
            (HEAD + "[precision]\nserved = 0", "study.toml: [precision] has to name one number"),
            (HEAD + "[precision]\nserved = 0.1\nleast_seeds = 4", "study.toml: [precision] least_seeds"),
            (HEAD + SEEDS + "[sizes]\nstep = 4", "study.toml: [sizes] has to give the bytes"),
            (HEAD + SEEDS + 'world = ["list"]', "study.toml: world has to be a list of keys of [vary]"),
            (vary.replace("[vary]", 'world = [["list"]]\n[vary]') + "list = [1]", "world has to be a list of keys of"),
            (HEAD + "[precision]\nserved = inf", "study.toml: [precision] has to name one number"),
            (HEAD + "[precision]\nbytes = 1.0", "study.toml: [precision] bytes needs [sizes]: the bytes of a message"),
            (HEAD + SEEDS + "note = 1", "study.toml: note has to be a text"),
        ):
            with self.subTest(study=text):
                answer = in_folder(text)
                assert isinstance(answer, str) and told in answer, answer
