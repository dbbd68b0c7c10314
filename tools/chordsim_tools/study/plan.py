"""The study file: what is varied, and what is judged."""

import itertools
from dataclasses import dataclass, field
from pathlib import Path
from typing import Any

from chordsim_tools.cli import Refused
from chordsim_tools.explain.hints import close_to
from chordsim_tools.files import read_input, sum_of
from chordsim_tools.quantities import time_of, time_text
from chordsim_tools.scenario.faults import Document, Fault, missing_keys, wrong_types
from chordsim_tools.scenario.tables import PROFILES, has_type
from chordsim_tools.study.goal import Goal, Precision, goal_of, precision_of
from chordsim_tools.study.keys import (
    COUNT, OF_GENERATE, Value, arguments_of, boolean_of, is_integer, number_of, parsed, seeds_of, text_of, world_of,
)
from chordsim_tools.study.search import Search, search_of
from chordsim_tools.study.sizes import Sizes, sizes_of
from chordsim_tools.study.spans import Spans, check_spans, limits_of, spans_of, whole_goal
from chordsim_tools.study.vary import Group, flat_of, vary_of

Setting = tuple[tuple[str, Value], ...]
"""The varied keys and their values, in the order of the study file. Times are in microseconds."""

PROFILE_KEYS = ("profile", f"{OF_GENERATE}--profile")
"""The keys of [vary] that change the profile. The first one of them counts."""
GREATEST_STEPS = 100_000
KEYS = {
    "question", "base", "generate", "latency", "seeds", "window_us", "warmup_us", "cooldown_us", "vary", "precision",
    "goal", "sizes", "span", "world", "note", "search", "confirm",
}


@dataclass
class Study:
    """A study file, and the bytes of the files that it names.

    The base and the latency file are one for all seeds, or made for each seed with these arguments."""

    path: Path
    content: bytes
    question: str
    base: str | None
    generate: list[str] | None
    latency: str | None
    latency_arguments: list[str] | None
    seeds: list[int]
    window_us: int
    warmup_us: int
    cooldown_us: int
    groups: list[Group]
    precision: Precision | None
    goal: Goal | None
    sizes: Sizes
    spans: Spans
    world: list[str] | None
    note: str | None
    confirm: bool = True
    """Whether the setting of an answer is run again with fresh seeds."""
    search: Search | None = None
    tried: list[Setting] | None = None
    """The settings that a search has come to, in place of all combinations."""
    base_content: bytes = b""
    latency_content: bytes | None = None
    scenario: dict[str, Any] = field(default_factory=dict)

    @property
    def vary(self) -> dict[str, list[Value]]:
        """The varied keys and their different values, in the order of the study file."""
        return flat_of(self.groups)

    def settings(self) -> list[Setting]:
        """All combinations, the last key first to change. Values that belong together change together."""
        if self.tried is not None:
            return self.tried
        keys = [key for group, _ in self.groups for key in group]
        lines = itertools.product(*(values for _, values in self.groups))
        return [tuple(zip(keys, itertools.chain(*line), strict=True)) for line in lines]

    def beside(self, name: str) -> Path:
        """A file that is named relative to the study file."""
        return self.path.parent / name

    def times(self) -> tuple[int, int, int]:
        """The step of numbers over time, the warm-up and the cool-down."""
        return self.window_us, self.warmup_us, self.cooldown_us


def told(key: str, value: Value | str) -> str:
    """A key and its value as pages and messages name them: times with units, options of generate by themselves."""
    text = time_text(int(value)) if key.endswith("_us") else str(value)
    return f"{key.removeprefix('generate.')}={text}"


def label(setting: Setting) -> str:
    """A setting as messages name it."""
    return ", ".join(told(key, value) for key, value in setting) or "base"


def file_stem(words: str) -> str:
    """The name of a run's files, without an ending: its words, or their digest if they are too long or have a slash."""
    return words if len(words) <= 200 and "/" not in words else sum_of(words)


def read_study(path: Path) -> Study:
    """Reads a study file, its base and its latency file, or stops."""
    content = read_input(path)
    top = parsed(path, content)
    check_keys(path, top)
    check_kinds(path, top)
    rows = top.get("latency")
    study = Study(
        path,
        content,
        question=text_of(path, top, "question"),
        base=None if "generate" in top else text_of(path, top, "base"),
        generate=arguments_of(path, top, "generate") if "generate" in top else None,
        latency=None if rows is None or isinstance(rows, list) else text_of(path, top, "latency"),
        latency_arguments=arguments_of(path, top, "latency") if isinstance(rows, list) else None,
        seeds=seeds_of(path, top.get("seeds"), "precision" in top),
        window_us=0,
        warmup_us=number_of(path, top, "warmup_us", 0, 0),
        cooldown_us=number_of(path, top, "cooldown_us", 0, 0),
        groups=vary_of(path, top.get("vary", {}), "generate" in top),
        precision=precision_of(path, top.get("precision"), "sizes" in top),
        goal=goal_of(path, top.get("goal"), "sizes" in top),
        sizes=sizes_of(path, top.get("sizes", {})),
        spans=spans_of(path, top.get("span", {})),
        world=None,
        note=text_of(path, top, "note") if "note" in top else None,
        confirm=boolean_of(path, top, "confirm", True),
    )
    study.goal = whole_goal(study.goal, limits_of(path, top.get("span", {})))
    study.search = search_of(path, top)
    if study.search is not None:
        study.groups = Search(study.search.axes, 1).begun()
    study.world = world_of(path, top.get("world"), study.vary)
    if study.precision is not None:
        study.seeds = list(range(1, study.precision.least_seeds + 1))
    read_files(study, top)
    return study


def check_kinds(path: Path, top: dict[str, Any]) -> None:
    """Fails if a study has no scenario or two, or if arguments are no list."""
    if ("base" in top) == ("generate" in top):
        raise Refused(f"{path}: either base or generate" + ("" if "base" in top else " is required: a scenario"))
    rows = top.get("latency")
    if isinstance(rows, str) and rows.strip().startswith("--"):
        words = ", ".join(f'"{word}"' for word in rows.split())
        raise Refused(f"{path}: latency has arguments, so that it has to be a list: latency = [{words}]")


def check_keys(path: Path, top: dict[str, Any]) -> None:
    """Fails if the study file has a key that no study has, and says which one was likely meant."""
    for key in top:
        if key not in KEYS:
            meant = close_to(key, sorted(KEYS - set(top)))
            raise Refused(f"{path}: no key of a study: {key}" + ("" if meant is None else f": did you mean `{meant}`?"))


def read_files(study: Study, top: dict[str, Any]) -> None:
    """Reads the files that a study names, and looks at what depends on them."""
    if study.base is not None:
        study.base_content = read_input(study.beside(study.base))
        study.scenario = parsed(study.beside(study.base), study.base_content)
        check_base(study, study.beside(study.base))
    else:
        study.scenario = parsed(study.path, first_world(study).encode())
    if study.latency is not None:
        study.latency_content = read_input(study.beside(study.latency))
    study.window_us = number_of(study.path, top, "window_us", 1, study.scenario.get("audit_us"))
    for setting in study.settings():
        check_times(study, duration_of(study, setting))
        check_profile(study, setting)
        check_class(study, setting)


def check_base(study: Study, path: Path) -> None:
    """Fails if a key of the base has a wrong type, if there are no nodes or audits, or if a node or a command lacks a
    key that is not varied. What else is wrong with a setting is said by the program."""
    # The last profile has the keys of all others, and the profile may be varied.
    whole = Document({**study.scenario, "profile": max(PROFILES)}, [])
    faults = [*wrong_types(Document(study.scenario, [])), *wrong_types(whole)]
    faults += [fault for fault in missing_keys(whole) if is_needed(fault, study)]
    if faults:
        raise Refused(f"{path}: {faults[0].text}")


def is_needed(missing: Fault, study: Study) -> bool:
    """Whether a study cannot begin if the base lacks a key."""
    if missing.key == "count" and COUNT in study.vary:
        return False
    if missing.place.startswith(("node", "command")):
        return True
    # The step of numbers over time is `audit_us`, if the study does not say another.
    return missing.key in ("node", "audit_us") and missing.key not in study.vary


def first_world(study: Study) -> str:
    """The scenario of the first setting and seed, from which the defaults of a study without a base are taken."""
    # A world is of a study, so that the module of worlds is above this one.
    from chordsim_tools.study.worlds import generated  # pylint: disable=import-outside-toplevel,cyclic-import

    return generated(study, study.settings()[0], study.seeds[0])


def value_of(study: Study, setting: Setting, key: str) -> Any:
    """The value of a key of the top table in a setting."""
    return dict(setting).get(key, study.scenario.get(key))


def duration_of(study: Study, setting: Setting) -> Any:
    """How long the runs of a setting are. A key of the scenario has the last word, as it does when one is made."""
    varied = dict(setting)
    option = varied.get(f"{OF_GENERATE}--duration")
    if option is None or "duration_us" in varied:
        return value_of(study, setting, "duration_us")
    return time_of(str(option))


def check_profile(study: Study, setting: Setting) -> None:
    """Fails if a varied key is none of the profile that a setting has."""
    varied = dict(setting)
    has = next((varied[key] for key in PROFILE_KEYS if key in varied), study.scenario.get("profile"))
    if str(has) not in map(str, PROFILES):
        return
    owner = "the base" if study.base is not None else "the scenario of generate"
    if any(key in varied for key in PROFILE_KEYS):
        owner = f"the setting {label(setting)}"
    for key in varied:
        wanted = [str(number) for number, one in PROFILES.items() if key in (top.name for top in one.tables["top"])]
        if wanted and str(has) not in wanted:
            raise Refused(f"{study.path}: [vary] {key} needs profile = {' or '.join(wanted)}; {owner} has {has}")


def check_class(study: Study, setting: Setting) -> None:
    """Fails if the nodes of a class are varied, and there is no base with one class."""
    if COUNT not in dict(setting):
        return
    if study.base is None:
        raise Refused(f"{study.path}: [vary] {COUNT} is of a study with a base; a study with `generate` has --nodes")
    classes = study.scenario.get("nodes", [])
    if not has_type(classes, "tables") or len(classes) != 1:
        count = len(classes) if isinstance(classes, list) else "no"
        raise Refused(f"{study.path}: [vary] {COUNT} needs a base with one table [[nodes]]; the base has {count}")


def check_times(study: Study, duration: Any) -> None:
    """Fails if a run would have too many steps of time, or nothing to judge."""
    if not is_integer(duration):
        return
    if duration > GREATEST_STEPS * study.window_us:
        raise Refused(f"{study.path}: window_us makes more than {GREATEST_STEPS} steps of {duration} us")
    if study.warmup_us + study.cooldown_us >= duration:
        names = "warmup_us leaves" if study.cooldown_us == 0 else "warmup_us and cooldown_us leave"
        raise Refused(f"{study.path}: {names} nothing of {duration} us")
    check_spans(study.path, study.spans, duration)
