"""What a study begins with that does not last: churn that is not in equilibrium, and fingers that are all perfect."""

from collections.abc import Mapping
from typing import Any

from chordsim_tools.explain.world_traps import finger_round
from chordsim_tools.quantities import time_of, time_text
from chordsim_tools.scenario.classes import node_count
from chordsim_tools.study.bounded import seeds_to_show
from chordsim_tools.study.interval import LEAST_SEEDS
from chordsim_tools.study.keys import COUNT, OF_GENERATE
from chordsim_tools.study.names import is_wild
from chordsim_tools.study.plan import Setting, Study

CHURN = ("--lifetime", "--churn-uniform")
STATIONARY = "--stationary"
FINGER_JITTER = "finger_jitter_us"


def has_option(option: str, generate: list[str], vary: Mapping[str, Any]) -> bool:
    """Whether the arguments of tools/generate have an option, or [vary] has it."""
    return OF_GENERATE + option in vary or any(word.partition("=")[0] == option for word in generate)


def churn_trap(generate: list[str] | None, vary: Mapping[str, Any]) -> list[str]:
    """That the churn of a study does not start in equilibrium."""
    if generate is None or has_option(STATIONARY, generate, vary):
        return []
    churn = [option for option in CHURN if has_option(option, generate, vary)]
    if not churn:
        return []
    remedy = STATIONARY if churn[0] == CHURN[0] else f"{CHURN[0]} with {STATIONARY}"
    text = f"{churn[0]} without {STATIONARY}: all nodes are new at the start, so that crashes come in waves"
    return [f"{text}; set {remedy}"]


def option_of(key: str) -> str:
    """The key of [vary] that is an option of tools/generate for a key of the scenario."""
    return f"{OF_GENERATE}--{key.removesuffix('_us').replace('_', '-')}"


def value_in(study: Study, setting: Setting, key: str) -> int:
    """A key of the scenario in a setting, in microseconds if it is a time."""
    varied = dict(setting)
    option = option_of(key)
    if option in varied:
        text = str(varied[option])
        return int((time_of(text) if key.endswith("_us") else text) or 0)
    return int(varied.get(key, study.scenario.get(key, 0)))


def nodes_in(study: Study, setting: Setting) -> int:
    """How many nodes there are in a setting."""
    varied = dict(setting)
    if COUNT in varied:
        return len(study.scenario.get("node", [])) + int(varied[COUNT])
    return int(varied.get(option_of("nodes"), node_count(study.scenario)))


def round_of(study: Study, setting: Setting) -> int:
    """How long a member takes to refresh each of the fingers in its rotation once, one after another."""
    has_jitter = any(key in study.scenario or key in dict(setting) for key in (FINGER_JITTER, option_of(FINGER_JITTER)))
    return finger_round({
        "profile": value_in(study, setting, "profile"),
        "bits": value_in(study, setting, "bits"),
        "finger_us": value_in(study, setting, "finger_us"),
        FINGER_JITTER: value_in(study, setting, FINGER_JITTER if has_jitter else "jitter_us"),
        "skip_near": dict(setting).get("skip_near", study.scenario.get("skip_near")) not in (False, "false"),
        "node": range(nodes_in(study, setting)),
    })


def longest_round(study: Study) -> int:
    """The longest round of fingers of all settings, in microseconds."""
    return max(round_of(study, setting) for setting in study.settings())


def round_traps(manifest: Mapping[str, Any]) -> list[str]:
    """That a warm-up, if there is one, or a judged span is below one round of fingers, if the manifest has it."""
    micros, duration = manifest.get("finger_round_us"), manifest.get("duration_us")
    if micros is None or duration is None:
        return []
    warmup = manifest["warmup_us"]
    spans = {"warmup_us": warmup} if warmup else {}
    spans["the judged span"] = duration - warmup - manifest["cooldown_us"]
    text = f"below one round of fingers, {time_text(micros)}, in which a member refreshes each of them once"
    why = "at the start all fingers are perfect"
    short = [f"{name} ({time_text(span)})" for name, span in spans.items() if span < micros]
    verb = "are" if len(short) > 1 else "is"
    return [f"{' and '.join(short)} {verb} {text}; {why}"] if short else []


def seeds_traps(study: Study) -> list[str]:
    """The limits that so few seeds cannot show, whatever they have. Below five seeds there is no answer at all."""
    limits = [] if study.goal is None else [one for one in study.goal.limits if one.is_least and 0 < one.value < 1]
    needs = {one: seeds_to_show(one.value) for one in limits if is_wild(one.number)}
    most = len(study.seeds) if study.precision is None else study.precision.most_seeds
    why = "as a world that serves nothing may be missing among fewer"
    return [
        f"[goal] {one.number}_min = {one.value:g} cannot be shown by {most} seeds: it takes {seeds} or more, {why}"
        for one, seeds in needs.items() if LEAST_SEEDS <= most < seeds
    ]


def start_traps(study: Study) -> list[str]:
    """What `tools/study run` warns of before the first run."""
    facts = {
        "finger_round_us": longest_round(study), "duration_us": study.scenario.get("duration_us"),
        "warmup_us": study.warmup_us, "cooldown_us": study.cooldown_us,
    }
    return [*seeds_traps(study), *churn_trap(study.generate, study.vary), *round_traps(facts)]
