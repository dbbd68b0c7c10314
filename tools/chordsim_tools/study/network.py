"""Where the latencies of a study come from, and which of them are new in each seed."""

from collections.abc import Mapping
from typing import Any

from chordsim_tools.files import read_input, sum_of
from chordsim_tools.latency import command as latency
from chordsim_tools.scenario.classes import node_sections
from chordsim_tools.study.keys import OF_GENERATE
from chordsim_tools.study.plan import Study
from chordsim_tools.study.worlds import FILES, parsed_by

OPTION = "--coordinates"
TRACE = "--churn-trace"
LAWS = ("file:", "regions:")
"""What is before the name of a file that coordinates come from."""
DRAWN_PLACES = "coordinates of the nodes, which give the latencies"
"""What is new in each seed if places are drawn."""


def values_of(option: str, generate: list[str] | None, vary: Mapping[str, list[Any]]) -> list[str]:
    """The values of an option of tools/generate that the settings of a study have."""
    if generate is None:
        return []
    if OF_GENERATE + option in vary:
        return [str(value) for value in vary[OF_GENERATE + option]]
    return given_to(option, generate)


def given_to(option: str, words: list[str]) -> list[str]:
    """The last value of an option among these arguments, if it is there."""
    following = zip(words, words[1:])
    joined = [word.partition("=")[2] for word in words if word.startswith(option + "=")]
    return ([after for word, after in following if word == option] + joined)[-1:]


def is_file(law: str) -> bool:
    """Whether coordinates come from a file."""
    return law.startswith(LAWS)


def file_of(law: str) -> str:
    """The file that coordinates come from."""
    return law.partition(":")[2]


def input_files(study: Study) -> list[str]:
    """The files that tools/generate and tools/latency read for a study: coordinates and churn traces, and of latencies
    regions, round trips and the scenario whose names are taken."""
    laws = values_of(OPTION, study.generate, study.vary)
    traces = values_of(TRACE, study.generate, study.vary)
    return [file_of(law) for law in laws if is_file(law)] + traces + latency_files(study)


def latency_files(study: Study) -> list[str]:
    """The files that the arguments of tools/latency name."""
    if study.latency_arguments is None:
        return []
    args = parsed_by(latency.parser_of(), study, study.latency_arguments)
    return [name for name in (getattr(args, word) for word in FILES) if name is not None]


def input_sums(study: Study) -> dict[str, str]:
    """The digest of each of these files."""
    return {name: sum_of(read_input(study.beside(name))) for name in input_files(study)}


def made_told(generate: list[str], vary: Mapping[str, list[Any]], has_commands: bool) -> tuple[list[str], list[str]]:
    """Which of identifiers and commands that tools/generate makes are new in each seed, and which are the same."""
    traces = values_of(TRACE, generate, vary)
    are_names = values_of("--ids", generate, vary) == ["names"]
    new, same = ([], ["identifiers"]) if are_names else (["identifiers"], [])
    if traces:
        return [*new, "the nodes that others join through"], [*same, f"lives ({', '.join(traces)})"]
    return [*new, *(["commands (lives, joins, lookups and their keys)"] if has_commands else [])], same


def are_placed(study: Study) -> bool:
    """Whether the nodes of a base have coordinates."""
    return study.base is not None and any("x_us" in section for section in node_sections(study.scenario))


def are_drawn(study: Study) -> bool:
    """Whether the places of nodes of a base are drawn, by the seed of each run."""
    return study.base is not None and any(section.get("side_us") for section in node_sections(study.scenario))


def latencies_told(manifest: dict[str, Any]) -> tuple[list[str], list[str]]:
    """Which latencies are new in each seed, and which are the same in all."""
    if manifest["latency_arguments"] is not None:
        regions = given_to("--regions", manifest["latency_arguments"])
        return ([], [f"latencies (between the regions of {regions[0]})"]) if regions else (["latencies"], [])
    laws = values_of(OPTION, manifest["generate"], manifest["vary"])
    if manifest.get("drawn_base"):
        return [DRAWN_PLACES], []
    if manifest.get("placed_base"):
        return [], [f"latencies (by the coordinates in {manifest['base']})"]
    if not laws:
        return [], [f"latencies ({manifest['latency'] or 'latency_us for all pairs'})"]
    files = [file_of(law) for law in laws if is_file(law)]
    new = [] if len(files) == len(laws) else [DRAWN_PLACES]
    return new, [f"latencies (by the coordinates in {name})" for name in files]
