"""FOLDER/plots.json: which tables each plot of a folder was drawn of, so that a page links no plot of other ones."""

import contextlib
import json
from dataclasses import asdict, dataclass
from pathlib import Path
from typing import Any

from chordsim_tools.files import sum_of, write_whole
from chordsim_tools.place import tool
from chordsim_tools.study.limits import span_numbers
from chordsim_tools.study.wrap import paragraph

NAME = "plots.json"
FORMS = ("png", "svg")
PLOTS = {
    "times": "Right answers and lookup time, by setting",
    "spans": "The numbers of spans that the goal limits, by setting",
    "right": "Served, right answers and members over time",
    "cost": "Cost against right answers and against lookup time",
    "network": "Timeouts and lost messages over time",
    "cdf": "How lookup times and hops are distributed",
    "tail": "The slowest lookups",
}
"""The plots that a page has, in their order."""
NEEDS = {"network": "steps.csv", "cdf": "cdf.csv", "tail": "tail.csv"}
"""Tables that older studies do not have, and the plots that are drawn of them."""
DRAWS = f"`{tool('study')} plot FOLDER` draws them."
NO_PLOTS = f"No plots: {DRAWS}\n\n"
"""What a page has in place of plots that were never drawn."""


@dataclass(frozen=True)
class Origin:
    """What a plot was drawn of: the digests of the tables and of what these are of, and which runs were done."""

    tables: str
    made_of: str
    mark: str


def origin_of(manifest: dict[str, Any], mark: str) -> Origin:
    """The origin of a plot of these tables."""
    sums = sorted(manifest["sha256"].items())
    tables = [one for one in sums if one[0].endswith(".csv") and one[0] != manifest.get("latency")]
    inputs = [one for one in sums if one not in tables]
    return Origin(sum_of(json.dumps(tables)), sum_of(json.dumps([inputs, manifest["program"]["sha256"]])), mark)


def read_origins(folder: Path) -> dict[str, Origin]:
    """The origins of the plots of a folder, as far as they are known."""
    with contextlib.suppress(OSError, ValueError, TypeError, AttributeError):
        told = json.loads((folder / NAME).read_bytes())
        return {name: Origin(**one) for name, one in told.items()}
    return {}


def write_origins(folder: Path, names: list[str], origin: Origin) -> None:
    """Notes the origin of plots that were just drawn. What is known of the others stays."""
    origins = read_origins(folder) | dict.fromkeys(names, origin)
    told = {name: asdict(origins[name]) for name in sorted(origins)}
    write_whole(folder / NAME, json.dumps(told, indent=2) + "\n")


def is_newer(folder: Path, name: str) -> bool:
    """Whether both files of a plot are as new as runs.csv: all that is known of a plot of an older tools/study."""
    with contextlib.suppress(OSError):
        oldest = min((folder / f"{name}.{form}").stat().st_mtime_ns for form in FORMS)
        return oldest >= (folder / "runs.csv").stat().st_mtime_ns
    return False


def is_drawn(folder: Path, name: str, wanted: Origin, found: Origin | None) -> bool:
    """Whether a plot is there and of the tables of a page, or of earlier ones of the same study that is not done."""
    if not (folder / f"{name}.png").is_file():
        return False
    if found is None:
        return not wanted.mark and is_newer(folder, name)
    is_earlier = bool(wanted.mark) and found.made_of == wanted.made_of
    return found.tables == wanted.tables or is_earlier


def missing_told(names: list[str], are_all: bool, is_any_there: bool) -> str:
    """The line about plots that are not linked."""
    if not are_all:
        return f"Plots that are not there or are of other tables: {', '.join(names)}. {DRAWS}"
    if is_any_there:
        return f"No plots of these tables: those in the folder are of other ones, or older. {DRAWS}"
    return NO_PLOTS.strip()


def is_of(name: str, manifest: dict[str, Any]) -> bool:
    """Whether a study has a plot of this name."""
    if name == "spans":
        return bool(span_numbers(manifest))
    return name not in NEEDS or NEEDS[name] in manifest["sha256"]


def plots_text(folder: Path, manifest: dict[str, Any], mark: str) -> str:
    """Links to the plots that are there and of these tables, and what is to be said of the others."""
    wanted, origins = origin_of(manifest, mark), read_origins(folder)
    names = [name for name in PLOTS if is_of(name, manifest)]
    drawn = [name for name in names if is_drawn(folder, name, wanted, origins.get(name))]
    left = [name for name in names if name not in drawn]
    marks = {origins[name].mark for name in drawn if name in origins} - {mark}
    told = [f"The plots were drawn of {' and of '.join(sorted(one or 'all runs' for one in marks))}."] if marks else []
    if left:
        is_any_there = any((folder / f"{name}.{form}").exists() for name in left for form in FORMS)
        told.append(missing_told(left, not drawn, is_any_there))
    return "".join(map(paragraph, told)) + "".join(links_of(folder, name) for name in drawn)


def links_of(folder: Path, name: str) -> str:
    """The picture of a plot, and a link to its SVG if that was kept."""
    vector = f"[{PLOTS[name]} (SVG)]({name}.svg)\n\n" if (folder / f"{name}.svg").is_file() else ""
    return f"![{PLOTS[name]}]({name}.png)\n\n{vector}"
