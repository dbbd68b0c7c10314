"""The head of a study's page: what is new in each world, what is judged, whether it was steady, and warnings."""

import math
from typing import Any

from chordsim_tools.place import tool
from chordsim_tools.quantities import time_text
from chordsim_tools.study.goal import precision_again
from chordsim_tools.study.interval import LEAST_SEEDS, outward
from chordsim_tools.study.network import latencies_told, made_told
from chordsim_tools.study.numbers import LEAST_FOR_P99, TAKES, Cells, Summary, error_share, is_kept
from chordsim_tools.study.precise import stopped
from chordsim_tools.study.starts import churn_trap, round_traps
from chordsim_tools.study.steady import manifest_numbers, steadiness
from chordsim_tools.study.tables import Tables
from chordsim_tools.study.wrap import note, paragraph

MUCH = 0.001
"""Of more lookups than this share cut off by the end the page warns."""
LITTLE = 0.5
"""Of rings that are kept and serve less than this share of the wanted lookups the page warns."""
MOST_SETTINGS = 5
"""So many settings a warning names."""


def listed(words: list[str]) -> str:
    """Words with commas."""
    return ", ".join(words)


def worlds(manifest: dict[str, Any]) -> str:
    """What is drawn for each seed, and what is the same in all."""
    new, same = ["timers and random keys"], []
    counts = listed([f"{count} {do}" for do, count in manifest["commands"].items()])
    if manifest["own_churn"]:
        new.append("lives and down times that the program draws")
    if manifest["generate"] is None:
        same += [manifest["base"] + (f" with its commands ({counts})" if counts else ""), "identifiers"]
    else:
        made = made_told(manifest["generate"], manifest["vary"], bool(counts))
        new, same = new + made[0], same + made[1]
    new_latencies, same_latencies = latencies_told(manifest)
    new, same = new + new_latencies, same + same_latencies
    seeds = len(manifest["seeds"])
    noun = "world" if seeds == 1 else "worlds"
    more = " (a search adds none)" if manifest.get("search") else ""
    text = f"{seeds} {noun} a setting, the same seeds for all{more}. New in each: {listed(new)}."
    if not same:
        return text
    return f"{text} **The same in all: {listed(same)}.** Intervals say nothing of other ones."


def judged(manifest: dict[str, Any]) -> str:
    """What is judged."""
    warmup, cooldown = (time_text(manifest[key]) if manifest[key] else "" for key in ("warmup_us", "cooldown_us"))
    begin, end = warmup or "the start", f"{cooldown} before the end" if cooldown else "the end"
    return (
        f"Judged: lookups begun from {begin} to {end}, by what becomes of them until the end. "
        f"Costs: of the time from {begin} to the end. Served and members are those of this span: nodes whose join "
        "failed stay away, so that a longer run may serve less."
    )


def estimated(found: list[Summary]) -> str:
    """That messages are not counted, and how far they may be off."""
    rows = [cells for one in found for cells in one.rows]
    text = f"Messages are estimated, to within {100 * error_share(rows):g} %{bytes_told(found)}."
    text += " ± says nothing of that. Goals and comparisons allow for it."
    if any("messages-counted" not in cells for cells in rows):
        return f"{text} An older `{tool('study')}` did so: it is further off if round trips are as long as the period."
    return f"{text} With `profile = 4` they are counted."


def bytes_told(found: list[Summary]) -> str:
    """How far bytes may be off, if messages have sizes."""
    means = {one.label: one.numbers["bytes"].mean for one in found}
    shares = [one.error("bytes") / mean for one in found if (mean := means[one.label])]
    if not shares:
        return ""
    most = 100 * max(shares)
    return ", and bytes have no bound" if math.isinf(most) else f", and bytes to within {outward(most, 2, 1):g} %"


def is_hollow(cells: Cells) -> bool:
    """Whether a ring counts as kept and serves little."""
    served = TAKES["served"](cells)
    return is_kept(cells) and served is not None and served < LITTLE


def hollow_rings(found: list[Summary]) -> list[str]:
    """The settings with such rings, and in how many of their seeds."""
    counts = [(one, sum(map(is_hollow, one.rows))) for one in found]
    named = [f"{one.label} ({count} of {one.seeds} seeds)" for one, count in counts if count]
    if not named:
        return []
    more = f"; and {len(named) - MOST_SETTINGS} more" if len(named) > MOST_SETTINGS else ""
    return [
        f"Rings count as kept that serve less than {100 * LITTLE:g} % of the wanted lookups. Audits still find a ring "
        f"there, if only of a few members: {'; '.join(named[:MOST_SETTINGS])}{more}."
    ]


def warnings(manifest: dict[str, Any], found: list[Summary]) -> list[str]:
    """What a reader has to know before the table."""
    told = []
    moves = [f"{manifest['commands'][do]} {do}" for do in ("crash", "leave", "join") if manifest["commands"].get(do)]
    if moves and manifest["generate"] is None:
        told.append(f"The commands ({listed(moves)}) are the same in all seeds: intervals leave the churn out.")
    if min(one.seeds for one in found) < LEAST_SEEDS:
        told.append(f"Fewer than {LEAST_SEEDS} seeds: no intervals.")
    rows = [cells for one in found for cells in one.rows]
    if any(0 < int(cells["judged-lookups"]) < LEAST_FOR_P99 for cells in rows):
        told.append(f"Runs with fewer than {LEAST_FOR_P99} judged lookups have no p99.")
    cut, all_of_them = (sum(int(cells[word]) for cells in rows) for word in ("cut-by-end", "judged-lookups"))
    if cut > MUCH * all_of_them:
        share = 100 * cut / all_of_them
        told.append(f"The end cut off {share:.2g} % of the judged lookups, which are left out: set cooldown_us.")
    told += hollow_rings(found)
    if not all(one.is_counted for one in found):
        told.append(estimated(found))
    told += [*churn_trap(manifest["generate"], manifest["vary"]), *round_traps(manifest)]
    if manifest["warmup_us"] == 0 and (manifest["own_churn"] or moves):
        told.append("Without warmup_us the time before the first departures is judged too.")
    return told


def head(tables: Tables, found: list[Summary], is_done: bool) -> str:
    """All of it. A study that is not done has not been stopped by [precision]."""
    manifest = tables.manifest
    precise = precision_again(manifest["precision"]) if is_done else None
    stop = "" if precise is None else f" {stopped(precise, found)}"
    steady = steadiness(tables, found, manifest_numbers(manifest))
    texts = (worlds(manifest) + stop, judged(manifest), steady)
    told = warnings(manifest, found)
    return "".join(map(paragraph, texts)) + "".join(note(f"Warning: {line}") for line in told) + ("\n" if told else "")
