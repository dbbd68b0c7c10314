"""`tools/study report`: one page of a study that was run."""

import shlex
from typing import Any

from chordsim_tools.place import tool
from chordsim_tools.study.answer import answer
from chordsim_tools.study.confirm import fresh_of
from chordsim_tools.study.goal import goal_again
from chordsim_tools.study.head import head
from chordsim_tools.study.layout import of_each_world
from chordsim_tools.study.numbers import Summary, summaries
from chordsim_tools.study.plan import file_stem
from chordsim_tools.study.plot_files import NO_PLOTS
from chordsim_tools.study.settings_tables import settings_tables
from chordsim_tools.study.tables import Tables
from chordsim_tools.study.taken import taken_table
from chordsim_tools.study.unravel import unravelled
from chordsim_tools.study.wrap import paragraph, wrapped

CHANGED = " `+` means: with changes since that commit."
STUDY = tool("study")
LATER = f" This page may have been written by a later `{STUDY}`."


def lost_told(tables: Tables, found: list[Summary]) -> str:
    """In which worlds no setting kept a ring."""
    worlds = of_each_world(tables, found)
    lost = [name for name, settings in worlds.items() if not any(one.kept for one in settings)]
    if not lost:
        return ""
    told = "very ring was lost" + (" in every setting" if len(found) > 1 else "")
    if len(lost) == len(worlds):
        return paragraph(f"**E{told}.**")
    return "".join(paragraph(f"With {name}: **e{told}.**") for name in lost)


def answers(tables: Tables, found: list[Summary]) -> str:
    """The answer to the goal, for each world."""
    goal = goal_again(tables.manifest["goal"])
    if goal is None:
        return ""
    worlds = of_each_world(tables, found)
    heads = {name: f"With {name}: " if len(worlds) > 1 else "" for name in worlds}
    fresh = fresh_of(tables)
    texts = (f"{heads[name]}{answer(settings, goal, fresh)}" for name, settings in worlds.items())
    return "".join(paragraph(part) for text in texts for part in text.split("\n\n"))


def commands(tables: Tables) -> str:
    """The commands that make the same again."""
    manifest = tables.manifest
    setting = ",".join(f"{key}={values[0]}" for key, values in manifest["vary"].items())
    stem = file_stem(",".join(filter(None, (setting, f"seed={manifest['seeds'][0]}"))))
    latency = f" --latency {manifest['latency']}" if manifest["latency"] else ""
    if manifest["latency_arguments"] is not None:
        latency = f" --latency FOLDER/done/{stem}.csv"
    return (
        f"{STUDY} run {manifest['study']} -o FOLDER\n"
        f"{STUDY} plot FOLDER\n"
        f"{STUDY} report FOLDER\n"
        f"chordsim run --scenario FOLDER/done/{stem}.toml{latency} --serial    # the first of {len(tables.runs)} runs\n"
    )


def made_for_each_seed(manifest: dict[str, Any]) -> str:
    """The arguments by which worlds are made, if they are."""
    lines = [
        f"- `{tool(name)} {shlex.join(manifest[key])}`, for each seed\n"
        for name, key in (("generate", "generate"), ("latency", "latency_arguments")) if manifest[key] is not None
    ]
    return "".join(lines) + ("\n" if lines else "")


def sums(tables: Tables) -> str:
    """What was made of what."""
    manifest = tables.manifest
    lines = [f"| {name} | `{digest}` |\n" for name, digest in manifest["sha256"].items()]
    lines.append(f"| the program | `{manifest['program']['sha256']}` |\n")
    return "| file | SHA-256 |\n|---|---|\n" + "".join(lines)


def commits(manifest: dict[str, Any]) -> str:
    """Which tool and which program the tables are of, as far as that is known."""
    made = {f"`{STUDY}`": manifest["tool"]["commit"], "the program": manifest["program"]["commit"]}
    makers = [f"{name} of commit `{commit}`" for name, commit in made.items() if commit]
    if not makers:
        return ""
    changed = CHANGED if any(commit and commit.endswith("+") for commit in made.values()) else ""
    return "\n" + wrapped(f"The tables were made by {' and by '.join(makers)}.{changed}{LATER}") + "\n"


def page(tables: Tables, plots: str = NO_PLOTS, is_done: bool = True) -> str:
    """The whole page, with these links to plots, of a study that is done or not."""
    manifest = tables.manifest
    found = summaries(tables)
    return (
        f"# {' '.join(manifest['question'].split())}\n\n"
        + lost_told(tables, found)
        + answers(tables, found)
        + unravelled(found)
        + (f"{manifest['note'].strip()}\n\n" if manifest.get("note") else "")
        + f"{head(tables, found, is_done)}{settings_tables(tables, found)}{taken_table(tables, found)}"
        f"## Plots\n\n{plots}"
        f"## Made by\n\n```\n{commands(tables)}```\n\n{made_for_each_seed(manifest)}{sums(tables)}{commits(manifest)}"
    )
