"""The files runs.csv, series.csv and manifest.json: written of results, and read again."""

import csv
import io
import json
import subprocess
from collections import Counter
from dataclasses import asdict, dataclass, field
from pathlib import Path
from typing import Any

from chordsim_tools.cli import Failure, Refused
from chordsim_tools.files import read_input, sum_of, write_whole
from chordsim_tools.place import tool
from chordsim_tools.program import TOP
from chordsim_tools.scenario.classes import node_count, node_sections
from chordsim_tools.study.network import are_drawn, are_placed, input_sums
from chordsim_tools.study.plan import Setting, Study
from chordsim_tools.study.starts import longest_round
from chordsim_tools.study.sizes import Sizes, bytes_of

VERSION = 2
FRESH = "confirm.csv"
SERIES = ("lookups", "found", "right", "members", "ended", "right-of-ended", "wanted")
"""The columns of series.csv."""
LATER = ("losses", "again", "forgotten", "leaves", "rescues", "creates", "timeouts-sum")
"""The numbers that only reports of later profiles have, in their order."""
OWN_FILES = ("tools/study", "tools/chordsim_tools/study")
Row = tuple[Setting, int, dict[str, Any]]


def write_tables(study: Study, folder: Path, program: Path, program_sum: str, rows: list[Row]) -> None:
    """Writes the three files."""
    runs, series = runs_text(rows, study.sizes), series_text(study, rows)
    write_whole(folder / "runs.csv", runs)
    write_whole(folder / "series.csv", series)
    manifest = manifest_of(study, program, program_sum)
    manifest["sha256"] |= {"runs.csv": sum_of(runs), "series.csv": sum_of(series)}
    write_whole(folder / "manifest.json", json.dumps(manifest, indent=2) + "\n")


def csv_text(lines: list[list[Any]]) -> str:
    """Lines of a CSV file; what is not there is empty."""
    text = io.StringIO()
    csv.writer(text, lineterminator="\n").writerows(lines)
    return text.getvalue()


def runs_text(rows: list[Row], sizes: Sizes | None = None) -> str:
    """One line a run: the setting, the seed, the report, the numbers of the trace, and bytes if messages have sizes.

    A number that only later profiles report (as `losses`) is 0 in runs of the others.
    """
    lines: list[list[Any]] = []
    later = [word for word in LATER if any(word in result["report"] for _, _, result in rows)]
    for setting, seed, result in rows:
        report = result["report"]
        missing = {word: 0 for word in later if word not in report}
        varied: dict[str, Any] = dict(setting)
        numbers = {**varied, "seed": seed, **report, **missing, **result["numbers"]}
        if sizes:
            numbers["bytes"] = bytes_of(sizes, result["numbers"])
        if not lines:
            lines.append(list(numbers))
        if list(numbers) != lines[0]:
            raise Failure(3, "the reports of two runs have not the same words")
        lines.append(list(numbers.values()))
    return csv_text(lines)


def series_text(study: Study, rows: list[Row]) -> str:
    """One line a run and step of time."""
    lines: list[list[Any]] = [[*study.vary, "seed", "from_us", *SERIES]]
    for setting, seed, result in rows:
        head = [*(value for _, value in setting), seed]
        lines += [[*head, number * study.window_us, *step] for number, step in enumerate(result["series"])]
    return csv_text(lines)


def commit_of(folder: Path, *names: str) -> str | None:
    """The last commit that changed these files, with `+` if they have changed since; none if there is none."""

    def git(*arguments: str) -> str:
        """What git says of these files."""
        command = ["git", *arguments, "--", *names]
        told = subprocess.run(command, cwd=folder, capture_output=True, text=True, check=False)
        return told.stdout.strip() if told.returncode == 0 else ""

    try:
        commit = git("log", "-1", "--format=%H")
        return commit + ("+" if git("status", "--porcelain") else "") if commit else None
    except OSError:
        return None


def manifest_of(study: Study, program: Path, program_sum: str) -> dict[str, Any]:
    """What the results were made of."""
    inside = program.is_relative_to(TOP)
    sums = {study.path.name: sum_of(study.content)}
    if study.base is not None:
        sums[study.base] = sum_of(study.base_content)
    if study.latency is not None and study.latency_content is not None:
        sums[study.latency] = sum_of(study.latency_content)
    sums |= input_sums(study)
    plain = {key: study.scenario[key] for key in ("duration_us", "audit_us") if key in study.scenario}
    return {
        "question": study.question,
        "study": study.path.name,
        "base": study.base,
        "generate": study.generate,
        "latency": study.latency,
        "latency_arguments": study.latency_arguments,
        "placed_base": are_placed(study),
        "drawn_base": are_drawn(study),
        "seeds": study.seeds,
        "vary": study.vary,
        "window_us": study.window_us,
        "warmup_us": study.warmup_us,
        "cooldown_us": study.cooldown_us,
        "precision": None if study.precision is None else asdict(study.precision),
        "goal": None if study.goal is None else asdict(study.goal),
        "sizes": study.sizes,
        "spans": study.spans,
        "search": study.search is not None,
        "world": study.world,
        "note": study.note,
        "confirm": study.confirm,
        "commands": dict(Counter(one["do"] for one in study.scenario.get("command", []))),
        "own_churn": any(section.get("churn") is True for section in node_sections(study.scenario)),
        "nodes": node_count(study.scenario),
        **plain,
        "finger_round_us": longest_round(study),
        "tool": {"version": VERSION, "commit": commit_of(TOP, *OWN_FILES)},
        "program": {"sha256": program_sum, "commit": commit_of(TOP, "crates") if inside else None},
        "sha256": sums,
    }


@dataclass
class Tables:
    """The files of a study that was run."""

    manifest: dict[str, Any]
    runs: list[dict[str, str]]
    series: list[dict[str, str]]
    fresh: list[dict[str, str]] = field(default_factory=list)
    """The runs of the winners with fresh seeds, as runs.csv has those of all settings."""


def read_tables(folder: Path) -> Tables:
    """Reads the three files, and refuses tables that are not those of the manifest."""
    if folder.is_dir() and not (folder / "manifest.json").exists():
        raise Refused(f"{folder} has no manifest.json: {tool('study')} run writes it with the tables")
    try:
        manifest = json.loads(read_input(folder / "manifest.json"))
        sums = manifest["sha256"]
        names = ("runs.csv", "series.csv", *([FRESH] if FRESH in sums else []))
        tables = [checked_table(folder / name, sums[name]) for name in names]
    except (ValueError, KeyError, TypeError):
        raise Refused(f"{folder / 'manifest.json'} is not one that {tool('study')} run wrote") from None
    return Tables(manifest, *tables)


def checked_table(path: Path, digest: str) -> list[dict[str, str]]:
    """The lines of a CSV file with this digest."""
    content = read_input(path)
    if sum_of(content) != digest:
        raise Refused(f"{path} is not the one that manifest.json names")
    return list(csv.DictReader(io.StringIO(content.decode(), newline="")))
