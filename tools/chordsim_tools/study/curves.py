"""What plots take from a trace beside the tables: how lookups' times and hops are distributed, and what went wrong."""

import json
from collections import Counter
from collections.abc import Iterable
from pathlib import Path
from typing import Any

from chordsim_tools.files import read_input, sum_of, write_whole
from chordsim_tools.study.judged import Judged
from chordsim_tools.study.plan import Study
from chordsim_tools.study.reading import LineReader, Taker
from chordsim_tools.study.tables import Row, csv_text, write_tables

POINTS = 100
"""How many equal shares of the found lookups a curve of times has points for."""
CDF, STEPS, TAIL = "cdf.csv", "steps.csv", "tail.csv"


class Curves(LineReader):
    """Reads the lines of what the network does, from the start on, and takes the judged lookups."""

    def __init__(self, duration_us: int, window_us: int) -> None:
        """A reader that has read nothing."""
        self.window_us = window_us
        steps = (duration_us + window_us - 1) // window_us
        self.counts = {word: [0] * steps for word in ("timeout", "lose", "again")}

    def takers(self) -> Iterable[tuple[str, Taker]]:
        """What the network does."""
        return [(word, self.count) for word in self.counts]

    def count(self, time: int, fields: list[str]) -> None:
        """A call times out, or a message is lost or sent again."""
        self.counts[fields[2]][time // self.window_us] += 1

    def numbers(self, judged: Judged) -> dict[str, Any]:
        """What a result keeps: the times at equal shares of the found lookups, the first and the last among them.

        A lookup that is lost has no point of a curve."""
        times, hops = judged.times.ended, Counter(judged.hops)
        last = len(times) - 1
        return {
            "begun": len(judged.table),
            "found": len(times),
            "us": [times[last * point // POINTS] for point in range(POINTS + 1)] if times else [],
            "hops": [hops[number] for number in range(max(hops, default=-1) + 1)],
            "timeouts": self.counts["timeout"],
            "losses": self.counts["lose"],
            "again": self.counts["again"],
            "tail": judged.times.tail(),
        }


def write_results(study: Study, folder: Path, program: Path, program_sum: str, rows: list[Row]) -> None:
    """Writes the tables, and those of the curves beside them; the manifest has the digests of all."""
    write_tables(study, folder, program, program_sum, rows)
    path = folder / "manifest.json"
    manifest = json.loads(read_input(path))
    for name, text in ((CDF, cdf_text(study, rows)), (STEPS, steps_text(study, rows)), (TAIL, tail_text(study, rows))):
        write_whole(folder / name, text)
        manifest["sha256"][name] = sum_of(text)
    write_whole(path, json.dumps(manifest, indent=2) + "\n")


def cdf_text(study: Study, rows: list[Row]) -> str:
    """A line for each run, number (us or hops) and value: which share of the lookups begun had found by then."""
    lines: list[list[Any]] = [[*study.vary, "seed", "number", "value", "share"]]
    for setting, seed, result in rows:
        head = [*(value for _, value in setting), seed]
        curves = result["curves"]
        lines += [[*head, "us", value, f"{share:.5f}"] for value, share in time_points(curves)]
        lines += [[*head, "hops", value, f"{share:.5f}"] for value, share in hop_points(curves)]
    return csv_text(lines)


def tail_text(study: Study, rows: list[Row]) -> str:
    """A line for each run and percentile of the time of all lookups, as far as the run has it."""
    lines: list[list[Any]] = [[*study.vary, "seed", "percent", "us"]]
    for setting, seed, result in rows:
        head = [*(value for _, value in setting), seed]
        lines += [[*head, f"{share:g}", time] for share, time in result["curves"]["tail"]]
    return csv_text(lines)


def time_points(curves: dict[str, Any]) -> list[tuple[int, float]]:
    """The points of the curve of times."""
    return [(us, curves["found"] * point / POINTS / curves["begun"]) for point, us in enumerate(curves["us"])]


def hop_points(curves: dict[str, Any]) -> list[tuple[int, float]]:
    """The points of the curve of hops."""
    points, total = [], 0
    for number, count in enumerate(curves["hops"]):
        total += count
        points.append((number, total / curves["begun"]))
    return points


def steps_text(study: Study, rows: list[Row]) -> str:
    """A line for each run and step of time: calls that timed out, messages lost and, as in runs.csv where a run has the
    extended profile, requests sent again."""
    has_again = any("again" in result["report"] for _, _, result in rows)
    words = ["timeouts", "losses", *(["again"] if has_again else [])]
    lines: list[list[Any]] = [[*study.vary, "seed", "from_us", *words]]
    for setting, seed, result in rows:
        head = [*(value for _, value in setting), seed]
        counts = zip(*(result["curves"][word] for word in words), strict=True)
        lines += [[*head, number * study.window_us, *count] for number, count in enumerate(counts)]
    return csv_text(lines)
